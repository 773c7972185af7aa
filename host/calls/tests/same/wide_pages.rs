//! Heads, footers and tails that name more than a page of the volume: 3 where the word is read, and where it is not, done, or 4 with
//! an open journal (recover is done).

use crate::compare::{Compared, Counts, CHANGES, READINGS};
use reference::{Call, Refusal};
use samples::{calls_on_wide_pages, wide_pages};

/// A reading call.
type Reading = fn(&mut Compared<'_>);

/// The reading calls, each with its name in a message.
const READ: [(&str, Reading); 10] = [
    ("free_count", |compared| compared.free_count()),
    ("gaps", |compared| compared.gaps_into(64)),
    ("find a", |compared| compared.find(0, b"a")),
    ("find c", |compared| compared.find(0, b"c")),
    ("size 1", |compared| compared.size(1)),
    ("size 2", |compared| compared.size(2)),
    ("size 3", |compared| compared.size(3)),
    ("read", |compared| compared.read(1, 3, &[0x55; 1_100])),
    ("kth_name", |compared| compared.kth_name(0, 2, &[0x55; 33])),
    ("total", |compared| compared.total(0)),
];

/// Makes every call that judges a volume, with lists that are long enough. Where the volume is `damaged` each must be refused with 3;
/// else recover must be done, and the others too unless they are refused since the journal is `open`.
fn compare_every_call(compared: &mut Compared<'_>, damaged: bool, open: Option<Refusal>) {
    let damaged = damaged.then_some(Refusal::Damaged);
    for (call, reading) in READ {
        reading(compared);
        let refusal = compared.answer().err();
        assert_eq!(refusal, damaged.or(open), "{}{call}", compared.title());
    }
    for call in calls_on_wide_pages() {
        compared.change(&call, 4_096);
        let open = open.filter(|_| call != Call::Recover);
        let refusal = compared.answer().err();
        assert_eq!(refusal, damaged.or(open), "{}{call:?}", compared.title());
    }
}

#[test]
fn three_where_read_and_done_where_not() {
    let mut counts = Counts::default();
    let mut samples = 0;
    for sample in wide_pages() {
        let open = reference::free_count(&sample.before).err();
        let mut compare = |title: String, volume: &[u8], damaged: bool| {
            let compared = Compared::new(volume, 0, &mut counts);
            compare_every_call(&mut compared.titled(title), damaged, open);
        };
        compare(format!("{}: ", sample.title), &sample.before, false);
        for change in &sample.changes {
            let title = format!("{}: {change:?}: ", sample.title);
            compare(title, &change.on(&sample.before), change.read);
        }
        samples += sample.changes.len();
    }
    assert!(samples >= 16_000, "{samples}");
    counts.reached(&READINGS, &[0, 3], 5_900);
    counts.reached(&READINGS, &[4], 3_900);
    counts.reached(&CHANGES, &[0, 3], 5_900);
    counts.reached(&CHANGES[..8], &[4], 3_900);
}
