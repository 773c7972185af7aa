//! Heads, footers and tails that name more than a page of the volume: damaged where the word is read, and every answer as before
//! where it is not.

use reference::{
    find, free_count, gaps, judge, kth_name, listing, read, size, Answer, Call, Refusal,
};
use samples::*;
use std::collections::{BTreeMap, BTreeSet};

/// What the reading calls and volume-list say of a volume.
#[derive(Debug, PartialEq)]
struct Readings {
    answers: Vec<Answer>,
    bytes: Vec<u8>,
    name: [u8; 33],
    pairs: Vec<u64>,
    lines: Vec<u8>,
}

/// Memory as it is lent; nothing is said yet.
fn lent() -> Readings {
    Readings {
        answers: Vec::new(),
        bytes: vec![0x55; 1_100],
        name: [0x55; 33],
        pairs: marked_list(64),
        lines: Vec::new(),
    }
}

/// Makes the reading calls.
fn readings(volume: &[u8]) -> Readings {
    let mut said = lent();
    said.answers = vec![
        free_count(volume),
        gaps(volume, &mut said.pairs),
        find(volume, 0, b"a"),
        find(volume, 0, b"c"),
        read(volume, 1, 3, &mut said.bytes),
        kth_name(volume, 0, 2, &mut said.name),
    ];
    let sizes = (1..4).map(|inode| size(volume, inode));
    said.answers.extend(sizes);
    said.lines = listing(volume);
    said
}

/// What so many reading calls and volume-list say of a damaged volume. Over 65,536 bytes volume-list does not come to judge it.
fn damaged_readings(volume: &[u8], calls: usize) -> Readings {
    let lines: &[u8] = match volume.len() <= 65_536 {
        true => b"refused 3\n",
        false => b"refused 2\n",
    };
    Readings {
        answers: vec![Err(Refusal::Damaged); calls],
        lines: lines.to_vec(),
        ..lent()
    }
}

/// Makes the changing calls; answers what each fills in. Recover is the last.
fn lists(volume: &[u8]) -> Vec<Result<Vec<u64>, Refusal>> {
    let calls = calls_on_wide_pages();
    assert_eq!(calls.last(), Some(&Call::Recover));
    calls.iter().map(|call| filled(volume, call)).collect()
}

/// Where a change is made to an old value in the journal, recover's list has the new number.
fn put_back(lists: &mut [Result<Vec<u64>, Refusal>], change: &WideChange) {
    let Some(Ok(recover)) = lists.last_mut() else {
        return;
    };
    for changed in change.words.iter().filter(|word| word.index != word.word) {
        let pairs = recover.chunks_mut(2);
        for pair in pairs.filter(|pair| pair[0] == changed.word) {
            pair[1] = changed.value;
        }
    }
}

/// Which words a change is made to.
fn kinds(change: &WideChange) -> Vec<PageWord> {
    change.words.iter().map(|word| word.kind).collect()
}

/// Where a change is made.
fn indices(change: &WideChange) -> Vec<u64> {
    change.words.iter().map(|word| word.index).collect()
}

#[test]
fn damaged_where_read_and_as_before_where_not() {
    for sample in wide_pages() {
        let before = &sample.before;
        let (said, filled, map) = (readings(before), lists(before), map_of(before));
        for change in &sample.changes {
            let shown = || format!("{}: {change:?}", sample.title);
            let changed = change.on(before);
            if change.read {
                let damaged = damaged_readings(&changed, said.answers.len());
                assert_eq!(readings(&changed), damaged, "{}", shown());
                let damaged = vec![Err(Refusal::Damaged); filled.len()];
                assert_eq!(lists(&changed), damaged, "{}", shown());
                continue;
            }
            assert_eq!(readings(&changed), said, "{}", shown());
            let mut expected = filled.clone();
            put_back(&mut expected, change);
            assert_eq!(lists(&changed), expected, "{}", shown());
            let mut recovered = changed.clone();
            done(&mut recovered, &Call::Recover);
            for volume in [changed, recovered] {
                assert_eq!(map_of(&volume), map, "{}", shown());
            }
        }
    }
}

/// On the volumes before a change every call is done, or recover alone where the journal is open.
#[test]
fn the_volumes_before() {
    let mut open = 0;
    for sample in wide_pages() {
        let refusal = free_count(&sample.before).err();
        assert!([None, Some(Refusal::JournalOpen)].contains(&refusal));
        open += usize::from(refusal.is_some());
        for answer in readings(&sample.before).answers {
            assert_eq!(answer.err(), refusal, "{}", sample.title);
        }
        let lists = lists(&sample.before);
        let (recover, others) = lists.split_last().expect("there are calls");
        assert!(recover.is_ok(), "{}", sample.title);
        for list in others {
            assert_eq!(list.as_ref().err(), refusal.as_ref(), "{}", sample.title);
        }
    }
    assert_eq!(open, 4);
}

/// Each change is to 65,536, 2^32 or 2^48 more than a page of the volume, the same for both words where there are two; for words that are
/// read, each of the three is once more than the page that stood there. There are many of each kind, read and not, with the journal closed
/// and open.
#[test]
fn the_changes() {
    let mut counts: BTreeMap<(Vec<PageWord>, bool, bool), usize> = BTreeMap::new();
    for sample in wide_pages() {
        let volume = judge(&sample.before).expect("the volume is accepted");
        let mut right: BTreeMap<Vec<u64>, BTreeSet<u64>> = BTreeMap::new();
        for change in &sample.changes {
            let named = change.words[0].page();
            let more = [1 << 16, 1 << 32, 1 << 48].into_iter();
            let more = more.filter(|&more| more <= named).max();
            let page = named - more.expect("it is more than a page");
            assert!(page < volume.sizes.pages(), "{change:?}");
            let mut words = change.words.iter();
            assert!(words.all(|word| word.page() == named), "{change:?}");
            let stood = |word: &WideWord| word.kind.page(volume.word(word.word));
            if change.words.iter().all(|word| stood(word) == page) {
                right.entry(indices(change)).or_default().extend(more);
            }
            let kind = (kinds(change), change.read, volume.journal.is_open());
            *counts.entry(kind).or_default() += 1;
        }
        for change in sample.changes.iter().filter(|change| change.read) {
            assert_eq!(right[&indices(change)].len(), 3, "{change:?}");
        }
    }
    let of_two = counts.keys().filter(|(kinds, ..)| kinds.len() == 2);
    assert_eq!([counts.len(), of_two.count()], [16, 4], "{counts:?}");
    for ((kinds, ..), &count) in &counts {
        let least = if kinds.len() == 2 { 190 } else { 570 };
        assert!(count >= least, "{counts:?}");
    }
    assert!(counts.values().sum::<usize>() >= 16_000, "{counts:?}");
}

/// The words that are read on the volumes of 16 pages, by hand: inode 4 and those behind it are not valid, and file 2's log is empty.
/// Where the journal is open, word 17 + 2i holds the old value of position i. The heads are those of inodes 0, 1 and 3, the tails those of
/// inodes 0 to 3. The last links of inodes 0 and 1 stand in pages 2 and 12, and file 3's log has one page.
#[test]
fn the_words_that_are_read() {
    let links = [5, 2, 12].map(|page| 64 * page + 56);
    let expected = [
        ("16 pages", [65, 73, 89], [66, 74, 82, 90]),
        (
            "a clean of file 1 that was cut",
            [65, 17, 89],
            [66, 19, 82, 90],
        ),
        (
            "a clean of file 3 that was cut",
            [65, 73, 17],
            [66, 74, 82, 19],
        ),
        (
            "valid words and tails put back",
            [65, 73, 89],
            [66, 74, 17, 19],
        ),
        ("heads and tails put back", [17, 73, 89], [66, 74, 82, 90]),
    ];
    let samples = wide_pages();
    for (title, heads, tails) in expected {
        let sample = samples.iter().find(|sample| sample.title == title);
        let changes = &sample.expect("there is such a volume").changes;
        let read = |of: &[PageWord]| -> BTreeSet<Vec<u64>> {
            let read = changes.iter().filter(|change| change.read);
            read.filter(|change| kinds(change) == of)
                .map(indices)
                .collect()
        };
        let alone = |words: &[u64]| words.iter().map(|&word| vec![word]).collect();
        assert_eq!(read(&[PageWord::Head]), alone(&heads), "{title}");
        assert_eq!(read(&[PageWord::Tail]), alone(&tails), "{title}");
        assert_eq!(read(&[PageWord::Footer]), alone(&links), "{title}");
        let with_tail = |kind: PageWord| read(&[kind, PageWord::Tail]);
        let head = [vec![heads[2], tails[3]]];
        let last_links = [vec![links[1], tails[0]], vec![links[2], tails[1]]];
        assert_eq!(with_tail(PageWord::Head), head.into(), "{title}");
        assert_eq!(with_tail(PageWord::Footer), last_links.into(), "{title}");
    }
}
