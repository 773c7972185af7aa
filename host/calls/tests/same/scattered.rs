//! Writes on volumes whose free pages lie scattered (order 3 of document 02), and calls that go on from there.

use crate::changes::{random_calls, volume_after};
use crate::compare::{Compared, Counts};
use reference::Call;
use samples::{appended_entries, clean, scattered, set_size, unlink, write, Random};

/// Every write of every sample: the answer, and every word of the list.
#[test]
fn every_write() {
    let mut counts = Counts::default();
    for (sample, number) in scattered().zip(0..) {
        let compared = Compared::new(&sample.volume, number % 8, &mut counts);
        let mut compared = compared.titled(sample.title);
        for call in &sample.writes {
            compared.change(call, 4_096);
        }
    }
    counts.reached(&["write"], &[0, 12], 15_000);
    counts.reached(&["write"], &[15], 5_000);
}

/// What the reading calls say of a volume on which a scattered write has landed, and calls that change its log.
fn compare_after(title: &str, volume: &[u8], counts: &mut Counts) {
    let mut compared = Compared::new(volume, 0, counts).titled(title.to_string());
    compared.free_count();
    compared.gaps();
    for inode in [1, 2] {
        compared.size(inode);
        compared.read(inode, 0, &[0x55; 7_000]);
        compared.read(inode, 60_000, &[0x55; 7_000]);
    }
    for call in [
        clean(1),
        set_size(1, 2_000),
        set_size(1, 1_700),
        set_size(1, 65_536),
        write(1, 1_600, &[7; 1_500]),
        write(2, 0, &[7; 600]),
        Call::Recover,
    ] {
        compared.change(&call, 4_096);
    }
    compared.change(&unlink(b"a"), 4_096);
    assert!(compared.answer().is_ok(), "{title}the write left a page");
}

/// The volumes that scattered writes leave, read and written again; writes with each count of entries are among them.
#[test]
fn volumes_after_a_write() {
    let mut counts = Counts::default();
    let mut with_entries = [0; 10];
    for sample in scattered().step_by(2) {
        let Some(volume) = volume_after(&sample.volume, &sample.writes[0], &mut counts) else {
            continue;
        };
        let entries = appended_entries(&sample.volume, &volume, 1);
        with_entries[entries as usize] += 1;
        compare_after(&sample.title, &volume, &mut counts);
    }
    assert!(
        with_entries[1..].iter().all(|&count| count > 20),
        "{with_entries:?}"
    );
    counts.reached(&["free_count", "gaps", "size", "read"], &[0], 800);
    counts.reached(&["write", "set_size", "clean"], &[0, 12], 10);
    counts.reached(&["write", "set_size"], &[15], 100);
}

/// Random calls, some of them cut, from the samples on.
#[test]
fn calls_that_go_on() {
    let mut counts = Counts::default();
    for (sample, seed) in scattered().step_by(5).zip(7_000..) {
        random_calls(&mut Random::new(seed), sample.volume, 12, &mut counts);
    }
    counts.reached(&["write"], &[0, 12], 200);
}
