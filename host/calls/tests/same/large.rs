//! Large volumes: up to 4,096 pages and 256 inodes, long logs, every page in use.

use crate::compare::{compare_all, compare_readings, Compared, Counts, READINGS};
use samples::{
    change_live_word, entry_add, entry_remove, entry_size, formatted, live_words, made_up_sized,
    put_log, Random,
};

#[test]
fn large_made_up_volumes() {
    let mut random = Random::new(61);
    let mut counts = Counts::default();
    for _ in 0..250 {
        let inodes = 8 * random.between(1, 32);
        let pages = random.between(200, 4_096);
        let volume = made_up_sized(&mut random, pages, inodes);
        compare_all(&mut random, &volume, &mut counts);
        let live = live_words(&volume);
        for _ in 0..4 {
            let mut changed = volume.clone();
            change_live_word(&mut random, &mut changed, &live);
            compare_readings(&mut random, &changed, &mut counts);
        }
    }
    counts.reached(&READINGS, &[0, 3, 4], 40);
}

#[test]
fn the_largest_sizes() {
    let mut random = Random::new(62);
    let mut counts = Counts::default();
    for _ in 0..50 {
        let volume = made_up_sized(&mut random, 4_096, 256);
        compare_all(&mut random, &volume, &mut counts);
    }
    counts.reached(&READINGS, &[0, 3, 4], 3);
}

/// A name of its own for each number.
fn name(number: u64) -> Vec<u8> {
    format!("{number:x}").into_bytes()
}

/// A directory's log in every log and data page, 28,658 entries: each adds another name, and removes
/// behind them leave the last 224.
#[test]
fn a_directory_in_every_page() {
    let mut counts = Counts::default();
    let mut volume = formatted(4_096, 8);
    let pages: Vec<u64> = (2..4_096).rev().collect();
    let adds = 7 * 4_094 / 2 + 112;
    let mut entries: Vec<[u64; 8]> = Vec::new();
    entries.extend((0..adds).map(|number| entry_add(number % 7 + 1, &name(number))));
    entries.extend((0..adds - 224).map(|number| entry_remove(&name(number))));
    put_log(&mut volume, 0, &pages, &entries);
    for inode in 1..8 {
        put_log(&mut volume, inode, &[], &[]);
    }
    let mut compared = Compared::new(&volume, 0, &mut counts);
    compared.free_count();
    compared.gaps();
    compared.find(0, &name(adds - 1));
    compared.find(0, &name(0));
    compared.kth_name(0, 0, &[0x55; 33]);
    compared.kth_name(0, 224, &[0x55; 33]);
    counts.reached(&["find", "kth_name"], &[0, 6], 1);
    counts.reached(&["free_count", "gaps"], &[0], 1);
}

/// Files whose logs share all the pages, each log 15 pages long.
#[test]
fn long_logs_of_files() {
    let mut random = Random::new(63);
    let mut counts = Counts::default();
    let mut volume = formatted(4_096, 256);
    let mut pages: Vec<u64> = (33 + 32..4_096).collect();
    let adds: Vec<[u64; 8]> = (1..224)
        .map(|inode| entry_add(inode, &name(inode)))
        .collect();
    put_log(&mut volume, 0, &(33..33 + 32).collect::<Vec<u64>>(), &adds);
    for inode in 1..224 {
        let log: Vec<u64> = (0..15)
            .map(|_| pages.swap_remove(random.below(pages.len() as u64) as usize))
            .collect();
        let entries: Vec<[u64; 8]> = (0..100).map(|_| entry_size(random.below(65_537))).collect();
        put_log(&mut volume, inode, &log, &entries);
    }
    for _ in 0..5 {
        compare_readings(&mut random, &volume, &mut counts);
    }
    counts.reached(&READINGS, &[0], 3);
}
