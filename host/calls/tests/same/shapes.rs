//! Particular volumes made by hand: long directories, walks that loop, pages that serve twice, the
//! largest file.

use crate::compare::{compare_readings, Compared, Counts};
use reference::layout::{set_word, tail_word};
use samples::{
    entry_add, entry_remove, entry_size, entry_write, formatted, long_directory, numbered, put_log,
    sample, Random,
};

/// 300 names in the middle of a log; in the end none, all that may stand, one more, and all 300.
#[test]
fn three_hundred_names() {
    let mut counts = Counts::default();
    for standing in [0, 1, 14, 15, 223, 224, 225, 300] {
        let volume = long_directory(standing);
        let mut compared = Compared::new(&volume, 0, &mut counts);
        compared.free_count();
        compared.gaps();
        for number in (0..300).step_by(7).chain([222, 223, 224, 225, 299]) {
            compared.find(0, &numbered(number));
            compared.kth_name(0, number, &[0x55; 40]);
        }
    }
    counts.reached(&["find"], &[0, 3, 6], 20);
    counts.reached(&["kth_name"], &[0, 3, 6], 20);
}

/// Names that are nearly the same: 32 letters of which one is another, and all beginnings of them; some
/// are taken out or added again.
#[test]
fn names_that_are_nearly_the_same() {
    let mut counts = Counts::default();
    let mut names: Vec<Vec<u8>> = (1..=32).map(|length| vec![b'a'; length]).collect();
    names.extend((0..32).map(|place| {
        let mut name = vec![b'a'; 32];
        name[place] = b'b';
        name
    }));
    let mut entries: Vec<[u64; 8]> = names.iter().map(|name| entry_add(1, name)).collect();
    entries.extend(names.iter().step_by(3).map(|name| entry_remove(name)));
    entries.extend(names.iter().step_by(5).map(|name| entry_add(2, name)));
    let mut volume = formatted(40, 8);
    let pages: Vec<u64> = (2..).take(entries.len().div_ceil(7)).collect();
    put_log(&mut volume, 0, &pages, &entries);
    put_log(&mut volume, 1, &[], &[]);
    put_log(&mut volume, 2, &[], &[]);
    let mut compared = Compared::new(&volume, 0, &mut counts);
    for (name, k) in names.iter().zip(0..) {
        compared.find(0, name);
        compared.kth_name(0, k, &[0x55; 40]);
    }
    counts.reached(&["find", "kth_name"], &[0, 6], 10);
}

/// A log of three pages whose links lead anywhere: back, to themselves, to the log's head, outside.
#[test]
fn links_that_lead_anywhere() {
    let mut counts = Counts::default();
    let mut volume = sample();
    put_log(&mut volume, 1, &[19, 7, 8], &[entry_size(0); 15]);
    for page in [19, 7, 8] {
        for next in (0..24).chain([1 << 32, (1 << 55) + 7, u64::MAX]) {
            let mut changed = volume.clone();
            set_word(&mut changed, page * 64 + 56, next);
            let mut compared = Compared::new(&changed, 0, &mut counts);
            compared.free_count();
            compared.gaps();
            compared.size(1);
        }
    }
    counts.reached(&["free_count", "gaps", "size"], &[0, 3], 10);
}

/// A tail at every byte of a log's pages.
#[test]
fn tails_anywhere() {
    let mut counts = Counts::default();
    let mut volume = sample();
    put_log(&mut volume, 1, &[19, 7, 8], &[entry_size(700); 21]);
    for tail in (0..=20 * 512 + 64).chain([u64::MAX, u64::MAX - 63, 1 << 63]) {
        set_word(&mut volume, tail_word(1), tail);
        Compared::new(&volume, 0, &mut counts).size(1);
    }
    counts.reached(&["size"], &[0, 3], 20);
}

/// Two files, each with one data page, whose pages meet in every way.
#[test]
fn pages_that_meet() {
    let mut counts = Counts::default();
    for log in 3..12 {
        for data in 3..12 {
            let mut volume = sample();
            put_log(&mut volume, 2, &[log], &[entry_write(1, data, 1, 1_024)]);
            let mut compared = Compared::new(&volume, 0, &mut counts);
            compared.free_count();
            compared.gaps();
            compared.read(2, 500, &[0x55; 40]);
        }
    }
    counts.reached(&["free_count", "gaps"], &[0, 3], 10);
}

/// A file of 65,536 bytes in 128 pages, read from every kind of place; then its size cut by one byte.
#[test]
fn the_largest_file() {
    let mut random = Random::new(51);
    let mut counts = Counts::default();
    let mut volume = formatted(300, 8);
    volume[100 * 512..].copy_from_slice(&random.bytes(200 * 512));
    put_log(
        &mut volume,
        0,
        &[2],
        &[entry_add(1, b"a"), entry_remove(b"b")],
    );
    for (size, pages) in [(65_536, 128), (65_535, 128), (65_536, 100), (65_024, 127)] {
        let entries = [
            entry_write(128 - pages, 150, pages, size),
            entry_write(3, 290, 2, size),
        ];
        put_log(&mut volume, 1, &[3], &entries);
        for last in [0, 1] {
            volume[150 * 512 + pages as usize * 512 - 1] = last;
            let mut compared = Compared::new(&volume, 0, &mut counts);
            compared.size(1);
            for offset in [
                0,
                1,
                511,
                512,
                1_535,
                65_023,
                65_024,
                65_535,
                65_536,
                u64::MAX,
            ] {
                for length in [0, 1, 2, 512, 1_024, 65_535, 65_536, 65_537] {
                    compared.read(1, offset, &vec![0x55; length]);
                }
            }
            compare_readings(&mut random, &volume, &mut counts);
        }
    }
    counts.reached(&["read"], &[0, 3], 80);
}
