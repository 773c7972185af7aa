//! One test for each thing that can be wrong with a volume: made by hand, with the whole text of its reason.

use crate::{case_j, cases};
use office::show::reason;
use reference::layout::{head_word, set_word, tail_word, type_word, valid_word, word};
use refusal::Refusal;
use samples::{
    entry_add, entry_remove, entry_size, entry_write, formatted, long_directory, put_folder,
    put_log, sample,
};

/// The sample with these words changed.
fn with(changes: &[(u64, u64)]) -> Vec<u8> {
    let mut volume = sample();
    for &(index, value) in changes {
        set_word(&mut volume, index, value);
    }
    volume
}

/// The sample with the root's log made of these entries.
fn with_root(entries: &[[u64; 8]]) -> Vec<u8> {
    let mut volume = sample();
    put_log(&mut volume, 0, &[3], entries);
    volume
}

/// The sample with inode 1's log made of these entries.
fn with_file(entries: &[[u64; 8]]) -> Vec<u8> {
    let mut volume = sample();
    put_log(&mut volume, 1, &[4], entries);
    volume
}

#[track_caller]
fn refused(volume: &[u8], refusal: Refusal, expected: &str) {
    assert_eq!(calls::free_count(volume), Err(refusal));
    assert_eq!(reason(volume).as_deref(), Some(expected));
}

#[track_caller]
fn no_volume(volume: &[u8], expected: &str) {
    refused(volume, Refusal::NoVolume, expected);
}

#[track_caller]
fn damaged(volume: &[u8], expected: &str) {
    refused(volume, Refusal::Damaged, expected);
}

#[test]
fn accepted() {
    for volume in cases() {
        assert_eq!(reason(&volume), None);
    }
    assert_eq!(reason(&sample()), None);
}

#[test]
fn the_header() {
    no_volume(&[], "the file has 0 bytes, too few for words 0 to 2");
    no_volume(
        &sample()[..23],
        "the file has 23 bytes, too few for words 0 to 2",
    );
    let pages = "not a page count from 16 to 4096";
    for count in [0, 15, 4_097, u64::MAX] {
        no_volume(&with(&[(0, count)]), &format!("word 0 is {count}, {pages}"));
    }
    let inodes = "not an inode count, a multiple of 8 from 8 to 256";
    for count in [0, 12, 264, u64::MAX] {
        no_volume(
            &with(&[(1, count)]),
            &format!("word 1 is {count}, {inodes}"),
        );
    }
    no_volume(
        &with(&[(1, 136)]),
        "word 0 says 20 pages, but 136 inodes (word 1) need at least 21",
    );
    no_volume(
        &formatted(16, 8)[..8_000],
        "the file has 8000 bytes, but word 0 says 16 pages, 8192 bytes",
    );
    no_volume(&with(&[(2, 7)]), "word 2 is 7, not 1");
}

#[test]
fn journal_positions() {
    damaged(
        &with(&[(8, 16)]),
        "the journal's dequeue position is 16, not below 16",
    );
    damaged(
        &with(&[(9, 99)]),
        "the journal's enqueue position is 99, not below 16",
    );
}

#[test]
fn open_entries() {
    damaged(
        &with(&[(8, 15), (9, 4)]),
        "5 journal entries are open, more than 4",
    );
    damaged(
        &with(&[(8, 15), (9, 1), (46, 66), (47, 0), (16, 67)]),
        "the open journal entry at position 0 has target word 67, no valid, head or tail word of an inode",
    );
    damaged(
        &with(&[(9, 3), (16, 72), (18, 66), (20, 72)]),
        "the open journal entries at positions 0 and 2 have one target, word 72 (valid word of inode 1)",
    );
}

#[test]
fn an_open_journal() {
    let tail = word(&sample(), 66);
    let one = with(&[(9, 1), (16, 66), (17, tail), (66, 77)]);
    let expected = format!("1 entry is open: word 66 (tail of inode 0) goes back to {tail}");
    refused(&one, Refusal::JournalOpen, &expected);
    let two = "2 entries are open: \
               word 66 (tail of inode 0) goes back to 0, word 72 (valid word of inode 1) to 0";
    refused(&case_j(), Refusal::JournalOpen, two);
    let three = with(&[
        (8, 15),
        (9, 2),
        (46, 89),
        (47, 5),
        (16, 73),
        (17, 4),
        (18, 90),
        (19, 6),
    ]);
    let expected = "3 entries are open: word 89 (head of inode 3) goes back to 5, \
                    word 73 (head of inode 1) to 4, word 90 (tail of inode 3) to 6";
    refused(&three, Refusal::JournalOpen, expected);
}

/// What is wrong is read with open entries put back, and the reason says so.
#[test]
fn read_put_back() {
    damaged(
        &with(&[(9, 1), (16, 80), (17, 2)]),
        "inode 2: its valid word is 2, not 0 or 1 (read with the journal's open entry put back)",
    );
    damaged(
        &with(&[(9, 2), (16, 80), (17, 0), (18, 72), (19, 1)]),
        "the name \"B2\" in the root leads to inode 2, which is not valid \
         (read with the journal's 2 open entries put back)",
    );
}

#[test]
fn valid_words() {
    damaged(&with(&[(64, 0)]), "inode 0, the root, is not valid");
    damaged(
        &with(&[(64, 3)]),
        "inode 0: its valid word is 3, not 0 or 1",
    );
    damaged(
        &with(&[(valid_word(15), 2)]),
        "inode 15: its valid word is 2, not 0 or 1",
    );
}

#[test]
fn tails() {
    damaged(
        &with(&[(tail_word(1), 2_600)]),
        "inode 1: its tail 2600 is 40 modulo 512, none of 64, 128, .. 448",
    );
    damaged(
        &with(&[(tail_word(2), 2_048)]),
        "inode 2: its tail 2048 is 0 modulo 512, none of 64, 128, .. 448",
    );
}

#[test]
fn walks() {
    damaged(
        &with(&[(head_word(1), 2)]),
        "inode 1: its log starts outside the log and data pages (head 2)",
    );
    let mut volume = sample();
    put_log(&mut volume, 1, &[19, 7, 9], &[entry_size(0); 15]);
    set_word(&mut volume, 7 * 64 + 56, 1);
    damaged(
        &volume,
        "inode 1: its log leaves the log and data pages at page 7 (footer 1)",
    );
    set_word(&mut volume, 7 * 64 + 56, 19);
    damaged(
        &volume,
        "inode 1: its log goes back to page 19 at page 7 and never reaches its tail's page 9",
    );
    set_word(&mut volume, 7 * 64 + 56, 7);
    damaged(
        &volume,
        "inode 1: its log goes back to page 7 at page 7 and never reaches its tail's page 9",
    );
}

#[test]
fn kinds() {
    let add = entry_add(1, b"A1");
    damaged(
        &with_root(&[add, add, [9, 0, 0, 0, 0, 0, 0, 0]]),
        "inode 0, log page 3, entry 3: kind 9 is none of a folder's",
    );
    damaged(
        &with_root(&[entry_size(0)]),
        "inode 0, log page 3, entry 1: kind 2 is none of a folder's",
    );
    damaged(
        &with_file(&[entry_size(0), add]),
        "inode 1, log page 4, entry 2: kind 3 is none of a file's",
    );
}

#[test]
fn sizes() {
    let entry = "inode 1, log page 4, entry 1";
    damaged(
        &with_file(&[entry_size(65_537)]),
        &format!("{entry}: size 65537 is over 65536"),
    );
    damaged(
        &with_file(&[entry_write(0, 5, 1, 70_000)]),
        &format!("{entry}: size 70000 is over 65536"),
    );
}

#[test]
fn writes() {
    let entry = "inode 1, log page 4, entry 1";
    for count in [0, 129, u64::MAX] {
        damaged(
            &with_file(&[entry_write(0, 5, count, 0)]),
            &format!("{entry}: page count {count} is not 1 to 128"),
        );
    }
    for first in [127, u64::MAX] {
        damaged(
            &with_file(&[entry_write(first, 5, 2, 0)]),
            &format!("{entry}: the file pages from {first} on, 2 of them, end above 128"),
        );
    }
    for first in [2, 19, u64::MAX] {
        let pages = format!("the data pages from {first} on, 2 of them,");
        damaged(
            &with_file(&[entry_write(0, first, 2, 0)]),
            &format!("{entry}: {pages} do not all lie in pages 3 to 19"),
        );
    }
}

#[test]
fn names_of_entries() {
    let entry = "inode 0, log page 3, entry 1";
    for length in [0, 33, u64::MAX] {
        let mut add = entry_add(1, b"A1");
        add[2] = length;
        damaged(
            &with_root(&[add]),
            &format!("{entry}: name length {length} is not 1 to 32"),
        );
    }
    damaged(
        &with_root(&[entry_remove(b"a/b")]),
        &format!("{entry}: the name \"a/b\" has byte 47"),
    );
    damaged(
        &with_root(&[entry_add(1, b"a\0b")]),
        &format!("{entry}: the name \"a\\x00b\" has byte 0"),
    );
    let mut short = entry_add(1, b"A1");
    short[2] = 1;
    damaged(
        &with_root(&[short]),
        &format!("{entry}: the bytes after the name \"A\" are not all 0"),
    );
}

#[test]
fn added_inodes() {
    for inode in [0, 16, u64::MAX] {
        damaged(
            &with_root(&[entry_add(inode, b"A1")]),
            &format!("inode 0, log page 3, entry 1: the added inode {inode} is not 1 to 15"),
        );
    }
}

#[test]
fn standing_names() {
    assert_eq!(reason(&long_directory(224)), None);
    damaged(
        &long_directory(225),
        "225 names stand in the root, more than 224",
    );
    let adds = [entry_add(1, b"A1"), entry_add(2, b"B2")];
    damaged(
        &with_root(&[adds[0], adds[1], entry_add(5, b"\xff")]),
        "the name \"\\xFF\" in the root leads to inode 5, which is not valid",
    );
    damaged(
        &with_root(&[adds[0], adds[1], entry_remove(b"B2")]),
        "inode 2 is valid and has no name",
    );
    damaged(
        &with_root(&[adds[0], adds[1], entry_add(1, b"B2")]),
        "inode 2 is valid and has no name",
    );
}

/// A valid type word, each folder with one name, and a path from the root to it.
#[test]
fn folders() {
    damaged(
        &with(&[(type_word(1), 2)]),
        "inode 1: its type is 2, not 0 (a file) or 1 (a folder)",
    );
    damaged(
        &with(&[(type_word(1), 1)]),
        "inode 1, log page 4, entry 1: kind 1 is none of a folder's",
    );
    let adds = [entry_add(1, b"A1"), entry_add(2, b"B2")];
    let folder = |root: &[[u64; 8]], entries: &[[u64; 8]]| {
        let mut volume = with_root(&[&adds, root].concat());
        put_folder(&mut volume, 3, &[12], entries);
        volume
    };
    let (one, other) = (entry_add(3, b"f"), entry_add(3, b"g"));
    let inside = entry_add(1, b"x");
    assert_eq!(reason(&folder(&[one], &[inside])), None);
    damaged(
        &folder(&[one, other], &[inside]),
        "inode 3 is a folder and has 2 names, not one",
    );
    damaged(
        &folder(&[], &[inside]),
        "inode 3 is a valid folder and has no name",
    );
    damaged(
        &folder(&[], &[one]),
        "inode 3 is a folder that no path from the root leads to",
    );
    damaged(
        &folder(&[one], &[entry_add(9, b"x")]),
        "the name \"x\" in the folder \"f/\" (inode 3) leads to inode 9, which is not valid",
    );
    damaged(
        &folder(&[one], &[entry_size(0)]),
        "inode 3, log page 12, entry 1: kind 2 is none of a folder's",
    );
}

/// Every volume with damaged folders has its reason.
#[test]
fn damaged_folders() {
    for sample in samples::damaged_folders() {
        let reason = reason(&sample.volume).expect("damaged");
        let title = &sample.title;
        assert!(!reason.contains("does not know"), "{title}{reason}");
    }
}

#[test]
fn pages_that_serve_twice() {
    damaged(
        &with_file(&[entry_write(0, 4, 1, 512)]),
        "page 4 serves twice: log of inode 1 and data of inode 1 (file page 0)",
    );
    damaged(
        &with_file(&[entry_write(0, 5, 1, 512), entry_write(3, 5, 1, 2_048)]),
        "page 5 serves twice: data of inode 1 (file page 0) and data of inode 1 (file page 3)",
    );
    let mut volume = sample();
    put_log(&mut volume, 2, &[7], &[entry_write(9, 6, 1, 65_536)]);
    damaged(
        &volume,
        "page 6 serves twice: data of inode 1 (file page 1) and data of inode 2 (file page 9)",
    );
    let shared = with(&[(head_word(2), 3), (tail_word(2), 3 * 512 + 64)]);
    damaged(
        &shared,
        "page 3 serves twice: log of inode 0 and log of inode 2",
    );
}

#[test]
fn ends_of_files() {
    for size in [0, 511, 512] {
        let page = if size == 0 { 0 } else { 1 };
        let mut volume = with_file(&[entry_write(0, 5, 2, size)]);
        volume[5 * 512 + size as usize..6 * 512].fill(0);
        let place = format!("file page {page} is mapped");
        damaged(
            &volume,
            &format!("inode 1: {place} and starts at or after the size {size}"),
        );
    }
    for byte in [700, 701, 1_023] {
        let mut volume = sample();
        volume[5 * 512 + byte] = 1;
        damaged(
            &volume,
            &format!(
                "inode 1: byte {byte} (file page 1, data page 6) is not 0, but the size is 700"
            ),
        );
    }
    let mut volume = sample();
    volume[5 * 512 + 699] = 1;
    assert_eq!(reason(&volume), None);
}
