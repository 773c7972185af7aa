//! What an accepted volume is: each condition broken by itself, and what is not read.

use reference::layout::{head_word, set_word, tail_word, type_word, valid_word, word};
use reference::{judge, Refusal, Use};
use samples::*;

const ODD: u64 = 0xDEAD_BEEF_0BAD_F00D;

#[track_caller]
fn accepted(volume: &[u8]) {
    assert!(judge(volume).is_ok());
}

#[track_caller]
fn damaged(volume: &[u8]) {
    assert_eq!(judge(volume).err(), Some(Refusal::Damaged));
}

fn with(stores: &[(u64, u64)]) -> Vec<u8> {
    let mut volume = sample();
    for &(index, value) in stores {
        set_word(&mut volume, index, value);
    }
    volume
}

/// The sample with the directory's log made of these entries, in page 3 and from page 8 on.
fn with_directory(entries: &[[u64; 8]]) -> Vec<u8> {
    let mut volume = sample();
    let pages: Vec<u64> = [3]
        .into_iter()
        .chain(8..)
        .take(entries.len().div_ceil(7))
        .collect();
    put_log(&mut volume, 0, &pages, entries);
    volume
}

/// The sample with inode 1's log made of these entries.
fn with_file(entries: &[[u64; 8]]) -> Vec<u8> {
    let mut volume = sample();
    put_log(&mut volume, 1, &[4], entries);
    volume
}

#[test]
fn the_sample_is_accepted() {
    let volume = sample();
    let judged = judge(&volume).unwrap();
    assert_eq!(judged.folders[&0], [(&b"A1"[..], 1), (b"B2", 2)]);
    assert_eq!(judged.files[&1].size, 700);
    assert_eq!(
        judged.files[&1].mapped().collect::<Vec<_>>(),
        [(0, 5), (1, 6)]
    );
    assert_eq!(judged.files[&2].size, 0);
    assert_eq!(judged.uses[..3], [Use::Fixed; 3]);
    assert_eq!(judged.uses[3], Use::Log { inode: 0 });
    assert_eq!(judged.uses[7..], [Use::Free; 13]);
    assert_eq!(judged.free_pages(), 13);
    assert_eq!(judged.logs[&1].head(), Some(4));
    assert_eq!(judged.logs[&2].head(), None);
}

#[test]
fn unread_words() {
    for index in (3..8).chain(10..64) {
        accepted(&with(&[(index, ODD)]));
    }
    for inode in 0..16 {
        for index in 4..8 {
            accepted(&with(&[(valid_word(inode) + index, ODD)]));
        }
        match inode {
            1 | 2 => damaged(&with(&[(type_word(inode), ODD)])),
            _ => accepted(&with(&[(type_word(inode), ODD)])),
        }
    }
    for inode in 3..16 {
        accepted(&with(&[(head_word(inode), ODD), (tail_word(inode), ODD)]));
    }
    accepted(&with(&[(head_word(2), ODD)]));
    for index in 3 * 64 + 16..4 * 64 {
        accepted(&with(&[(index, ODD)]));
    }
    for index in (4 * 64 + 5..5 * 64).chain(7 * 64..20 * 64) {
        accepted(&with(&[(index, ODD)]));
    }
}

#[test]
fn journal_positions() {
    for number in 0..16 {
        accepted(&with(&[(8, number), (9, number)]));
    }
    for number in [16, 17, 1 << 32, u64::MAX] {
        damaged(&with(&[(8, number), (9, number)]));
        damaged(&with(&[(8, number)]));
        damaged(&with(&[(9, number)]));
    }
}

/// The sample with these open entries from a dequeue position on.
fn with_open(dequeue: u64, entries: &[(u64, u64)]) -> Vec<u8> {
    let mut volume = sample();
    open_journal(&mut volume, dequeue, entries);
    volume
}

#[test]
fn open_entries() {
    let volume = sample();
    let entries: Vec<(u64, u64)> = [64, 65, 66, 72, 73]
        .into_iter()
        .map(|index| (index, word(&volume, index)))
        .collect();
    for dequeue in 0..16 {
        for count in 0..=4 {
            let volume = with_open(dequeue, &entries[..count]);
            accepted(&volume);
            assert_eq!(judge(&volume).unwrap().journal.open.len(), count);
            assert_eq!(map_of(&volume), map_of(&sample()));
        }
        damaged(&with_open(dequeue, &entries));
    }
}

#[test]
fn targets() {
    let volume = sample();
    let inode_words = 64..64 + 8 * 16;
    for target in 0..20 * 64 {
        let open = with_open(15, &[(target, word(&volume, target))]);
        if inode_words.contains(&target) && target % 8 < 3 {
            accepted(&open);
        } else {
            damaged(&open);
        }
    }
    for target in [20 * 64, 1 << 61, (1 << 61) + 64, (1 << 32) + 64, u64::MAX] {
        damaged(&with_open(15, &[(target, 1)]));
    }
    damaged(&with_open(3, &[(72, 1), (72, 1)]));
    damaged(&with_open(15, &[(72, 1), (80, 1), (64, 1), (72, 1)]));
}

#[test]
fn open_targets_are_read_from_the_journal() {
    for (target, wrong) in [(64, 0), (72, 2), (73, 2), (74, ODD), (80, 0), (66, ODD)] {
        let old = word(&sample(), target);
        let mut volume = with_open(0, &[(target, old)]);
        for raw in [wrong, ODD, 0, u64::MAX] {
            set_word(&mut volume, target, raw);
            accepted(&volume);
            assert_eq!(map_of(&volume), map_of(&sample()));
        }
        damaged(&with_open(0, &[(target, wrong)]));
    }
}

#[test]
fn valid_words() {
    for inode in 0..16 {
        for value in [2, 256, u64::MAX] {
            damaged(&with(&[(valid_word(inode), value)]));
        }
    }
    damaged(&with(&[(valid_word(0), 0)]));
    let mut empty = formatted(16, 8);
    accepted(&empty);
    set_word(&mut empty, valid_word(0), 0);
    damaged(&empty);
    damaged(&with(&[(valid_word(2), 0)]));
    damaged(&with(&[(valid_word(3), 1), (tail_word(3), 0)]));
}

#[test]
fn tails() {
    let entries = [entry_size(0); 7];
    for within in 0..512 {
        let mut volume = with_file(&entries);
        set_word(&mut volume, tail_word(1), 4 * 512 + within);
        if within % 64 == 0 && within != 0 {
            accepted(&volume);
        } else {
            damaged(&volume);
        }
    }
    for page in [0, 1, 2, 20, 21, 1 << 54, u64::MAX / 512] {
        damaged(&with(&[
            (head_word(1), page),
            (tail_word(1), page * 512 + 64),
        ]));
        damaged(&with(&[(tail_word(1), page * 512 + 64)]));
    }
    damaged(&with(&[(tail_word(2), 512), (head_word(2), 7)]));
}

#[test]
fn heads_and_links() {
    for head in [0, 1, 2, 20, 21, 1 << 32, (1 << 55) + 4, u64::MAX] {
        damaged(&with(&[(head_word(1), head)]));
    }
    let entries = [entry_size(0); 15];
    let mut volume = sample();
    put_log(&mut volume, 1, &[19, 7, 8], &entries);
    accepted(&volume);
    assert_eq!(judge(&volume).unwrap().logs[&1].pages, [19, 7, 8]);
    for next in [0, 2, 7, 19, 20, 3, ODD] {
        let mut changed = volume.clone();
        set_word(&mut changed, 7 * 64 + 56, next);
        damaged(&changed);
    }
    for next in [0, 7, 8, 19, ODD] {
        let mut changed = volume.clone();
        set_word(&mut changed, 8 * 64 + 56, next);
        accepted(&changed);
    }
    set_word(&mut volume, tail_word(1), 7 * 512 + 448);
    set_word(&mut volume, 7 * 64 + 56, 19);
    accepted(&volume);
}

#[test]
fn a_log_in_every_page() {
    let mut volume = formatted(20, 16);
    let mut entries = vec![entry_remove(b"x"); 17 * 7];
    let pages: Vec<u64> = (3..20).rev().collect();
    put_log(&mut volume, 0, &pages, &entries);
    accepted(&volume);
    assert_eq!(judge(&volume).unwrap().free_pages(), 0);
    entries.truncate(16 * 7 + 1);
    put_log(&mut volume, 0, &pages, &entries);
    accepted(&volume);
    set_word(&mut volume, 4 * 64 + 56, 19);
    damaged(&volume);
}

#[test]
fn kinds_by_log() {
    let adds = [entry_add(1, b"A1"), entry_add(2, b"B2")];
    for wrong in [entry_write(0, 5, 1, 1), entry_size(0), [0; 8], [5; 8]] {
        damaged(&with_directory(&[wrong, adds[0], adds[1]]));
        damaged(&with_directory(&[adds[0], adds[1], wrong]));
    }
    for wrong in [adds[0], entry_remove(b"x"), [0; 8], [5; 8], [u64::MAX; 8]] {
        damaged(&with_file(&[wrong, entry_size(0)]));
        damaged(&with_file(&[entry_size(0), wrong]));
    }
}

#[test]
fn unused_entry_words() {
    let mut write = entry_write(0, 5, 2, 700);
    write[5..].fill(ODD);
    accepted(&with_file(&[write]));
    let mut size = entry_size(700);
    size[2..].fill(ODD);
    accepted(&with_file(&[size]));
    let (mut add, mut remove) = (entry_add(1, b"A1"), entry_remove(b"x"));
    add[7] = ODD;
    remove[1] = ODD;
    remove[7] = ODD;
    accepted(&with_directory(&[remove, add, entry_add(2, b"B2")]));
}

#[test]
fn write_entries() {
    let rule = |entry: [u64; 8], good: bool| {
        let volume = with_file(&[entry, entry_size(0)]);
        assert_eq!(judge(&volume).is_ok(), good, "{entry:?}");
    };
    for (count, good) in [
        (0, false),
        (1, true),
        (17, true),
        (18, false),
        (u64::MAX, false),
    ] {
        rule(entry_write(0, 3, count, 0), good);
    }
    for (file_page, count, good) in [
        (127, 1, true),
        (128, 1, false),
        (127, 2, false),
        (111, 17, true),
        (112, 17, false),
        (u64::MAX, 1, false),
        (u64::MAX, 2, false),
        (u64::MAX - 15, 16, false),
    ] {
        rule(entry_write(file_page, 3, count, 0), good);
    }
    for (data_page, count, good) in [
        (0, 1, false),
        (2, 1, false),
        (2, 2, false),
        (3, 1, true),
        (19, 1, true),
        (19, 2, false),
        (20, 1, false),
        (u64::MAX, 1, false),
        (u64::MAX, 5, false),
    ] {
        rule(entry_write(0, data_page, count, 0), good);
    }
    for (size, good) in [
        (0, true),
        (65_536, true),
        (65_537, false),
        (u64::MAX, false),
    ] {
        rule(entry_write(0, 3, 1, size), good);
        rule(entry_size(size), good);
    }
}

#[test]
fn write_counts_on_a_large_volume() {
    let mut volume = formatted(300, 8);
    put_log(&mut volume, 0, &[2], &[entry_add(1, b"A1")]);
    for (file_page, count, good) in [(0, 128, true), (0, 129, false), (1, 128, false)] {
        let entries = [entry_write(file_page, 4, count, 0), entry_size(0)];
        put_log(&mut volume, 1, &[3], &entries);
        assert_eq!(judge(&volume).is_ok(), good);
    }
    put_log(&mut volume, 1, &[3], &[entry_write(0, 172, 128, 65_536)]);
    accepted(&volume);
    assert_eq!(map_of(&volume).files[&1], vec![0xE7; 65_536]);
}

#[test]
fn names_of_entries() {
    let names: &[(&[u8], bool)] = &[
        (b"", false),
        (b"a", true),
        (&[255; 32], true),
        (&[255; 31], true),
        (b"a/", false),
        (b"/", false),
        (b"a\0b", false),
        (b"\0", false),
        (b".", true),
        (b"..", true),
    ];
    for &(name, good) in names {
        let adds = [entry_add(1, b"A1"), entry_add(2, b"B2")];
        for entry in [entry_add(1, name), entry_remove(name)] {
            let volume = with_directory(&[adds[0], entry, adds[1]]);
            assert_eq!(judge(&volume).is_ok(), good, "{name:?}");
        }
        for length in [33, 1 << 32, u64::MAX] {
            let mut entry = entry_remove(name);
            entry[2] = length;
            damaged(&with_directory(&[entry, adds[0], adds[1]]));
        }
    }
}

#[test]
fn bytes_after_a_name() {
    let adds = [entry_add(1, b"A1"), entry_add(2, b"B2")];
    for place in 2..32 {
        let mut add = adds[0];
        let mut remove = entry_remove(b"xy");
        add[3 + place / 8] |= 1 << (8 * (place % 8));
        remove[3 + place / 8] |= 1 << (8 * (place % 8));
        damaged(&with_directory(&[add, adds[1]]));
        damaged(&with_directory(&[adds[0], adds[1], remove]));
    }
    let mut short = adds[0];
    short[2] = 1;
    damaged(&with_directory(&[short, adds[1]]));
}

#[test]
fn added_inodes() {
    let adds = [entry_add(1, b"A1"), entry_add(2, b"B2")];
    for (inode, good) in [(0, false), (15, true), (16, false), (u64::MAX, false)] {
        let volume =
            with_directory(&[entry_add(inode, b"x"), entry_remove(b"x"), adds[0], adds[1]]);
        assert_eq!(judge(&volume).is_ok(), good);
    }
    damaged(&with_directory(&[adds[0], adds[1], entry_add(3, b"x")]));
    damaged(&with_directory(&[adds[0]]));
    damaged(&with_directory(&[adds[0], adds[1], entry_remove(b"B2")]));
    damaged(&with_directory(&[adds[0], adds[1], entry_add(1, b"B2")]));
    accepted(&with_directory(&[adds[1], entry_add(2, b"A1"), adds[0]]));
}

#[test]
fn count_of_names_in_the_end() {
    let mut volume = formatted(100, 8);
    put_log(&mut volume, 1, &[], &[]);
    let pages: Vec<u64> = (2..100).rev().collect();
    for (standing, good) in [
        (0, false),
        (1, true),
        (223, true),
        (224, true),
        (225, false),
        (300, false),
    ] {
        let mut entries: Vec<[u64; 8]> = Vec::new();
        entries.extend((0..300).map(|number| entry_add(1, &numbered(number))));
        entries.extend((standing..300).map(|number| entry_remove(&numbered(number))));
        put_log(
            &mut volume,
            0,
            &pages[..entries.len().div_ceil(7)],
            &entries,
        );
        assert_eq!(judge(&volume).is_ok(), good, "{standing}");
        if good {
            let names: Vec<_> = (0..standing).map(|number| (numbered(number), 1)).collect();
            assert_eq!(map_of(&volume).names(0), names);
        }
    }
}

#[test]
fn pages_that_serve_twice() {
    for data_page in [3, 4] {
        damaged(&with_file(&[entry_write(0, data_page, 1, 512)]));
    }
    let two = |second| with_file(&[entry_write(0, 5, 1, 512), entry_write(1, second, 1, 1_024)]);
    accepted(&two(7));
    damaged(&two(5));
    accepted(&with_file(&[entry_write(0, 3, 5, 9), entry_size(0)]));

    let mut volume = sample();
    put_log(&mut volume, 2, &[7], &[entry_write(0, 8, 1, 512)]);
    accepted(&volume);
    put_log(&mut volume, 2, &[7], &[entry_write(0, 5, 1, 512)]);
    damaged(&volume);
    put_log(&mut volume, 2, &[7], &[entry_write(0, 7, 1, 512)]);
    damaged(&volume);
    put_log(&mut volume, 2, &[5], &[entry_size(0)]);
    damaged(&volume);

    let mut volume = with_file(&[entry_size(9)]);
    for (index, value) in [(head_word(2), 4), (tail_word(2), 4 * 512 + 64)] {
        set_word(&mut volume, index, value);
    }
    damaged(&volume);
}

#[test]
fn pages_of_invalid_inodes_serve_nothing() {
    let mut volume = sample();
    put_log(&mut volume, 3, &[4], &[entry_write(0, 5, 2, 700)]);
    damaged(&volume);
    set_word(&mut volume, valid_word(3), 0);
    accepted(&volume);
}

#[test]
fn pages_at_or_after_the_size() {
    for (size, good) in [
        (0, false),
        (511, false),
        (512, false),
        (513, true),
        (1_024, true),
    ] {
        let mut volume = with_file(&[entry_write(0, 5, 2, size)]);
        zero_page(&mut volume, 6);
        assert_eq!(judge(&volume).is_ok(), good, "{size}");
    }
    accepted(&with_file(&[entry_write(127, 7, 1, 65_536)]));
    damaged(&with_file(&[entry_write(127, 7, 1, 65_535)]));
}

#[test]
fn a_page_holding_the_size_is_zero_from_there_on() {
    for size in [513, 700, 1_023] {
        for last in [size - 1, size, 1_023] {
            let mut volume = with_file(&[entry_write(0, 5, 2, size)]);
            zero_page(&mut volume, 6);
            volume[5 * 512 + last as usize] = 1;
            assert_eq!(judge(&volume).is_ok(), last < size, "{size} {last}");
        }
    }
}

#[test]
fn only_kind_2_unmaps() {
    let wide = entry_write(0, 5, 2, 700);
    damaged(&with_file(&[wide, entry_write(0, 7, 1, 512)]));
    let volume = with_file(&[wide, entry_write(0, 7, 1, 512), entry_write(2, 8, 1, 1_536)]);
    let judged = judge(&volume).unwrap();
    let mapped: Vec<_> = judged.files[&1].mapped().collect();
    assert_eq!(mapped, [(0, 7), (1, 6), (2, 8)]);

    for (size, pages) in [(0, 0), (1, 1), (512, 1), (513, 2), (1_024, 2), (9_000, 2)] {
        let mut volume = with_file(&[wide, entry_size(size), entry_size(65_536)]);
        zero_page(&mut volume, 5);
        zero_page(&mut volume, 6);
        let judged = judge(&volume).unwrap();
        assert_eq!(judged.files[&1].mapped().count(), pages, "{size}");
        assert_eq!(judged.files[&1].size, 65_536);
    }
}
