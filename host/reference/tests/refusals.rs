//! The refusals: for each call every number with its exact condition, the lowest one first, and
//! lent memory as it was.

use reference::layout::{set_word, word};
use reference::{
    carry_out, find, format, free_count, gaps, judge, kth_name, listing, read, size, total, Answer,
    Call, Refusal, FENCE,
};
use samples::*;

/// P = 16, N = 8, with "A1" (inode 1) of 4 bytes and the empty "B2" (inode 2).
fn ready() -> Vec<u8> {
    let mut volume = formatted(16, 8);
    done(&mut volume, &create(b"A1"));
    done(&mut volume, &create(b"B2"));
    done(&mut volume, &write(1, 0, b"abcd"));
    volume
}

/// Opens the journal: position 0 holds inode 2's valid word and its value.
fn opened(mut volume: Vec<u8>) -> Vec<u8> {
    for (index, value) in [(8, 0), (9, 1), (16, 80), (17, 1)] {
        set_word(&mut volume, index, value);
    }
    volume
}

/// Breaks the volume: inode 7 is neither valid nor invalid.
fn damaged(mut volume: Vec<u8>) -> Vec<u8> {
    set_word(&mut volume, 120, 2);
    volume
}

/// Makes it no volume.
fn ruined(mut volume: Vec<u8>) -> Vec<u8> {
    set_word(&mut volume, 2, 0);
    volume
}

/// Calls of every kind that need the journal closed. Each has arguments to which as many later
/// refusals as possible apply.
fn bad_calls() -> Vec<Call> {
    vec![
        create(b""),
        create(b"A1"),
        create_folder(9, b"A1"),
        create_folder(1, b"/"),
        link(b"A1", b"/"),
        link(b"x", b"A1"),
        unlink(b"a/b"),
        unlink(b"x"),
        rename(b"", b"A1"),
        rename(b"x", b"A1"),
        rename_in(1, b"x", 1, b"x"),
        write(0, u64::MAX, &text(5_000)),
        write(1, u64::MAX, &text(5_000)),
        set_size(u64::MAX, u64::MAX),
        set_size(1, u64::MAX),
        clean(8),
    ]
}

/// Calls that change nothing on [`ready`].
fn idle_calls() -> Vec<Call> {
    vec![
        rename(b"A1", b"A1"),
        write(1, 9, b""),
        set_size(1, 4),
        clean(2),
    ]
}

fn refused(volume: &[u8], call: &Call) -> u64 {
    filled(volume, call)
        .expect_err("the call is refused")
        .number()
}

/// The answers of the reading calls, with arguments to which later refusals apply, and with ones
/// that would be done on [`ready`].
fn readings(volume: &[u8]) -> Vec<Answer> {
    let marked = vec![0xA7; 40];
    let mut buffer = marked.clone();
    let mut pairs = marked_list(20);
    let answers = vec![
        find(volume, 0, b"/"),
        find(volume, 0, b"A1"),
        size(volume, 0),
        size(volume, 1),
        read(volume, 8, 0, &mut buffer),
        read(volume, 1, 0, &mut buffer[..4]),
        kth_name(volume, 0, u64::MAX, &mut buffer),
        kth_name(volume, 0, 0, &mut buffer),
        kth_name(volume, 1, 0, &mut buffer),
        find(volume, 1, b"A1"),
        total(volume, 0),
        total(volume, 1),
        free_count(volume),
        gaps(volume, &mut []),
        gaps(volume, &mut pairs),
    ];
    if answers.iter().all(Result::is_err) {
        assert_eq!(buffer, marked, "a refusal leaves the buffer as it was");
        assert_eq!(
            pairs,
            marked_list(20),
            "a refusal leaves the list as it was"
        );
    }
    answers
}

#[test]
fn numbers_and_words() {
    let table = [
        (1, "short memory"),
        (2, "no volume"),
        (3, "damaged"),
        (4, "journal open"),
        (5, "bad name"),
        (6, "not there"),
        (7, "taken"),
        (8, "long write"),
        (9, "past the end"),
        (10, "no inode"),
        (11, "directory full"),
        (12, "no space"),
        (13, "bad list"),
        (14, "too many gaps"),
        (15, "last page"),
        (16, "wrong type"),
        (17, "not empty"),
        (18, "into itself"),
    ];
    let actual = Refusal::ALL.map(|refusal| (refusal.number(), refusal.word()));
    assert_eq!(actual, table);
}

#[test]
fn short_list_before_anything_else() {
    let volumes = [
        vec![],
        text(1_000),
        ruined(ready()),
        damaged(ready()),
        opened(ready()),
        ready(),
    ];
    let mut calls = bad_calls();
    calls.extend(idle_calls());
    calls.extend([create(b"new"), clean(0), Call::Recover]);
    for volume in &volumes {
        for call in &calls {
            for length in [0, 1, 14, 4_095] {
                let mut list = marked_list(length);
                assert_eq!(call.fill(volume, &mut list), Err(Refusal::ShortMemory));
                assert_eq!(list, marked_list(length));
            }
            let mut list = marked_list(4_096);
            assert_ne!(call.fill(volume, &mut list), Err(Refusal::ShortMemory));
        }
    }
}

#[test]
fn short_name_buffer_before_anything_else() {
    for volume in [vec![], ruined(ready()), damaged(ready()), ready()] {
        for length in [0, 1, 31] {
            let mut buffer = vec![0xA7; length];
            let answer = kth_name(&volume, 0, u64::MAX, &mut buffer);
            assert_eq!(answer, Err(Refusal::ShortMemory));
            assert_eq!(buffer, vec![0xA7; length]);
        }
    }
    let mut buffer = [0xA7; 32];
    assert_eq!(kth_name(&ready(), 0, 0, &mut buffer), Ok(2));
    let mut expected = [0; 32];
    expected[..2].copy_from_slice(b"A1");
    assert_eq!(buffer, expected);
}

/// Checks that every call but format answers 2.
fn is_no_volume(volume: &[u8]) {
    for call in bad_calls().iter().chain(&[Call::Recover]) {
        assert_eq!(refused(volume, call), 2);
    }
    let answers = readings(volume);
    assert_eq!(answers, vec![Err(Refusal::NoVolume); answers.len()]);
    assert_eq!(listing(volume), b"refused 2\n");
    for (list, count) in [(vec![], 0), (vec![1], 1), (vec![3, 0, FENCE, 0], 4)] {
        let mut after = volume.to_vec();
        let answer = carry_out(&mut after, &list, count);
        assert_eq!(answer, Err(Refusal::NoVolume));
        assert_eq!(after, volume);
    }
}

#[test]
fn no_volume_before_damage() {
    let volume = damaged(ready());
    is_no_volume(&[]);
    is_no_volume(&volume[..23]);
    is_no_volume(&volume[..8_191]);
    let mut longer = volume.clone();
    longer.push(0);
    is_no_volume(&longer);
    longer.resize(17 * 512, 0);
    is_no_volume(&longer);
    let words = [
        (0, vec![0, 15, 17, 4_096, 4_097, u64::MAX, (1 << 55) + 16]),
        (1, vec![0, 7, 9, 12, 104, 256, 264, u64::MAX, (1 << 32) + 8]),
        (2, vec![0, 2, 257, u64::MAX]),
    ];
    for (index, values) in words {
        for value in values {
            let mut changed = volume.clone();
            set_word(&mut changed, index, value);
            is_no_volume(&changed);
        }
    }
    let mut changed = volume.clone();
    set_word(&mut changed, 1, 96);
    assert_eq!(refused(&changed, &Call::Recover), 3, "T = 12, P = T + 4");
}

#[test]
fn damaged_before_open() {
    let volume = damaged(opened(ready()));
    for call in bad_calls().iter().chain(&[Call::Recover]) {
        assert_eq!(refused(&volume, call), 3);
    }
    let answers = readings(&volume);
    assert_eq!(answers, vec![Err(Refusal::Damaged); answers.len()]);
    assert_eq!(listing(&volume), b"refused 3\n");
}

#[test]
fn open_before_the_arguments() {
    let volume = opened(ready());
    for call in bad_calls().iter().chain(&idle_calls()) {
        assert_eq!(refused(&volume, call), 4);
    }
    let answers = readings(&volume);
    assert_eq!(answers, vec![Err(Refusal::JournalOpen); answers.len()]);
    assert_eq!(listing(&volume), b"refused 4\n");
    assert_eq!(filled(&volume, &Call::Recover).unwrap().len(), 8);
}

#[test]
fn format_and_carry_out_need_no_accepted_volume() {
    let list = [127, 7, FENCE, 0];
    for mut volume in [damaged(ready()), opened(ready())] {
        assert_eq!(carry_out(&mut volume, &list, 4), Ok(()));
        assert_eq!(word(&volume, 127), 7);
        assert_eq!(format(&mut volume, 16, 8), Ok(()));
        assert_eq!(free_count(&volume), Ok(14));
    }
}

#[test]
fn bad_names() {
    let volume = ready();
    let mut bad = vec![vec![], vec![97; 33], vec![97; 70_000]];
    for place in [0, 15, 31] {
        for byte in [0, 47] {
            let mut name = vec![97; 32];
            name[place] = byte;
            bad.push(name);
        }
    }
    for name in &bad {
        assert_eq!(refused(&volume, &create(name)), 5);
        assert_eq!(refused(&volume, &unlink(name)), 5);
        for other in [&b"A1"[..], b"x", name] {
            assert_eq!(refused(&volume, &link(name, other)), 5);
            assert_eq!(refused(&volume, &link(other, name)), 5);
            assert_eq!(refused(&volume, &rename(name, other)), 5);
            assert_eq!(refused(&volume, &rename(other, name)), 5);
        }
        assert_eq!(find(&volume, 0, name), Err(Refusal::BadName));
    }
    for name in [&[97][..], &[97; 32], b"...", &[46, 48], &[1, 255, 10]] {
        assert_eq!(filled(&volume, &create(name)).unwrap().len(), 46);
        assert_eq!(filled(&volume, &link(b"A1", name)).unwrap().len(), 22);
        assert_eq!(filled(&volume, &rename(b"A1", name)).unwrap().len(), 38);
        assert_eq!(refused(&volume, &unlink(name)), 6);
        assert_eq!(find(&volume, 0, name), Err(Refusal::NotThere));
    }
}

#[test]
fn not_there() {
    let volume = ready();
    assert_eq!(refused(&volume, &link(b"x", b"y")), 6);
    assert_eq!(refused(&volume, &link(b"x", b"x")), 6);
    assert_eq!(refused(&volume, &link(b"x", b"A1")), 6, "before 7");
    assert_eq!(refused(&volume, &unlink(b"x")), 6);
    assert_eq!(refused(&volume, &rename(b"x", b"A1")), 6);
    assert_eq!(refused(&volume, &rename(b"x", b"x")), 6);
    assert_eq!(find(&volume, 0, b"A"), Err(Refusal::NotThere));
    assert_eq!(find(&volume, 0, b"A1"), Ok(1));

    let mut buffer = [0xA7; 40];
    for inode in [0, 3, 7, 8, 256, u64::MAX, 1 << 61, (1 << 32) + 1] {
        assert_eq!(refused(&volume, &write(inode, 0, b"")), 6);
        assert_eq!(refused(&volume, &set_size(inode, 0)), 6);
        assert_eq!(size(&volume, inode), Err(Refusal::NotThere));
        let answer = read(&volume, inode, 0, &mut buffer);
        assert_eq!(answer, Err(Refusal::NotThere));
        if inode != 0 {
            assert_eq!(refused(&volume, &clean(inode)), 6);
        }
    }
    for k in [2, 3, 224, 1 << 32, u64::MAX] {
        assert_eq!(kth_name(&volume, 0, k, &mut buffer), Err(Refusal::NotThere));
    }
    assert_eq!(buffer, [0xA7; 40]);
    assert_eq!(kth_name(&volume, 0, 1, &mut buffer), Ok(2));
    assert_eq!(&buffer[..2], b"B2");
    assert_eq!(buffer[2..32], [0; 30]);
    assert_eq!(buffer[32..], [0xA7; 8]);
}

#[test]
fn taken() {
    let volume = ready();
    assert_eq!(refused(&volume, &create(b"A1")), 7);
    assert_eq!(refused(&volume, &link(b"A1", b"B2")), 7);
    assert_eq!(refused(&volume, &link(b"A1", b"A1")), 7);
}

#[test]
fn taken_before_no_inode() {
    let mut volume = formatted(16, 8);
    for number in 1..=7 {
        done(&mut volume, &create(&numbered(number)));
    }
    assert_eq!(refused(&volume, &create(&numbered(1))), 7);
    assert_eq!(refused(&volume, &create(b"x")), 10);
    done(&mut volume, &unlink(&numbered(4)));
    done(&mut volume, &create(b"x"));
    assert_eq!(find(&volume, 0, b"x"), Ok(4), "the lowest invalid inode");
}

#[test]
fn long_write_and_past_the_end() {
    let volume = ready();
    for (inode, offset, length, number) in [
        (0, u64::MAX, 4_097, 6),
        (3, u64::MAX, 4_097, 6),
        (1, u64::MAX, 4_097, 8),
        (1, 0, 4_097, 8),
        (1, 65_536, 4_097, 8),
        (1, 65_536, 1, 9),
        (1, 65_537, 0, 9),
        (1, u64::MAX, 0, 9),
        (1, u64::MAX, 1, 9),
        (1, u64::MAX - 4_095, 4_096, 9),
        (1, u64::MAX - 511, 512, 9),
        (1, 61_441, 4_096, 9),
    ] {
        assert_eq!(
            refused(&volume, &write(inode, offset, &text(length))),
            number
        );
    }
    assert_eq!(filled(&volume, &write(1, 65_536, b"")), Ok(vec![]));
    assert_eq!(filled(&volume, &write(1, 0, b"")), Ok(vec![]));
    assert!(filled(&volume, &write(1, 65_535, b"x")).is_ok());
    assert!(filled(&volume, &write(1, 61_440, &text(4_096))).is_ok());

    assert_eq!(refused(&volume, &set_size(3, u64::MAX)), 6);
    assert_eq!(refused(&volume, &set_size(1, 65_537)), 9);
    assert_eq!(refused(&volume, &set_size(1, u64::MAX)), 9);
    assert!(filled(&volume, &set_size(1, 65_536)).is_ok());
}

/// A volume with no free page: "A1" has data in all pages but the two log pages. Made by hand,
/// since create and write keep one page back.
fn full() -> Vec<u8> {
    full_with_entries(1)
}

#[test]
fn no_space() {
    let volume = full();
    assert_eq!(refused(&volume, &write(1, 0, b"x")), 12);
    assert_eq!(refused(&volume, &write(1, u64::MAX, b"x")), 9, "before 12");
    assert_eq!(refused(&volume, &set_size(1, 511)), 12);
    assert_eq!(filled(&volume, &set_size(1, 512)).unwrap().len(), 22);
    assert_eq!(filled(&volume, &set_size(1, 6_145)).unwrap().len(), 22);
    assert_eq!(refused(&volume, &clean(1)), 12);
    assert_eq!(refused(&volume, &clean(0)), 12);

    let volume = full_with_entries(7);
    assert_eq!(refused(&volume, &create(b"A1")), 7, "before 12");
    assert_eq!(refused(&volume, &link(b"L1", b"x")), 6, "before 12");
    assert_eq!(refused(&volume, &rename(b"L1", b"x")), 6, "before 12");
    assert_eq!(refused(&volume, &unlink(b"L1")), 6, "before 12");
    assert_eq!(refused(&volume, &unlink(b"A1")), 12);
}

#[test]
fn idle_calls_take_no_page() {
    let mut volume = full();
    done(&mut volume, &link(b"A1", b"also"));
    done(&mut volume, &create(b"empty"));
    for call in [
        write(1, 0, b""),
        write(1, 65_536, b""),
        set_size(1, 6_144),
        rename(b"A1", b"A1"),
        rename(b"A1", b"also"),
        clean(2),
        Call::Recover,
    ] {
        assert_eq!(filled(&volume, &call), Ok(vec![]));
    }
    assert_eq!(refused(&volume, &write(2, 0, b"x")), 12);
    assert_eq!(refused(&volume, &set_size(2, 1)), 12);
}

/// A volume with no free page whose directory has this many entries, all about "A1" and "L1". The
/// log of "A1" has two entries.
fn full_with_entries(entries: usize) -> Vec<u8> {
    let mut volume = formatted(16, 8);
    let mut names = vec![entry_add(1, b"A1")];
    let again = [entry_add(1, b"L1"), entry_remove(b"L1")];
    names.extend(again.iter().cycle().take(entries - 1));
    let directory: Vec<u64> = (2..).take(entries.div_ceil(7)).collect();
    put_log(&mut volume, 0, &directory, &names);
    let (log, data) = (2 + directory.len() as u64, 3 + directory.len() as u64);
    let count = 16 - data;
    let size = 512 * count;
    let writes = [
        entry_write(0, data, 8, 4_096),
        entry_write(8, data + 8, count - 8, size),
    ];
    put_log(&mut volume, 1, &[log], &writes);
    assert_eq!(free_count(&volume), Ok(0));
    volume
}

#[test]
fn a_log_needs_a_page() {
    for (entries, one_fits, two_fit) in [
        (2, true, true),
        (5, true, true),
        (6, true, false),
        (7, false, false),
        (8, true, true),
        (13, true, false),
        (14, false, false),
    ] {
        let volume = full_with_entries(entries);
        let one = [create(b"x"), link(b"A1", b"x"), unlink(b"A1")];
        for call in &one {
            assert_eq!(filled(&volume, call).is_ok(), one_fits);
            if !one_fits {
                assert_eq!(refused(&volume, call), 12);
            }
        }
        let call = rename(b"A1", b"x");
        assert_eq!(filled(&volume, &call).is_ok(), two_fit);
        if !two_fit {
            assert_eq!(refused(&volume, &call), 12);
        }
    }
}

/// Where no run is long enough, scattered pages will do (order 3); data and log pages together are
/// more than are free where the call is refused.
#[test]
fn data_needs_free_pages_and_then_the_log_some() {
    let mut volume = formatted(16, 8);
    done(&mut volume, &create(b"A1"));
    done(&mut volume, &create(b"B2"));
    for page in 0..5 {
        done(&mut volume, &write(1, page * 512, b"x"));
        done(&mut volume, &write(2, page * 512, b"x"));
    }
    assert_eq!(free_count(&volume), Ok(1));
    done(&mut volume, &set_size(2, 0));
    assert_eq!(free_count(&volume), Ok(6));
    let stretches = judge(&volume).unwrap().free_stretches();
    assert_eq!(stretches, [(5, 1), (8, 1), (10, 1), (12, 1), (14, 2)]);
    for pages in 1..=4 {
        assert!(filled(&volume, &write(1, 0, &text(512 * pages))).is_ok());
    }
    assert_eq!(
        refused(&volume, &write(1, 0, &text(2_560))),
        15,
        "five pages and one for the log"
    );
    assert_eq!(
        refused(&volume, &write(1, 0, &text(2_561))),
        12,
        "six pages and one for the log"
    );

    let mut volume = formatted(16, 8);
    done(&mut volume, &create(b"A1"));
    done(&mut volume, &create(b"B2"));
    done(&mut volume, &write(1, 0, &text(4_096)));
    assert_eq!(free_count(&volume), Ok(4));
    assert_eq!(
        refused(&volume, &write(2, 0, &text(2_048))),
        12,
        "no log page"
    );
    assert_eq!(refused(&volume, &write(2, 0, &text(1_536))), 15);
    assert!(filled(&volume, &write(2, 0, &text(1_024))).is_ok());
}

/// A volume of 256 inodes whose directory has so many names, each of an empty file. Made by hand,
/// since create keeps one page back.
fn with_empty_files(pages: u64, names: u64) -> Vec<u8> {
    let mut volume = formatted(pages, 256);
    let entries: Vec<[u64; 8]> = (1..=names)
        .map(|number| entry_add(number, &numbered(number)))
        .collect();
    let log: Vec<u64> = (33..).take(entries.len().div_ceil(7)).collect();
    put_log(&mut volume, 0, &log, &entries);
    for inode in 1..=names {
        put_log(&mut volume, inode, &[], &[]);
    }
    volume
}

#[test]
fn directory_full_with_many_inodes() {
    let mut volume = with_empty_files(65, 223);
    assert!(filled(&volume, &link(&numbered(1), &numbered(224))).is_ok());
    done(&mut volume, &create(&numbered(224)));
    assert_eq!(free_count(&volume), Ok(0));
    assert_eq!(refused(&volume, &create(&numbered(225))), 11, "before 12");
    assert_eq!(refused(&volume, &link(&numbered(1), b"x")), 11, "before 12");
    assert_eq!(refused(&volume, &create(&numbered(224))), 7, "before 11");
    assert_eq!(refused(&volume, &link(&numbered(1), &numbered(2))), 7);
    assert_eq!(refused(&volume, &link(b"x", b"y")), 6);
    assert_eq!(refused(&volume, &rename(&numbered(1), b"x")), 12);
    assert_eq!(refused(&volume, &unlink(&numbered(1))), 12);
    assert_eq!(find(&volume, 0, &numbered(224)), Ok(224));
    assert_eq!(kth_name(&volume, 0, 223, &mut [0; 32]), Ok(4));
    assert_eq!(
        kth_name(&volume, 0, 224, &mut [0; 32]),
        Err(Refusal::NotThere)
    );
}

#[test]
fn no_inode_before_directory_full() {
    let mut volume = formatted(64, 8);
    for number in 1..=7 {
        done(&mut volume, &create(&numbered(number)));
    }
    for number in 8..=224 {
        done(&mut volume, &link(&numbered(1), &numbered(number)));
    }
    assert_eq!(refused(&volume, &create(b"x")), 10);
    assert_eq!(refused(&volume, &link(&numbered(1), b"x")), 11);
    done(&mut volume, &rename(&numbered(3), b"x"));
    assert_eq!(refused(&volume, &link(&numbered(1), b"y")), 11);
    done(&mut volume, &rename(&numbered(4), b"x"));
    assert!(filled(&volume, &link(&numbered(1), b"y")).is_ok());
}

#[test]
fn format_limits() {
    for (pages, inodes) in [
        (16, 8),
        (16, 96),
        (17, 104),
        (36, 256),
        (4_096, 8),
        (4_096, 256),
    ] {
        let mut volume = vec![0xA7; pages as usize * 512];
        assert_eq!(format(&mut volume, pages, inodes), Ok(()));
        assert_eq!(free_count(&volume), Ok(pages - inodes / 8 - 1));
        let fixed = (inodes / 8 + 1) as usize * 512;
        assert!(volume[fixed..].iter().all(|&byte| byte == 0xA7));
    }
    for (length, pages, inodes) in [
        (15 * 512, 15, 8),
        (4_097 * 512, 4_097, 8),
        (0, 0, 8),
        (16 * 512, 16, 0),
        (16 * 512, 16, 4),
        (16 * 512, 16, 12),
        (16 * 512, 16, 104),
        (35 * 512, 35, 256),
        (64 * 512, 64, 264),
        (16 * 512 - 1, 16, 8),
        (16 * 512 + 1, 16, 8),
        (17 * 512, 16, 8),
        (16 * 512, 17, 8),
        (0, 16, 8),
        (0, 1 << 55, 8),
        (16 * 512, (1 << 55) + 16, 8),
        (16 * 512, u64::MAX, u64::MAX),
        (16 * 512, u64::MAX, 8),
        (16 * 512, 16, u64::MAX),
        (16 * 512, 16, u64::MAX - 7),
        (16 * 512, 16, (1 << 32) + 8),
    ] {
        let mut volume = vec![0xA7; length];
        assert_eq!(format(&mut volume, pages, inodes), Err(Refusal::NoVolume));
        assert_eq!(volume, vec![0xA7; length]);
    }
}

#[test]
fn bad_lists() {
    let volume = ready();
    let stored = [100, 5, FENCE, 0];
    let bad: &[(&[u64], u64)] = &[
        (&stored, 1),
        (&stored, 2),
        (&stored, 3),
        (&stored, 5),
        (&stored, 6),
        (&stored, u64::MAX),
        (&stored, u64::MAX - 1),
        (&stored, 1 << 63),
        (&[], 2),
        (&[100, 5, FENCE, 0, 1], 5),
        (&[1_024, 5, FENCE, 0], 4),
        (&[FENCE - 1, 5, FENCE, 0], 4),
        (&[1 << 61, 5, FENCE, 0], 4),
        (&[100, 5, FENCE, 1], 4),
        (&[100, 5, FENCE, 1, FENCE, 0], 6),
        (&[100, 5, FENCE, FENCE], 4),
        (&[100, 5, FENCE, 0, 101, 6], 6),
        (&[100, 5, FENCE, 0, 1_024, 6, FENCE, 0], 8),
    ];
    for &(list, count) in bad {
        let mut after = volume.clone();
        let answer = carry_out(&mut after, list, count);
        assert_eq!(answer, Err(Refusal::BadList), "{list:?} {count}");
        assert_eq!(after, volume);
    }
}

#[test]
fn good_lists() {
    let volume = ready();
    type Good = (&'static [u64], u64, &'static [(u64, u64)]);
    let good: &[Good] = &[
        (&[], 0, &[]),
        (&[FENCE, 7, 9], 0, &[]),
        (&[FENCE, 0], 2, &[]),
        (&[FENCE, 0, FENCE, 0], 4, &[]),
        (&[100, 5, FENCE, 0], 4, &[(100, 5)]),
        (&[100, 5, FENCE, 0, FENCE, 9, 1], 4, &[(100, 5)]),
        (&[1_023, 5, FENCE, 0], 4, &[(1_023, 5)]),
        (&[100, 5, 99, 4, 100, 6, FENCE, 0], 8, &[(99, 4), (100, 6)]),
        (&[100, 5, FENCE, 0, 100, 6, FENCE, 0], 8, &[(100, 6)]),
        (&[0, 9, 1, 9, 2, 9, FENCE, 0], 8, &[(0, 9), (1, 9), (2, 9)]),
    ];
    for &(list, count, stores) in good {
        let mut after = volume.clone();
        assert_eq!(carry_out(&mut after, list, count), Ok(()));
        let mut expected = volume.clone();
        for &(index, value) in stores {
            set_word(&mut expected, index, value);
        }
        assert_eq!(after, expected);
    }
}

#[test]
fn reads_of_any_length() {
    let volume = ready();
    for (offset, length, count) in [
        (0, 0, 0),
        (0, 3, 3),
        (0, 4, 4),
        (0, 9, 4),
        (1, 9, 3),
        (3, 9, 1),
        (4, 9, 0),
        (5, 9, 0),
        (65_536, 9, 0),
        (u64::MAX, 9, 0),
    ] {
        let mut buffer = vec![0xA7; length];
        assert_eq!(read(&volume, 1, offset, &mut buffer), Ok(count));
        let count = count as usize;
        let start = offset.min(4) as usize;
        assert_eq!(buffer[..count], b"abcd"[start..start + count]);
        assert!(buffer[count..].iter().all(|&byte| byte == 0xA7));
    }
}

#[test]
fn listings_of_long_volumes() {
    let largest = formatted(128, 8);
    assert_eq!(largest.len(), 65_536);
    assert_eq!(listing(&largest), b"files 0 free 126\n");
    assert_eq!(listing(&formatted(129, 8)), b"refused 2\n");
    let mut longer = largest.clone();
    longer.push(0);
    assert_eq!(listing(&longer), b"refused 2\n");

    let mut volume = formatted(16, 8);
    done(&mut volume, &create(b"a b\n\xFF"));
    done(&mut volume, &link(b"a b\n\xFF", b"z"));
    assert_eq!(listing(&volume), b"files 2 free 13\n1 0 a b\n\xFF\n1 0 z\n");
}
