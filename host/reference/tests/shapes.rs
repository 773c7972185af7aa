//! Volumes of particular shapes: long directories, logs that straddle pages, journal positions
//! that wrap, the largest file, and every way to cut a few calls.

use reference::layout::{head_word, set_word, tail_word, valid_word, word};
use reference::{
    cut, find, free_count, groups, judge, land, map_after, read, size, Call, Use, FENCE,
};
use samples::*;

/// Lands a call on a volume and checks that its map is the one after the call.
fn lands(volume: &mut [u8], call: &Call) -> u64 {
    let inodes = word(volume, 1);
    let after = map_after(&map_of(volume), inodes, call);
    let count = done(volume, call);
    assert!(!judge(volume).unwrap().journal.is_open());
    assert_eq!(map_of(volume), after);
    count
}

/// The stores of a group that fall into a page.
fn stores_in(group: &[(u64, u64)], page: u64) -> Vec<(u64, u64)> {
    let inside = |store: &&(u64, u64)| store.0 / 64 == page;
    group.iter().filter(inside).copied().collect()
}

#[test]
fn three_hundred_names_in_the_middle() {
    for standing in [0, 1, 15, 223, 224] {
        let mut volume = long_directory(standing);
        let map = map_of(&volume);
        assert_eq!(map.names(0).len() as u64, standing);
        for (number, pair) in (0..).zip(map.names(0)) {
            assert_eq!(*pair, (numbered(number), number % 15 + 1));
        }
        if standing == 224 {
            let full = link(&numbered(0), b"x");
            assert_eq!(filled(&volume, &full).unwrap_err().number(), 11);
            lands(&mut volume, &rename(&numbered(0), &numbered(200)));
        } else if standing > 0 {
            lands(&mut volume, &link(&numbered(0), b"x"));
        }
        lands(&mut volume, &clean(0));
        let entries = map_of(&volume).names(0).len();
        let pages = judge(&volume).unwrap().logs[&0].pages.len();
        assert_eq!(pages, entries.div_ceil(7));
    }
}

#[test]
fn names_of_invalid_inodes_in_the_middle() {
    let mut volume = formatted(16, 8);
    let entries = [
        entry_add(7, b"gone"),
        entry_add(1, b"A1"),
        entry_add(6, b"A1"),
        entry_add(2, b"A1"),
        entry_remove(b"gone"),
        entry_remove(b"never"),
    ];
    put_log(&mut volume, 0, &[2], &entries);
    put_log(&mut volume, 2, &[], &[]);
    assert_eq!(map_of(&volume).names(0), [(b"A1".to_vec(), 2)]);
    lands(&mut volume, &create(b"B2"));
    assert_eq!(find(&volume, 0, b"B2"), Ok(1));
}

#[test]
fn an_added_name_moves_to_the_end() {
    let mut volume = formatted(16, 8);
    for name in [b"a", b"b", b"c"] {
        lands(&mut volume, &create(name));
    }
    lands(&mut volume, &rename(b"c", b"a"));
    let names = map_of(&volume).names(0).to_vec();
    assert_eq!(names, [(b"b".to_vec(), 2), (b"a".to_vec(), 3)]);
    assert_eq!(word(&volume, valid_word(1)), 0);
}

/// A volume of 16 pages whose directory log (page 2) has this many entries; "a" is inode 1 and
/// "b" is inode 2.
fn directory_of(entries: usize) -> Vec<u8> {
    let mut volume = formatted(16, 8);
    done(&mut volume, &create(b"a"));
    done(&mut volume, &create(b"b"));
    for _ in 2..entries {
        let call = if find(&volume, 0, b"l").is_ok() {
            unlink(b"l")
        } else {
            link(b"a", b"l")
        };
        done(&mut volume, &call);
    }
    volume
}

#[test]
fn directory_log_straddles_at_384() {
    let mut volume = directory_of(6);
    assert_eq!(word(&volume, tail_word(0)), 2 * 512 + 384);
    let list = filled(&volume, &rename(b"a", b"b")).unwrap();
    assert_eq!(list.len(), 58);
    let groups = groups(&list);
    let remove = (176..184).zip([4, 0, 1, 97, 0, 0, 0, 0]);
    let left: Vec<_> = remove.chain([(184, 3)]).collect();
    assert_eq!(stores_in(&groups[0], 2), left, "remove and link");
    let add: Vec<_> = (192..200).zip([3, 1, 1, 98, 0, 0, 0, 0]).collect();
    assert_eq!(stores_in(&groups[0], 3), add);
    assert_eq!(groups[2], [(66, 3 * 512 + 64), (80, 0)]);
    lands(&mut volume, &rename(b"a", b"b"));
    assert_eq!(judge(&volume).unwrap().logs[&0].pages, [2, 3]);
    assert_eq!(map_of(&volume).files.len(), 1);
}

#[test]
fn directory_log_goes_on_at_448() {
    let mut volume = directory_of(7);
    assert_eq!(word(&volume, tail_word(0)), 2 * 512 + 448);
    let list = filled(&volume, &rename(b"a", b"x")).unwrap();
    let groups = groups(&list);
    assert_eq!(list.len(), 40, "16 entry words, the link, the tail");
    assert_eq!(stores_in(&groups[0], 2), [(184, 3)]);
    assert_eq!(stores_in(&groups[0], 3).len(), 16);
    assert_eq!(groups[1], [(66, 3 * 512 + 128)]);
    assert_eq!(filled(&volume, &link(b"a", b"y")).unwrap().len(), 24);
    lands(&mut volume, &rename(b"a", b"x"));
    lands(&mut volume, &unlink(b"x"));
}

#[test]
fn a_log_page_below_the_page_left_behind() {
    let mut volume = formatted(16, 8);
    put_log(&mut volume, 0, &[15], &[entry_remove(b"x"); 7]);
    lands(&mut volume, &create(b"a"));
    assert_eq!(judge(&volume).unwrap().logs[&0].pages, [15, 2]);
    lands(&mut volume, &write(1, 0, b"text"));
    let judged = judge(&volume).unwrap();
    assert_eq!(judged.files[&1].data_page(0), Some(3));
    assert_eq!(judged.logs[&1].pages, [4]);
}

#[test]
fn a_log_page_below_the_data_run() {
    let mut volume = formatted(24, 8);
    for name in [b"a", b"b", b"c"] {
        lands(&mut volume, &create(name));
    }
    lands(&mut volume, &write(1, 0, b"x"));
    lands(&mut volume, &write(2, 0, b"x"));
    assert_eq!(
        judge(&volume).unwrap().uses[3],
        Use::Data {
            inode: 1,
            file_page: 0
        }
    );
    lands(&mut volume, &set_size(1, 0));
    lands(&mut volume, &write(3, 0, &text(1_024)));
    let judged = judge(&volume).unwrap();
    assert_eq!(judged.logs[&3].pages, [3], "the page that was let go");
    assert_eq!(judged.files[&3].data_page(0), Some(7));
}

/// A file's log with this many entries, then a set size inside its mapped page.
#[test]
fn file_logs_straddle() {
    for entries in 1..=15 {
        let mut volume = formatted(40, 8);
        lands(&mut volume, &create(b"a"));
        for number in 0..entries {
            lands(&mut volume, &write(1, 0, &text(300 + number)));
        }
        let tail = word(&volume, tail_word(1));
        let count = lands(&mut volume, &set_size(1, 200));
        let judged = judge(&volume).unwrap();
        let new_page = matches!(tail % 512, 384 | 448);
        assert_eq!(count, if new_page { 168 } else { 166 });
        assert_eq!(judged.logs[&1].pages.len(), (entries + 2).div_ceil(7));
        if new_page {
            let data = judged.files[&1].data_page(0).unwrap();
            assert!(data < *judged.logs[&1].pages.last().unwrap(), "data first");
        }
        let mut buffer = [9; 201];
        assert_eq!(read(&volume, 1, 0, &mut buffer), Ok(200));
        assert_eq!(buffer[..200], text(200));
        assert_eq!(buffer[200], 9);
    }
}

#[test]
fn set_size_inside_a_page() {
    let mut volume = formatted(32, 8);
    lands(&mut volume, &create(b"a"));
    lands(&mut volume, &write(1, 0, &text(1_500)));
    assert_eq!(lands(&mut volume, &set_size(1, 1_499)), 166);
    assert_eq!(lands(&mut volume, &set_size(1, 1_024)), 22, "at its start");
    assert_eq!(lands(&mut volume, &set_size(1, 2_000)), 22, "longer");
    assert_eq!(lands(&mut volume, &set_size(1, 1_900)), 22, "not mapped");
    assert_eq!(lands(&mut volume, &set_size(1, 1_900)), 0, "equal");
    assert_eq!(lands(&mut volume, &set_size(1, 1)), 168, "a new log page");
    assert_eq!(lands(&mut volume, &set_size(1, 600)), 22);
    assert_eq!(lands(&mut volume, &set_size(1, 300)), 166, "zero already");
    assert_eq!(lands(&mut volume, &set_size(1, 0)), 22);
    assert_eq!(judge(&volume).unwrap().files[&1].mapped().count(), 0);
}

#[test]
fn cut_and_lengthened_bytes_are_zeros() {
    let mut volume = formatted(32, 8);
    lands(&mut volume, &create(b"a"));
    lands(&mut volume, &write(1, 0, &text(2_000)));
    lands(&mut volume, &set_size(1, 700));
    lands(&mut volume, &set_size(1, 2_000));
    lands(&mut volume, &clean(1));
    let mut expected = text(700);
    expected.resize(2_000, 0);
    assert_eq!(map_of(&volume).files[&1], expected);
    assert_eq!(lands(&mut volume, &write(1, 2_600, b"end")), 150);
    assert_eq!(size(&volume, 1), Ok(2_603));
}

#[test]
fn the_largest_file() {
    let mut volume = formatted(300, 8);
    lands(&mut volume, &create(b"a"));
    let bytes = text(65_536);
    for (part, offset) in bytes.chunks(4_096).zip((0..).step_by(4_096)) {
        lands(&mut volume, &write(1, offset, part));
    }
    assert_eq!(size(&volume, 1), Ok(65_536));
    let mut buffer = vec![0; 70_000];
    assert_eq!(read(&volume, 1, 0, &mut buffer), Ok(65_536));
    assert_eq!(buffer[..65_536], bytes);
    assert_eq!(read(&volume, 1, 65_535, &mut buffer), Ok(1));
    assert_eq!(lands(&mut volume, &set_size(1, 65_535)), 166);
    assert_eq!(lands(&mut volume, &set_size(1, 65_536)), 22);
    assert_eq!(lands(&mut volume, &write(1, 61_439, &text(4_096))), 1_174);
    lands(&mut volume, &clean(1));
    lands(&mut volume, &set_size(1, 0));
    lands(&mut volume, &set_size(1, 65_536));
    assert_eq!(map_of(&volume).files[&1], vec![0; 65_536]);
    assert_eq!(lands(&mut volume, &clean(1)), 40, "one kind 2");
}

/// The longest of a write that finds a run; tests/scattered.rs has the longest of all.
#[test]
fn the_longest_write_into_a_run() {
    let mut volume = formatted(64, 8);
    lands(&mut volume, &create(b"a"));
    assert_eq!(lands(&mut volume, &write(1, 511, &text(4_096))), 1_176);
}

#[test]
fn the_longest_clean_of_a_file() {
    let mut volume = formatted(300, 8);
    put_log(&mut volume, 0, &[2], &[entry_add(1, b"a")]);
    let entries: Vec<_> = (0..128)
        .map(|page| entry_write(page, 299 - page, 1, 65_536))
        .collect();
    let pages: Vec<u64> = (3..3 + 19).collect();
    put_log(&mut volume, 1, &pages, &entries);
    assert_eq!(lands(&mut volume, &clean(1)), 2_108);
    assert_eq!(lands(&mut volume, &clean(1)), 2_108, "a clean log again");
    let judged = judge(&volume).unwrap();
    assert_eq!(judged.logs[&1].pages, pages, "the lowest free pages");
}

#[test]
fn clean_joins_stretches() {
    let mut volume = formatted(40, 8);
    let entries = [
        entry_write(0, 10, 2, 512 * 9),
        entry_write(2, 12, 1, 512 * 9),
        entry_write(4, 13, 1, 512 * 9),
        entry_write(5, 20, 2, 512 * 9),
        entry_write(7, 30, 2, 512 * 9),
        entry_write(6, 15, 1, 512 * 9),
    ];
    put_log(&mut volume, 0, &[2], &[entry_add(1, b"a")]);
    put_log(&mut volume, 1, &[3], &entries);
    lands(&mut volume, &clean(1));
    let expected = [
        entry_write(0, 10, 3, 512 * 9),
        entry_write(4, 13, 1, 512 * 9),
        entry_write(5, 20, 1, 512 * 9),
        entry_write(6, 15, 1, 512 * 9),
        entry_write(7, 30, 2, 512 * 9),
    ];
    assert_eq!(words(&volume, 4 * 64..4 * 64 + 40), expected.concat());
    assert_eq!(word(&volume, tail_word(1)), 4 * 512 + 5 * 64);
}

#[test]
fn clean_of_a_directory_of_224_names() {
    let mut volume = formatted(100, 256);
    for number in 0..224 {
        lands(&mut volume, &create(&numbered(number)));
    }
    assert_eq!(free_count(&volume), Ok(100 - 33 - 32));
    assert_eq!(lands(&mut volume, &clean(0)), 3_670);
    let judged = judge(&volume).unwrap();
    assert_eq!(judged.logs[&0].pages, (65..97).collect::<Vec<_>>());
    assert_eq!(word(&volume, tail_word(0)), 96 * 512 + 448);
    assert_eq!(lands(&mut volume, &clean(0)), 3_670);
    assert_eq!(word(&volume, head_word(0)), 33);
}

#[test]
fn clean_of_empty_logs() {
    let mut volume = formatted(16, 8);
    assert_eq!(lands(&mut volume, &clean(0)), 0);
    lands(&mut volume, &create(b"a"));
    assert_eq!(lands(&mut volume, &clean(1)), 0);
    lands(&mut volume, &write(1, 0, &text(4_096)));
    lands(&mut volume, &write(1, 4_096, &text(1_536)));
    assert_eq!(free_count(&volume), Ok(1));
    lands(&mut volume, &set_size(1, 0));
    assert_eq!(lands(&mut volume, &clean(1)), 24, "to nothing");
    assert_eq!(words(&volume, head_word(1)..tail_word(1) + 1), [0, 0]);
    lands(&mut volume, &unlink(b"a"));
    assert_eq!(lands(&mut volume, &clean(0)), 24);
    assert_eq!(free_count(&volume), Ok(14));
    assert_eq!(lands(&mut volume, &clean(0)), 0);
}

#[test]
fn clean_to_nothing_on_a_full_volume() {
    let mut volume = formatted(16, 8);
    let pages: Vec<u64> = (2..16).collect();
    put_log(&mut volume, 0, &pages, &[entry_remove(b"x"); 14 * 7]);
    assert_eq!(free_count(&volume), Ok(0));
    assert_eq!(lands(&mut volume, &clean(0)), 24);
    assert_eq!(free_count(&volume), Ok(14));
}

#[test]
fn create_does_not_revive_a_dead_log() {
    let mut volume = formatted(16, 8);
    lands(&mut volume, &create(b"a"));
    lands(&mut volume, &write(1, 0, b"old"));
    lands(&mut volume, &unlink(b"a"));
    assert_ne!(word(&volume, tail_word(1)), 0);
    lands(&mut volume, &create(b"b"));
    assert_eq!(find(&volume, 0, b"b"), Ok(1));
    assert_eq!(size(&volume, 1), Ok(0));
}

#[test]
fn unlink_and_rename_with_more_names() {
    let mut volume = formatted(16, 8);
    lands(&mut volume, &create(b"a"));
    assert_eq!(lands(&mut volume, &link(b"a", b"b")), 22);
    lands(&mut volume, &create(b"c"));
    assert_eq!(
        lands(&mut volume, &rename(b"c", b"b")),
        38,
        "a keeps inode 1"
    );
    assert_eq!(lands(&mut volume, &link(b"a", b"d")), 22);
    assert_eq!(lands(&mut volume, &unlink(b"a")), 22, "d keeps inode 1");
    assert_eq!(lands(&mut volume, &unlink(b"d")), 42, "a new log page");
    assert_eq!(map_of(&volume).names(0), [(b"b".to_vec(), 2)]);
}

#[test]
fn journal_positions_wrap() {
    for start in 0..16 {
        let mut volume = formatted(16, 8);
        set_word(&mut volume, 8, start);
        set_word(&mut volume, 9, start);
        let list = filled(&volume, &create(b"A1")).unwrap();
        assert_eq!(list.len(), 48);
        let end = (start + 2) % 16;
        let groups = groups(&list);
        let mut pairs = vec![(16 + 2 * start, 66), (17 + 2 * start, 0)];
        let second = (start + 1) % 16;
        pairs.extend([(16 + 2 * second, 72), (17 + 2 * second, 0)]);
        pairs.sort();
        assert_eq!(groups[0][..4], pairs);
        assert_eq!(groups[1], [(9, end)]);
        assert_eq!(groups[3], [(8, end)]);

        let before = map_of(&volume);
        let mut broken = volume.clone();
        cut(&mut broken, &list, 2, |index| index == 72);
        assert_eq!(map_of(&broken), before);
        let recovery = filled(&broken, &Call::Recover).unwrap();
        assert_eq!(recovery, [66, 0, 72, 0, FENCE, 0, 8, end, FENCE, 0]);
        lands(&mut broken, &Call::Recover);
        lands(&mut volume, &create(b"A1"));
    }
}

#[test]
fn recovery_of_four_entries_is_listed_by_target() {
    let mut volume = formatted(16, 8);
    done(&mut volume, &create(b"a"));
    set_word(&mut volume, 8, 14);
    set_word(&mut volume, 9, 2);
    for (position, target) in [(14, 74), (15, 66), (0, 72), (1, 65)] {
        set_word(&mut volume, 16 + 2 * position, target);
        let old = word(&volume, target);
        set_word(&mut volume, 17 + 2 * position, old);
        set_word(&mut volume, target, 77_777);
    }
    let list = filled(&volume, &Call::Recover).unwrap();
    let values = [65, 2, 66, 1_088, 72, 1, 74, 0, FENCE, 0, 8, 2, FENCE, 0];
    assert_eq!(list, values);
    assert_eq!(lands(&mut volume, &Call::Recover), 14);
    assert_eq!(find(&volume, 0, b"a"), Ok(1));
}

/// Cuts a call in every group, keeping every set of words that the group has.
fn every_cut(volume: &[u8], call: &Call) {
    let list = filled(volume, call).unwrap();
    let before = map_of(volume);
    let after = map_after(&before, word(volume, 1), call);
    for (number, group) in groups(&list).iter().enumerate() {
        assert!(group.len() <= 16);
        for kept in 0_u32..1 << group.len() {
            let mut broken = volume.to_vec();
            cut(&mut broken, &list, number, |index| {
                let place = group.iter().position(|store| store.0 == index);
                kept >> place.unwrap() & 1 == 1
            });
            let map = map_of(&broken);
            assert!(map == before || map == after);
            if judge(&broken).unwrap().journal.is_open() {
                assert_eq!(map, before);
            }
        }
    }
}

#[test]
fn every_cut_of_short_calls() {
    let mut volume = formatted(16, 8);
    every_cut(&volume, &create(b"a"));
    done(&mut volume, &create(b"a"));
    every_cut(&volume, &link(b"a", b"b"));
    every_cut(&volume, &unlink(b"a"));
    every_cut(&volume, &set_size(1, 9));
    done(&mut volume, &set_size(1, 9));
    every_cut(&volume, &clean(1));
    every_cut(&volume, &clean(0));
    let list = filled(&volume, &unlink(b"a")).unwrap();
    cut(&mut volume, &list, 2, |index| index == 66);
    every_cut(&volume, &Call::Recover);
}

#[test]
fn groups_of_any_words() {
    assert!(groups(&[]).is_empty());
    assert_eq!(groups(&[1, 2, 3]), [[(1, 2)]]);
    assert_eq!(groups(&[FENCE, 0, 5, 6]), [vec![], vec![(5, 6)]]);
    let mut volume = formatted(16, 8);
    let before = volume.clone();
    land(&mut volume, &[1 << 61, 1, 1_024, 1, FENCE - 1, 1]);
    assert_eq!(volume, before, "words past the end are not stored");
}
