//! Folders (order 6 of document 02): the order's sentences and the readings by hand, and on every
//! sample what follows from them.

mod need;

use need::refused_for_pages;
use reference::layout::{set_word, tail_word, type_word, valid_word, word};
use reference::{
    carry_out, cut, examine, find, free_count, groups, judge, kth_name, land, listing, map,
    map_after, read, refused_by_map, size, total, Call, Damage, Fault, FileMap, Refusal, FENCE,
};
use samples::*;
use std::collections::BTreeMap;

/// The count of words that a call fills, or the refusal's number.
fn answer(volume: &[u8], call: &Call) -> Result<usize, u64> {
    let list = filled(volume, call).map_err(|refusal| refusal.number())?;
    Ok(list.len())
}

/// Checks the answers of calls, each on the volume as it is.
fn check_answers(volume: &[u8], rows: &[(Call, Result<usize, u64>)]) {
    for (call, expected) in rows {
        assert_eq!(answer(volume, call), *expected, "{call:?}");
    }
}

/// P = 24, N = 16. In inode 0 stand the folders "f" (1) and "g" (2), which is empty, and the file "a"
/// (4) of 70 bytes; in "f" the folder "sub" (3), which is empty, the file "b" (5) of 8 bytes and "c",
/// another name of "a".
fn small() -> Vec<u8> {
    let mut tree = Tree::default();
    tree.folder(0, b"f", 1);
    tree.folder(0, b"g", 2);
    tree.folder(1, b"sub", 3);
    tree.file(0, b"a", 4, 70);
    tree.file(1, b"b", 5, 8);
    tree.name(1, b"c", 4);
    tree.volume(24, 16)
}

/// The names of a folder, in list order.
fn names(volume: &[u8], folder: u64) -> Vec<(String, u64)> {
    let map = map_of(volume);
    let text = |name: &[u8]| String::from_utf8(name.to_vec()).expect("the name is text");
    let names = map.names(folder).iter();
    names.map(|(name, inode)| (text(name), *inode)).collect()
}

/// "Every create, of a file or a folder, stores the type in its first group, so case B's list has 48
/// words."
#[test]
fn create_stores_the_type() {
    for (call, kind) in [(create(b"A1"), 0), (create_folder(0, b"A1"), 1)] {
        let mut volume = formatted(16, 8);
        set_word(&mut volume, type_word(1), 77);
        let list = filled(&volume, &call).unwrap();
        assert_eq!(list.len(), 48);
        let groups = groups(&list);
        let first = [
            (16, 66),
            (17, 0),
            (18, 72),
            (19, 0),
            (65, 2),
            (73, 0),
            (74, 0),
            (75, kind),
        ];
        assert_eq!(groups[0][..8], first);
        assert_eq!(
            groups[1..],
            [vec![(9, 2)], vec![(66, 1_088), (72, 1)], vec![(8, 2)]]
        );
        land(&mut volume, &list);
        assert_eq!(word(&volume, 75), kind);
    }
}

/// "Type left out of create's first group: a freed folder's inode becomes a folder again."
#[test]
fn a_freed_inode_gets_a_new_type() {
    let mut volume = formatted(16, 8);
    done(&mut volume, &create_folder(0, b"x"));
    done(&mut volume, &create_in(1, b"y"));
    done(&mut volume, &unlink_in(1, b"y"));
    done(&mut volume, &unlink(b"x"));
    assert_eq!(word(&volume, type_word(1)), 1);
    done(&mut volume, &create(b"x"));
    assert_eq!(find(&volume, 0, b"x"), Ok(1));
    assert_eq!(size(&volume, 1), Ok(0));
    done(&mut volume, &unlink(b"x"));
    done(&mut volume, &create_folder(0, b"x"));
    assert_eq!(
        kth_name(&volume, 1, 0, &mut [0; 32]),
        Err(Refusal::NotThere)
    );
    assert_eq!(size(&volume, 1), Err(Refusal::WrongType));
}

/// "Calls by name and k-th name take the folder's inode too".
#[test]
fn calls_by_folder() {
    let mut volume = small();
    assert_eq!(find(&volume, 0, b"f"), Ok(1));
    assert_eq!(find(&volume, 1, b"b"), Ok(5));
    assert_eq!(find(&volume, 0, b"b"), Err(Refusal::NotThere));
    let mut buffer = [7; 33];
    assert_eq!(kth_name(&volume, 1, 0, &mut buffer), Ok(3));
    assert_eq!((&buffer[..3], buffer[3], buffer[32]), (&b"sub"[..], 0, 7));
    assert_eq!(kth_name(&volume, 1, 2, &mut buffer), Ok(1));
    assert_eq!(kth_name(&volume, 1, 3, &mut buffer), Err(Refusal::NotThere));
    assert_eq!(done(&mut volume, &create_in(3, b"deep")), 48);
    assert_eq!(find(&volume, 3, b"deep"), Ok(6));
    assert_eq!(done(&mut volume, &create_in(1, b"a")), 46);
    assert_eq!(
        [find(&volume, 0, b"a"), find(&volume, 1, b"a")],
        [Ok(4), Ok(7)]
    );
    assert_eq!(done(&mut volume, &link_in(1, b"b", 2, b"b")), 24);
    assert_eq!(done(&mut volume, &unlink_in(1, b"b")), 22, "a name is left");
    assert_eq!(done(&mut volume, &unlink_in(2, b"b")), 40);
    assert_eq!(size(&volume, 5), Err(Refusal::NotThere));
    assert_eq!(names(&volume, 2), []);
}

/// "Where a folder is taken, 6 no longer covers inode 0": where a file is wanted it still does.
#[test]
fn files_and_folders_wanted() {
    let volume = small();
    let mut buffer = [7; 40];
    for (inode, number) in [
        (0, 6),
        (1, 16),
        (2, 16),
        (3, 16),
        (6, 6),
        (16, 6),
        (u64::MAX, 6),
    ] {
        check_answers(
            &volume,
            &[
                (write(inode, u64::MAX, &text(4_097)), Err(number)),
                (write(inode, 0, b""), Err(number)),
                (set_size(inode, u64::MAX), Err(number)),
            ],
        );
        let refusal = Refusal::with_number(number).unwrap();
        assert_eq!(size(&volume, inode), Err(refusal));
        assert_eq!(read(&volume, inode, 0, &mut buffer), Err(refusal));
    }
    for (inode, number) in [(4, 16), (5, 16), (6, 6), (16, 6), (u64::MAX, 6)] {
        let refusal = Refusal::with_number(number).unwrap();
        assert_eq!(find(&volume, inode, b"a"), Err(refusal));
        assert_eq!(find(&volume, inode, b"absent"), Err(refusal));
        assert_eq!(find(&volume, inode, b"/"), Err(Refusal::BadName), "5 first");
        assert_eq!(kth_name(&volume, inode, 0, &mut buffer), Err(refusal));
        assert_eq!(
            kth_name(&volume, inode, u64::MAX, &mut buffer),
            Err(refusal)
        );
        assert_eq!(
            kth_name(&volume, inode, 0, &mut buffer[..31]),
            Err(Refusal::ShortMemory)
        );
        assert_eq!(total(&volume, inode), Err(refusal));
        check_answers(
            &volume,
            &[
                (create_in(inode, b"a"), Err(number)),
                (create_folder(inode, b"new"), Err(number)),
                (create_folder(inode, b".."), Err(5)),
                (unlink_in(inode, b"a"), Err(number)),
                (unlink_in(inode, b""), Err(5)),
                (link_in(inode, b"a", 2, b"new"), Err(number)),
                (link_in(0, b"a", inode, b"new"), Err(number)),
                (rename_in(inode, b"a", 2, b"new"), Err(number)),
                (rename_in(0, b"a", inode, b"new"), Err(number)),
                (rename_in(inode, b"a", inode, b"a"), Err(number)),
                (rename_in(inode, b"a", inode, b"."), Err(5)),
            ],
        );
    }
    assert_eq!(buffer, [7; 40]);
}

/// "A file given as folder: 5 first, 6 for the other folder or name, 7 for link's new name in a real
/// folder, then 16."
#[test]
fn a_file_given_as_folder() {
    check_answers(
        &small(),
        &[
            (link_in(4, b"x", 9, b"new"), Err(6)),
            (link_in(9, b"x", 4, b"new"), Err(6)),
            (link_in(0, b"absent", 4, b"new"), Err(6)),
            (link_in(4, b"x", 0, b"a"), Err(7)),
            (link_in(4, b"x", 1, b"sub"), Err(7)),
            (link_in(4, b"x", 4, b"x"), Err(16)),
            (link_in(0, b"f", 4, b"x"), Err(16)),
            (rename_in(4, b"x", 9, b"new"), Err(6)),
            (rename_in(0, b"absent", 4, b"new"), Err(6)),
            (rename_in(4, b"x", 0, b"a"), Err(16)),
            (rename_in(4, b"x", 4, b"x"), Err(16)),
            (rename_in(4, b"x", 5, b"x"), Err(16)),
            (rename_in(0, b"f", 4, b"x"), Err(16)),
        ],
    );
}

/// 16 for folders: "a link to a folder, or a rename onto an existing folder or of a folder onto any
/// standing name"; "Names leading to one inode still change nothing, before the new checks."
#[test]
fn folders_in_link_and_rename() {
    check_answers(
        &small(),
        &[
            (link_in(0, b"f", 0, b"new"), Err(16)),
            (link_in(0, b"f", 0, b"f"), Err(7)),
            (link_in(0, b"f", 0, b"g"), Err(7)),
            (link_in(1, b"sub", 2, b"new"), Err(16)),
            (rename_in(0, b"f", 0, b"f"), Ok(0)),
            (rename_in(1, b"sub", 1, b"sub"), Ok(0)),
            (rename_in(1, b"c", 0, b"a"), Ok(0)),
            (rename_in(0, b"a", 1, b"c"), Ok(0)),
            (rename_in(0, b"a", 0, b"g"), Err(16)),
            (rename_in(0, b"g", 0, b"a"), Err(16)),
            (rename_in(0, b"g", 0, b"f"), Err(16)),
            (rename_in(0, b"g", 1, b"b"), Err(16)),
            (rename_in(0, b"f", 1, b"b"), Err(16)),
            (rename_in(0, b"f", 1, b"sub"), Err(16)),
            (rename_in(0, b"g", 0, b"new"), Ok(38)),
            (rename_in(1, b"sub", 1, b"new"), Ok(38)),
        ],
    );
}

/// 18: "the new folder is the moved folder or lies beneath it; a standing new name is 16 first; 18
/// before 11."
#[test]
fn a_move_into_itself() {
    check_answers(
        &small(),
        &[
            (rename_in(0, b"f", 1, b"new"), Err(18)),
            (rename_in(0, b"f", 3, b"new"), Err(18)),
            (rename_in(0, b"f", 1, b"c"), Err(16)),
            (rename_in(0, b"f", 2, b"new"), Ok(58)),
            (rename_in(1, b"sub", 3, b"new"), Err(18)),
            (rename_in(1, b"sub", 2, b"new"), Ok(58)),
            (rename_in(1, b"sub", 0, b"new"), Ok(56)),
            (rename_in(0, b"g", 3, b"new"), Ok(58)),
        ],
    );
    for sample in full_folders() {
        let names = map_of(&sample.volume).names(1).len();
        let full = |words| if names == 224 { Err(11) } else { Ok(words) };
        let onto = if names == 224 { 58 } else { 56 };
        check_answers(
            &sample.volume,
            &[
                (rename_in(0, b"f", 1, b"new"), Err(18)),
                (rename_in(0, b"f", 2, b"new"), Err(18)),
                (rename_in(0, b"g", 1, &numbered(1)), Err(16)),
                (rename_in(0, b"a", 1, &numbered(1)), Ok(onto)),
                (rename_in(1, &numbered(1), 1, b"new"), Ok(40)),
                (rename_in(0, b"a", 1, b"new"), full(56)),
                (rename_in(0, b"g", 1, b"new"), full(56)),
                (link_in(0, b"a", 1, b"new"), full(22)),
                (link_in(0, b"g", 1, b"new"), Err(16)),
            ],
        );
    }
}

/// 17: "unlinking a folder that has names"; an emptied one has a log and may go.
#[test]
fn unlink_of_folders() {
    let mut volume = small();
    check_answers(
        &volume,
        &[
            (unlink(b"f"), Err(17)),
            (unlink(b"g"), Ok(40)),
            (unlink_in(1, b"sub"), Ok(40)),
        ],
    );
    for name in [&b"sub"[..], b"b", b"c"] {
        done(&mut volume, &unlink_in(1, name));
    }
    assert_eq!(names(&volume, 1), []);
    assert_ne!(word(&volume, tail_word(1)), 0);
    let free = free_count(&volume).unwrap();
    let list = filled(&volume, &unlink(b"f")).unwrap();
    assert_eq!(groups(&list)[2], [(66, word(&volume, 66) + 64), (72, 0)]);
    land(&mut volume, &list);
    assert_eq!(
        names(&volume, 0),
        [("g".to_string(), 2), ("a".to_string(), 4)]
    );
    assert_eq!(free_count(&volume), Ok(free + 1));
}

/// "the bytes beneath a folder are the sum over its names, where a file counts its size once for each
/// name and a folder counts what lies beneath it." "The program lists inode 0's names; a folder's size
/// there is its total."
#[test]
fn totals() {
    let mut volume = small();
    let expected = [(0, 148), (1, 78), (2, 0), (3, 0)];
    for (folder, bytes) in expected {
        assert_eq!(total(&volume, folder), Ok(bytes));
        assert_eq!(map_of(&volume).total(folder), bytes);
    }
    assert_eq!(
        listing(&volume),
        b"files 3 free 17\n1 78 f\n2 0 g\n4 70 a\n"
    );
    done(&mut volume, &link_in(1, b"b", 3, b"b"));
    done(&mut volume, &set_size(5, 65_536));
    assert_eq!(total(&volume, 0), Ok(70 + 70 + 2 * 65_536));
    done(&mut volume, &rename_in(0, b"f", 2, b"f"));
    assert_eq!(total(&volume, 2), Ok(70 + 2 * 65_536));
    assert_eq!(total(&volume, 1), total(&volume, 2));
    open_journal(&mut volume, 3, &[(valid_word(1), 1)]);
    assert_eq!(total(&volume, 0), Err(Refusal::JournalOpen));
    assert_eq!(total(&volume[1..], 0), Err(Refusal::NoVolume));
}

/// "journals the two tails, the source folder first in both, and then the valid word of a file that
/// loses its last name": the whole list of a move with three targets, at every position.
#[test]
fn the_list_of_a_move() {
    for position in 0..16 {
        let mut tree = Tree::default();
        tree.folder(0, b"t", 1);
        tree.folder(0, b"s", 2);
        tree.file(2, b"a", 3, 0);
        tree.file(1, b"b", 4, 0);
        tree.fill_up(1, 7);
        tree.fill_up(2, 7);
        let mut volume = tree.volume(16, 8); // logs: inode 0 in page 2, 1 in 3, 2 in 4
        for index in [8, 9] {
            set_word(&mut volume, index, position);
        }
        let call = rename_in(2, b"a", 1, b"b");
        let list = filled(&volume, &call).unwrap();
        assert_eq!(list.len(), 66);
        let at = |steps: u64| (position + steps) % 16;
        let tails = [3, 4].map(|page| page * 512 + 448);
        let mut first = vec![
            (16 + 2 * at(0), tail_word(2)),
            (17 + 2 * at(0), tails[1]),
            (16 + 2 * at(1), tail_word(1)),
            (17 + 2 * at(1), tails[0]),
            (16 + 2 * at(2), valid_word(4)),
            (17 + 2 * at(2), 1),
            (3 * 64 + 56, 6),
            (4 * 64 + 56, 5),
        ];
        first.extend((5 * 64..).zip(entry_remove(b"a")));
        first.extend((6 * 64..).zip(entry_add(3, b"b")));
        first.sort_unstable();
        let targets = vec![
            (tail_word(1), 6 * 512 + 64),
            (tail_word(2), 5 * 512 + 64),
            (valid_word(4), 0),
        ];
        let end = at(3);
        assert_eq!(
            groups(&list),
            [first, vec![(9, end)], targets, vec![(8, end)]]
        );
        let mut broken = volume.clone();
        cut(&mut broken, &list, 2, |index| index == tail_word(2));
        assert_eq!(map_of(&broken), map_of(&volume));
        let recovery = filled(&broken, &Call::Recover).unwrap();
        assert_eq!(recovery.len(), 12);
        assert_eq!(recovery[8..], [8, end, FENCE, 0]);
        land(&mut volume, &list);
        assert_eq!(names(&volume, 1), [("b".to_string(), 3)]);
        assert_eq!(names(&volume, 2), []);
    }
}

/// A move whose logs have room is journalled all the same, with two targets or with three. A file's
/// names are counted over all folders.
#[test]
fn displaced_files() {
    let mut tree = Tree::default();
    tree.folder(0, b"s", 1);
    tree.folder(0, b"d", 2);
    tree.file(1, b"a", 3, 5);
    tree.file(2, b"last", 4, 6);
    tree.file(2, b"other", 5, 7);
    tree.name(0, b"other", 5);
    tree.name(2, b"also a", 3);
    tree.name(1, b"twice", 4);
    let volume = tree.volume(20, 8);
    check_answers(
        &volume,
        &[
            (rename_in(1, b"a", 2, b"new"), Ok(56)),
            (rename_in(1, b"a", 2, b"last"), Ok(56)),
            (rename_in(1, b"a", 2, b"other"), Ok(56)),
            (rename_in(1, b"a", 2, b"also a"), Ok(0)),
        ],
    );
    let mut volume = volume;
    done(&mut volume, &unlink_in(1, b"twice"));
    assert_eq!(done(&mut volume, &rename_in(1, b"a", 2, b"last")), 62);
    assert_eq!(size(&volume, 4), Err(Refusal::NotThere));
    assert_eq!(
        names(&volume, 2),
        [
            ("other".to_string(), 5),
            ("also a".to_string(), 3),
            ("last".to_string(), 3)
        ]
    );
    assert_eq!(names(&volume, 1), []);
}

/// Need and free pages of a move: 12 where the two logs want more pages than are free; a move may take
/// the last one, and 15 never applies to it.
#[test]
fn pages_of_a_move() {
    for (source, target, need) in [
        (3, 3, 0),
        (7, 3, 1),
        (3, 7, 1),
        (3, 0, 1),
        (7, 7, 2),
        (7, 0, 2),
    ] {
        for free in 0..=3 {
            let made = Move {
                source,
                target,
                free,
                position: 14,
            };
            let mut volume = made.volume(&mut Random::new(free));
            let call = rename_in(1, b"a", 2, b"new");
            let words = 56 + 2 * need as usize;
            let expected = if need > free { Err(12) } else { Ok(words) };
            assert_eq!(answer(&volume, &call), expected, "{made:?}");
            if need <= free {
                done(&mut volume, &call);
                assert_eq!(free_count(&volume), Ok(free - need), "{made:?}");
            }
        }
    }
}

/// Every damaged sample is damaged, for the reason that it names, to every call.
#[test]
fn damaged_samples() {
    let mut counts: BTreeMap<String, u64> = BTreeMap::new();
    for DamagedFolders {
        title,
        volume,
        damage,
    } in damaged_folders()
    {
        match examine(&volume) {
            Err(Fault::Damaged { damage: found, .. }) => assert_eq!(found, damage, "{title}"),
            other => panic!("{title}{other:?}"),
        }
        for call in any_calls(&mut Random::new(1)) {
            assert_eq!(answer(&volume, &call), Err(3), "{title}{call:?}");
        }
        assert_eq!(total(&volume, 0), Err(Refusal::Damaged), "{title}");
        assert_eq!(find(&volume, 1, b"a"), Err(Refusal::Damaged), "{title}");
        assert_eq!(listing(&volume), b"refused 3\n", "{title}");
        let kind = match damage {
            Damage::Names(wrong) => format!("{wrong:?}"),
            other => format!("{other:?}"),
        };
        let word = kind.split([' ', '(']).next().unwrap_or_default();
        *counts.entry(word.to_string()).or_default() += 1;
    }
    for word in [
        "NotReached",
        "NotOneName",
        "NoFile",
        "NoName",
        "Many",
        "Type",
        "Entry",
        "Journal",
    ] {
        assert!(counts.contains_key(word), "{word}: {counts:?}");
    }
}

/// Checks what the reading calls say of every folder and every file.
fn check_readings(volume: &[u8], map: &FileMap, title: &str) {
    let inodes = word(volume, 1);
    for inode in 0..inodes + 2 {
        let folder_refusal = match (map.is_folder(inode), map.files.contains_key(&inode)) {
            (true, _) => None,
            (false, true) => Some(Refusal::WrongType),
            (false, false) => Some(Refusal::NotThere),
        };
        let expected = folder_refusal.map_or(Ok(map.total(inode)), Err);
        assert_eq!(total(volume, inode), expected, "{title}{inode}");
        let file = match map.files.get(&inode) {
            Some(bytes) => Ok(bytes.len() as u64),
            None if inode != 0 && map.is_folder(inode) => Err(Refusal::WrongType),
            None => Err(Refusal::NotThere),
        };
        assert_eq!(size(volume, inode), file, "{title}{inode}");
        let last = map.names(inode).last();
        let k = map.names(inode).len() as u64;
        let none = Err(folder_refusal.unwrap_or(Refusal::NotThere));
        let answer = kth_name(volume, inode, k, &mut [0; 32]);
        assert_eq!(answer, none, "{title}{inode}");
        if let Some((name, leads_to)) = last {
            assert_eq!(find(volume, inode, name), Ok(*leads_to), "{title}{inode}");
            let mut buffer = [0; 32];
            let answer = kth_name(volume, inode, k - 1, &mut buffer);
            assert_eq!(answer, Ok(name.len() as u64), "{title}{inode}");
            assert_eq!(buffer[..name.len()], name[..], "{title}{inode}");
        }
    }
}

/// Every call on every sample: the answer is the one that the map and the count of needed pages give,
/// and landed, cut and recovered the volume has the map that it must have.
#[test]
fn every_sample() {
    let mut counts: BTreeMap<(&str, u64), u64> = BTreeMap::new();
    let mut random = Random::new(66);
    for (
        number,
        Folders {
            title,
            volume,
            calls,
        },
    ) in folders().enumerate()
    {
        let judged = judge(&volume).unwrap_or_else(|refusal| panic!("{title}{refusal}"));
        let (before, inodes) = (map(&judged), judged.sizes.inodes());
        let is_open = judged.journal.is_open();
        if !is_open && (inodes < 256 || number < 8) {
            check_readings(&volume, &before, &title);
        }
        for call in &calls {
            let expected = match is_open {
                true => (*call != Call::Recover).then_some(Refusal::JournalOpen),
                false => refused_by_map(&before, inodes, call)
                    .or_else(|| refused_for_pages(&judged, &before, call)),
            };
            let result = filled(&volume, call);
            let found = result.as_ref().err().copied();
            assert_eq!(found, expected, "{title}{call:?}");
            *counts
                .entry((name_of(call), expected.map_or(0, Refusal::number)))
                .or_default() += 1;
            let Ok(list) = result else { continue };
            let after = map_after(&before, inodes, call);
            let mut landed = volume.clone();
            land(&mut landed, &list);
            assert_eq!(map_of(&landed), after, "{title}{call:?}");
            let mut carried = volume.clone();
            assert_eq!(carry_out(&mut carried, &list, list.len() as u64), Ok(()));
            assert!(carried == landed, "{title}{call:?}");
            for _ in 0..2 {
                let mut broken = volume.clone();
                random_cut(&mut random, &mut broken, &list);
                let left = map_of(&broken);
                assert!(left == before || left == after, "{title}{call:?}");
                done(&mut broken, &Call::Recover);
                assert_eq!(map_of(&broken), left, "{title}{call:?}");
            }
        }
    }
    for (reached, count) in &counts {
        println!("{reached:?}: {count}"); // shown with --nocapture
    }
    let reached = |name, number| counts.get(&(name, number)).copied().unwrap_or(0);
    for (name, numbers) in [
        ("create", &[0, 4, 6, 7, 10, 11, 12, 15, 16][..]),
        ("create_folder", &[0, 6, 7, 10, 11, 12, 15, 16]),
        ("link", &[0, 6, 7, 11, 12, 15, 16]),
        ("unlink", &[0, 6, 12, 16, 17]),
        ("rename", &[0, 4, 6, 11, 12, 16, 18]),
        ("write", &[0, 6, 8, 16]),
        ("set_size", &[0, 6, 9, 16]),
        ("clean", &[0, 4, 6, 12]),
        ("recover", &[0]),
    ] {
        for &number in numbers {
            assert!(reached(name, number) > 0, "{name} {number}: {counts:?}");
        }
    }
}

/// Every way to cut a move in its last three groups, and every choice of its three targets; and the
/// recovery of what is left.
#[test]
fn every_cut_of_a_move() {
    for position in [12, 13, 14, 15] {
        let made = Move {
            source: 7,
            target: 7,
            free: 3,
            position,
        };
        let volume = made.volume(&mut Random::new(position));
        for call in [
            rename_in(1, b"a", 2, b"gone"),
            rename_in(1, b"full", 2, b"new"),
            rename_in(1, b"a", 2, b"kept"),
        ] {
            let before = map_of(&volume);
            let after = map_after(&before, 16, &call);
            let list = filled(&volume, &call).unwrap();
            for (number, group) in groups(&list).iter().enumerate().skip(1) {
                for kept in 0_u32..1 << group.len() {
                    let mut broken = volume.clone();
                    cut(&mut broken, &list, number, |index| {
                        let place = group.iter().position(|store| store.0 == index);
                        kept >> place.unwrap() & 1 == 1
                    });
                    let left = map_of(&broken);
                    assert!(left == before || left == after, "{call:?}");
                    if judge(&broken).unwrap().journal.is_open() {
                        assert_eq!(left, before, "{call:?}");
                    }
                    done(&mut broken, &Call::Recover);
                    assert_eq!(map_of(&broken), left, "{call:?}");
                }
            }
        }
    }
}

/// Whether a tree of folders is one that order 6 accepts, worked out beside the library: from each
/// folder up to inode 0 by its one name, in at most as many steps as there are folders.
fn accepts(map: &FileMap) -> bool {
    let names = || {
        map.folders
            .iter()
            .flat_map(|(above, names)| names.iter().map(move |pair| (*above, pair.1)))
    };
    let one_name = |inode: u64| names().filter(|pair| pair.1 == inode).count() == 1;
    let above = |inode: u64| {
        names()
            .find(|pair| pair.1 == inode)
            .map_or(inode, |pair| pair.0)
    };
    let reached =
        |inode: u64| (0..256).fold(inode, |at, _| if at == 0 { 0 } else { above(at) }) == 0;
    let mut folders = map.folders.keys().filter(|&&inode| inode != 0);
    folders.all(|&inode| one_name(inode) && reached(inode))
}

/// Made-up volumes: many of them have folders; what is accepted is a tree, and calls on it answer as
/// they must.
#[test]
fn made_up_volumes() {
    let mut random = Random::new(67);
    let (mut held, mut deepest, mut damaged) = (0, 0, BTreeMap::new());
    for _ in 0..2_000 {
        let volume = made_up(&mut random);
        let judged = match examine(&volume) {
            Ok(judged) => judged,
            Err(fault) => {
                let text = format!("{fault:?}");
                for word in ["NotReached", "NotOneName", "Type"] {
                    *damaged.entry(word).or_insert(0) += u64::from(text.contains(word));
                }
                continue;
            }
        };
        let (before, inodes) = (map(&judged), judged.sizes.inodes());
        assert!(accepts(&before));
        if before.folders.len() == 1 {
            continue;
        }
        held += 1;
        let depth =
            |&inode: &u64| std::iter::successors(Some(inode), |&at| judged.parent_of(at)).count();
        deepest = deepest.max(before.folders.keys().map(depth).max().unwrap_or(0));
        if judged.journal.is_open() {
            continue;
        }
        check_readings(&volume, &before, "made up: ");
        for _ in 0..6 {
            let call = any_call(&mut random, inodes, &before);
            let expected = refused_by_map(&before, inodes, &call)
                .or_else(|| refused_for_pages(&judged, &before, &call));
            let list = filled(&volume, &call);
            assert_eq!(list.as_ref().err().copied(), expected, "{call:?}");
            let mut landed = volume.clone();
            land(&mut landed, &list.unwrap_or_default());
            let after = match expected {
                Some(_) => before.clone(),
                None => map_after(&before, inodes, &call),
            };
            assert_eq!(map_of(&landed), after, "{call:?}");
        }
    }
    assert!(held > 200 && deepest > 5, "{held} {deepest}");
    assert!(damaged.values().all(|&count| count > 5), "{damaged:?}");
}
