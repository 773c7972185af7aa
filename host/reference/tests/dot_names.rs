//! The names "." and ".." (order 5 of document 02): its readings by hand, and on every sample what
//! follows from them.

mod need;

use need::refused_for_pages;
use reference::layout::set_word;
use reference::{
    find, judge, kth_name, land, listing, map, map_after, refused_by_map, Call, FileMap, Refusal,
};
use samples::*;
use std::collections::BTreeMap;

/// P = 16, N = 8, with these names of empty files, in the directory's log of one page.
fn with_names(names: &[(&[u8], u64)]) -> Vec<u8> {
    let mut volume = formatted(16, 8);
    let entries: Vec<[u64; 8]> = names
        .iter()
        .map(|&(name, inode)| entry_add(inode, name))
        .collect();
    put_log(&mut volume, 0, &[2], &entries);
    for &(_, inode) in names {
        put_log(&mut volume, inode, &[], &[]);
    }
    volume
}

/// "." is inode 1, ".." inode 2 and "a" inode 3.
fn with_both() -> Vec<u8> {
    with_names(&[(b".", 1), (b"..", 2), (b"a", 3)])
}

/// The count of words that a call fills, or the refusal's number.
fn answer(volume: &[u8], call: &Call) -> Result<usize, u64> {
    let list = filled(volume, call).map_err(|refusal| refusal.number())?;
    Ok(list.len())
}

/// Checks the answers of calls, each on the volume as it is.
fn check_answers(volume: &[u8], rows: &[(Call, Result<usize, u64>)]) {
    for (call, expected) in rows {
        assert_eq!(answer(volume, call), *expected, "{call:?}");
    }
}

/// The listing after a call that fills so many words.
fn listed_after(mut volume: Vec<u8>, call: &Call, words: u64) -> String {
    assert_eq!(done(&mut volume, call), words, "{call:?}");
    String::from_utf8(listing(&volume)).expect("the names are text")
}

/// "Create, link's new name and rename's new name shall no longer accept them", where none stands.
#[test]
fn new_names() {
    let volume = with_names(&[(b"a", 1)]);
    for name in [&b"."[..], b".."] {
        check_answers(
            &volume,
            &[
                (create(name), Err(5)),
                (create_folder(0, name), Err(5)),
                (link(b"a", name), Err(5)),
                (rename(b"a", name), Err(5)),
                (unlink(name), Err(6)),
                (link(name, b"b"), Err(6)),
                (rename(name, b"b"), Err(6)),
                (link(name, name), Err(5)),
                (rename(name, name), Err(5)),
            ],
        );
        assert_eq!(find(&volume, 0, name), Err(Refusal::NotThere));
    }
    for name in [&b"..."[..], b".a", b"..a", b"a.", b". ", &[b'.'; 32]] {
        check_answers(
            &volume,
            &[
                (create(name), Ok(46)),
                (link(b"a", name), Ok(22)),
                (rename(b"a", name), Ok(38)),
                (unlink(name), Err(6)),
            ],
        );
        let mut created = volume.clone();
        done(&mut created, &create(name));
        assert_eq!(find(&created, 0, name), Ok(2));
    }
    for name in [&[b'.'; 33][..], b"", b"/", b"./", b"../", b".\0"] {
        let calls = [
            create(name),
            unlink(name),
            link(b"a", name),
            link(name, b"b"),
        ];
        let renames = [rename(b"a", name), rename(name, b"b")];
        for call in calls.iter().chain(&renames) {
            assert_eq!(answer(&volume, call), Err(5), "{call:?}");
        }
        assert_eq!(find(&volume, 0, name), Err(Refusal::BadName));
    }
}

/// "Under 5, so before 6 and before "nothing changes": rename "." to "." is 5 even where "."
/// stands." And before 7. The old name may be either.
#[test]
fn where_they_stand() {
    check_answers(
        &with_both(),
        &[
            (create(b"."), Err(5)),
            (create(b".."), Err(5)),
            (rename(b".", b"."), Err(5)),
            (rename(b"..", b".."), Err(5)),
            (rename(b".", b".."), Err(5)),
            (rename(b"..", b"."), Err(5)),
            (rename(b"a", b"."), Err(5)),
            (link(b".", b".."), Err(5)),
            (link(b".", b"."), Err(5)),
            (link(b"a", b".."), Err(5)),
            (link(b"absent", b"."), Err(5)),
            (link(b"absent", b".."), Err(5)),
            (rename(b"absent", b"."), Err(5)),
            (rename(b"absent", b".."), Err(5)),
            (link(b".", b"a"), Err(7)),
            (link(b"..", b"b"), Ok(22)),
            (rename(b"..", b"..."), Ok(38)),
            (unlink(b".."), Ok(40)),
            (clean(0), Ok(2 * (3 * 8 + 12))),
        ],
    );
}

/// "Volumes that already hold one stay accepted, and such a name can still be found, unlinked and
/// renamed away." Link's old name may be ".", and clean keeps it.
#[test]
fn found_unlinked_and_renamed_away() {
    let volume = with_both();
    let before = "files 3 free 13\n1 0 .\n2 0 ..\n3 0 a\n";
    assert_eq!(listing(&volume), before.as_bytes());
    assert_eq!(
        [find(&volume, 0, b"."), find(&volume, 0, b"..")],
        [Ok(1), Ok(2)]
    );
    let mut buffer = [7; 33];
    assert_eq!(kth_name(&volume, 0, 1, &mut buffer), Ok(2));
    assert_eq!((&buffer[..2], &buffer[2..32]), (&b".."[..], &[0; 30][..]));
    for (call, words, after) in [
        (unlink(b"."), 40, "files 2 free 13\n2 0 ..\n3 0 a\n"),
        (unlink(b".."), 40, "files 2 free 13\n1 0 .\n3 0 a\n"),
        (
            rename(b".", b"b"),
            38,
            "files 3 free 13\n2 0 ..\n3 0 a\n1 0 b\n",
        ),
        (
            rename(b"..", b".b"),
            38,
            "files 3 free 13\n1 0 .\n3 0 a\n2 0 .b\n",
        ),
        (rename(b".", b"a"), 56, "files 2 free 13\n2 0 ..\n1 0 a\n"),
        (
            link(b".", b"b"),
            22,
            "files 4 free 13\n1 0 .\n2 0 ..\n3 0 a\n1 0 b\n",
        ),
        (clean(0), 2 * (3 * 8 + 12), before),
    ] {
        assert_eq!(
            listed_after(volume.clone(), &call, words),
            after,
            "{call:?}"
        );
    }
}

/// "." and "a" lead to one inode: a rename from "." changes nothing, and one to "." is 5.
#[test]
fn two_names_of_one_file() {
    let volume = with_names(&[(b".", 1), (b"a", 1), (b"b", 2)]);
    check_answers(
        &volume,
        &[
            (rename(b".", b"a"), Ok(0)),
            (rename(b"a", b"."), Err(5)),
            (rename(b".", b"."), Err(5)),
            (link(b"a", b"."), Err(5)),
            (unlink(b"."), Ok(22)),
            (rename(b".", b"c"), Ok(38)),
            (rename(b".", b"b"), Ok(56)),
        ],
    );
    let after = listed_after(volume, &unlink(b"."), 22);
    assert_eq!(after, "files 2 free 13\n1 0 a\n2 0 b\n");
}

/// 1 to 4 come before 5.
#[test]
fn numbers_before() {
    let volume = with_both();
    let mut damaged = volume.clone();
    set_word(&mut damaged, 120, 2);
    let mut open = volume.clone();
    open_journal(&mut open, 3, &[(80, 1)]);
    let mut short = marked_list(4_095);
    for name in [&b"."[..], b".."] {
        for call in [
            create(name),
            link(b"a", name),
            rename(b"a", name),
            rename(name, name),
        ] {
            assert_eq!(call.fill(&volume, &mut short), Err(Refusal::ShortMemory));
            assert_eq!(answer(&volume[1..], &call), Err(2), "{call:?}");
            assert_eq!(answer(&damaged, &call), Err(3), "{call:?}");
            assert_eq!(answer(&open, &call), Err(4), "{call:?}");
            assert_eq!(answer(&volume, &call), Err(5), "{call:?}");
        }
    }
}

/// 10, 11, 12 and 15 come after 5: where another name gets such a number, "." and ".." get 5.
#[test]
fn numbers_after() {
    let mut applied = [0; 19];
    for sample in dot_names() {
        for call in [create(b"other"), link(b"a", b"other")] {
            let Err(number @ 10..) = answer(&sample.volume, &call) else {
                continue;
            };
            applied[number as usize] += 1;
            for name in DOT_NAMES {
                for call in [create(name), link(b"a", name), rename(b"a", name)] {
                    assert_eq!(answer(&sample.volume, &call), Err(5), "{}", sample.title);
                }
            }
        }
    }
    for number in [10, 11, 12, 15] {
        assert!(applied[number] > 0, "{number}: {applied:?}");
    }
}

/// The samples hold what they say: each of the two names, both and none; with the journal open and
/// closed; with each fill of the tail's page; and with logs that clean makes shorter.
#[test]
fn the_samples() {
    let mut held: BTreeMap<(usize, bool), u64> = BTreeMap::new();
    let (mut fills, mut shorter) = ([0; 8], 0);
    for sample in dot_names() {
        let judged = judge(&sample.volume).unwrap_or_else(|_| panic!("{}", sample.title));
        let standing = standing_dot_names(&map(&judged)).len();
        *held
            .entry((standing, judged.journal.is_open()))
            .or_default() += 1;
        let log = &judged.logs[&0];
        fills[(log.tail % 512 / 64) as usize] += 1;
        let entries = log.placed(&sample.volume).count();
        shorter += u64::from(entries > judged.folders[&0].len());
    }
    assert!(held[&(0, false)] > 20 && held[&(1, false)] > 16, "{held:?}");
    assert!(held[&(2, false)] > 16 && held[&(2, true)] == 6, "{held:?}");
    assert!(fills.iter().all(|&count| count > 0), "{fills:?}");
    assert!(shorter > 40, "{shorter}");
}

/// Whether 5 applies to a call, from the papers' words alone: a length or byte that is not allowed,
/// or a dot name as the new one.
fn has_bad_name(call: &Call) -> bool {
    let bad = |name: &Vec<u8>| {
        name.is_empty() || name.len() > 32 || name.contains(&0) || name.contains(&47)
    };
    let names: &[&Vec<u8>] = match call {
        Call::Create { name, .. } | Call::CreateFolder { name, .. } | Call::Unlink { name, .. } => {
            &[name]
        }
        Call::Link { old, new, .. } | Call::Rename { old, new, .. } => &[old, new],
        _ => &[],
    };
    names.iter().any(|name| bad(name)) || gives_dot_name(call)
}

/// Checks a call on a volume whose journal is closed: the answer, and the map after it, in which no
/// dot name stands that did not before. Answers the refusal's number, 0 for done.
fn check_call(volume: &[u8], call: &Call, title: &str) -> u64 {
    let judged = judge(volume).expect("accepted");
    let (before, inodes) = (map(&judged), judged.sizes.inodes());
    let by_map = refused_by_map(&before, inodes, call);
    let is_bad = by_map == Some(Refusal::BadName);
    assert_eq!(is_bad, has_bad_name(call), "{title}{call:?}");
    let expected = by_map.or_else(|| refused_for_pages(&judged, &before, call));
    let list = filled(volume, call);
    assert_eq!(list.as_ref().err().copied(), expected, "{title}{call:?}");
    let mut landed = volume.to_vec();
    land(&mut landed, &list.unwrap_or_default());
    let after = map_of(&landed);
    if expected.is_none() {
        let known = map_after(&before, inodes, call);
        assert_eq!(after, known, "{title}{call:?}");
    }
    no_new_dot_name(&before, &after);
    expected.map_or(0, Refusal::number)
}

/// Every dot name that stands, in whatever folder, stood there before.
fn no_new_dot_name(before: &FileMap, after: &FileMap) {
    for (&folder, names) in &after.folders {
        for (name, _) in names.iter().filter(|pair| DOT_NAMES.contains(&&pair.0[..])) {
            let stood = before.inode_of(folder, name).is_some();
            assert!(stood, "{name:?} in {folder}");
        }
    }
}

/// Every call by name on every sample.
#[test]
fn every_sample() {
    let calls = calls_by_name();
    let mut counts: BTreeMap<(&str, u64), u64> = BTreeMap::new();
    for sample in dot_names() {
        let is_open = judge(&sample.volume).unwrap().journal.is_open();
        for call in &calls {
            let number = match is_open {
                true => answer(&sample.volume, call).expect_err("the journal is open"),
                false => check_call(&sample.volume, call, &sample.title),
            };
            assert_eq!(number == 4, is_open, "{}{call:?}", sample.title);
            *counts.entry((name_of(call), number)).or_default() += 1;
        }
        for name in tried_names() {
            check_find(&sample.volume, name);
        }
    }
    let reached = |name, number| counts.get(&(name, number)).copied().unwrap_or(0);
    for (name, numbers) in [
        ("create", &[0, 4, 5, 7, 10, 11, 12, 15][..]),
        ("create_folder", &[0, 4, 5, 7, 10, 11, 12, 15]),
        ("link", &[0, 4, 5, 6, 7, 11, 12, 15]),
        ("unlink", &[0, 4, 5, 6, 12]),
        ("rename", &[0, 4, 5, 6, 12]),
        ("clean", &[0, 4, 12]),
    ] {
        for &number in numbers {
            assert!(reached(name, number) > 0, "{name} {number}: {counts:?}");
        }
    }
}

/// Find answers 4 where the journal is open, 5 for no allowed name, and else the name's inode or 6.
fn check_find(volume: &[u8], name: &[u8]) {
    let expected = if judge(volume).unwrap().journal.is_open() {
        Err(Refusal::JournalOpen)
    } else if has_bad_name(&unlink(name)) {
        Err(Refusal::BadName)
    } else {
        map_of(volume).inode_of(0, name).ok_or(Refusal::NotThere)
    };
    assert_eq!(find(volume, 0, name), expected, "{name:?}");
}

/// Random calls from a volume on, some of them cut. Whatever happens, no dot name stands that did
/// not stand before. Counts the calls that would have given one, and those that took one away.
fn history(seed: u64, mut volume: Vec<u8>, calls: u64, counts: &mut [u64; 2]) {
    let mut random = Random::new(seed);
    let inodes = judge(&volume).expect("accepted").sizes.inodes();
    for _ in 0..calls {
        let before = map_of(&volume);
        let is_open = judge(&volume).unwrap().journal.is_open();
        let call = match is_open && !random.once_in(4) {
            true => Call::Recover,
            false => any_call_with_dots(&mut random, inodes, &before),
        };
        if !is_open {
            check_call(&volume, &call, "");
        }
        let list = filled(&volume, &call).unwrap_or_default();
        match !list.is_empty() && random.once_in(4) {
            true => random_cut(&mut random, &mut volume, &list),
            false => land(&mut volume, &list),
        }
        let after = map_of(&volume);
        no_new_dot_name(&before, &after);
        counts[0] += u64::from(gives_dot_name(&call));
        counts[1] += u64::from(standing_dot_names(&before) != standing_dot_names(&after));
    }
}

#[test]
fn no_call_gives_a_dot_name() {
    let mut counts = [0; 2];
    for (sample, seed) in dot_names().zip(300..) {
        history(seed, sample.volume, 100, &mut counts);
    }
    history(299, formatted(30, 16), 400, &mut counts);
    assert!(counts[0] > 900 && counts[1] > 40, "{counts:?}");
}

/// Made-up volumes: many are accepted with a dot name, and calls on these answer as they must.
#[test]
fn made_up_volumes() {
    let mut random = Random::new(55);
    let mut held = 0;
    for seed in 0..1_500 {
        let volume = made_up_with_dots(&mut random);
        let Ok(judged) = judge(&volume) else { continue };
        if !standing_dot_names(&map(&judged)).is_empty() {
            held += 1;
            history(seed, volume, 4, &mut [0; 2]);
        }
    }
    assert!(held > 400, "{held}");
}
