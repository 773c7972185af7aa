//! Volumes with folders (order 6 of document 02): every sample's calls, what the reading calls say of every inode, moves
//! between logs of every fill, damaged trees, and calls that go on from there.

use crate::changes::{drawn_calls, volume_after};
use crate::compare::{compare_readings, every_kind, Compared, Counts, CHANGES, NOTHING, READINGS};
use reference::layout::word;
use reference::{groups, judge, Call, FileMap, Refusal};
use samples::{
    any_call_in_folders, any_calls, clean, damaged_folders, folders, formatted, map_of, rename_in,
    Move, Random,
};
use std::collections::BTreeMap;

/// The reading calls, about each `step`th inode and two that are none, each name of it and each k.
fn readings(compared: &mut Compared<'_>, volume: &[u8], map: &FileMap, step: usize) {
    let is_closed = judge(volume).is_ok_and(|judged| !judged.journal.is_open());
    for inode in (0..word(volume, 1) + 2).step_by(step) {
        compared.total(inode);
        if is_closed && map.is_folder(inode) {
            let title = compared.title();
            assert_eq!(compared.answer(), Ok(map.total(inode)), "{title}{inode}");
        }
        compared.size(inode);
        compared.read(inode, 3, &[0xA7; 20]);
        let names = map.names(inode);
        for k in 0..=names.len() as u64 {
            compared.kth_name(inode, k, &[0xA7; 40]);
        }
        for (name, _) in names {
            compared.find(inode, name);
        }
        compared.find(inode, b"absent");
    }
    compared.free_count();
    compared.gaps();
}

/// How many inodes [`readings`] goes on at a time: of many, it asks about some.
fn step(volume: &[u8]) -> usize {
    match word(volume, 1) {
        256 => 23,
        _ => 1,
    }
}

/// Every call of every sample: the answer, every word of the list, and every byte once it is carried out. The lists
/// of moves have each count of new log pages, with two targets and with three.
#[test]
fn every_call() {
    let mut counts = Counts::default();
    let mut moves = BTreeMap::new();
    for (sample, number) in folders().zip(0..) {
        let map = map_of(&sample.volume);
        let compared = Compared::new(&sample.volume, number % 8, &mut counts);
        let mut compared = compared.titled(sample.title);
        readings(&mut compared, &sample.volume, &map, 1);
        for (call, place) in sample.calls.iter().zip(0..) {
            let list = compared.change(call, 4_096);
            if place % 5 == number % 5 {
                compared.carry_out(&list, list.len() as u64);
            }
            if let (true, [first, _, targets, _]) = (is_move(call), &groups(&list)[..]) {
                // two words for each target, eight for each entry; the others are links and heads
                let pages = first.len() - 2 * targets.len() - 16;
                *moves.entry((targets.len(), pages)).or_insert(0) += 1;
            }
        }
    }
    let ways = [(2, 0), (2, 1), (2, 2), (3, 0), (3, 1), (3, 2)];
    assert_eq!(moves.keys().copied().collect::<Vec<_>>(), ways);
    assert!(moves.values().all(|&count| count >= 40), "{moves:?}");
    let create = ["create", "create_folder"];
    counts.reached(&create, &[0, 6, 7, 10, 11, 12, 15, 16], 1);
    counts.reached(&["link"], &[0, 6, 7, 11, 12, 15, 16], 1);
    counts.reached(&["unlink"], &[0, 6, 12, 16, 17], 1);
    counts.reached(&["rename"], &[0, 4, 6, 11, 12, 16, 18, NOTHING], 1);
    counts.reached(&["write"], &[0, 6, 8, 16], 1);
    counts.reached(&["set_size"], &[0, 6, 9, 16], 1);
    counts.reached(&["clean"], &[0, 4, 6, 12, NOTHING], 1);
    counts.reached(&["recover"], &[0], 40);
    counts.reached(&READINGS, &[0, 4], 40);
    counts.reached(&["find", "kth_name", "total"], &[6, 16], 100);
    counts.reached(&["size", "read"], &[6, 16], 100);
}

/// Whether a call is a rename from one folder to another.
fn is_move(call: &Call) -> bool {
    match call {
        Call::Rename {
            old_folder,
            new_folder,
            ..
        } => old_folder != new_folder,
        _ => false,
    }
}

/// The volumes that a call leaves, with the reading calls and some of the calls made again.
#[test]
fn calls_after_a_call() {
    let mut counts = Counts::default();
    for (sample, number) in folders().zip(0..) {
        for call in sample.calls.iter().skip(number % 7).step_by(7) {
            let Some(volume) = volume_after(&sample.volume, call, &mut counts) else {
                continue;
            };
            let map = map_of(&volume);
            let compared = Compared::new(&volume, number % 8, &mut counts);
            let mut compared = compared.titled(format!("{}{call:?}, ", sample.title));
            readings(&mut compared, &volume, &map, step(&volume));
            for call in sample.calls.iter().skip(number % 5).step_by(5) {
                compared.change(call, 4_096);
            }
        }
    }
    counts.reached(&["create", "create_folder", "link", "clean"], &[0, 12], 30);
    counts.reached(&["rename"], &[0, 6, 12, 16, 18], 50);
    counts.reached(&["unlink"], &[0, 6, 12, 17], 20);
}

/// Damaged trees: every call is refused with 3.
#[test]
fn damaged_trees() {
    let mut random = Random::new(6_100);
    let mut counts = Counts::default();
    for sample in damaged_folders() {
        let compared = Compared::new(&sample.volume, 0, &mut counts);
        let compared = compared.titled(sample.title);
        let mut compared = compared.refused(Refusal::Damaged);
        every_kind(
            &mut compared,
            &[0, 1, 2, 3, 4, 7, 8],
            &[b"a", b"f", b"self"],
        );
        for call in any_calls(&mut random) {
            compared.change(&call, 4_096);
        }
    }
    counts.reached(&CHANGES, &[3], 50);
    counts.reached(&READINGS, &[3], 50);
}

/// Moves from a log of each fill to a log of each fill, and back: how many pages they take, the words of the list, and the
/// volume that is left.
#[test]
fn logs_of_every_fill() {
    let mut counts = Counts::default();
    let mut done = [0; 3];
    let wants_page = |fill: usize| u64::from(fill.is_multiple_of(7));
    for (source, target) in (1..=7).flat_map(|source| (0..=7).map(move |fill| (source, fill))) {
        for free in 0..=3 {
            let made = Move {
                source,
                target,
                free,
                position: (source + 2 * target) as u64 % 16,
            };
            let volume = made.volume(&mut Random::new(free));
            let mut compared = Compared::new(&volume, source, &mut counts);
            let pages = wants_page(source) + wants_page(target);
            let held = if target == 0 { 0 } else { 2 };
            for (call, targets) in [
                (rename_in(1, b"a", 2, b"new"), 2),
                (rename_in(1, b"sub", 2, b"new"), 2),
                (rename_in(1, b"a", held, b"kept"), 2),
                (rename_in(1, b"a", held, b"gone"), 3),
                (rename_in(held, b"gone", 1, b"a"), 3),
                (rename_in(held, b"dir", 1, b"new"), 2),
            ] {
                let list = compared.change(&call, 4_096);
                if held == 0 && call != rename_in(1, b"a", 2, b"new") {
                    continue; // the fill of inode 0 is not chosen
                }
                let expected = match pages > free {
                    true => Err(Refusal::NoSpace),
                    false => Ok(44 + 6 * targets + 2 * pages),
                };
                assert_eq!(compared.answer(), expected, "{made:?}: {call:?}");
                done[pages as usize] += u64::from(pages <= free);
                compared.carry_out(&list, list.len() as u64);
            }
            if let Some(after) = volume_after(&volume, &rename_in(1, b"a", 2, b"new"), &mut counts)
            {
                let mut compared = Compared::new(&after, source, &mut counts);
                readings(&mut compared, &after, &map_of(&after), 1);
                compared.change(&rename_in(2, b"new", 1, b"a"), 4_096);
                compared.change(&clean(1), 4_096);
                compared.change(&clean(2), 4_096);
            }
        }
    }
    assert!(done.iter().all(|&count| count > 10), "{done:?}");
    counts.reached(&["rename"], &[0, 12], 100);
}

/// Random calls, some of them cut, from the samples on.
#[test]
fn calls_that_go_on() {
    let mut counts = Counts::default();
    for (sample, seed) in folders().zip(6_200..) {
        let mut random = Random::new(seed);
        drawn_calls(
            &mut random,
            sample.volume,
            30,
            any_call_in_folders,
            &mut counts,
        );
    }
    counts.reached(&CHANGES, &[0], 20);
    counts.reached(&["rename"], &[0, 6, 12, 16, 18, NOTHING], 20);
}

/// Trees that random calls make and change, some of them cut; with what the reading calls say of every inode in the end.
#[test]
fn random_trees() {
    let mut counts = Counts::default();
    for seed in 6_500..6_800 {
        let mut random = Random::new(seed);
        let inodes = 8 * random.between(1, 6);
        let volume = formatted(random.between(16, 80), inodes);
        let volume = drawn_calls(&mut random, volume, 150, any_call_in_folders, &mut counts);
        let map = map_of(&volume);
        readings(
            &mut Compared::new(&volume, 0, &mut counts),
            &volume,
            &map,
            1,
        );
        compare_readings(&mut random, &volume, &mut counts);
    }
    counts.reached(&CHANGES, &[0], 100);
    counts.reached(&["unlink"], &[17], 100);
    counts.reached(&["rename"], &[0, 12, 16, 18, NOTHING], 100);
    counts.reached(&["total"], &[0, 16], 500);
}
