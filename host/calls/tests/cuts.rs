//! Power cuts in the compiled calls' store lists: whatever has landed, the volume has the map from before the call or
//! the one from after it, also while recoveries are cut, and calls go on afterwards.
//!
//! Every group of a list is cut. Of a group of up to [`SMALL`] stores every set of them lands; of a larger one
//! each beginning, each end, each store alone, each left out, and random sets.

mod compiled;

use compiled::fill;
use reference::layout::set_word;
use reference::{groups, judge, land, map_after, Call, FileMap, Store};
use samples::{
    any_call, any_call_in_folders, appended_entries, clean, create, create_folder, formatted,
    give_name, in_pieces, link, map_of, marked_list, numbered, random_cut, rename, rename_in,
    sample, set_size, text, unlink, write, Move, Random, DOT_NAMES,
};

/// The most stores of a group of which every set is tried.
const SMALL: usize = 10;
/// How many random sets of a larger group are tried.
const SETS: usize = 200;

/// How often things were reached.
#[derive(Debug, Default)]
struct Counts {
    /// Volumes as a cut left them.
    cut: u64,
    /// Those with the map from before the call, where the call changes the map.
    before: u64,
    /// Those with the map from after the call, where the call changes the map.
    after: u64,
    /// Those with an open journal.
    open: u64,
    /// Groups of which every set was tried.
    whole: u64,
    /// Recoveries that were cut.
    recoveries: u64,
    /// Calls made after a cut.
    went_on: u64,
}

/// The list of a compiled call; none if it is refused.
fn filled(volume: &[u8], call: &Call) -> Option<Vec<u64>> {
    let mut list = marked_list(4_096);
    let count = fill(call, volume, &mut list).ok()?;
    list.truncate(count as usize);
    Some(list)
}

/// Sets of a group's stores that land, each as a list of yes and no.
fn sets(random: &mut Random, length: usize, most: usize) -> Vec<Vec<bool>> {
    if length <= SMALL.min(most) {
        let bits = |set: usize| (0..length).map(|place| set >> place & 1 == 1).collect();
        return (0..1 << length).map(bits).collect();
    }
    let mut sets: Vec<Vec<bool>> = Vec::new();
    let step = (length / 60).max(1);
    for limit in (0..=length).step_by(step) {
        let rows: [&dyn Fn(usize) -> bool; 4] = [
            &|place| place < limit,
            &|place| place >= limit,
            &|place| place == limit,
            &|place| place != limit,
        ];
        sets.extend(rows.map(|row| (0..length).map(row).collect()));
    }
    for _ in 0..SETS {
        let odds = random.between(2, 6);
        sets.push((0..length).map(|_| random.once_in(odds)).collect());
    }
    sets
}

/// Checks each volume that a cut in a list leaves; of groups of more than `most` stores only some.
fn each_cut(
    random: &mut Random,
    volume: &[u8],
    list: &[u64],
    most: usize,
    mut check: impl FnMut(&mut Random, &[u8]),
) {
    let mut landed = volume.to_vec();
    for group in groups(list) {
        for set in sets(random, group.len(), most) {
            let mut broken = landed.clone();
            let kept = group.iter().zip(set).filter(|(_, lands)| *lands);
            store(&mut broken, kept.map(|(store, _)| *store));
            check(random, &broken);
        }
        store(&mut landed, group.into_iter());
    }
}

/// Lands stores.
fn store(volume: &mut [u8], stores: impl Iterator<Item = Store>) {
    for (index, value) in stores {
        set_word(volume, index, value);
    }
}

/// Cuts a call's list in every group.
fn explore(random: &mut Random, volume: &[u8], call: &Call, counts: &mut Counts) {
    let Some(list) = filled(volume, call) else {
        return;
    };
    let before = map_of(volume);
    let inodes = judge(volume).expect("accepted").sizes.inodes();
    let after = map_after(&before, inodes, call);
    let mut whole = volume.to_vec();
    land(&mut whole, &list);
    assert_eq!(map_of(&whole), after, "{call:?} landed whole");
    let small = |group: &&Vec<Store>| group.len() <= SMALL;
    counts.whole += groups(&list).iter().filter(small).count() as u64;
    each_cut(random, volume, &list, SMALL, |random, broken| {
        let judged = judge(broken).expect("a cut volume is accepted");
        let map = reference::map(&judged);
        assert!(map == before || map == after, "{call:?} cut");
        counts.cut += 1;
        if before != after {
            counts.before += u64::from(map == before);
            counts.after += u64::from(map == after);
        }
        if judged.journal.is_open() {
            counts.open += 1;
            recover(random, broken, &map, counts);
        } else if random.once_in(64) {
            go_on(random, broken, counts);
        }
    });
}

/// Recovers a volume with an open journal: cut in every way, and run through, also from there.
fn recover(random: &mut Random, volume: &[u8], map: &FileMap, counts: &mut Counts) {
    let list = filled(volume, &Call::Recover).expect("recover is done");
    assert!(!list.is_empty());
    each_cut(random, volume, &list, 6, |random, broken| {
        assert_eq!(map_of(broken), *map, "a cut recovery keeps the map");
        counts.recoveries += 1;
        let again = filled(broken, &Call::Recover).expect("recover is done");
        let mut closed = broken.to_vec();
        land(&mut closed, &again);
        assert_eq!(map_of(&closed), *map, "a second recovery keeps the map");
        assert_eq!(filled(&closed, &Call::Recover), Some(vec![]));
        if random.once_in(16) {
            go_on(random, &closed, counts);
        }
    });
}

/// Makes calls on a volume that a cut or a recovery left; some are cut too.
fn go_on(random: &mut Random, volume: &[u8], counts: &mut Counts) {
    let mut volume = volume.to_vec();
    let inodes = judge(&volume).expect("accepted").sizes.inodes();
    for _ in 0..4 {
        let before = map_of(&volume);
        let open = judge(&volume).expect("accepted").journal.is_open();
        let call = match open && !random.once_in(8) {
            true => Call::Recover,
            false => any_call(random, inodes, &before),
        };
        let Some(list) = filled(&volume, &call) else {
            assert!(!(open && call == Call::Recover));
            continue;
        };
        let after = map_after(&before, inodes, &call);
        if !list.is_empty() && random.once_in(4) {
            random_cut(random, &mut volume, &list);
            let map = map_of(&volume);
            assert!(map == before || map == after, "{call:?} cut");
        } else {
            land(&mut volume, &list);
            assert_eq!(map_of(&volume), after, "{call:?}");
        }
        counts.went_on += 1;
    }
}

/// Each call, in the forms in which its list differs: on the sample, from every journal position on.
#[test]
fn each_call() {
    let mut random = Random::new(101);
    let mut counts = Counts::default();
    for position in [0, 5, 13, 14, 15] {
        let mut volume = sample();
        for index in [8, 9] {
            set_word(&mut volume, index, position);
        }
        for before in [link(b"A1", b"A2"), write(2, 1_000, &text(30))] {
            let list = filled(&volume, &before).expect("the call is done");
            land(&mut volume, &list);
        }
        for call in [
            create(b"C3"),
            create_folder(0, b"C3"),
            link(b"B2", b"C3"),
            unlink(b"A1"),
            unlink(b"B2"),
            rename(b"A1", b"C3"),
            rename(b"A1", b"B2"),
            rename(b"B2", b"A2"),
            rename(b"A1", b"A2"),
            write(1, 100, b"text"),
            write(2, 0, &text(1_300)),
            set_size(1, 600),
            set_size(1, 512),
            set_size(1, 60_000),
            clean(0),
            clean(1),
            clean(2),
            Call::Recover,
        ] {
            explore(&mut random, &volume, &call, &mut counts);
        }
    }
    assert!(counts.before > 4_000 && counts.after > 50, "{counts:?}");
    assert!(counts.open > 100 && counts.recoveries > 500, "{counts:?}");
    assert!(counts.whole > 100 && counts.went_on > 500, "{counts:?}");
}

/// Moves between folders: each count of new log pages, two and three targets, from journal positions whose pairs go around
/// the end. Whatever has landed, the moved name stands in exactly one of the two folders; while the journal is open and
/// once it is recovered, in the old one.
#[test]
fn moves() {
    let mut random = Random::new(106);
    let mut counts = Counts::default();
    let mut explored = 0;
    for (source, target, position) in [
        (3, 3, 12),
        (7, 3, 13),
        (3, 7, 14),
        (3, 0, 15),
        (7, 7, 14),
        (7, 0, 13),
        (6, 6, 15),
        (7, 7, 15),
    ] {
        let made = Move {
            source,
            target,
            free: 2,
            position,
        };
        let volume = made.volume(&mut random);
        let held = if target == 0 { 0 } else { 2 };
        let news: [(u64, &[u8]); 5] = [
            (2, b"new"),
            (held, b"gone"),
            (held, b"kept"),
            (0, b"kept too"),
            (0, b"new"),
        ];
        for old in [&b"a"[..], b"b", b"sub", b"full"] {
            for (folder, new) in news {
                let call = rename_in(1, old, folder, new);
                if filled(&volume, &call).is_none() {
                    continue; // a folder onto a name, or no page
                }
                explored += 1;
                explore(&mut random, &volume, &call, &mut counts);
                stands_once(&mut random, &volume, (1, old), (folder, new));
            }
        }
    }
    assert!(explored > 60, "{explored}");
    assert!(counts.before > 20_000 && counts.after > 60, "{counts:?}");
    assert!(counts.open > 500 && counts.recoveries > 4_000, "{counts:?}");
    assert!(counts.whole > 100 && counts.went_on > 500, "{counts:?}");
}

/// A name in a folder.
type Place<'a> = (u64, &'a [u8]);

/// Cuts a move in every group, and asks the compiled calls where the moved name stands.
fn stands_once(random: &mut Random, volume: &[u8], old: Place<'_>, new: Place<'_>) {
    let list = filled(volume, &rename_in(old.0, old.1, new.0, new.1)).expect("the move is done");
    let moved = calls::find(volume, old.0, old.1).expect("the old name stands");
    let mut places = [0, 0];
    each_cut(random, volume, &list, SMALL, |_, broken| {
        let recovery = filled(broken, &Call::Recover).expect("a cut volume is accepted");
        let mut closed = broken.to_vec();
        land(&mut closed, &recovery);
        let stands =
            [old, new].map(|(folder, name)| calls::find(&closed, folder, name) == Ok(moved));
        assert_ne!(stands[0], stands[1], "in exactly one folder");
        assert!(recovery.is_empty() || stands[0], "recover gives it back");
        places[usize::from(stands[1])] += 1;
    });
    assert!(places[0] > 100 && places[1] > 0, "{places:?}");
}

/// Calls that take the names "." and ".." away or keep them, on volumes that hold these.
#[test]
fn names_of_full_stops() {
    let mut random = Random::new(105);
    let mut counts = Counts::default();
    let mut volume = sample();
    for (old, new) in [b"A1", b"B2"].into_iter().zip(DOT_NAMES) {
        give_name(&mut volume, old, new);
    }
    for call in [
        unlink(b"."),
        unlink(b".."),
        rename(b".", b"C3"),
        rename(b"..", b"..."),
        link(b".", b"C3"),
        create(b".a"),
        write(1, 100, b"text"),
        clean(0),
    ] {
        explore(&mut random, &volume, &call, &mut counts);
    }
    assert!(counts.before > 1_000 && counts.after > 6, "{counts:?}");
    assert!(counts.open > 20 && counts.recoveries > 100, "{counts:?}");
}

/// Random calls on small volumes, each explored before it lands or is cut for good.
#[test]
fn random_calls() {
    let mut random = Random::new(102);
    let mut counts = Counts::default();
    for _ in 0..100 {
        let (pages, inodes) = (random.between(16, 26), 8);
        let mut volume = formatted(pages, inodes);
        let position = random.below(16);
        for index in [8, 9] {
            set_word(&mut volume, index, position);
        }
        for _ in 0..40 {
            let call = any_call(&mut random, inodes, &map_of(&volume));
            explore(&mut random, &volume, &call, &mut counts);
            let list = filled(&volume, &call).unwrap_or_default();
            land(&mut volume, &list);
        }
    }
    assert!(
        counts.before > 200_000 && counts.after > 1_000,
        "{counts:?}"
    );
    assert!(
        counts.open > 2_000 && counts.recoveries > 10_000,
        "{counts:?}"
    );
    assert!(
        counts.whole > 1_000 && counts.went_on > 10_000,
        "{counts:?}"
    );
}

/// Random calls about folders on small volumes, each explored before it lands.
#[test]
fn random_calls_in_folders() {
    let mut random = Random::new(107);
    let mut counts = Counts::default();
    for _ in 0..30 {
        let mut volume = formatted(random.between(20, 40), 16);
        for _ in 0..40 {
            let call = any_call_in_folders(&mut random, 16, &map_of(&volume));
            explore(&mut random, &volume, &call, &mut counts);
            let list = filled(&volume, &call).unwrap_or_default();
            land(&mut volume, &list);
        }
    }
    assert!(counts.before > 100_000 && counts.after > 500, "{counts:?}");
    assert!(
        counts.open > 2_000 && counts.recoveries > 10_000,
        "{counts:?}"
    );
    assert!(counts.whole > 1_000 && counts.went_on > 5_000, "{counts:?}");
}

/// A directory of 224 names cleaned: the longest list, 32 pages of entries in one group.
#[test]
fn the_longest_list() {
    let mut random = Random::new(103);
    let mut counts = Counts::default();
    let mut volume = formatted(100, 16);
    for number in 0..224 {
        let call = match number {
            0..15 => create(&numbered(number)),
            _ => link(&numbered(number % 15), &numbered(number)),
        };
        let list = filled(&volume, &call).expect("the call is done");
        land(&mut volume, &list);
    }
    assert_eq!(
        filled(&volume, &clean(0)).map(|list| list.len()),
        Some(3_670)
    );
    explore(&mut random, &volume, &clean(0), &mut counts);
    assert!(counts.cut > 400 && counts.open > 3, "{counts:?}");
}

/// Writes into scattered free pages: the data pages, up to nine entries and up to two links in the first group, and the
/// one tail in the second, which alone makes the map the one from after the call. The journal stays closed.
#[test]
fn scattered_writes() {
    let mut random = Random::new(104);
    let mut counts = Counts::default();
    let mut with_entries = [0; 10];
    for sample in in_pieces().step_by(7) {
        let call = &sample.writes[0];
        let Some(list) = filled(&sample.volume, call) else {
            continue;
        };
        let mut whole = sample.volume.clone();
        land(&mut whole, &list);
        with_entries[appended_entries(&sample.volume, &whole, 1) as usize] += 1;
        let lengths: Vec<usize> = groups(&list).iter().map(Vec::len).collect();
        assert!(lengths.len() == 2 && lengths[1] == 1, "{}", sample.title);
        let after = map_of(&whole);
        let mut cuts = 0;
        each_cut(&mut random, &sample.volume, &list, SMALL, |_, broken| {
            assert_eq!(filled(broken, &Call::Recover), Some(vec![]));
            cuts += u64::from(map_of(broken) == after);
        });
        assert_eq!(cuts, 1, "{}: the tail alone", sample.title);
        explore(&mut random, &sample.volume, call, &mut counts);
    }
    assert!(
        with_entries[2..].iter().all(|&count| count > 4),
        "{with_entries:?}"
    );
    assert!(counts.before > 40_000 && counts.after > 100, "{counts:?}");
    assert!(counts.open == 0 && counts.went_on > 2_000, "{counts:?}");
}
