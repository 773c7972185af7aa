//! The page kept back (order 4 of document 02): the order's sentences and the readings by hand, and
//! on every sample what follows from them.

mod need;

use need::{keeps_one_back, need, refused_for_pages};
use reference::layout::set_word;
use reference::{free_count, groups, judge, land, map_after, refused_by_map, Call, Refusal, Use};
use samples::*;
use std::collections::{BTreeMap, BTreeSet};

/// A volume of 16 pages as [`FewFree`] says.
fn few(free: u64, directory: u64, file: u64) -> Vec<u8> {
    let few = FewFree {
        pages: 16,
        inodes: 8,
        free,
        directory,
        file,
        more_names: 0,
    };
    few.volume(&mut Random::new(4))
}

/// The count of words that a call fills, or the refusal's number.
fn answer(volume: &[u8], call: &Call) -> Result<usize, u64> {
    let list = filled(volume, call).map_err(|refusal| refusal.number())?;
    Ok(list.len())
}

/// "1 page free and the directory's page full: create 15, unlink done. 0 free: both 12."
#[test]
fn create_and_unlink() {
    let one = few(1, 7, 3);
    assert_eq!(answer(&one, &create(b"new")), Err(15));
    assert_eq!(answer(&one, &link(b"a", b"new")), Err(15));
    assert_eq!(answer(&one, &unlink(b"a")), Ok(42));
    assert_eq!(answer(&one, &unlink(b"b")), Ok(24));
    assert_eq!(answer(&one, &rename(b"a", b"new")), Ok(40));
    assert_eq!(answer(&one, &rename(b"a", b"d")), Ok(58));
    assert_eq!(answer(&one, &clean(0)), Ok(2 * (5 * 8 + 12)));
    let none = few(0, 7, 3);
    for call in [
        create(b"new"),
        link(b"a", b"new"),
        unlink(b"a"),
        unlink(b"b"),
        rename(b"a", b"new"),
        rename(b"a", b"d"),
        clean(0),
    ] {
        assert_eq!(answer(&none, &call), Err(12), "{call:?}");
    }
    let two = few(2, 7, 3);
    assert_eq!(answer(&two, &create(b"new")), Ok(48));
    assert_eq!(answer(&two, &create_folder(0, b"new")), Ok(48));
    assert_eq!(answer(&two, &link(b"a", b"new")), Ok(24));
}

/// "Pages let go do not count: overwriting a mapped page with 1 free page is 15." So is a size
/// inside a mapped page, whose copy takes a page while the old one is let go.
#[test]
fn pages_let_go_do_not_count() {
    let overwrite = write(1, 0, &text(512));
    let copy = set_size(1, 300);
    for (free, expected) in [(0, Err(12)), (1, Err(15)), (2, Ok(150)), (3, Ok(150))] {
        assert_eq!(answer(&few(free, 3, 3), &overwrite), expected, "{free}");
    }
    for (free, expected) in [(0, Err(12)), (1, Err(15)), (2, Ok(166)), (3, Ok(166))] {
        assert_eq!(answer(&few(free, 3, 3), &copy), expected, "{free} free");
    }
    let mut volume = few(2, 3, 3);
    done(&mut volume, &overwrite);
    assert_eq!(free_count(&volume), Ok(2), "one taken and one let go");
}

/// "A call that takes no page is done with 0 or 1 free."
#[test]
fn calls_that_take_no_page() {
    for free in [0, 1] {
        let volume = few(free, 3, 3);
        for (call, words) in [
            (create(b"new"), 46),
            (create_folder(0, b"new"), 46),
            (link(b"a", b"new"), 22),
            (unlink(b"a"), 40),
            (rename(b"a", b"new"), 38),
            (set_size(1, 512), 22),
            (set_size(1, 700), 22),
            (set_size(1, 65_536), 22),
            (clean(4), 24),
            (set_size(1, 2_000), 0),
            (write(1, 0, b""), 0),
            (rename(b"b", b"c"), 0),
            (clean(2), 0),
            (Call::Recover, 0),
        ] {
            assert_eq!(answer(&volume, &call), Ok(words), "{free} free, {call:?}");
        }
    }
}

/// Data and log pages together: with the tail's page full, or the log empty, one byte takes two
/// pages.
#[test]
fn data_and_log_pages_together() {
    for (file, call, words) in [
        (7, write(1, 0, b"x"), 152),
        (0, write(1, 0, b"x"), 152),
        (7, set_size(1, 300), 168),
        (6, set_size(1, 300), 168),
    ] {
        for (free, expected) in [(0, Err(12)), (1, Err(12)), (2, Err(15)), (3, Ok(words))] {
            let volume = few(free, 3, file);
            assert_eq!(answer(&volume, &call), expected, "{free} free, {call:?}");
        }
    }
}

/// "Such a call is refused with 15, checked directly after 12": every number before comes first.
#[test]
fn the_place_among_the_checks() {
    let volume = few(1, 7, 3);
    let mut damaged = volume.clone();
    set_word(&mut damaged, 120, 2);
    let mut open = volume.clone();
    open_journal(&mut open, 3, &[(80, 1)]);
    let mut list = marked_list(4_095);
    for call in [
        create(b"new"),
        create_folder(0, b"new"),
        link(b"a", b"new"),
        write(1, 0, b"x"),
        set_size(1, 300),
    ] {
        assert_eq!(call.fill(&volume, &mut list), Err(Refusal::ShortMemory));
        assert_eq!(answer(&volume[1..], &call), Err(2));
        assert_eq!(answer(&damaged, &call), Err(3));
        assert_eq!(answer(&open, &call), Err(4));
        assert_eq!(answer(&volume, &call), Err(15));
    }
    for (call, number) in [
        (create(b""), 5),
        (link(b"a", b"/"), 5),
        (link(b"new", b"newer"), 6),
        (write(5, 0, b"x"), 6),
        (set_size(0, 300), 6),
        (create(b"a"), 7),
        (link(b"a", b"b"), 7),
        (write(1, 0, &text(4_097)), 8),
        (write(1, 65_536, b"x"), 9),
        (set_size(1, 65_537), 9),
        (write(1, 0, &text(513)), 12),
    ] {
        assert_eq!(answer(&volume, &call), Err(number), "{call:?}");
    }
}

/// 10 comes before 15: seven names in one full page, all inodes valid, and one free page.
#[test]
fn no_inode_before_the_last_page() {
    let mut volume = formatted(16, 8);
    for number in 1..=7 {
        done(&mut volume, &create(&numbered(number)));
    }
    done(&mut volume, &write(1, 0, &text(4_096)));
    done(&mut volume, &write(1, 4_096, &text(1_536)));
    assert_eq!(free_count(&volume), Ok(1));
    assert_eq!(answer(&volume, &create(b"new")), Err(10));
    assert_eq!(answer(&volume, &link(&numbered(1), b"new")), Err(15));
}

/// 11 comes before 15: 224 names in 32 full pages, and one free page.
#[test]
fn directory_full_before_the_last_page() {
    let mut volume = formatted(66, 256);
    for number in 1..=224 {
        done(&mut volume, &create(&numbered(number)));
    }
    assert_eq!(free_count(&volume), Ok(1));
    assert_eq!(answer(&volume, &create(b"new")), Err(11));
    assert_eq!(answer(&volume, &link(&numbered(1), b"new")), Err(11));
    done(&mut volume, &unlink(&numbered(1)));
    assert_eq!(free_count(&volume), Ok(0), "unlink took the last page");
    assert_eq!(answer(&volume, &create(b"new")), Ok(46), "it takes no page");
}

/// How many of the free pages a call takes: those that its list stores into.
fn taken(volume: &[u8], list: &[u64]) -> u64 {
    let judged = judge(volume).unwrap();
    let pages: BTreeSet<u64> = groups(list)
        .concat()
        .iter()
        .map(|store| store.0 / 64)
        .collect();
    let free = |page: &&u64| judged.uses[**page as usize] == Use::Free;
    pages.iter().filter(free).count() as u64
}

/// What became of a call: done, with the count of pages that it took, or refused.
#[derive(Clone, Copy, Debug, PartialEq, Eq, PartialOrd, Ord)]
enum Became {
    Done { taken: u64 },
    Refused { number: u64 },
}

fn became(volume: &[u8], call: &Call) -> Became {
    match filled(volume, call) {
        Ok(list) => Became::Done {
            taken: taken(volume, &list),
        },
        Err(refusal) => Became::Refused {
            number: refusal.number(),
        },
    }
}

/// The samples are what they say, and every fill of the two tails' pages is there.
#[test]
fn the_samples() {
    let mut fills = BTreeSet::new();
    for sample in last_page() {
        let title = &sample.title;
        let judged = judge(&sample.volume).unwrap_or_else(|refusal| panic!("{title}{refusal}"));
        assert!(!judged.journal.is_open(), "{title}");
        assert_eq!(judged.free_pages(), sample.free, "{title}");
        let fill = |inode: u64| judged.logs.get(&inode).map(|log| log.tail % 512 / 64);
        fills.insert((sample.free, fill(0), fill(1)));
    }
    for free in 0..=3 {
        for directory in 1..=7 {
            for file in 0..=7 {
                assert!(fills.contains(&(free, Some(directory), Some(file))));
            }
            assert!(fills.contains(&(free, Some(directory), None)), "no file");
        }
    }
    assert!(fills.contains(&(3, Some(0), None)), "an empty directory");
}

/// Every call on every sample: the answer is the one that the count of needed pages gives, a call
/// that is done takes as many, and leaves the map that it must leave.
#[test]
fn every_sample() {
    let mut counts: BTreeMap<(&str, Became), u64> = BTreeMap::new();
    for LastPage {
        title,
        volume,
        calls,
        ..
    } in last_page()
    {
        let judged = judge(&volume).unwrap();
        let (map, inodes) = (map_of(&volume), judged.sizes.inodes());
        for call in &calls {
            let expected = refused_by_map(&map, inodes, call)
                .or_else(|| refused_for_pages(&judged, &map, call));
            let became = became(&volume, call);
            *counts.entry((name_of(call), became)).or_default() += 1;
            if let Some(refusal) = expected {
                let number = refusal.number();
                assert_eq!(became, Became::Refused { number }, "{title}{call:?}");
                continue;
            }
            let needed = need(&judged, &map, call).map_or(0, |need| need.pages());
            assert_eq!(became, Became::Done { taken: needed }, "{title}{call:?}");
            let mut landed = volume.clone();
            land(&mut landed, &filled(&volume, call).unwrap());
            assert_eq!(
                map_of(&landed),
                map_after(&map, inodes, call),
                "{title}{call:?}"
            );
        }
    }
    for (became, count) in &counts {
        println!("{became:?}: {count}"); // shown with --nocapture
    }
    check_reached(&counts);
}

/// Each call was done and refused in every way that it can be: a call of the four takes up to one
/// page less than are free, the others up to as many.
fn check_reached(counts: &BTreeMap<(&str, Became), u64>) {
    let reached = |name, became| counts.get(&(name, became)).copied().unwrap_or(0);
    for (name, most, numbers) in [
        ("create", 1, &[12, 15][..]),
        ("create_folder", 1, &[12, 15]),
        ("link", 1, &[12, 15]),
        ("unlink", 1, &[12]),
        ("rename", 1, &[12]),
        ("write", 2, &[12, 15]),
        ("set_size", 2, &[12, 15]),
        ("clean", 3, &[12]),
    ] {
        for taken in 0..=most {
            let count = reached(name, Became::Done { taken });
            assert!(count >= 20, "{name} with {taken} pages: {count}");
        }
        for &number in numbers {
            let count = reached(name, Became::Refused { number });
            assert!(count >= 40, "{name} {number}: {count}");
        }
        let with_15 = counts
            .keys()
            .any(|(other, became)| *other == name && *became == Became::Refused { number: 15 });
        assert_eq!(with_15, numbers.contains(&15), "{name}");
    }
}

/// A call of the four that is done leaves a page if it took one, and the others may leave none. All
/// of them do so with 0 free pages where they take none.
#[test]
fn a_page_is_left() {
    let mut last_taken = BTreeSet::new();
    let mut on_full = BTreeSet::new();
    for sample in last_page() {
        let title = &sample.title;
        for call in &sample.calls {
            let Became::Done { taken } = became(&sample.volume, call) else {
                continue;
            };
            if taken == 0 && sample.free == 0 {
                on_full.insert(name_of(call));
            } else if taken > 0 && taken == sample.free {
                assert!(!keeps_one_back(call), "{title}{call:?}");
                last_taken.insert(name_of(call));
            }
        }
    }
    assert_eq!(last_taken, BTreeSet::from(["clean", "rename", "unlink"]));
    assert_eq!(on_full.len(), 9, "{on_full:?}");
}

/// "unlink fails when the remove entry wants a log page": with one free page it no longer does.
#[test]
fn unlink_of_a_standing_name() {
    let mut counts = [0; 2];
    for sample in last_page() {
        let names = map_of(&sample.volume).names(0).to_vec();
        let room = judge(&sample.volume).unwrap().logs[&0].tail % 512 != 448;
        for (name, _) in &names {
            let is_done = filled(&sample.volume, &unlink(name)).is_ok();
            let title = &sample.title;
            assert_eq!(is_done, sample.free > 0 || room, "{title}{name:?}");
            counts[usize::from(is_done)] += 1;
        }
    }
    assert!(counts.iter().all(|&count| count > 100), "{counts:?}");
}

/// The same volume with one more free page, at the end.
fn with_one_more(volume: &[u8]) -> Vec<u8> {
    let mut larger = [volume, &[0x3C; 512]].concat();
    set_word(&mut larger, 0, volume.len() as u64 / 512 + 1);
    larger
}

/// A call is 15 exactly where the same call on the same volume with one more free page is one of
/// the four, takes a page and leaves exactly one. What was done is done again, in the same pages.
#[test]
fn one_more_free_page() {
    let mut counts: BTreeMap<(&str, u64), u64> = BTreeMap::new();
    for LastPage {
        title,
        volume,
        free,
        calls,
    } in last_page()
    {
        let judged = judge(&volume).unwrap();
        if judged.uses.last() == Some(&Use::Free) {
            continue; // the page would make the run at the end longer, and a write may need less
        }
        let larger = with_one_more(&volume);
        assert_eq!(free_count(&larger), Ok(free + 1), "{title}");
        for call in &calls {
            let [less, more] = [&volume, &larger].map(|volume| became(volume, call));
            let leaves = match more {
                Became::Done { taken } => Some(free + 1 - taken),
                Became::Refused { .. } => None,
            };
            let takes_one = more != Became::Done { taken: 0 };
            let was_last = keeps_one_back(call) && takes_one && leaves == Some(1);
            let is_15 = less == Became::Refused { number: 15 };
            assert_eq!(is_15, was_last, "{title}{call:?}");
            let was_12 = match more {
                Became::Refused { number } => [12, 15].contains(&number),
                Became::Done { .. } => leaves == Some(0) && takes_one,
            };
            let is_12 = less == Became::Refused { number: 12 };
            assert_eq!(is_12, was_12, "{title}{call:?}");
            if let Ok(list) = filled(&volume, call) {
                assert_eq!(filled(&larger, call), Ok(list), "{title}{call:?}");
            }
            let number = if is_15 {
                15
            } else if is_12 {
                12
            } else {
                0
            };
            *counts.entry((name_of(call), number)).or_default() += 1;
        }
    }
    for name in ["create", "create_folder", "link", "write", "set_size"] {
        assert!(counts[&(name, 15)] > 20, "{name}: {counts:?}");
    }
    for name in ["unlink", "rename", "clean"] {
        assert!(counts[&(name, 12)] > 40, "{name}: {counts:?}");
    }
}
