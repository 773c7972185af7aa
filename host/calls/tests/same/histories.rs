//! Volumes reached by random calls: the reference model makes the changing calls, compiled carry out
//! stores their lists.

use crate::compare::{compare_all, Compared, Counts, READINGS};
use reference::{judge, Call};
use samples::{any_call, filled, map_of, random_cut, Random};

/// Formats with the compiled call and makes so many random calls; about one in six is cut.
fn history(seed: u64, pages: u64, inodes: u64, calls: u64, counts: &mut Counts) {
    let mut random = Random::new(seed);
    let mut volume = random.bytes(pages as usize * 512);
    Compared::new(&volume, 0, counts).format(pages, inodes);
    calls::format(&mut volume, pages, inodes).expect("the sizes are allowed");
    for number in 0..calls {
        let open = judge(&volume).is_ok_and(|judged| judged.journal.is_open());
        let call = if open && !random.once_in(4) {
            Call::Recover
        } else {
            any_call(&mut random, inodes, &map_of(&volume))
        };
        let Ok(mut list) = filled(&volume, &call) else {
            continue;
        };
        let count = list.len() as u64;
        let is_cut = count > 0 && random.once_in(6);
        if is_cut {
            random_cut(&mut random, &mut volume, &list);
        } else {
            list.extend((0..random.below(4)).map(|_| random.number()));
            volume = Compared::new(&volume, 0, counts).carry_out(&list, count);
        }
        if is_cut || number % 4 == 0 {
            compare_all(&mut random, &volume, counts);
        }
    }
}

#[test]
fn small_volumes() {
    let mut counts = Counts::default();
    for seed in 0..400 {
        let mut random = Random::new(1_000 + seed);
        let inodes = 8 * random.between(1, 4);
        let pages = random.between(16, 40);
        history(seed, pages, inodes, 120, &mut counts);
    }
    counts.reached(&READINGS, &[0, 4], 500);
    counts.reached(&["find"], &[5, 6], 500);
    counts.reached(&["carry_out"], &[0, 13], 500);
}

#[test]
fn many_inodes_on_few_pages() {
    let mut counts = Counts::default();
    for seed in 500..530 {
        history(seed, 16, 96, 60, &mut counts);
        history(seed, 36, 256, 60, &mut counts);
    }
    counts.reached(&READINGS, &[0, 4], 20);
}

#[test]
fn larger_volumes() {
    let mut counts = Counts::default();
    history(80, 300, 32, 800, &mut counts);
    history(81, 700, 256, 500, &mut counts);
    history(82, 4_096, 64, 200, &mut counts);
    counts.reached(&READINGS, &[0, 4], 5);
}
