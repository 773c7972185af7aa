//! Made-up volumes: structures chosen at random, as they are and with one live word changed.

use crate::compare::{compare_all, compare_readings, Counts, CHANGES, READINGS};
use samples::{change_live_word, live_words, made_up, Random};

#[test]
fn made_up_volumes() {
    let mut random = Random::new(11);
    let mut counts = Counts::default();
    for _ in 0..20_000 {
        let volume = made_up(&mut random);
        compare_all(&mut random, &volume, &mut counts);
    }
    counts.reached(&READINGS, &[0, 3, 4], 2_000);
    counts.reached(&["find"], &[5, 6], 2_000);
    counts.reached(&["gaps"], &[14], 2_000);
    counts.reached(&["kth_name"], &[1, 6], 2_000);
    counts.reached(&["format"], &[0, 2], 2_000);
    counts.reached(&CHANGES, &[0, 1, 3], 200);
    counts.reached(&["carry_out"], &[0, 13], 2_000);
}

#[test]
fn made_up_volumes_with_changed_words() {
    let mut random = Random::new(12);
    let mut counts = Counts::default();
    for _ in 0..4_000 {
        let volume = made_up(&mut random);
        let live = live_words(&volume);
        for _ in 0..12 {
            let mut changed = volume.clone();
            change_live_word(&mut random, &mut changed, &live);
            compare_readings(&mut random, &changed, &mut counts);
        }
    }
    counts.reached(&READINGS, &[0, 2, 3, 4], 1_000);
}
