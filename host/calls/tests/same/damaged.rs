//! Accepted volumes damaged in single bits and single words.

use crate::compare::{
    compare_all, compare_changes, compare_readings, Compared, Counts, CHANGES, READINGS,
};
use reference::layout::set_word;
use reference::{cut, Refusal};
use samples::{
    change_live_word, clean, create, create_folder, create_in, filled, flip_live_bit, link,
    live_words, run, sample, set_size, used_volume, write, Random, NUMBERS,
};

/// The sample after some calls: more names than files, logs that go on, a file with an end in a mapped
/// page, a folder with a name. With `open`, a create is cut while the journal is open.
fn grown_sample(open: bool) -> Vec<u8> {
    let mut volume = sample();
    let mut calls = vec![
        link(b"A1", b"a longer name of thirty-two byte"),
        create(b"C3"),
    ];
    calls.extend((0..8).map(|number| write(1, 512 * number, &[7; 20])));
    calls.extend([
        set_size(1, 3_000),
        write(3, 511, b"ab"),
        set_size(2, 65_536),
        create_folder(0, b"east"),
        create_in(4, b"C3"),
    ]);
    for call in &calls {
        run(&mut volume, call).expect("the call is done");
    }
    if open {
        let list = filled(&volume, &create(b"D4")).expect("the call is done");
        cut(&mut volume, &list, 2, |index| index == 66);
        assert_eq!(reference::free_count(&volume), Err(Refusal::JournalOpen));
    }
    volume
}

/// Calls whose answers show most of what stands on the sample.
fn compare_a_few(bytes: &[u8], counts: &mut Counts) {
    let mut compared = Compared::new(bytes, 3, counts);
    compared.free_count();
    compared.gaps();
    compared.find(0, b"A1");
    compared.find(0, b"C3");
    compared.find(4, b"C3");
    compared.size(2);
    compared.read(1, 0, &[0x55; 3_100]);
    compared.kth_name(0, 1, &[0x55; 33]);
    compared.total(0);
    compared.change(&write(1, 690, &[8; 40]), 4_096);
    compared.change(&clean(0), 4_096);
}

/// Every bit of every live word flipped, one at a time.
#[test]
fn every_live_bit() {
    let mut random = Random::new(20);
    let mut counts = Counts::default();
    let mut volumes = vec![sample(), grown_sample(false), grown_sample(true)];
    volumes.extend((0..8).map(|_| used_volume(&mut random)));
    for mut volume in volumes {
        for index in live_words(&volume).concat() {
            for bit in 0..64 {
                let byte = (8 * index + bit / 8) as usize;
                volume[byte] ^= 1 << (bit % 8);
                compare_a_few(&volume, &mut counts);
                volume[byte] ^= 1 << (bit % 8);
            }
        }
    }
    counts.reached(&READINGS, &[0, 2, 3, 4], 1_000);
}

/// Every live word set to every number at which something ends or wraps, one at a time.
#[test]
fn every_live_word_with_every_number() {
    let mut counts = Counts::default();
    for open in [false, true] {
        let volume = grown_sample(open);
        let pages = volume.len() as u64 / 512;
        let near: Vec<u64> = (0..=pages)
            .flat_map(|page| [page, 512 * page + 64])
            .collect();
        for index in live_words(&volume).concat() {
            let mut changed = volume.clone();
            for &number in NUMBERS.iter().chain(&near) {
                set_word(&mut changed, index, number);
                compare_a_few(&changed, &mut counts);
            }
        }
    }
    counts.reached(&READINGS, &[0, 2, 3, 4], 100);
}

/// Makes every call on used volumes after one to three changes each.
fn change_volumes(seed: u64, change: fn(&mut Random, &mut [u8], &[Vec<u64>])) {
    let mut random = Random::new(seed);
    let mut counts = Counts::default();
    for _ in 0..1_000 {
        let volume = used_volume(&mut random);
        let live = live_words(&volume);
        compare_all(&mut random, &volume, &mut counts);
        for _ in 0..16 {
            let mut changed = volume.clone();
            for _ in 0..random.between(1, 3) {
                change(&mut random, &mut changed, &live);
            }
            compare_readings(&mut random, &changed, &mut counts);
            if random.once_in(4) {
                compare_changes(&mut random, &changed, &mut counts);
            }
        }
    }
    counts.reached(&READINGS, &[0, 2, 3, 4], 400);
    counts.reached(&CHANGES, &[0, 1, 2, 3], 100);
}

#[test]
fn changed_bits() {
    change_volumes(21, flip_live_bit);
}

#[test]
fn changed_words() {
    change_volumes(22, change_live_word);
}
