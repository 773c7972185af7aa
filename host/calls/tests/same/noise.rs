//! Noise: random bytes, wrong lengths, sizes at their limits.

use crate::compare::{compare_all, Compared, Counts, CHANGES, READINGS};
use reference::layout::set_word;
use samples::{formatted, headed_noise, sample, Random, NUMBERS};

#[test]
fn random_bytes_of_any_length() {
    let mut random = Random::new(31);
    let mut counts = Counts::default();
    let lengths = [511, 512, 513, 8_191, 8_192, 8_193, 70_000, 4_096 * 512];
    for length in (0..80).chain(lengths) {
        let volume = random.bytes(length);
        compare_all(&mut random, &volume, &mut counts);
    }
    counts.reached(&READINGS, &[2], 88);
    counts.reached(&CHANGES, &[2], 15);
    counts.reached(&["carry_out"], &[2], 88);
}

#[test]
fn random_bytes_with_sizes() {
    let mut random = Random::new(32);
    let mut counts = Counts::default();
    for _ in 0..2_000 {
        for volume in headed_noise(&mut random) {
            compare_all(&mut random, &volume, &mut counts);
        }
    }
    counts.reached(&READINGS, &[3], 3_500);
    counts.reached(&CHANGES, &[3], 1_000);
}

/// An accepted volume cut short and made longer.
#[test]
fn wrong_lengths() {
    let mut random = Random::new(33);
    let mut counts = Counts::default();
    let volume = sample();
    let mut longer = volume.clone();
    longer.extend(random.bytes(1_024));
    let lengths = (0..40).chain(volume.len() - 40..volume.len() + 40);
    let others = [512, 1_024, 16 * 512, 19 * 512, 21 * 512, 22 * 512];
    for length in lengths.chain(others).chain([volume.len(); 9]) {
        compare_all(&mut random, &longer[..length], &mut counts);
    }
    counts.reached(&READINGS, &[2], 120);
    counts.reached(&READINGS, &[0], 1);
}

/// Words 0, 1 and 2 at their limits, on slices of the length that word 0 says and on others.
#[test]
fn headers_at_their_limits() {
    let mut counts = Counts::default();
    let limits = [15, 16, 17, 31, 36, 40, 96, 104, 256, 264, 4_097];
    for length in [15, 16, 17, 35, 36, 37, 40].map(|pages| pages * 512) {
        for &pages in limits.iter().chain(&NUMBERS) {
            for &inodes in limits.iter().chain(&NUMBERS) {
                let mut volume = vec![0; length];
                Compared::new(&volume, 1, &mut counts).format(pages, inodes);
                for (index, value) in [(0, pages), (1, inodes), (2, 1), (64, 1)] {
                    set_word(&mut volume, index, value);
                }
                let mut compared = Compared::new(&volume, 1, &mut counts);
                compared.free_count();
                compared.gaps();
                compared.carry_out(&[3, 1, u64::MAX, 0], 4);
            }
        }
    }
    for number in NUMBERS {
        let mut volume = formatted(16, 8);
        set_word(&mut volume, 2, number);
        Compared::new(&volume, 2, &mut counts).free_count();
    }
    counts.reached(&["free_count", "gaps"], &[0, 2], 8);
    counts.reached(&["format"], &[0, 2], 8);
}

/// The largest volume, the smallest, and the smallest with the most inodes.
#[test]
fn format_of_every_size() {
    let mut counts = Counts::default();
    for (pages, inodes) in [(16, 8), (16, 96), (36, 256), (4_096, 8), (4_096, 256)] {
        let volume = vec![0xE7; pages as usize * 512];
        let mut compared = Compared::new(&volume, 0, &mut counts);
        compared.format(pages, inodes);
        compared.format(pages - 1, inodes);
        compared.format(pages, inodes + 8);
        let formatted = formatted(pages, inodes);
        let mut compared = Compared::new(&formatted, 0, &mut counts);
        compared.free_count();
        compared.gaps();
        compared.kth_name(0, 0, &[7; 32]);
    }
    counts.reached(&["format"], &[0, 2], 5);
    counts.reached(&["free_count", "gaps"], &[0], 5);
}
