//! Gaps on volumes whose free pages lie in chosen ways: none, all, every second one, the ends.

use crate::compare::{Compared, Counts};
use reference::layout::set_word;
use samples::{volumes_with_gaps, with_free_pages, Random};

#[test]
fn every_way_on_every_size() {
    let mut counts = Counts::default();
    let sizes = [
        (16, 8),
        (16, 96),
        (17, 8),
        (36, 256),
        (85, 8),
        (300, 32),
        (4_096, 8),
        (4_096, 256),
    ];
    for (pages, inodes) in sizes {
        for (way, volume) in volumes_with_gaps(pages, inodes) {
            println!("{way}, {pages} pages, {inodes} inodes"); // shown where the test fails
            let mut compared = Compared::new(&volume, pages as usize % 8, &mut counts);
            compared.free_count();
            compared.gaps();
        }
    }
    counts.reached(&["gaps"], &[0, 14], 200);
}

/// Every set of free pages among eight in a row: the first ones, the last ones, and some between.
#[test]
fn every_set_of_eight_pages() {
    let mut counts = Counts::default();
    for (pages, from) in [(16, 2), (16, 8), (24, 12), (72, 60), (136, 124)] {
        for set in 0..256 {
            let free =
                |page: u64| (from..from + 8).contains(&page) && set >> (page - from) & 1 == 1;
            let volume = with_free_pages(pages, 8, free);
            let mut compared = Compared::new(&volume, 0, &mut counts);
            compared.gaps();
        }
    }
    counts.reached(&["gaps"], &[0, 14], 1_000);
}

/// Free pages at random, few to many, on volumes of any size; then with the journal open, and damaged.
#[test]
fn any_set_of_pages() {
    let mut random = Random::new(71);
    let mut counts = Counts::default();
    for number in 0..600 {
        let pages = match number % 20 {
            0 => random.between(300, 4_096),
            _ => random.between(16, 200),
        };
        let inodes = 8 * random.between(1, (pages - 4).min(32));
        let often = random.between(1, 12);
        let free: Vec<bool> = (0..pages).map(|_| random.below(12) < often).collect();
        let mut volume = with_free_pages(pages, inodes, |page| free[page as usize]);
        Compared::new(&volume, random.below(8) as usize, &mut counts).gaps();
        // the journal's one open entry holds the last inode's valid word
        for (index, value) in [(8, 15), (9, 0), (46, 8 * inodes + 56), (47, 0)] {
            set_word(&mut volume, index, value);
        }
        Compared::new(&volume, 0, &mut counts).gaps();
        set_word(&mut volume, 9, 16);
        Compared::new(&volume, 0, &mut counts).gaps();
    }
    counts.reached(&["gaps"], &[0, 3, 4, 14], 500);
}

/// Many stretches, with lists of every length from none to two pairs more than needed.
#[test]
fn every_length_of_many_stretches() {
    let mut counts = Counts::default();
    let volume = with_free_pages(600, 8, |page| page % 2 == 0);
    let mut compared = Compared::new(&volume, 0, &mut counts);
    for words in 0..=602 {
        compared.gaps_into(words);
    }
    assert_eq!(compared.answer(), Ok(299));
    counts.reached(&["gaps"], &[0, 14], 5);
}

/// The most stretches that a volume can have, 2,047, with lists of a few lengths.
#[test]
fn the_most_stretches() {
    let mut counts = Counts::default();
    let volume = with_free_pages(4_096, 8, |page| page % 2 == 0);
    let mut compared = Compared::new(&volume, 0, &mut counts);
    for words in [0, 1, 2, 4_092, 4_093, 4_094, 4_095, 4_096, 9_000] {
        compared.gaps_into(words);
    }
    assert_eq!(compared.answer(), Ok(2_047));
    counts.reached(&["gaps"], &[0, 14], 4);
}
