//! Store lists for carry out: all are judged before the first store. Their groups, and the numbers
//! of the layout.

use crate::compare::{any_list, Compared, Counts};
use reference::FENCE;
use samples::{any_number, create, filled, sample, Random, NUMBERS};

#[test]
fn random_lists() {
    let mut random = Random::new(41);
    let mut counts = Counts::default();
    let volume = sample();
    let words = volume.len() as u64 / 8;
    for _ in 0..30_000 {
        let list = any_list(&mut random, words);
        assert_eq!(calls::list::groups(&list), reference::groups(&list));
        let mut compared = Compared::new(&volume, 0, &mut counts);
        compared.carry_out(&list, list.len() as u64);
        compared.carry_out(&list, random.below(list.len() as u64 + 3));
        compared.carry_out(&list, any_number(&mut random));
    }
    counts.reached(&["carry_out"], &[0, 13], 10_000);
}

/// Every count on a real list, with and without words behind it, and one pair wrong at every place.
#[test]
fn every_count_and_every_place() {
    let mut counts = Counts::default();
    let volume = sample();
    let words = volume.len() as u64 / 8;
    let list = filled(&volume, &create(b"C3")).expect("the call is done");
    let mut compared = Compared::new(&volume, 0, &mut counts);
    for count in (0..list.len() as u64 + 9).chain(NUMBERS) {
        compared.carry_out(&list, count);
        let longer = [&list[..], &[FENCE, 0, 5, 5, FENCE, 0]].concat();
        compared.carry_out(&longer, count);
    }
    for place in 0..list.len() {
        for wrong in [words - 1, words, words + 1, FENCE - 1, FENCE, 1 << 61, 0] {
            let mut changed = list.clone();
            changed[place] = wrong;
            compared.carry_out(&changed, list.len() as u64);
        }
    }
    counts.reached(&["carry_out"], &[0, 13], 50);
}

/// Lists for what is no volume, and lists that make a volume none: words 0 to 2 may be stored.
#[test]
fn lists_on_any_bytes() {
    let mut random = Random::new(42);
    let mut counts = Counts::default();
    for length in [0, 8, 23, 24, 512, 8_191, 8_192] {
        let bytes = random.bytes(length);
        let mut compared = Compared::new(&bytes, 0, &mut counts);
        compared.carry_out(&[], 0);
        compared.carry_out(&[1], 1);
        compared.carry_out(&[0, 5, FENCE, 0], 4);
    }
    let volume = sample();
    for index in 0..3 {
        let list = [index, 5, FENCE, 0];
        let stored = Compared::new(&volume, 0, &mut counts).carry_out(&list, 4);
        let mut compared = Compared::new(&stored, 0, &mut counts);
        compared.carry_out(&list, 4);
        compared.free_count();
    }
    counts.reached(&["carry_out"], &[0, 2], 3);
}

/// The numbers that programs take from the crate of the compiled calls are the reference model's.
#[test]
fn numbers_of_the_layout() {
    use calls::layout as ours;
    use reference::layout as model;
    assert_eq!(calls::list::FENCE, FENCE);
    assert_eq!(ours::LIST_WORDS, model::LIST_WORDS);
    assert_eq!(ours::PAGE_BYTES, model::PAGE_BYTES);
    assert_eq!(ours::WORD_BYTES * model::PAGE_WORDS, model::PAGE_BYTES);
    assert_eq!(ours::ROOT, model::ROOT);
    assert_eq!(ours::SIZE_LIMIT, model::SIZE_LIMIT);
    assert_eq!(ours::WRITE_LIMIT, model::WRITE_LIMIT);
    assert_eq!(ours::NAME_BYTES, model::NAME_BYTES);
    let sizes = |pages: u64| model::Sizes::new((512 * pages) as usize, pages, 8);
    assert!(sizes(ours::PAGE_LIMIT).is_ok() && sizes(ours::PAGE_LIMIT + 1).is_err());
}
