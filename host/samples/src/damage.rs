//! Damage: single bits and single words changed, mostly where a judge of the volume looks.

use crate::by_hand::footer_word;
use crate::numbers::any_number;
use reference::layout::{head_word, set_word, tail_word, type_word, valid_word, word, ROOT};
use reference::random::Random;
use reference::{judge, Log, Volume};

/// The words that a judge of an accepted volume reads, in groups by what they are, none empty: the
/// header, the journal, valid words, types, heads and tails, links, kinds and fields of entries, and the
/// zeros behind the ends of files. Of what is not accepted, the header, the journal and the inodes.
pub fn live_words(volume: &[u8]) -> Vec<Vec<u64>> {
    let mut groups = match judge(volume) {
        Ok(judged) => vec![
            vec![0, 1, 2],
            journal_words(&judged),
            (0..judged.sizes.inodes()).map(valid_word).collect(),
            type_words(&judged),
            end_words(&judged),
            link_words(&judged),
            entry_words(&judged).map(|entry| entry.start).collect(),
            entry_words(&judged)
                .flat_map(|entry| entry.skip(1))
                .collect(),
            zero_words(&judged),
        ],
        Err(_) => vec![vec![0, 1, 2], (8..48).collect(), (64..128).collect()],
    };
    groups.retain(|group| !group.is_empty());
    groups
}

/// Both positions, and the words of the open entries.
fn journal_words(volume: &Volume<'_>) -> Vec<u64> {
    let mut words = vec![8, 9];
    let mut position = volume.journal.dequeue;
    while position != volume.journal.enqueue {
        words.extend([position.target_word(), position.old_word()]);
        position = position.next();
    }
    words
}

/// The type words of valid inodes but inode 0.
fn type_words(volume: &Volume<'_>) -> Vec<u64> {
    let inodes = volume.logs.keys().filter(|&&inode| inode != ROOT);
    inodes.map(|&inode| type_word(inode)).collect()
}

/// The heads and tails of valid inodes.
fn end_words(volume: &Volume<'_>) -> Vec<u64> {
    let inodes = volume.logs.keys();
    inodes
        .flat_map(|&inode| [head_word(inode), tail_word(inode)])
        .collect()
}

/// The links that a walk reads: those of every log page but each log's last.
pub(crate) fn link_words(volume: &Volume<'_>) -> Vec<u64> {
    let left_behind = |log: &Log| log.pages[..log.pages.len().saturating_sub(1)].to_vec();
    let pages = volume.logs.values().flat_map(left_behind);
    pages.map(footer_word).collect()
}

/// The words of each entry that stands before a tail, up to the last word that is read.
fn entry_words<'a>(volume: &'a Volume<'_>) -> impl Iterator<Item = std::ops::Range<u64>> + 'a {
    let starts = |log: &Log| -> Vec<u64> {
        let end = |page: u64| match page == log.tail / 512 {
            true => log.tail / 8,
            false => footer_word(page),
        };
        let pages = log.pages.iter();
        pages
            .flat_map(|&page| (page * 64..end(page)).step_by(8))
            .collect()
    };
    let all = volume.logs.values().flat_map(starts);
    all.map(|start| match word(volume.bytes, start) {
        1 => start..start + 5,
        2 => start..start + 2,
        _ => start..start + 7,
    })
}

/// The words behind the size in the mapped pages that hold one.
fn zero_words(volume: &Volume<'_>) -> Vec<u64> {
    let mut words = Vec::new();
    for file in volume.files.values() {
        let page = file.data_page(file.size / 512);
        let first = file.size % 512 / 8;
        words.extend(
            page.iter()
                .flat_map(|page| page * 64 + first..page * 64 + 64),
        );
    }
    words
}

/// Picks a group, and then a word of it.
fn live_word(random: &mut Random, live: &[Vec<u64>]) -> u64 {
    let group = random.choose(live).expect("there are live words");
    *random.choose(group).expect("no group is empty")
}

/// Flips one bit of a volume, mostly of a word of `live` (see [`live_words`]).
pub fn flip_live_bit(random: &mut Random, volume: &mut [u8], live: &[Vec<u64>]) {
    let byte = match random.below(8) {
        0 => random.below(volume.len() as u64),
        _ => 8 * live_word(random, live) + random.below(8),
    };
    volume[byte as usize] ^= 1 << random.below(8);
}

/// Changes one word of `live` (see [`live_words`]): to a number near its own, to the number of another
/// such word, to a page or an end of a log, or to any number.
pub fn change_live_word(random: &mut Random, volume: &mut [u8], live: &[Vec<u64>]) {
    let index = live_word(random, live);
    let pages = volume.len() as u64 / 512;
    let value = match random.below(8) {
        0 => word(volume, index).wrapping_add(1),
        1 => word(volume, index).wrapping_sub(1),
        2 | 3 => word(volume, live_word(random, live)),
        4 => random.below(pages + 1),
        5 => random.below(pages + 1) * 512 + 64 * random.below(8),
        _ => any_number(random),
    };
    set_word(volume, index, value);
}
