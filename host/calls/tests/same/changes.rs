//! The changing calls where something ends: full volumes, full directories, journal positions that wrap, lists
//! of every length, long logs.

use crate::compare::{Compared, Counts, CHANGES, NOTHING};
use reference::layout::{set_word, word};
use reference::{judge, land, Call, FileMap};
use samples::{
    any_call, clean, create, create_folder, entry_add, entry_remove, entry_size, entry_write,
    formatted, link, long_directory, map_of, numbered, put_log, random_cut, rename, sample,
    set_size, text, unlink, write, Random,
};

/// A call of each kind that is done on [`sample`].
fn done_on_sample() -> [Call; 8] {
    [
        create(b"C3"),
        create_folder(0, b"C3"),
        link(b"A1", b"C3"),
        unlink(b"A1"),
        rename(b"A1", b"B2"),
        write(1, 500, &text(600)),
        set_size(1, 100),
        clean(0),
    ]
}

/// Volumes reached by compiled lists alone, some of them cut, from any journal position on.
fn history(seed: u64, pages: u64, inodes: u64, length: u64, counts: &mut Counts) {
    let mut random = Random::new(seed);
    let mut volume = random.bytes(pages as usize * 512);
    calls::format(&mut volume, pages, inodes).expect("the sizes are allowed");
    let position = random.below(16);
    for index in [8, 9] {
        set_word(&mut volume, index, position);
    }
    random_calls(&mut random, volume, length, counts);
}

/// Makes a call on both, and answers the volume that it leaves; none where it fills no word.
pub fn volume_after(volume: &[u8], call: &Call, counts: &mut Counts) -> Option<Vec<u8>> {
    let list = Compared::new(volume, 0, counts).change(call, 4_096);
    let mut after = volume.to_vec();
    land(&mut after, &list);
    (!list.is_empty()).then_some(after)
}

/// So many random calls from an accepted volume on, some of them cut.
pub fn random_calls(random: &mut Random, volume: Vec<u8>, length: u64, counts: &mut Counts) {
    drawn_calls(random, volume, length, any_call, counts);
}

/// So many calls from an accepted volume on, drawn with its inode count and map; some of them cut. Answers the volume
/// that they leave.
pub fn drawn_calls(
    random: &mut Random,
    mut volume: Vec<u8>,
    length: u64,
    draw: fn(&mut Random, u64, &FileMap) -> Call,
    counts: &mut Counts,
) -> Vec<u8> {
    let inodes = word(&volume, 1);
    for _ in 0..length {
        let open = judge(&volume).is_ok_and(|judged| judged.journal.is_open());
        let call = match open && !random.once_in(3) {
            true => Call::Recover,
            false => draw(random, inodes, &map_of(&volume)),
        };
        let list = Compared::new(&volume, 0, counts).change(&call, 4_096);
        if !list.is_empty() && random.once_in(6) {
            random_cut(random, &mut volume, &list);
        } else {
            land(&mut volume, &list);
        }
    }
    volume
}

#[test]
fn histories_of_small_volumes() {
    let mut counts = Counts::default();
    for seed in 0..400 {
        let mut random = Random::new(5_000 + seed);
        let inodes = 8 * random.between(1, 3);
        let pages = random.between(16, 40);
        history(seed, pages, inodes, 150, &mut counts);
    }
    counts.reached(&CHANGES, &[0], 300);
    counts.reached(&CHANGES[..8], &[4], 10);
    counts.reached(&CHANGES[..5], &[5, 12], 20);
    counts.reached(&["write", "set_size", "clean"], &[6, 12], 20);
    counts.reached(&["link", "unlink", "rename"], &[6], 100);
    counts.reached(&["create", "create_folder", "link"], &[7], 100);
    counts.reached(&CHANGES[..7], &[16], 20);
    counts.reached(&["unlink"], &[17], 100);
    counts.reached(&["rename"], &[18], 100);
    counts.reached(&["write"], &[8], 100);
    counts.reached(&["write", "set_size"], &[9], 100);
    counts.reached(
        &["create", "create_folder", "link", "write", "set_size"],
        &[15],
        10,
    );
    counts.reached(&["create", "create_folder"], &[10], 100);
    let idle = ["rename", "write", "set_size", "clean", "recover"];
    counts.reached(&idle, &[NOTHING], 20);
}

#[test]
fn histories_of_larger_volumes() {
    let mut counts = Counts::default();
    for seed in 0..10 {
        history(seed, 36, 256, 200, &mut counts);
        history(seed, 300, 32, 300, &mut counts);
    }
    history(90, 4_096, 256, 150, &mut counts);
    counts.reached(&CHANGES, &[0], 20);
}

/// Every length of the list up to a page more than enough: 4,095 words are too few for every call, and what
/// a call needs makes no difference.
#[test]
fn lists_of_every_length() {
    let mut counts = Counts::default();
    let volume = sample();
    let mut compared = Compared::new(&volume, 0, &mut counts);
    for words in (0..60).chain(4_080..4_110).chain([8_192, 70_000]) {
        for call in done_on_sample() {
            compared.change(&call, words);
        }
        compared.change(&Call::Recover, words);
    }
    counts.reached(&CHANGES, &[1], 76);
    counts.reached(&CHANGES, &[0], 16);
}

/// The journal's positions at every place: both targets before the end, one on each side, both at the start.
#[test]
fn journal_positions() {
    let mut counts = Counts::default();
    for position in 0..16 {
        let mut volume = sample();
        for index in [8, 9] {
            set_word(&mut volume, index, position);
        }
        for call in done_on_sample() {
            let list = Compared::new(&volume, 0, &mut counts).change(&call, 4_096);
            for landed in (0..list.len()).step_by(2) {
                let mut cut = volume.clone();
                for pair in list[..landed].chunks(2).filter(|pair| pair[0] != u64::MAX) {
                    set_word(&mut cut, pair[0], pair[1]);
                }
                Compared::new(&cut, 0, &mut counts).change(&Call::Recover, 4_096);
            }
        }
    }
    counts.reached(&["recover"], &[0], 100);
    counts.reached(&["recover"], &[NOTHING], 100);
}

/// One to four open entries, from every position on, with targets in any order.
#[test]
fn open_journals() {
    let mut random = Random::new(71);
    let mut counts = Counts::default();
    for position in 0..16 {
        for count in 0..6 {
            for _ in 0..30 {
                let mut volume = sample();
                let mut targets: Vec<u64> = (0..5)
                    .flat_map(|inode| 64 + 8 * inode..67 + 8 * inode)
                    .collect();
                for number in 0..count {
                    let place = (position + number) % 16;
                    let target = targets.swap_remove(random.below(targets.len() as u64) as usize);
                    let old = word(&volume, target);
                    set_word(&mut volume, 16 + 2 * place, target);
                    set_word(&mut volume, 17 + 2 * place, old);
                    set_word(&mut volume, target, random.number());
                }
                set_word(&mut volume, 8, position);
                set_word(&mut volume, 9, (position + count) % 16);
                Compared::new(&volume, 0, &mut counts).change(&Call::Recover, 4_096);
                Compared::new(&volume, 0, &mut counts).change(&unlink(b"A1"), 4_096);
            }
        }
    }
    counts.reached(&["recover"], &[0, 3, NOTHING], 400);
    counts.reached(&["unlink"], &[3, 4], 400);
}

/// Directories with 222 to 224 names: the last name that fits, and the one that does not.
#[test]
fn full_directories() {
    let mut counts = Counts::default();
    for standing in [1, 14, 222, 223, 224, 225] {
        let mut volume = long_directory(standing);
        for _ in 0..3 {
            let mut compared = Compared::new(&volume, 0, &mut counts);
            compared.change(&create(b"new"), 4_096);
            compared.change(&create_folder(0, b"new"), 4_096);
            compared.change(&link(&numbered(0), b"new"), 4_096);
            compared.change(&unlink(&numbered(0)), 4_096);
            compared.change(&rename(&numbered(0), b"new"), 4_096);
            compared.change(&rename(&numbered(3), &numbered(13)), 4_096);
            compared.change(&unlink(&numbered(standing)), 4_096);
            let list = compared.change(&clean(0), 4_096);
            land(&mut volume, &list);
        }
    }
    counts.reached(&["link"], &[0, 3, 11], 3);
    counts.reached(&["create", "create_folder"], &[0, 3, 10], 3);
    counts.reached(&["clean"], &[0, 3], 3);
}

/// 224 names and an invalid inode left: create is refused for the names.
#[test]
fn create_as_the_225th_name() {
    let mut counts = Counts::default();
    let mut volume = formatted(120, 256);
    for number in 0..225 {
        let list = Compared::new(&volume, 0, &mut counts).change(&create(&numbered(number)), 4_096);
        land(&mut volume, &list);
    }
    let mut compared = Compared::new(&volume, 0, &mut counts);
    compared.change(&clean(0), 4_096);
    compared.change(&create_folder(0, b"x"), 4_096);
    compared.change(&link(&numbered(5), b"x"), 4_096);
    compared.change(&rename(&numbered(5), b"x"), 4_096);
    counts.reached(&["create"], &[0], 224);
    counts.reached(&["create", "create_folder", "link"], &[11], 1);
}

/// Lets file 2 of [`sample`] have these pages: one in eight for its log, which is full, the others for data.
fn use_pages(volume: &mut [u8], pages: &[u64]) {
    let (log, data) = pages.split_at(pages.len().div_ceil(8));
    let mut entries = vec![entry_size(65_536); 7 * log.len()];
    for (place, &page) in data.iter().enumerate() {
        entries[place] = entry_write(place as u64, page, 1, 65_536);
    }
    put_log(volume, 2, log, &entries);
}

/// Every count of free pages from none on, in one run or in holes: what needs a page is refused exactly where
/// there is none.
#[test]
fn free_pages_run_out() {
    let mut counts = Counts::default();
    for used in 0..=13 {
        for step in [1, 2, 3] {
            for full_logs in [false, true] {
                let mut volume = sample();
                let mut pages: Vec<u64> = (7..20).collect();
                pages.sort_by_key(|page| page % step);
                pages.truncate(used);
                use_pages(&mut volume, &pages);
                if full_logs {
                    put_log(&mut volume, 1, &[4], &[entry_write(0, 5, 2, 700); 7]);
                    let mut names = [entry_remove(b"x"); 7];
                    names[0] = entry_add(1, b"A1");
                    names[6] = entry_add(2, b"B2");
                    put_log(&mut volume, 0, &[3], &names);
                }
                let mut compared = Compared::new(&volume, 0, &mut counts);
                for call in done_on_sample() {
                    compared.change(&call, 4_096);
                }
                for length in (0..9).map(|pages| 512 * pages) {
                    compared.change(&write(1, 0, &text(length)), 4_096);
                    compared.change(&write(2, 511, &text(length)), 4_096);
                }
                compared.change(&set_size(1, 300), 4_096);
                compared.change(&set_size(1, 65_536), 4_096);
                compared.change(&clean(1), 4_096);
                compared.change(&clean(2), 4_096);
            }
        }
    }
    counts.reached(&CHANGES[..8], &[0, 12], 2);
    counts.reached(&["write", "set_size", "clean"], &[0, 12], 20);
    counts.reached(&["create", "link", "write", "set_size"], &[15], 2);
}

/// A file of 128 single stretches, the longest log that clean can write for a file, and a log of 21 entries
/// that ends in every way.
#[test]
fn long_logs() {
    let mut counts = Counts::default();
    for step in [1, 2] {
        let mut volume = formatted(400, 8);
        put_log(&mut volume, 0, &[2], &[entry_add(1, b"a")]);
        let entries: Vec<[u64; 8]> = (0..128)
            .map(|page| entry_write(page, 100 + step * page, 1, 65_536))
            .collect();
        let log: Vec<u64> = (10..).take(entries.len().div_ceil(7)).collect();
        put_log(&mut volume, 1, &log, &entries);
        let mut compared = Compared::new(&volume, 0, &mut counts);
        for call in [
            clean(1),
            clean(0),
            set_size(1, 0),
            set_size(1, 512),
            set_size(1, 65_535),
            write(1, 0, &text(4_096)),
            write(1, 61_440, &text(4_096)),
            write(1, 65_536, &[]),
            write(1, 65_537, &[]),
        ] {
            compared.change(&call, 4_096);
        }
    }
    for count in 0..=21 {
        let mut volume = sample();
        let pages: Vec<u64> = [19, 7, 8][..usize::div_ceil(count, 7)].to_vec();
        put_log(&mut volume, 1, &pages, &vec![entry_size(700); count]);
        let mut compared = Compared::new(&volume, 0, &mut counts);
        compared.change(&clean(1), 4_096);
        compared.change(&write(1, 3, b"text"), 4_096);
        compared.change(&set_size(1, 100), 4_096);
    }
    counts.reached(&["clean", "write", "set_size"], &[0], 20);
}
