//! Volumes, at random, each brought towards an outcome. Whether it came about is for the reference
//! to say: what is drawn here is only likely.
//!
//! They have 16 to 20 pages, so that an equation about one is computed in about a second; more where the
//! outcome needs more.

use crate::arguments::names;
use crate::outcome::Outcome;
use reference::layout::{set_word, word};
use reference::{cut, format, free_count, groups, land, Call};
use samples::{
    any_call, any_number, change_live_word, clean, create, entry_add, entry_remove, filled,
    flip_live_bit, formatted, headed_noise, live_words, made_up_sized, map_of, put_folder, put_log,
    random_cut, rename_in, run, set_size, with_free_pages, write, FewFree, Random, Tree,
};

/// A volume on which a call may well come to this.
pub fn towards(outcome: Outcome, random: &mut Random) -> Vec<u8> {
    match outcome {
        Outcome::Refused(1) => any(random),
        Outcome::Refused(2) => unheaded(random),
        Outcome::Refused(3) => damaged(random),
        Outcome::Refused(4) => left_open(random),
        Outcome::Refused(11) => full_directory(random),
        Outcome::Refused(12 | 15) => crowded(random),
        _ => used(random),
    }
}

/// A volume of any kind.
pub fn any(random: &mut Random) -> Vec<u8> {
    match random.below(6) {
        0 => unheaded(random),
        1 => damaged(random),
        2 => left_open(random),
        3 => crowded(random),
        _ => used(random),
    }
}

/// A page count and an inode count that go together.
pub fn sizes(random: &mut Random) -> (u64, u64) {
    let inodes = if random.once_in(4) { 16 } else { 8 };
    (random.between(16, 20), inodes)
}

/// Bytes for so many pages: all the same, or at random.
pub fn blank(pages: u64, random: &mut Random) -> Vec<u8> {
    let length = pages as usize * 512;
    match random.once_in(4) {
        true => random.bytes(length),
        false => vec![random.number() as u8; length],
    }
}

/// A volume that calls have changed, or one put together at random.
pub fn used(random: &mut Random) -> Vec<u8> {
    let (pages, inodes) = sizes(random);
    if random.once_in(4) {
        return made_up_sized(random, pages, inodes);
    }
    let mut volume = blank(pages, random);
    format(&mut volume, pages, inodes).expect("the sizes are allowed");
    for _ in 0..random.between(1, 24) {
        change(&mut volume, random);
    }
    volume
}

/// Makes a call on an accepted volume, whole or cut and recovered.
fn change(volume: &mut [u8], random: &mut Random) {
    let call = any_call(random, word(volume, 1), &map_of(volume));
    let Ok(list) = filled(volume, &call) else {
        return;
    };
    if !list.is_empty() && random.once_in(8) {
        random_cut(random, volume, &list);
        run(volume, &Call::Recover).expect("the volume is accepted");
    } else {
        land(volume, &list);
    }
}

/// A volume with one or two names, quick to read even byte by byte.
pub fn young(random: &mut Random) -> Vec<u8> {
    let mut volume = formatted(16, 8);
    for name in [b"a", b"b"].into_iter().take(random.between(1, 2) as usize) {
        run(&mut volume, &create(name)).expect("there is room for two names");
    }
    volume
}

/// A young volume with a few bytes written at the end of a page: of the zeros behind a file's end,
/// all of which are judged, there are few.
pub fn young_written(random: &mut Random) -> Vec<u8> {
    let mut volume = young(random);
    let length = random.between(4, 20);
    let bytes = random.bytes(length as usize);
    let offset = 512 - length - random.below(8);
    run(&mut volume, &write(1, offset, &bytes)).expect("there is room for a few bytes");
    volume
}

/// A young volume whose directory's log was cleaned into the next page, so that the page before it is
/// free too: two stretches of free pages.
pub fn young_cleaned(random: &mut Random) -> Vec<u8> {
    let mut volume = young(random);
    run(&mut volume, &clean(0)).expect("there is room for a log");
    volume
}

/// A volume whose journal a cut left open.
fn left_open(random: &mut Random) -> Vec<u8> {
    let mut volume = used(random);
    if !free_count(&volume).is_ok_and(|free| free > 0) {
        return volume;
    }
    cut_journalled(&mut volume, random);
    volume
}

/// Cuts a call that goes through the journal in one of the groups that leave it open.
pub fn cut_journalled(volume: &mut [u8], random: &mut Random) {
    for _ in 0..20 {
        let call = any_call(random, word(volume, 1), &map_of(volume));
        let list = filled(volume, &call).unwrap_or_default();
        if groups(&list).len() == 4 {
            let group = random.between(1, 3) as usize;
            let kept = random.number();
            return cut(volume, &list, group, |index| kept >> (index % 64) & 1 == 1);
        }
    }
}

/// A volume with a few words or bits changed where a judge looks, or noise behind a good header.
fn damaged(random: &mut Random) -> Vec<u8> {
    if random.once_in(12) {
        let [headed, likely] = headed_noise(random);
        return if random.once_in(2) { headed } else { likely };
    }
    let mut volume = match random.once_in(4) {
        true => left_open(random),
        false => used(random),
    };
    let live = live_words(&volume);
    for _ in 0..random.between(1, 2) {
        match random.once_in(3) {
            true => flip_live_bit(random, &mut volume, &live),
            false => change_live_word(random, &mut volume, &live),
        }
    }
    volume
}

/// Bytes whose length or words 0 to 2 are not a volume's.
pub fn unheaded(random: &mut Random) -> Vec<u8> {
    let mut volume = used(random);
    match random.below(6) {
        0 => volume.truncate(random.below(volume.len() as u64) as usize),
        1 => volume.extend(vec![0; random.between(1, 600) as usize]),
        2 => volume.truncate(512 * random.below(17) as usize),
        _ => {
            let index = random.below(3);
            let value = match random.below(3) {
                0 => word(&volume, index) + 1,
                1 => word(&volume, index) - 1,
                _ => any_number(random),
            };
            set_word(&mut volume, index, value);
        }
    }
    volume
}

/// A volume with hardly a free page left. Writes leave one; in every second volume a folder's log,
/// which renames make longer, takes it.
pub fn crowded(random: &mut Random) -> Vec<u8> {
    let mut volume = used(random);
    let takes_last = random.once_in(2);
    for _ in 0..40 {
        let Ok(free @ 1..) = free_count(&volume) else {
            break;
        };
        let map = map_of(&volume);
        let call = match random.choose(&names(&map)) {
            Some(&(folder, name, _)) if free == 1 && takes_last => {
                rename_in(folder, name, folder, &[b'a' + random.below(26) as u8])
            }
            Some(&(_, _, inode)) if !map.is_folder(inode) => {
                let pages = random.between(1, free.min(4));
                let bytes = vec![5; 512 * pages as usize];
                write(inode, 512 * random.below(60), &bytes)
            }
            _ => create(b"a"),
        };
        let _ = run(&mut volume, &call);
    }
    volume
}

/// A volume with so many free pages, 0 to 3, and any number of entries in the tail's page of the
/// directory and of a file's log.
pub fn few_free(free: u64, random: &mut Random) -> Vec<u8> {
    let (pages, inodes) = sizes(random);
    let few = FewFree {
        pages,
        inodes,
        free,
        directory: random.between(1, 7),
        file: random.below(8),
        more_names: random.below(3),
    };
    few.volume(random)
}

/// The same volume with so many more pages, which are free.
pub fn with_pages_more(volume: &[u8], count: u64) -> Vec<u8> {
    let mut longer = volume.to_vec();
    longer.resize(volume.len() + 512 * count as usize, 0);
    set_word(&mut longer, 0, word(volume, 0) + count);
    longer
}

/// A volume on which these names stand, up to five, also such as no call gives to a file. Some of them
/// may lead to one file; one was removed and added again.
pub fn with_names(names: &[&[u8]], random: &mut Random) -> Vec<u8> {
    let mut volume = formatted(16, 8);
    let mut adds = Vec::new();
    for name in names {
        let inode = random.between(1, 3);
        adds.push(entry_add(inode, name));
        put_log(&mut volume, inode, &[], &[]);
    }
    let again = random.below(names.len() as u64) as usize;
    let entries = [&adds[..], &[entry_remove(names[again]), adds[again]]].concat();
    put_log(&mut volume, 0, &[2], &entries);
    volume
}

/// A volume with folders. In inode 0 stand the folders "f" (inode 1) and "e" (5), which has no names,
/// and the file "a" (3); in "f" the folder "g" (2), the file "b" (4) and "l", which leads to the file 3
/// as "a" does; in "g" the file "c" (6). Inode 7 is invalid. The sizes, the lengths of the logs and the
/// journal's position are random.
pub fn with_folders(random: &mut Random) -> Vec<u8> {
    let mut tree = Tree::default();
    let mut size = || random.below(3) * random.between(1, 900);
    tree.folder(0, b"f", 1);
    tree.file(0, b"a", 3, size());
    tree.folder(0, b"e", 5);
    tree.folder(1, b"g", 2);
    tree.file(1, b"b", 4, size());
    tree.name(1, b"l", 3);
    tree.file(2, b"c", 6, size());
    if random.once_in(2) {
        tree.name(5, b"l", 3);
        tree.remove(5, b"l");
    }
    for folder in 0..3 {
        if random.once_in(2) {
            tree.fill_up(folder, random.between(1, 7) as usize);
        }
    }
    let mut volume = tree.volume(random.between(16, 18), 8);
    let position = random.below(16);
    for index in [8, 9] {
        set_word(&mut volume, index, position);
    }
    volume
}

/// A volume whose free pages lie in pieces, so that a write may find no run. The file "a" has data pages; in every
/// second volume there is "b" too, which has none. The last file's log gets entries, so that any number of slots may
/// be left in the tail's page; the log of "b" may stay empty.
pub fn in_pieces(random: &mut Random) -> Vec<u8> {
    let free = pieces(random);
    let mut volume = with_free_pages(free.len() as u64, 8, |page| free[page as usize]);
    let inode = random.between(1, 2);
    if inode == 2 {
        run(&mut volume, &create(b"b")).expect("there is room for a second name");
    }
    for _ in 0..random.below(8) {
        let size = random.between(2_500, 6_000);
        let _ = run(&mut volume, &set_size(inode, size));
    }
    volume
}

/// Which of 16 to 26 pages are free: they lie in 2 to 12 pieces, with a used page before or behind each.
fn pieces(random: &mut Random) -> Vec<bool> {
    let count = random.between(2, 12);
    let mut lengths = vec![1; count as usize];
    for _ in 0..random.below((25 - 2 * count).min(6)) {
        let longer = random.below(count);
        lengths[longer as usize] += 1;
    }
    let begins_free = random.once_in(2);
    let mut free = vec![false; 2];
    for length in lengths {
        let used = if begins_free { length } else { 0 };
        free.extend((0..=length).map(|place| place != used));
    }
    free.resize(free.len().max(16), false);
    free
}

/// A volume with 224 names in inode 0: one of the folder 2, in which "in" leads to the file 3, and 223
/// of one file. It is the least that takes them: they stand in 32 log pages. The names have one byte, so that two
/// of them are quickly told apart.
pub fn full_directory(random: &mut Random) -> Vec<u8> {
    let mut volume = formatted(35 + random.below(2), 8);
    let skipped = random.below(30) as usize;
    let bytes = (1..=255).filter(|&byte| byte != b'/').skip(skipped);
    let inodes = [2].into_iter().chain([1; 223]);
    let entries: Vec<[u64; 8]> = bytes
        .zip(inodes)
        .map(|(byte, inode)| entry_add(inode, &[byte]))
        .collect();
    let pages: Vec<u64> = (2..34).collect();
    put_log(&mut volume, 0, &pages, &entries);
    put_log(&mut volume, 1, &[], &[]);
    put_folder(&mut volume, 2, &[34], &[entry_add(3, b"in")]);
    put_log(&mut volume, 3, &[], &[]);
    volume
}
