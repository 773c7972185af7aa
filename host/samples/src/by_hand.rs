//! Volumes and logs made by hand, word by word, without the reference model's own writing.

use reference::layout::{
    head_word, set_word, tail_word, type_word, valid_word, word, FILE_TYPE, FOLDER_TYPE, ROOT,
};
use reference::{format, judge, Entry};

/// A formatted volume whose other pages hold old bytes.
pub fn formatted(pages: u64, inodes: u64) -> Vec<u8> {
    let mut volume = vec![0xE7; pages as usize * 512];
    assert_eq!(format(&mut volume, pages, inodes), Ok(()));
    volume
}

/// P = 20, N = 16, so pages 3 to 19 hold logs and data. "A1" is inode 1 with log page 4, data
/// pages 5 and 6 and 700 bytes; "B2" is inode 2 with an empty log; the directory's log is page 3.
pub fn sample() -> Vec<u8> {
    let mut volume = formatted(20, 16);
    let names = [entry_add(1, b"A1"), entry_add(2, b"B2")];
    put_log(&mut volume, 0, &[3], &names);
    put_log(&mut volume, 1, &[4], &[entry_write(0, 5, 2, 700)]);
    put_log(&mut volume, 2, &[], &[]);
    volume[6 * 512 + 188..7 * 512].fill(0);
    volume
}

/// P = 140, N = 16. The directory's log holds 300 names in its middle, and these many in the end.
pub fn long_directory(standing: u64) -> Vec<u8> {
    let mut volume = formatted(140, 16);
    let mut entries: Vec<[u64; 8]> = Vec::new();
    entries.extend((0..300).map(|number| entry_add(number % 15 + 1, &numbered(number))));
    entries.extend((standing..300).map(|number| entry_remove(&numbered(number))));
    let pages: Vec<u64> = (3..).take(entries.len().div_ceil(7)).collect();
    put_log(&mut volume, 0, &pages, &entries);
    for inode in 1..=standing.min(15) {
        put_log(&mut volume, inode, &[], &[]);
    }
    volume
}

/// Bytes of this length, none of them 0.
pub fn text(length: usize) -> Vec<u8> {
    (0..length).map(|index| (index % 251) as u8 + 1).collect()
}

/// The name with this number: "n000", "n001", ...
pub fn numbered(number: u64) -> Vec<u8> {
    std::format!("n{number:03}").into_bytes()
}

/// The words of a volume in a range.
pub fn words(volume: &[u8], range: std::ops::Range<u64>) -> Vec<u64> {
    range.map(|index| word(volume, index)).collect()
}

/// Kind 1, by hand.
pub fn entry_write(file_page: u64, data_page: u64, count: u64, size: u64) -> [u64; 8] {
    [1, file_page, data_page, count, size, 0, 0, 0]
}

/// Kind 2, by hand.
pub fn entry_size(size: u64) -> [u64; 8] {
    [2, size, 0, 0, 0, 0, 0, 0]
}

/// Kind 3, by hand.
pub fn entry_add(inode: u64, name: &[u8]) -> [u64; 8] {
    named(3, inode, name)
}

/// Kind 4, by hand.
pub fn entry_remove(name: &[u8]) -> [u64; 8] {
    named(4, 0, name)
}

fn named(kind: u64, inode: u64, name: &[u8]) -> [u64; 8] {
    let mut entry = [kind, inode, name.len() as u64, 0, 0, 0, 0, 0];
    for (index, &byte) in name.iter().enumerate() {
        entry[3 + index / 8] |= u64::from(byte) << (8 * (index % 8));
    }
    entry
}

/// Puts the log of a folder on a volume by hand, in these pages, and makes its inode a valid folder.
pub fn put_folder(volume: &mut [u8], inode: u64, pages: &[u64], entries: &[[u64; 8]]) {
    put_log(volume, inode, pages, entries);
    set_word(volume, type_word(inode), FOLDER_TYPE);
}

/// Puts a log on a volume by hand, in these pages, and makes its inode a valid file; inode 0's type
/// word, which is not read, stays.
pub fn put_log(volume: &mut [u8], inode: u64, pages: &[u64], entries: &[[u64; 8]]) {
    assert_eq!(pages.len(), entries.len().div_ceil(7));
    if inode != ROOT {
        set_word(volume, type_word(inode), FILE_TYPE);
    }
    set_word(volume, valid_word(inode), 1);
    set_word(
        volume,
        head_word(inode),
        pages.first().copied().unwrap_or(99),
    );
    set_word(volume, tail_word(inode), 0);
    for (part, &page) in entries.chunks(7).zip(pages) {
        for (entry, place) in part.iter().zip(0..) {
            put_entry(volume, page, place, entry);
        }
        set_word(
            volume,
            tail_word(inode),
            page * 512 + 64 * part.len() as u64,
        );
    }
    for two in pages.windows(2) {
        set_word(volume, footer_word(two[0]), two[1]);
    }
}

/// The word of a log page that holds the next one.
pub(crate) fn footer_word(page: u64) -> u64 {
    page * 64 + 56
}

/// Opens the journal by hand: these target words with their old values, from a dequeue position on.
pub fn open_journal(volume: &mut [u8], dequeue: u64, entries: &[(u64, u64)]) {
    set_word(volume, 8, dequeue);
    set_word(volume, 9, (dequeue + entries.len() as u64) % 16);
    for (&(target, old), position) in entries.iter().zip(dequeue..) {
        set_word(volume, 16 + 2 * (position % 16), target);
        set_word(volume, 17 + 2 * (position % 16), old);
    }
}

/// Puts one entry by hand at a place (0 to 6) of a log page.
pub fn put_entry(volume: &mut [u8], page: u64, place: u64, entry: &[u64; 8]) {
    for (&value, index) in entry.iter().zip(page * 64 + place * 8..) {
        set_word(volume, index, value);
    }
}

/// Gives what a standing name of inode 0 leads to another one by hand, also one that no call would
/// give.
///
/// The name is changed where it stands in the directory's log: in the add that is the only entry
/// with it. So the list of names keeps its order.
///
/// ```
/// use samples::{give_name, sample};
///
/// let mut volume = sample();
/// give_name(&mut volume, b"A1", b".");
/// assert_eq!(reference::find(&volume, 0, b"."), Ok(1));
/// assert_eq!(reference::find(&volume, 0, b"A1"), Err(reference::Refusal::NotThere));
/// assert_eq!(reference::listing(&volume), b"files 2 free 13\n1 700 .\n2 0 B2\n");
/// ```
pub fn give_name(volume: &mut [u8], old: &[u8], new: &[u8]) {
    let names = standing(volume);
    assert!(names.iter().all(|(name, _)| name != new), "{new:?} stands");
    let (first_word, inode) = only_add(volume, old);
    let entry = entry_add(inode, new);
    for (&value, index) in entry[2..7].iter().zip(first_word + 2..) {
        set_word(volume, index, value);
    }
    let after = names.into_iter().map(|(name, inode)| match name == old {
        true => (new.to_vec(), inode),
        false => (name, inode),
    });
    assert_eq!(standing(volume), after.collect::<Vec<_>>());
}

/// The names that stand in inode 0 of an accepted volume, in list order, each with its inode.
fn standing(volume: &[u8]) -> Vec<(Vec<u8>, u64)> {
    let judged = judge(volume).expect("the volume is accepted");
    let names = judged.folders[&ROOT].iter();
    names.map(|&(name, inode)| (name.to_vec(), inode)).collect()
}

/// The first word of the only entry of the directory's log with this name, an add, and its inode.
fn only_add(volume: &[u8], wanted: &[u8]) -> (u64, u64) {
    let judged = judge(volume).expect("the volume is accepted");
    let entries = judged.logs[&ROOT].placed(volume);
    let found: Vec<(u64, Option<u64>)> = entries
        .filter_map(|placed| {
            let first_word = placed.page * 64 + 8 * (placed.number as u64 - 1);
            match Entry::read(placed.bytes, judged.sizes) {
                Ok(Entry::Add { inode, name }) if name == wanted => Some((first_word, Some(inode))),
                Ok(Entry::Remove { name }) if name == wanted => Some((first_word, None)),
                _ => None,
            }
        })
        .collect();
    match found[..] {
        [(first_word, Some(inode))] => (first_word, inode),
        _ => panic!("not one add alone has {wanted:?}: {found:?}"),
    }
}

/// Zeroes a page by hand.
pub fn zero_page(volume: &mut [u8], page: u64) {
    for index in page * 64..page * 64 + 64 {
        set_word(volume, index, 0);
    }
}
