//! Volumes whose free pages lie in a chosen way.

use crate::by_hand::{entry_add, entry_remove, entry_write, formatted, put_log};

/// A volume on which exactly these of the log and data pages are free.
///
/// Of the others nearly half, the lowest and at most 128, are data pages of the file "a"; behind them stand the pages
/// of its log, and in all that are left the directory's log.
///
/// ```
/// use samples::with_free_pages;
///
/// let volume = with_free_pages(16, 8, |page| page == 4 || page > 12);
/// assert_eq!(reference::free_count(&volume), Ok(4));
/// ```
pub fn with_free_pages(pages: u64, inodes: u64, free: impl Fn(u64) -> bool) -> Vec<u8> {
    let mut volume = formatted(pages, inodes);
    let used: Vec<u64> = (inodes / 8 + 1..pages)
        .filter(|&page| !free(page))
        .collect();
    let (data, logs) = used.split_at((used.len().saturating_sub(2) / 2).min(128));
    let (file, directory) = logs.split_at(data.len().div_ceil(7));
    let size = 512 * data.len() as u64;
    let mut names = vec![entry_remove(b"never"); (7 * directory.len()).saturating_sub(6)];
    if size > 0 {
        names[0] = entry_add(1, b"a");
        let mapped = (0..).zip(data);
        let entries: Vec<[u64; 8]> = mapped
            .map(|(file_page, &page)| entry_write(file_page, page, 1, size))
            .collect();
        put_log(&mut volume, 1, file, &entries);
    }
    put_log(&mut volume, 0, directory, &names);
    volume
}

/// Whether a page is free; given the page, and the first and the last of the log and data pages.
type Way = fn(u64, [u64; 2]) -> bool;

/// The ways in which free pages lie on the volumes of [`volumes_with_gaps`], each with its name.
const WAYS: [(&str, Way); 12] = [
    ("all free", |_, _| true),
    ("none free", |_, _| false),
    ("every second, from the first", |page, [first, _]| {
        (page - first) % 2 == 0
    }),
    ("every second, from the second", |page, [first, _]| {
        (page - first) % 2 == 1
    }),
    ("two of three", |page, [first, _]| (page - first) % 3 != 0),
    ("one of three", |page, [first, _]| (page - first) % 3 == 0),
    ("the first and the last", |page, ends| ends.contains(&page)),
    ("the first", |page, [first, _]| page == first),
    ("the last", |page, [_, last]| page == last),
    ("all but the first and the last", |page, ends| {
        !ends.contains(&page)
    }),
    ("all but the first", |page, [first, _]| page != first),
    ("all but the last", |page, [_, last]| page != last),
];

/// Volumes of these sizes on which the free pages lie in different ways, each with the way's name: all are free, none
/// is, every second one, the first and the last alone, and so on.
///
/// ```
/// use samples::volumes_with_gaps;
///
/// let (way, volume) = &volumes_with_gaps(16, 8)[2];
/// assert_eq!(*way, "every second, from the first");
/// assert_eq!(reference::free_count(volume), Ok(7));
/// ```
pub fn volumes_with_gaps(pages: u64, inodes: u64) -> Vec<(&'static str, Vec<u8>)> {
    let ends = [inodes / 8 + 1, pages - 1];
    let with = |way: Way| with_free_pages(pages, inodes, |page| way(page, ends));
    WAYS.into_iter()
        .map(|(name, way)| (name, with(way)))
        .collect()
}
