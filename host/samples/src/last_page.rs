//! Volumes with few free pages, and calls that take the last of them.
//!
//! Order 4 of document 02: "Create, link, write and set size shall not take the last free page. The
//! rule concerns only calls that take at least one page, and pages let go by the call do not count.
//! Unlink, rename and clean may take the last page." Whether a call takes a page depends on how
//! full the page of a tail is, so all of that is varied here:
//!
//! - 0, 1, 2 or 3 pages are free, side by side or apart, at the volume's end or elsewhere.
//! - The directory's tail's page has 1 to 7 entries, and that of a file's log too; or the file's
//!   log is empty. (An empty directory has no files, so that all pages but the first ones are free;
//!   the fewest are three.)
//! - Every call is there with arguments for which it takes no page, one, two and so on: names
//!   added, removed and both; writes of nothing, inside a mapped page, over an unmapped one, of
//!   several pages; sizes larger, smaller and equal, with a copied page and without; logs that are
//!   clean in no page, in one and in more.

use crate::by_hand::{entry_add, entry_remove, entry_size, entry_write, formatted, put_log, text};
use crate::calls::{clean, create, create_folder, link, rename, set_size, unlink, write};
use reference::layout::{tail_word, word};
use reference::random::Random;
use reference::{free_count, Call};

/// A volume with few free pages, and the calls to make on it.
#[derive(Clone, Debug)]
pub struct LastPage {
    /// What the volume is.
    pub title: String,
    /// The volume. Its journal is closed.
    pub volume: Vec<u8>,
    /// The count of its free pages.
    pub free: u64,
    /// Calls, each on the volume as it is.
    pub calls: Vec<Call>,
}

/// What a volume with few free pages is made of.
///
/// The name "a" leads to inode 1, whose log is as said here; "b", "c" and some more names lead to
/// inode 2, whose log is empty; "d" leads to inode 3, which has most of the pages; "e" leads to
/// inode 4, which has no byte but a page of log.
#[derive(Clone, Copy, Debug)]
pub struct FewFree {
    /// The page count.
    pub pages: u64,
    /// The inode count.
    pub inodes: u64,
    /// How many pages are free.
    pub free: u64,
    /// How many entries the tail's page of the directory's log has: 1 to 7.
    pub directory: u64,
    /// How many entries the tail's page of the log of "a" has: 1 to 7, or 0 for an empty log.
    pub file: u64,
    /// How many names lead to inode 2 besides "b" and "c".
    pub more_names: u64,
}

/// The size of "a" where its log is not empty. Of file pages 0 to 3 the first, the third and the
/// fourth are mapped, or as many of these as there are entries.
const SIZE: u64 = 2_000;

/// File pages of "a" that may be mapped.
const MAPPED: [u64; 3] = [0, 2, 3];

impl FewFree {
    /// Puts such a volume together: which pages are free, and what the others serve for, is random.
    ///
    /// ```
    /// use reference::{create, unlink, Refusal};
    /// use samples::{FewFree, Random};
    ///
    /// let few = FewFree { pages: 16, inodes: 8, free: 1, directory: 7, file: 3, more_names: 0 };
    /// let volume = few.volume(&mut Random::new(1));
    /// let mut list = vec![0; 4_096];
    /// assert_eq!(create(&volume, 0, b"new", &mut list), Err(Refusal::LastPage));
    /// assert_eq!(unlink(&volume, 0, b"a", &mut list), Ok(42));
    /// ```
    pub fn volume(&self, random: &mut Random) -> Vec<u8> {
        let mut volume = formatted(self.pages, self.inodes);
        let (free, mut used) = self.chosen_pages(random);
        let names = self.names();
        let beyond = (names.len() as u64).saturating_sub(self.directory);
        let mut directory: Vec<u64> = used.split_off(used.len() - 1 - beyond.div_ceil(7) as usize);
        self.put_file(random, &mut volume, &mut used, &free);
        let log = used.pop().expect("a page is left for the log of \"e\"");
        put_log(&mut volume, 4, &[log], &[entry_size(0); 3]);
        put_log(&mut volume, 2, &[], &[]);
        directory.extend(put_rest(&mut volume, used));
        let length = 7 * directory.len() - 7 + self.directory as usize;
        let mut entries = names;
        entries.resize(length, entry_remove(b"never"));
        put_log(&mut volume, 0, &directory, &entries);
        self.check(&volume);
        volume
    }

    /// The free pages, ascending, and the others of the log and data pages in any order.
    fn chosen_pages(&self, random: &mut Random) -> (Vec<u64>, Vec<u64>) {
        let first = self.inodes / 8 + 1;
        let last = self.pages - self.free;
        let begin = match random.below(3) {
            0 => last,
            1 => random.between(first, last),
            _ => 0,
        };
        let mut pages: Vec<u64> = (first..self.pages).collect();
        shuffle(random, &mut pages);
        if begin > 0 {
            pages.sort_by_key(|page| !(begin..begin + self.free).contains(page));
        }
        let used = pages.split_off(self.free as usize);
        pages.sort_unstable();
        (pages, used)
    }

    /// The directory's entries that add the names.
    fn names(&self) -> Vec<[u64; 8]> {
        let mut names = vec![
            entry_add(1, b"a"),
            entry_add(2, b"b"),
            entry_add(2, b"c"),
            entry_add(3, b"d"),
            entry_add(4, b"e"),
        ];
        let more = (0..self.more_names).map(|number| entry_add(2, &[b'A' + number as u8; 32]));
        names.extend(more);
        names
    }

    /// Puts the log of "a" and its data pages on the volume. Entries that no longer count map a
    /// free page; in every second volume the log has a page before the tail's.
    fn put_file(&self, random: &mut Random, volume: &mut [u8], used: &mut Vec<u64>, free: &[u64]) {
        if self.file == 0 {
            return put_log(volume, 1, &[], &[]);
        }
        let log = used.split_off(used.len() - 1 - random.below(2) as usize);
        let length = 7 * log.len() - 7 + self.file as usize;
        let mapped = &MAPPED[..MAPPED.len().min(self.file as usize)];
        let old = match free {
            [] => entry_size(SIZE),
            [page, ..] => entry_write(0, *page, 1, SIZE),
        };
        let mut entries = vec![old; length - mapped.len()];
        for (&file_page, page) in mapped.iter().zip(used.split_off(used.len() - mapped.len())) {
            let start = 512 * page as usize;
            let bytes = (SIZE - 512 * file_page).min(512) as usize;
            volume[start..start + 512].fill(0);
            volume[start..start + bytes].copy_from_slice(&text(bytes));
            entries.push(entry_write(file_page, page, 1, SIZE));
        }
        put_log(volume, 1, &log, &entries);
    }

    /// Checks what was promised of the volume.
    fn check(&self, volume: &[u8]) {
        assert_eq!(free_count(volume), Ok(self.free), "{self:?}");
        let in_page = |inode: u64| word(volume, tail_word(inode)) % 512 / 64;
        assert_eq!([in_page(0), in_page(1)], [self.directory, self.file]);
    }
}

/// Puts these values in any order.
fn shuffle(random: &mut Random, values: &mut [u64]) {
    for end in (1..values.len()).rev() {
        values.swap(end, random.below(end as u64 + 1) as usize);
    }
}

/// Lets "d" have these pages: most, at most 128, for its data, and one for each seven of them for
/// its log. Answers the pages that are left.
fn put_rest(volume: &mut [u8], mut pages: Vec<u64>) -> Vec<u64> {
    let data = pages.split_off(pages.len() - (7 * pages.len() / 8).min(128));
    let log = pages.split_off(pages.len() - data.len().div_ceil(7));
    let size = 512 * data.len() as u64;
    let entries: Vec<[u64; 8]> = (0..)
        .zip(data)
        .map(|(file_page, page)| entry_write(file_page, page, 1, size))
        .collect();
    put_log(volume, 3, &log, &entries);
    pages
}

/// The calls on a volume that is made as [`FewFree`] says.
fn calls() -> Vec<Call> {
    let names = [
        create(b"new"),
        create(b"never"),
        create_folder(0, b"new"),
        create_folder(0, b"never"),
        link(b"a", b"new"),
        link(b"c", b"new"),
        unlink(b"a"),
        unlink(b"b"),
        unlink(b"d"),
        unlink(b"e"),
        rename(b"a", b"new"),
        rename(b"b", b"new"),
        rename(b"a", b"b"),
        rename(b"a", b"d"),
        rename(b"d", b"a"),
        rename(b"b", b"a"),
        rename(b"b", b"c"),
        rename(b"a", b"a"),
    ];
    let sizes = [
        0, 1, 300, 512, 700, 1_024, 1_536, 1_900, SIZE, 3_000, 65_536,
    ];
    let mut calls = names.to_vec();
    calls.extend(WRITES.map(|(offset, length)| write(1, offset, &text(length))));
    calls.extend([write(2, 0, b""), write(2, 0, b"x"), write(2, 511, b"xy")]);
    calls.extend(sizes.map(|size| set_size(1, size)));
    calls.extend([0, 1].map(|size| set_size(2, size)));
    calls.extend((0..=4).map(clean));
    calls.push(Call::Recover);
    calls
}

/// Offset and length of writes to "a".
const WRITES: [(u64, usize); 14] = [
    (0, 0),
    (65_536, 0),
    (100, 20),
    (0, 512),
    (600, 20),
    (1_990, 10),
    (2_000, 30),
    (4_000, 10),
    (500, 30),
    (512, 1_024),
    (0, 1_536),
    (0, 2_048),
    (100, 2_048),
    (511, 4_096),
];

/// Sizes of the volumes: page count and inode count.
const SIZES: [(u64, u64); 11] = [
    (16, 8),
    (17, 8),
    (20, 8),
    (25, 16),
    (18, 8),
    (31, 8),
    (40, 32),
    (22, 16),
    (64, 8),
    (170, 24),
    (16, 8),
];

/// The volumes with their calls: those with files ([`few_free_pages`]) and those without
/// ([`no_files`]).
///
/// ```
/// use samples::last_page;
///
/// let sample = last_page().next().expect("there are samples");
/// assert_eq!(sample.free, 0);
/// assert_eq!(reference::free_count(&sample.volume), Ok(0));
/// ```
pub fn last_page() -> impl Iterator<Item = LastPage> {
    few_free_pages().chain(no_files())
}

/// Volumes with 0 to 3 free pages, for each fill of the tail's page of the directory and of a file,
/// and with directories that are clean in one page, in two and in three.
pub fn few_free_pages() -> impl Iterator<Item = LastPage> {
    let ways = [0, 4, 11].into_iter();
    let ways = ways.flat_map(|more_names| (1..=7).map(move |directory| (more_names, directory)));
    let ways = ways.flat_map(|way| (0..=7).map(move |file| (way, file)));
    let ways = ways.flat_map(|way| (0..=3).map(move |free| (way, free)));
    (0..).zip(ways).map(|(seed, (way, free))| {
        let ((more_names, directory), file) = way;
        let (pages, inodes) = SIZES[seed % SIZES.len()];
        let few = FewFree {
            pages,
            inodes,
            free,
            directory,
            file,
            more_names,
        };
        LastPage {
            title: format!("{few:?}: "),
            volume: few.volume(&mut Random::new(seed as u64)),
            free,
            calls: calls(),
        }
    })
}

/// Volumes on which no name stands: the directory's log has all pages but 0 to 3, for each fill of
/// its tail's page, or it is empty and three pages are free, the fewest that are.
pub fn no_files() -> impl Iterator<Item = LastPage> {
    let sizes = [(16, 8), (16, 96), (23, 8), (36, 256)].into_iter();
    let ways = sizes.flat_map(|size| (0..=7).map(move |entries| (size, entries)));
    let ways = ways.flat_map(|way| (0..=3).map(move |free| (way, free)));
    ways.filter_map(|(((pages, inodes), entries), free)| {
        let first = inodes / 8 + 1;
        let log: Vec<u64> = (first..pages - free).rev().collect();
        if log.is_empty() != (entries == 0) {
            return None;
        }
        let length = (7 * log.len() + entries).saturating_sub(7);
        let mut volume = formatted(pages, inodes);
        put_log(&mut volume, 0, &log, &vec![entry_remove(b"never"); length]);
        assert_eq!(free_count(&volume), Ok(free));
        Some(LastPage {
            title: format!("{pages} pages, {free} free, no files, {length} entries: "),
            volume,
            free,
            calls: vec![
                create(b"new"),
                create_folder(0, b"new"),
                clean(0),
                Call::Recover,
            ],
        })
    })
}
