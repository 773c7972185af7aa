//! Volumes put together at random: logs in any pages, anything that an entry allows in their
//! middle, folders beneath folders, unread words that hold any number, journals open or closed.

use crate::by_hand::{entry_add, entry_remove, entry_size, entry_write, numbered, put_log};
use crate::dot_names::dot_name_or_like;
use crate::numbers::any_number;
use reference::layout::{head_word, set_word, tail_word, type_word, valid_word, word, ROOT};
use reference::random::Random;
use std::collections::{BTreeMap, BTreeSet};

/// A log entry's eight words.
type Words = [u64; 8];

/// A small volume, put together at random; see [`made_up_sized`].
pub fn made_up(random: &mut Random) -> Vec<u8> {
    let (pages, inodes) = small_sizes(random);
    made_up_sized(random, pages, inodes)
}

/// A small volume as [`made_up`] puts it together, but half of its names are "." and ".." or names
/// like these.
///
/// ```
/// use samples::{made_up_with_dots, Random};
///
/// let mut random = Random::new(1);
/// let mut volumes = (0..100).map(|_| made_up_with_dots(&mut random));
/// assert!(volumes.any(|volume| reference::find(&volume, 0, b".").is_ok()));
/// ```
pub fn made_up_with_dots(random: &mut Random) -> Vec<u8> {
    let (pages, inodes) = small_sizes(random);
    put_together(random, pages, inodes, true)
}

/// Sizes of a small volume: page count and inode count.
fn small_sizes(random: &mut Random) -> (u64, u64) {
    let inodes = 8 * match random.below(8) {
        0 => random.between(1, 32),
        1 | 2 => random.between(1, 4),
        _ => 1,
    };
    let least = (inodes / 8 + 4).max(16);
    let more = match random.below(8) {
        0 => 0,
        1 => random.below(120),
        _ => random.below(30),
    };
    (least + more, inodes)
}

/// A volume of these sizes, put together at random. Most are accepted; in some a page serves twice, a
/// file has no name or too many stand, a log leaves pages behind a file's end, or a folder lies
/// beneath itself or has no name or two, or its type is none.
pub fn made_up_sized(random: &mut Random, pages: u64, inodes: u64) -> Vec<u8> {
    put_together(random, pages, inodes, false)
}

fn put_together(random: &mut Random, pages: u64, inodes: u64, dots: bool) -> Vec<u8> {
    let fill = match random.below(3) {
        0 => random.bytes(pages as usize * 512),
        1 => vec![0; pages as usize * 512],
        _ => vec![0xE7; pages as usize * 512],
    };
    let mut maker = Maker {
        volume: fill,
        pages,
        inodes,
        unused: (inodes / 8 + 1..pages).collect(),
        wrong: random.once_in(2),
        dots,
        random,
    };
    assert_eq!(reference::format(&mut maker.volume, pages, inodes), Ok(()));
    maker.scribble();
    let (files, folders) = maker.make_files();
    maker.make_folders(&files, &folders);
    maker.open_journal();
    maker.volume
}

/// A volume in the making.
struct Maker<'r> {
    random: &'r mut Random,
    volume: Vec<u8>,
    pages: u64,
    inodes: u64,
    /// The log and data pages that serve nothing yet, ascending.
    unused: Vec<u64>,
    /// Whether things may be done that break the volume.
    wrong: bool,
    /// Whether half of the names are dot names or like these. Where not, no number is drawn for it.
    dots: bool,
}

impl Maker<'_> {
    /// True now and then, on a volume that may be broken.
    fn goes_wrong(&mut self) -> bool {
        self.wrong && self.random.once_in(4)
    }

    /// Puts any numbers into words that no judge reads.
    fn scribble(&mut self) {
        let inode_words = (0..self.inodes).flat_map(|inode| {
            let first = valid_word(inode) + if inode == 0 { 3 } else { 1 };
            first..valid_word(inode) + 8
        });
        let unread: Vec<u64> = (3..8).chain(10..64).chain(inode_words).collect();
        for index in unread {
            let value = any_number(self.random);
            set_word(&mut self.volume, index, value);
        }
        let position = self.random.below(16);
        set_word(&mut self.volume, 8, position);
        set_word(&mut self.volume, 9, position);
    }

    /// Takes an unused page; none if there is none left.
    fn take_page(&mut self) -> Option<u64> {
        let place = self.random.below(self.unused.len() as u64) as usize;
        (place < self.unused.len()).then(|| self.unused.remove(place))
    }

    /// Takes unused pages that follow each other, at most `most`: the first and the count.
    fn take_run(&mut self, most: u64) -> Option<(u64, u64)> {
        let first = self.take_page()?;
        let mut count = 1;
        let place = self.unused.partition_point(|&page| page < first);
        while count < most && self.unused.get(place) == Some(&(first + count)) {
            self.unused.remove(place);
            count += 1;
        }
        Some((first, count))
    }

    /// Takes log pages for these entries, puts the log there, and makes its inode valid.
    fn put_log(&mut self, inode: u64, entries: &[Words]) {
        let pages: Vec<u64> = (0..entries.len().div_ceil(7))
            .map_while(|_| self.take_page())
            .collect();
        let entries = &entries[..entries.len().min(7 * pages.len())];
        put_log(&mut self.volume, inode, &pages, entries);
        if pages.is_empty() {
            let unread = any_number(self.random);
            set_word(&mut self.volume, head_word(inode), unread);
        }
    }
}

/// Files.
impl Maker<'_> {
    /// Makes files of some inodes, as many as the pages allow, and leaves pages for folders; answers
    /// the inodes of both.
    fn make_files(&mut self) -> (Vec<u64>, Vec<u64>) {
        let times = *self.random.choose(&[1, 2, 2, 6, 40]).unwrap_or(&2);
        let most = if self.goes_wrong() { 256 } else { 224 };
        let room = 7 * self.unused.len().min(1 + self.unused.len() / 3);
        let mut files: Vec<u64> = (1..self.inodes)
            .filter(|_| self.random.once_in(times))
            .collect();
        files.truncate(room.min(most));
        let mut kept = files.len().div_ceil(7);
        let folders = self.choose_folders(&mut files);
        if !folders.is_empty() {
            kept += folders.len() + 1;
        }
        for &inode in &files {
            if self.unused.len() < kept + 4 || self.random.once_in(6) {
                self.put_log(inode, &[]);
            } else {
                self.make_file(inode, kept);
            }
        }
        (files, folders)
    }

    /// In every second volume makes folders of some of these inodes: takes them out and answers them.
    fn choose_folders(&mut self, files: &mut Vec<u64>) -> Vec<u64> {
        let mut folders = Vec::new();
        if self.random.once_in(2) {
            let most = self.unused.len() / 4;
            let times = *self.random.choose(&[1, 2, 2, 3, 6]).unwrap_or(&2);
            files.retain(|&inode| {
                let chosen = folders.len() < most && self.random.once_in(times);
                folders.extend(chosen.then_some(inode));
                !chosen
            });
        }
        folders
    }

    /// Makes a file that leaves `kept` pages unused.
    fn make_file(&mut self, inode: u64, kept: usize) {
        let mut entries = self.middle_of_file();
        if !self.goes_wrong() {
            entries.push(entry_size(0));
        }
        let spare = self.unused.len() - kept - entries.len().div_ceil(7) - 1;
        let end = self.end_of_file(spare.min(40) as u64);
        entries.extend(end);
        self.put_log(inode, &entries);
    }

    /// Entries that a file's log may hold, each by itself; they may map any pages.
    fn middle_of_file(&mut self) -> Vec<Words> {
        let most = if self.random.once_in(8) { 17 } else { 4 };
        let length = self
            .random
            .below(most)
            .min(7 * self.unused.len() as u64 / 8);
        (0..length)
            .map(|_| {
                let size = self.any_size();
                if self.random.once_in(3) {
                    return entry_size(size);
                }
                let first = self.inodes / 8 + 1;
                let most = if self.random.once_in(4) { 128 } else { 5 };
                let count = self.random.between(1, most.min(self.pages - first));
                let data_page = self.random.between(first, self.pages - count);
                let file_page = self.random.below(129 - count);
                entry_write(file_page, data_page, count, size)
            })
            .collect()
    }

    /// A size that an entry may have.
    fn any_size(&mut self) -> u64 {
        let edges = [0, 1, 511, 512, 513, 1_024, 65_024, 65_535, 65_536];
        match self.random.below(3) {
            0 => self.random.below(65_537),
            1 => self.random.below(2_000),
            _ => *self.random.choose(&edges).unwrap_or(&0),
        }
    }

    /// Entries that leave a file as an accepted volume has it, with at most `most` data pages of its
    /// own, after a log that left no page mapped. Zeroes the page that holds the size from there on.
    fn end_of_file(&mut self, most: u64) -> Vec<Words> {
        let mut entries = Vec::new();
        let mut table = [0; 129];
        let mut left = most;
        for _ in 0..self.random.below(4) {
            let length = self.random.between(1, 6).min(left);
            let Some((data_page, count)) = (left > 0).then(|| self.take_run(length)).flatten()
            else {
                break;
            };
            left -= count;
            let file_page = match self.random.below(4) {
                0 => self.random.below(129 - count),
                1 => 128 - count,
                _ => self.random.below(6),
            };
            let data_page = if self.goes_wrong() {
                data_page.max(6) - 1
            } else {
                data_page
            };
            let size = self.any_size();
            entries.push(entry_write(file_page, data_page, count, size));
            for page in 0..count {
                table[(file_page + page) as usize] = data_page + page;
            }
        }
        let size = self.last_size(&table);
        match entries.last_mut() {
            Some(last) if !self.random.once_in(4) => last[4] = size,
            _ => entries.push(entry_size(size)),
        }
        if let page @ 1.. = table[size as usize / 512] {
            let start = page * 512 + size % 512;
            self.volume[start as usize..page as usize * 512 + 512].fill(0);
        }
        for entry in &mut entries {
            let unread = if entry[0] == 1 { 5 } else { 2 };
            entry[unread..].fill_with(|| any_number(self.random));
        }
        entries
    }

    /// A size behind the start of every mapped page: near it, near the page's end, or any.
    fn last_size(&mut self, table: &[u64; 129]) -> u64 {
        let Some(last) = table.iter().rposition(|&page| page != 0) else {
            return self.any_size();
        };
        let least = 512 * last as u64 + 1;
        match self.random.below(4) {
            0 => least,
            1 => least + 511,
            2 => 65_536,
            _ => self.random.between(least, 65_536.min(least + 700)),
        }
    }
}

/// The folders and the journal.
impl Maker<'_> {
    /// Makes the logs of the folders and the directory's.
    fn make_folders(&mut self, files: &[u64], folders: &[u64]) {
        let mut held = self.place(files, folders);
        let directory = held.remove(&ROOT).unwrap_or_default();
        let mut kept: usize = held.values().map(|inodes| inodes.len().div_ceil(7)).sum();
        for (folder, inodes) in held {
            let pages = inodes.len().div_ceil(7);
            kept -= pages;
            let others = kept + directory.len().div_ceil(7);
            let spare = self.unused.len().saturating_sub(others).min(pages + 3);
            let entries = self.entries_of_names(&inodes, files, 7 * spare);
            self.put_log(folder, &entries);
            let kind = match self.goes_wrong() && self.random.once_in(4) {
                true => any_number(self.random),
                false => 1,
            };
            set_word(&mut self.volume, type_word(folder), kind);
        }
        let room = 7 * self.unused.len();
        let entries = self.entries_of_names(&directory, files, room);
        self.put_log(ROOT, &entries);
    }

    /// Which inodes get a name in each folder and in the directory: a folder in one of those that
    /// were placed before it, a file in any. On a broken volume a folder may have none or two, or
    /// lie in any folder.
    fn place(&mut self, files: &[u64], folders: &[u64]) -> BTreeMap<u64, Vec<u64>> {
        let mut held: BTreeMap<u64, Vec<u64>> = BTreeMap::from([(ROOT, Vec::new())]);
        let mut placed = vec![ROOT];
        let mut left = folders.to_vec();
        held.extend(left.iter().map(|&inode| (inode, Vec::new())));
        while !left.is_empty() {
            let next = self.random.below(left.len() as u64) as usize;
            let inode = left.swap_remove(next);
            let above = match self.random.once_in(2) {
                true => placed.last(),
                false => self.random.choose(&placed),
            };
            let mut above = vec![above.copied().unwrap_or(ROOT)];
            if self.goes_wrong() && self.random.once_in(3) {
                let any = self.random.choose(folders).copied();
                match self.random.below(3) {
                    0 => above.clear(),
                    1 => above = any.into_iter().collect(),
                    _ => above.extend(any),
                }
            }
            for folder in above {
                held.entry(folder).or_default().push(inode);
            }
            placed.push(inode);
        }
        for &inode in files {
            let folder = match self.random.once_in(2) {
                true => ROOT,
                false => self.random.choose(&placed).copied().unwrap_or(ROOT),
            };
            held.entry(folder).or_default().push(inode);
        }
        held
    }

    /// The entries of a folder's log, at most `room`: any names in the middle, in the end a name for
    /// each of these inodes and perhaps more for files.
    fn entries_of_names(&mut self, inodes: &[u64], files: &[u64], room: usize) -> Vec<Words> {
        let mut last = self.last_names(inodes, files, room);
        let left = (room - last.len().min(room)) / 2;
        let mut entries = self.middle_names(left);
        if self.goes_wrong() {
            last.pop();
        }
        entries.extend(last);
        entries
    }

    /// Adds for every one of these inodes, and more for files, in any order; at most 224 or, on a
    /// broken volume, 226.
    fn last_names(&mut self, inodes: &[u64], files: &[u64], room: usize) -> Vec<Words> {
        let mut inodes = inodes.to_vec();
        let most = if self.goes_wrong() { 226 } else { 224 };
        let more = if self.random.once_in(6) {
            most
        } else {
            self.random.below(9) as usize
        };
        let count = (inodes.len() + more).min(most).min(room);
        while inodes.len() < count {
            match self.random.choose(files) {
                Some(&inode) => inodes.push(inode),
                None => break,
            }
        }
        let mut names = BTreeSet::new();
        while names.len() < inodes.len() {
            names.insert(self.good_name(names.len() as u64));
        }
        let mut entries: Vec<Words> = names
            .iter()
            .zip(&inodes)
            .map(|(name, &inode)| entry_add(inode, name))
            .collect();
        for place in 0..entries.len() {
            let other = self.random.below(entries.len() as u64) as usize;
            entries.swap(place, other);
        }
        entries
    }

    /// At most `most` adds and removes of any names, and then removes of all that still stand.
    fn middle_names(&mut self, most: usize) -> Vec<Words> {
        let many = self.random.once_in(12);
        let length = if many {
            300
        } else {
            self.random.below(12) as usize
        };
        let mut entries = Vec::new();
        let mut standing = BTreeSet::new();
        for number in 0..length.min(most) {
            let name = self.good_name(if many {
                number as u64
            } else {
                number as u64 % 5
            });
            let inode = self.random.between(1, self.inodes - 1);
            let mut entry = entry_add(inode, &name);
            standing.insert(name.clone());
            if self.random.once_in(4) {
                standing.remove(&name);
                entry = entry_remove(&name);
                entry[1] = any_number(self.random);
            }
            entry[7] = any_number(self.random);
            entries.push(entry);
        }
        entries.extend(standing.iter().map(|name| entry_remove(name)));
        entries
    }

    /// A name that is allowed: a numbered one, one letter with at most one other, or any bytes; or
    /// a dot name or one like it.
    fn good_name(&mut self, number: u64) -> Vec<u8> {
        if self.dots && self.random.once_in(2) {
            return dot_name_or_like(self.random).to_vec();
        }
        let length = match self.random.below(4) {
            0 => 32,
            1 => self.random.between(1, 32) as usize,
            _ => self.random.between(1, 3) as usize,
        };
        match self.random.below(4) {
            0 | 1 => numbered(number),
            2 => {
                let mut name = vec![b'a'; length];
                name[self.random.below(length as u64) as usize] += self.random.below(3) as u8;
                name
            }
            _ => (0..length)
                .map(|_| self.random.number() as u8)
                .map(|byte| {
                    if byte == 0 || byte == b'/' {
                        b'.'
                    } else {
                        byte
                    }
                })
                .collect(),
        }
    }

    /// Now and then opens the journal: one to four entries hold the values of inode words, which are
    /// then overwritten with any number.
    fn open_journal(&mut self) {
        if !self.random.once_in(4) {
            return;
        }
        let count = self.random.between(1, 4) + u64::from(self.goes_wrong());
        let mut targets = BTreeSet::new();
        while (targets.len() as u64) < count {
            let inode = self.random.below(self.inodes.min(12));
            let words = [valid_word(inode), head_word(inode), tail_word(inode)];
            targets.extend(self.random.choose(&words).copied());
        }
        let first = word(&self.volume, 8);
        for (target, position) in targets.into_iter().zip(first..) {
            let position = position % 16;
            set_word(&mut self.volume, 16 + 2 * position, target);
            let old = word(&self.volume, target);
            set_word(&mut self.volume, 17 + 2 * position, old);
            let raw = any_number(self.random);
            set_word(&mut self.volume, target, raw);
        }
        set_word(&mut self.volume, 9, (first + count) % 16);
    }
}
