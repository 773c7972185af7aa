//! Logs of a directory, made by hand: as many different names as a log can add and take back, names that an index
//! of names looks up from one slot on, names that are nearly the same, names added again.

use crate::by_hand::{entry_add, entry_remove, entry_size, formatted, put_log};
use reference::layout::{word, NAME_BYTES, NAME_LIMIT};
use std::collections::HashSet;

/// How many entries a directory's log has at most: seven in each of pages 2 to 4,095, with 8 inodes.
pub const MOST_ENTRIES: u64 = 7 * 4_094;

/// How many different names the log of an accepted volume adds at most: all but 224 take a remove too, and the
/// log has at most [`MOST_ENTRIES`].
pub const MOST_DIFFERENT: u64 = (MOST_ENTRIES + NAME_LIMIT as u64) / 2;

/// A directory's log for a volume with 8 inodes, entry by entry. It knows which names it leaves.
///
/// The names that it adds lead to inodes 1 to 5 in turn, so that inodes 6 and 7 are left for create.
///
/// ```
/// use samples::DirectoryLog;
///
/// let mut log = DirectoryLog::default();
/// log.add(b"a");
/// log.add(b"b");
/// log.remove(b"a");
/// assert_eq!(log.standing(), [(b"b".to_vec(), 2)]);
/// assert_eq!(reference::find(&log.volume(20), 0, b"b"), Ok(2));
/// assert_eq!(reference::free_count(&log.volume(20)), Ok(log.free_pages(20)));
/// ```
#[derive(Clone, Debug, Default)]
pub struct DirectoryLog {
    /// The name of each entry, and the inode if it is an add.
    entries: Vec<(Vec<u8>, Option<u64>)>,
    /// How many of them are adds.
    adds: u64,
}

impl DirectoryLog {
    /// A log that adds each of these names once, in this order.
    pub fn of_adds(names: &[Vec<u8>]) -> DirectoryLog {
        let mut log = DirectoryLog::default();
        log.add_each(names);
        log
    }

    /// Appends an add.
    pub fn add(&mut self, name: &[u8]) {
        self.add_for(name, self.adds % 5 + 1);
    }

    /// Appends an add that leads to this inode, of 1 to 5.
    pub fn add_for(&mut self, name: &[u8], inode: u64) {
        self.entries.push((name.to_vec(), Some(inode)));
        self.adds += 1;
    }

    /// Appends a remove.
    pub fn remove(&mut self, name: &[u8]) {
        self.entries.push((name.to_vec(), None));
    }

    /// Appends an add of each of these names.
    pub fn add_each<'n>(&mut self, names: impl IntoIterator<Item = &'n Vec<u8>>) {
        names.into_iter().for_each(|name| self.add(name));
    }

    /// Appends a remove of each of these names.
    pub fn remove_each<'n>(&mut self, names: impl IntoIterator<Item = &'n Vec<u8>>) {
        names.into_iter().for_each(|name| self.remove(name));
    }

    /// Appends removes of a name that stands nowhere, until the log has so many entries.
    pub fn fill_up(&mut self, entries: usize) {
        while self.entries.len() < entries {
            self.remove(NOWHERE);
        }
    }

    /// The log of the first so many entries.
    pub fn beginning(&self, entries: usize) -> DirectoryLog {
        let entries = self.entries[..entries].to_vec();
        let adds = entries.iter().filter(|entry| entry.1.is_some()).count();
        DirectoryLog {
            entries,
            adds: adds as u64,
        }
    }

    /// How many entries the log has.
    pub fn length(&self) -> usize {
        self.entries.len()
    }

    /// How many pages the log takes.
    pub fn pages(&self) -> u64 {
        self.entries.len().div_ceil(7) as u64
    }

    /// How many different names the log adds.
    pub fn different(&self) -> usize {
        let adds = self.entries.iter().filter(|entry| entry.1.is_some());
        adds.map(|entry| &entry.0).collect::<HashSet<_>>().len()
    }

    /// The names that stand in the end, in list order, each with its inode: an add puts its name at the list's
    /// end, so they are the adds that no entry of the same name follows.
    pub fn standing(&self) -> Vec<(Vec<u8>, u64)> {
        let mut later = HashSet::new();
        let mut names = Vec::new();
        for (name, inode) in self.entries.iter().rev() {
            let last_of_its_name = later.insert(name);
            if let (true, Some(inode)) = (last_of_its_name, inode) {
                names.push((name.clone(), *inode));
            }
        }
        names.reverse();
        names
    }

    /// The names that the log adds and that do not stand in the end, in the order of their first adds.
    pub fn gone(&self) -> Vec<Vec<u8>> {
        let standing = self.standing();
        let mut met: HashSet<&Vec<u8>> = standing.iter().map(|(name, _)| name).collect();
        let adds = self.entries.iter().filter(|entry| entry.1.is_some());
        adds.filter(|entry| met.insert(&entry.0))
            .map(|entry| entry.0.clone())
            .collect()
    }

    /// A volume of so many pages with this log in its directory. The log starts in the highest of its pages and
    /// goes down to page 2. The files that a name leads to in the end are the valid ones, and their logs are in the
    /// pages behind ([`size_of`] is their size); where the volume has too few pages for these, the files are empty.
    pub fn volume(&self, pages: u64) -> Vec<u8> {
        let mut volume = formatted(pages, 8);
        let entries: Vec<[u64; 8]> = (self.entries.iter())
            .map(|(name, inode)| match inode {
                Some(inode) => entry_add(*inode, name),
                None => entry_remove(name),
            })
            .collect();
        let log: Vec<u64> = (2..2 + self.pages()).rev().collect();
        put_log(&mut volume, 0, &log, &entries);
        for inode in self.files() {
            match self.has_file_logs(pages) {
                true => {
                    let page = 1 + self.pages() + inode;
                    put_log(&mut volume, inode, &[page], &[entry_size(size_of(inode))]);
                }
                false => put_log(&mut volume, inode, &[], &[]),
            }
        }
        volume
    }

    /// The valid files of the volume, ascending.
    pub fn files(&self) -> Vec<u64> {
        let standing = self.standing();
        let named = |inode: &u64| standing.iter().any(|name| name.1 == *inode);
        (1..8).filter(named).collect()
    }

    /// Whether the files have logs on a volume of so many pages: it has five pages for them.
    pub fn has_file_logs(&self, pages: u64) -> bool {
        2 + self.pages() + 5 <= pages
    }

    /// How many pages are free on a volume of so many.
    pub fn free_pages(&self, pages: u64) -> u64 {
        let files = match self.has_file_logs(pages) {
            true => self.files().len() as u64,
            false => 0,
        };
        pages - 2 - self.pages() - files
    }

    /// The first word of an entry (from 0) on the volume.
    pub fn first_word(&self, entry: usize) -> u64 {
        let page = 1 + self.pages() - entry as u64 / 7;
        64 * page + 8 * (entry as u64 % 7)
    }
}

/// The size of a file with a log of its own on the volume of a [`DirectoryLog`].
pub fn size_of(inode: u64) -> u64 {
    1_000 * inode + 7
}

/// A name that no maker here adds.
pub const NOWHERE: &[u8] = b"nowhere";

/// A name of its own for each number: the number's hexadecimal digits, with dots behind them up to a length that
/// goes from 1 to 32 in turn. Those of numbers 0 to 31 have all lengths.
pub fn varied_name(number: u64) -> Vec<u8> {
    let mut name = std::format!("{number:x}").into_bytes();
    let length = (number % 32 + 1) as usize;
    name.resize(length.max(name.len()), b'.');
    name
}

/// The names with these numbers; see [`varied_name`].
pub fn varied_names(numbers: std::ops::Range<u64>) -> Vec<Vec<u8>> {
    numbers.map(varied_name).collect()
}

/// Names that are easily taken for one another: the beginnings of one name of 32 bytes, the same name with one
/// byte changed (at each place of each of the four words), with its words in another order and with the two
/// halves of a word exchanged; and bytes 255 of every length.
pub fn nearly_same_names() -> Vec<Vec<u8>> {
    let whole = *b"abcdefghijklmnopqrstuvwxyzABCDEF";
    let mut names: Vec<Vec<u8>> = (1..=32).map(|length| whole[..length].to_vec()).collect();
    for place in 0..32 {
        let mut name = whole;
        name[place] = b'-';
        names.push(name.to_vec());
    }
    for words in 1..4 {
        let mut name = whole;
        name.rotate_left(8 * words);
        names.push(name.to_vec());
    }
    for start in [0, 8, 16, 24] {
        let mut name = whole;
        name[start..start + 8].rotate_left(4);
        names.push(name.to_vec());
    }
    names.extend((1..=32).map(|length| vec![255; length]));
    names
}

/// The slot of so many at which an index of names starts to look for a name. This is a copy of `home` of
/// crates/index, to find names that share slots. Where it is out of date, the logs made with it are ordinary logs
/// of as many names.
///
/// ```
/// assert_eq!(samples::home(b"ab", 1), 0);
/// ```
pub fn home(name: &[u8], slots: u64) -> u64 {
    const HALF: u64 = 1 << 32;
    const FACTORS: [(u64, u64); 4] = [
        (506_832_829, 378_551_291),
        (445_644_797, 334_214_467),
        (486_187_739, 295_075_153),
        (433_494_437, 370_248_451),
    ];
    let mut field = [0; NAME_BYTES];
    field[..name.len()].copy_from_slice(name);
    let weighed = (0..).zip(FACTORS).map(|(index, (low, high))| {
        let word = word(&field, index);
        (word % HALF) * low + (word / HALF) * high
    });
    let sum: u64 = weighed.sum();
    let spread = (sum % HALF + sum / HALF) % HALF * 2_654_435_761 % HALF;
    spread * slots / HALF
}

/// The first so many [`varied_name`]s whose home, of so many slots, is one of these.
pub fn names_with_homes(slots: u64, homes: std::ops::Range<u64>, count: usize) -> Vec<Vec<u8>> {
    let names = (0..).map(varied_name);
    names
        .filter(|name| homes.contains(&home(name, slots)))
        .take(count)
        .collect()
}

/// A name of 32 bytes, and for each of its places one that differs from it there alone. All have their homes among
/// the last 8 of 256 slots, so that an index in which these are taken compares each with the first.
pub fn names_one_byte_apart() -> Vec<Vec<u8>> {
    let near_the_end = |name: &Vec<u8>| home(name, 256) >= 248;
    let altered = |first: &Vec<u8>, place: usize| {
        let bytes = (1..=255).filter(|&byte| byte != b'/' && byte != first[place]);
        let mut names = bytes.map(|byte| {
            let mut name = first.clone();
            name[place] = byte;
            name
        });
        names.find(near_the_end)
    };
    let firsts = (0..).map(|number: u64| std::format!("{number:032}").into_bytes());
    let mut families = firsts.filter(near_the_end).map(|first| {
        let others: Vec<Vec<u8>> = (0..NAME_BYTES)
            .filter_map(|place| altered(&first, place))
            .collect();
        [vec![first], others].concat()
    });
    let whole = families.find(|names| names.len() == 1 + NAME_BYTES);
    whole.expect("most first names have others at all places")
}

/// A log for a volume of 4,096 pages that adds so many different names and removes the first of them: as many as
/// it takes to leave 224, or as the pages have room for. With `in_pairs` each remove follows its add, else
/// all adds come first.
///
/// Up to [`MOST_DIFFERENT`] different names 224 stand in the end, or all; of more different names more stand.
pub fn largest_log(different: u64, in_pairs: bool) -> DirectoryLog {
    let surplus = different.saturating_sub(NAME_LIMIT as u64);
    let removes = surplus.min(MOST_ENTRIES - different);
    let names = varied_names(0..different);
    let (going, staying) = names.split_at(removes as usize);
    match in_pairs {
        true => added_and_removed(going, staying),
        false => {
            let mut log = DirectoryLog::of_adds(&names);
            log.remove_each(going);
            log
        }
    }
}

/// A log that adds and at once removes each of some names, and then adds others.
pub fn added_and_removed(going: &[Vec<u8>], staying: &[Vec<u8>]) -> DirectoryLog {
    let mut log = DirectoryLog::default();
    for name in going {
        log.add(name);
        log.remove(name);
    }
    log.add_each(staying);
    log
}

/// A log that adds names, removes them all, and adds them all again: in the same order, or in reverse order.
pub fn added_again(names: &[Vec<u8>], reverse: bool) -> DirectoryLog {
    let mut log = DirectoryLog::of_adds(names);
    log.remove_each(names);
    match reverse {
        true => log.add_each(names.iter().rev()),
        false => log.add_each(names),
    }
    log
}
