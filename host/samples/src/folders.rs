//! Volumes with folders, the calls to make on them, and volumes whose folders are damaged.
//!
//! Order 6 of document 02: "Larger sites want a folder for each camping field, and folders inside
//! those." All of that is varied here:
//!
//! - Trees: a chain of as many folders as there are inodes, with ascending and descending inodes,
//!   and 224 folders in one.
//! - Emptied folders, which have a log and no name.
//! - Moves between folders whose logs take 0, 1 or 2 pages, with 0 to 3 free ones, from each journal
//!   position from 12 on; onto no name, onto the last name of a file, onto one of several names in
//!   whatever folders, onto a name of the same file, onto folders.
//! - Folders with 224 names.
//! - Type words that are not read.
//! - Journals left open by moves, with two and with three targets.
//! - Damaged ones ([`damaged_folders`]): folders that hold each other or themselves, without a name
//!   or with two, types that are none, names that lead nowhere.

use crate::by_hand::{
    entry_add, entry_remove, entry_size, entry_write, formatted, numbered, open_journal,
    put_folder, put_log,
};
use crate::calls::{
    clean, create, create_folder, create_in, filled, link_in, rename_in, set_size, unlink_in, write,
};
use reference::layout::{set_word, type_word, valid_word, word, NAME_LIMIT, ROOT};
use reference::random::Random;
use reference::{cut, free_count, BadEntry, BadJournal, BadNames, Call, Damage};
use std::collections::BTreeMap;

/// A volume with folders, and the calls to make on it.
#[derive(Clone, Debug)]
pub struct Folders {
    /// What the volume is.
    pub title: String,
    /// The volume. It is accepted; its journal may be open.
    pub volume: Vec<u8>,
    /// Calls, each on the volume as it is.
    pub calls: Vec<Call>,
}

impl Folders {
    fn new(title: impl Into<String>, volume: Vec<u8>, calls: Vec<Call>) -> Folders {
        Folders {
            title: title.into(),
            volume,
            calls,
        }
    }
}

/// Folders, files and names to be put on a volume by hand; inode 0 is there from the start.
///
/// ```
/// use samples::Tree;
///
/// let mut tree = Tree::default();
/// tree.folder(0, b"field", 1);
/// tree.file(1, b"A1", 2, 700);
/// tree.name(0, b"also", 2);
/// let volume = tree.volume(16, 8);
/// assert_eq!(reference::find(&volume, 1, b"A1"), Ok(2));
/// assert_eq!(reference::total(&volume, 0), Ok(1_400));
/// assert_eq!(reference::listing(&volume), b"files 2 free 11\n1 700 field\n2 700 also\n");
/// ```
#[derive(Clone, Debug, Default)]
pub struct Tree {
    /// The entries of each folder's log.
    folders: BTreeMap<u64, Vec<[u64; 8]>>,
    /// The size of each file.
    files: BTreeMap<u64, u64>,
}

impl Tree {
    /// Adds a name to a folder; what it leads to need not be there.
    pub fn name(&mut self, folder: u64, name: &[u8], inode: u64) {
        self.entry(folder, entry_add(inode, name));
    }

    /// Removes a name from a folder.
    pub fn remove(&mut self, folder: u64, name: &[u8]) {
        self.entry(folder, entry_remove(name));
    }

    /// Puts an entry behind those of a folder's log.
    fn entry(&mut self, folder: u64, entry: [u64; 8]) {
        self.folders.entry(folder).or_default().push(entry);
    }

    /// Makes an empty folder with this name in a folder.
    pub fn folder(&mut self, above: u64, name: &[u8], inode: u64) {
        self.name(above, name, inode);
        self.nameless_folder(inode);
    }

    /// Makes an empty folder without a name.
    pub fn nameless_folder(&mut self, inode: u64) {
        self.folders.entry(inode).or_default();
    }

    /// Makes a file of this size, all zeros, with this name in a folder.
    pub fn file(&mut self, folder: u64, name: &[u8], inode: u64, size: u64) {
        self.name(folder, name, inode);
        self.files.insert(inode, size);
    }

    /// Fills a folder's log up with removes of a name that stands nowhere, until the tail's page has
    /// so many entries, 1 to 7.
    pub fn fill_up(&mut self, folder: u64, fill: usize) {
        let entries = self.folders.entry(folder).or_default();
        while entries.is_empty() || entries.len() % 7 != fill % 7 {
            entries.push(entry_remove(b"never"));
        }
    }

    /// How many pages the logs take.
    pub fn log_pages(&self) -> u64 {
        let folders = self.folders.values();
        let folders: usize = folders.map(|entries| entries.len().div_ceil(7)).sum();
        let files = self.files.values().filter(|&&size| size != 0).count();
        (folders + files) as u64
    }

    /// The volume, of so many pages and inodes. The logs lie in the first pages, in the order of the
    /// inodes; an empty file's is empty.
    pub fn volume(&self, pages: u64, inodes: u64) -> Vec<u8> {
        let places: Vec<u64> = (inodes / 8 + 1..pages).collect();
        self.volume_in(pages, inodes, &places)
    }

    /// The volume, with the logs in these pages from the first on.
    fn volume_in(&self, pages: u64, inodes: u64, places: &[u64]) -> Vec<u8> {
        let mut volume = formatted(pages, inodes);
        let mut left = places;
        let mut take = |entries: &[[u64; 8]]| {
            let (taken, rest) = left.split_at(entries.len().div_ceil(7));
            left = rest;
            taken.to_vec()
        };
        for (&inode, entries) in &self.folders {
            let pages = take(entries);
            match inode {
                ROOT => put_log(&mut volume, inode, &pages, entries),
                _ => put_folder(&mut volume, inode, &pages, entries),
            }
        }
        for (&inode, &size) in &self.files {
            let entries = match size {
                0 => Vec::new(),
                _ => vec![entry_size(size)],
            };
            let pages = take(&entries);
            put_log(&mut volume, inode, &pages, &entries);
        }
        volume
    }
}

/// All the accepted volumes with their calls.
///
/// ```
/// use samples::folders;
///
/// let deep = folders().find(|sample| sample.title.contains("255 deep")).unwrap();
/// assert_eq!(reference::judge(&deep.volume)?.folders.len(), 256);
/// # Ok::<(), reference::Refusal>(())
/// ```
pub fn folders() -> impl Iterator<Item = Folders> {
    trees()
        .into_iter()
        .chain(emptied_folders())
        .chain(folder_moves())
        .chain(full_folders())
        .chain(unread_types())
        .chain(open_moves())
}

/// The inodes of a chain of so many folders, from the one in inode 0 on.
fn chain(depth: u64, ascending: bool) -> Vec<u64> {
    match ascending {
        true => (1..=depth).collect(),
        false => (1..=depth).rev().collect(),
    }
}

/// Trees that are as deep and as flat as can be.
pub fn trees() -> Vec<Folders> {
    let mut samples = Vec::new();
    for (depth, ascending) in [255, 254, 3]
        .into_iter()
        .flat_map(|depth| [(depth, true), (depth, false)])
    {
        let inodes = if depth == 3 { 8 } else { 256 };
        samples.push(deep_tree(depth, inodes, ascending));
    }
    samples.push(flat_tree());
    samples.push(bushy_tree());
    samples
}

/// A chain of folders, each with the name "f" in the one before. With an inode left, the last has a
/// file of 700 bytes, with another name in inode 0.
fn deep_tree(depth: u64, inodes: u64, ascending: bool) -> Folders {
    let chain = chain(depth, ascending);
    let mut tree = Tree::default();
    let mut above = ROOT;
    for &inode in &chain {
        tree.folder(above, b"f", inode);
        above = inode;
    }
    if depth + 1 < inodes {
        tree.file(above, b"a", depth + 1, 700);
        tree.name(ROOT, b"a", depth + 1);
    }
    let (first, middle) = (chain[0], chain[chain.len() / 2]);
    let (last, before) = (chain[chain.len() - 1], chain[chain.len() - 2]);
    let mut calls = vec![
        create_in(last, b"new"),
        create_folder(last, b"new"),
        create_in(last, b"a"),
        create_in(middle, b"f"),
        unlink_in(ROOT, b"f"),
        unlink_in(middle, b"f"),
        unlink_in(before, b"f"),
        unlink_in(last, b"a"),
        link_in(last, b"a", ROOT, b"new"),
        link_in(last, b"a", middle, b"new"),
        link_in(ROOT, b"f", last, b"new"),
        rename_in(ROOT, b"f", ROOT, b"g"),
        rename_in(ROOT, b"f", ROOT, b"f"),
        rename_in(ROOT, b"f", last, b"a"),
        rename_in(last, b"a", middle, b"f"),
        rename_in(last, b"a", ROOT, b"a"),
        rename_in(last, b"a", ROOT, b"b"),
        rename_in(last, b"a", first, b"b"),
    ];
    for target in [first, middle, before, last] {
        calls.push(rename_in(ROOT, b"f", target, b"g"));
        calls.push(rename_in(first, b"f", target, b"g"));
        calls.push(rename_in(middle, b"f", target, b"g"));
        calls.push(rename_in(before, b"f", target, b"g"));
        calls.push(rename_in(middle, b"f", target, b"f"));
    }
    calls.push(rename_in(before, b"f", ROOT, b"g"));
    calls.push(rename_in(middle, b"f", ROOT, b"f"));
    calls.extend([ROOT, first, middle, last].map(clean));
    let pages = (inodes / 8 + 1 + tree.log_pages() + 5).max(16);
    let title = format!("folders {depth} deep, ascending {ascending}: ");
    Folders::new(title, tree.volume(pages, inodes), calls)
}

/// 224 folders in inode 0; the first of them has 31 more, of which one has a file.
fn flat_tree() -> Folders {
    let mut tree = Tree::default();
    for inode in 1..=224 {
        tree.folder(ROOT, &numbered(inode), inode);
    }
    for inode in 225..255 {
        tree.folder(1, &numbered(inode), inode);
    }
    tree.file(254, b"a", 255, 9_000);
    let calls = vec![
        create(b"new"),
        create_folder(3, b"new"),
        unlink_in(ROOT, &numbered(1)),
        unlink_in(ROOT, &numbered(2)),
        unlink_in(1, &numbered(254)),
        unlink_in(1, &numbered(253)),
        rename_in(1, &numbered(225), ROOT, b"new"),
        rename_in(1, &numbered(225), ROOT, &numbered(2)),
        rename_in(254, b"a", ROOT, b"a"),
        rename_in(254, b"a", 200, b"a"),
        rename_in(ROOT, &numbered(1), 254, b"new"),
        rename_in(ROOT, &numbered(2), 254, b"new"),
        rename_in(ROOT, &numbered(2), ROOT, b"new"),
        link_in(254, b"a", ROOT, b"new"),
        link_in(254, b"a", 1, b"new"),
        clean(ROOT),
        clean(1),
        clean(2),
    ];
    let pages = 33 + tree.log_pages() + 40;
    Folders::new("224 folders in one: ", tree.volume(pages, 256), calls)
}

/// Folders in folders, with files that have names in several of them.
fn bushy_tree() -> Folders {
    let mut tree = Tree::default();
    tree.folder(ROOT, b"east", 1);
    tree.folder(ROOT, b"west", 2);
    tree.folder(1, b"inner", 3);
    tree.folder(1, b"empty", 4);
    tree.folder(3, b"inner", 5);
    tree.file(5, b"a", 6, 1_000);
    tree.file(ROOT, b"a", 7, 1);
    tree.file(2, b"a", 8, 20);
    for (folder, name) in [(1, b"a"), (3, b"b"), (5, b"b"), (5, b"c")] {
        tree.name(folder, name, 8);
    }
    let mut calls = Vec::new();
    let places: [(u64, &[u8]); 9] = [
        (ROOT, b"east"),
        (ROOT, b"a"),
        (ROOT, b"absent"),
        (1, b"inner"),
        (1, b"empty"),
        (2, b"a"),
        (5, b"a"),
        (7, b"a"),
        (9, b"a"),
    ];
    for (folder, name) in places {
        calls.extend([
            create_in(folder, name),
            create_folder(folder, name),
            unlink_in(folder, name),
        ]);
        for (other, new) in places {
            calls.push(link_in(folder, name, other, new));
            calls.push(rename_in(folder, name, other, new));
        }
    }
    for inode in [0, 1, 4, 5, 7, 9, 16, u64::MAX] {
        calls.extend([
            write(inode, 0, b"x"),
            write(inode, u64::MAX, &[7; 4_097]),
            set_size(inode, 7),
            set_size(inode, u64::MAX),
            clean(inode),
        ]);
    }
    Folders::new("folders in folders: ", tree.volume(30, 16), calls)
}

/// Folders that have a log and no name: they can be unlinked, moved, cleaned to nothing and filled
/// again.
pub fn emptied_folders() -> Vec<Folders> {
    let made = |fill: usize| {
        let mut tree = Tree::default();
        tree.folder(ROOT, b"f", 1);
        tree.folder(ROOT, b"g", 2);
        tree.folder(2, b"h", 3);
        for folder in [1, 3] {
            tree.name(folder, b"x", 5);
            tree.remove(folder, b"x");
            tree.fill_up(folder, fill);
        }
        let calls = vec![
            unlink_in(ROOT, b"f"),
            unlink_in(ROOT, b"g"),
            unlink_in(2, b"h"),
            unlink_in(1, b"x"),
            rename_in(1, b"x", ROOT, b"x"),
            rename_in(ROOT, b"f", 3, b"x"),
            rename_in(2, b"h", 1, b"x"),
            rename_in(2, b"h", ROOT, b"f"),
            rename_in(ROOT, b"f", 1, b"x"),
            create_in(1, b"x"),
            create_folder(3, b"x"),
            clean(1),
            clean(3),
        ];
        let title = format!("emptied folders with {fill} entries in the last page: ");
        Folders::new(title, tree.volume(16, 8), calls)
    };
    [2, 6, 7, 1].map(made).to_vec()
}

/// What a volume for moves between folders is made of.
///
/// Inode 1 is the folder "s", inode 2 the folder "d", both in inode 0. In "s" stand the files "a"
/// (inode 4), which has no other name, and "b" (5), the empty folder "sub" (6) and the folder "full"
/// (7), in which "in" leads to file 8. In "d", where it has names, stand "gone" (9), a file with no
/// other name, "kept" (10), with another in inode 0, "both" (5), the same file as "b" in "s", and the
/// empty folder "dir" (11); else these are in inode 0. "x" (3) in inode 0 is a file that has the
/// pages that are left.
#[derive(Clone, Copy, Debug)]
pub struct Move {
    /// How many entries the tail's page of the log of "s" has: 1 to 7.
    pub source: usize,
    /// How many the tail's page of the log of "d" has: 1 to 7, or 0 for an empty log.
    pub target: usize,
    /// How many pages are free.
    pub free: u64,
    /// The journal's position.
    pub position: u64,
}

/// The page count of the volume of a [`Move`]: some pages are left for the data of "x".
const MOVE_PAGES: u64 = 20;

impl Move {
    /// Puts such a volume together: which pages are free, and where the logs lie, is random.
    ///
    /// ```
    /// use reference::{rename, Refusal};
    /// use samples::{Move, Random};
    ///
    /// let mut list = vec![0; 4_096];
    /// let mut made = Move { source: 7, target: 7, free: 2, position: 15 };
    /// let volume = made.volume(&mut Random::new(1));
    /// assert_eq!(rename(&volume, 1, b"a", 2, b"gone", &mut list), Ok(66));
    /// made.free = 1;
    /// let volume = made.volume(&mut Random::new(1));
    /// assert_eq!(rename(&volume, 1, b"a", 2, b"gone", &mut list), Err(Refusal::NoSpace));
    /// ```
    pub fn volume(&self, random: &mut Random) -> Vec<u8> {
        let tree = self.tree();
        let mut places: Vec<u64> = (3..MOVE_PAGES).collect();
        for end in (1..places.len()).rev() {
            places.swap(end, random.below(end as u64 + 1) as usize);
        }
        places.truncate(places.len() - self.free as usize);
        let mut volume = tree.volume_in(MOVE_PAGES, 16, &places);
        let mut data = places.split_off(tree.log_pages() as usize);
        let log = data.split_off(data.len() - (data.len() + 1).div_ceil(8));
        let size = 512 * data.len() as u64;
        let mapped = (0..).zip(data);
        let mut entries = vec![entry_size(size)];
        entries.extend(mapped.map(|(file_page, page)| entry_write(file_page, page, 1, size)));
        entries.resize(7 * log.len(), entry_size(size));
        put_log(&mut volume, 3, &log, &entries);
        for index in [8, 9] {
            set_word(&mut volume, index, self.position);
        }
        assert_eq!(free_count(&volume), Ok(self.free), "{self:?}");
        volume
    }

    /// The folders and names.
    fn tree(&self) -> Tree {
        let mut tree = Tree::default();
        tree.folder(ROOT, b"s", 1);
        tree.folder(ROOT, b"d", 2);
        tree.file(ROOT, b"x", 3, 0);
        tree.file(1, b"a", 4, 0);
        tree.file(1, b"b", 5, 0);
        tree.folder(1, b"sub", 6);
        tree.folder(1, b"full", 7);
        tree.file(7, b"in", 8, 0);
        let held = if self.target == 0 { ROOT } else { 2 };
        tree.file(held, b"gone", 9, 0);
        tree.file(held, b"kept", 10, 0);
        tree.name(ROOT, b"kept too", 10);
        tree.name(held, b"both", 5);
        tree.folder(held, b"dir", 11);
        tree.fill_up(1, self.source);
        if self.target != 0 {
            tree.fill_up(2, self.target);
        }
        tree
    }
}

/// The calls on the volume of a [`Move`].
fn move_calls() -> Vec<Call> {
    let olds: [(u64, &[u8]); 9] = [
        (1, b"a"),
        (1, b"b"),
        (1, b"sub"),
        (1, b"full"),
        (2, b"gone"),
        (2, b"both"),
        (2, b"dir"),
        (ROOT, b"x"),
        (ROOT, b"s"),
    ];
    let news: [(u64, &[u8]); 11] = [
        (2, b"new"),
        (2, b"gone"),
        (2, b"kept"),
        (2, b"both"),
        (2, b"dir"),
        (1, b"new"),
        (1, b"a"),
        (6, b"new"),
        (7, b"in"),
        (ROOT, b"kept too"),
        (ROOT, b"new"),
    ];
    let mut calls = Vec::new();
    for (old_folder, old) in olds {
        calls.extend(news.map(|(new_folder, new)| rename_in(old_folder, old, new_folder, new)));
    }
    calls.extend([
        link_in(1, b"a", 2, b"new"),
        link_in(1, b"a", 2, b"gone"),
        link_in(1, b"sub", 2, b"new"),
        create_in(2, b"new"),
        create_folder(2, b"new"),
        create_in(1, b"new"),
        create_folder(6, b"new"),
        unlink_in(1, b"a"),
        unlink_in(1, b"b"),
        unlink_in(1, b"sub"),
        unlink_in(1, b"full"),
        unlink_in(2, b"gone"),
        unlink_in(2, b"kept"),
        unlink_in(2, b"dir"),
        clean(1),
        clean(2),
        clean(6),
        clean(7),
    ]);
    calls
}

/// Volumes for moves: each count of new log pages, 0 to 3 free ones, and the journal at each position
/// from 12 on, and at 0.
pub fn folder_moves() -> impl Iterator<Item = Folders> {
    let fills = [3, 6, 7].into_iter();
    let ways = fills.flat_map(|source| [0, 3, 7].map(|target| (source, target)));
    let ways = ways.flat_map(|way| (0..=3).map(move |free| (way, free)));
    let ways = ways.flat_map(|way| [12, 13, 14, 15, 0].map(|position| (way, position)));
    (0..)
        .zip(ways)
        .map(|(seed, (((source, target), free), position))| {
            let made = Move {
                source,
                target,
                free,
                position,
            };
            let volume = made.volume(&mut Random::new(seed));
            Folders::new(format!("{made:?}: "), volume, move_calls())
        })
}

/// A folder with 224 names, and one with 223: what adds a name there, and what does not.
pub fn full_folders() -> Vec<Folders> {
    let made = |names: u64, inodes_left: bool| {
        let mut tree = Tree::default();
        tree.folder(ROOT, b"f", 1);
        tree.folder(1, b"sub", 2);
        tree.file(1, &numbered(0), 3, 0);
        for number in 1..names - 1 {
            tree.name(1, &numbered(number), 3);
        }
        tree.file(ROOT, b"a", 4, 70);
        tree.folder(ROOT, b"g", 5);
        if !inodes_left {
            tree.file(5, b"six", 6, 0);
            tree.file(5, b"seven", 7, 0);
        }
        let calls = vec![
            create_in(1, b"new"),
            create_folder(1, b"new"),
            create_in(1, &numbered(1)),
            create_in(2, b"new"),
            create_in(ROOT, b"new"),
            link_in(ROOT, b"a", 1, b"new"),
            link_in(ROOT, b"a", 1, &numbered(1)),
            link_in(1, &numbered(1), 1, b"new"),
            link_in(1, &numbered(1), ROOT, b"new"),
            link_in(ROOT, b"g", 1, b"new"),
            rename_in(ROOT, b"a", 1, b"new"),
            rename_in(ROOT, b"a", 1, &numbered(1)),
            rename_in(ROOT, b"a", 1, b"sub"),
            rename_in(ROOT, b"g", 1, b"new"),
            rename_in(ROOT, b"g", 1, &numbered(1)),
            rename_in(ROOT, b"f", 1, b"new"),
            rename_in(ROOT, b"f", 2, b"new"),
            rename_in(1, &numbered(1), 1, b"new"),
            rename_in(1, &numbered(1), 1, &numbered(2)),
            rename_in(1, &numbered(1), ROOT, b"new"),
            rename_in(1, b"sub", 1, b"new"),
            unlink_in(1, b"sub"),
            unlink_in(1, &numbered(1)),
            clean(1),
        ];
        let title = format!("a folder with {names} names, inodes left {inodes_left}: ");
        Folders::new(title, tree.volume(80, 8), calls)
    };
    let limit = NAME_LIMIT as u64;
    vec![
        made(limit, true),
        made(limit, false),
        made(limit - 1, true),
        made(limit - 1, false),
    ]
}

/// Types that no file and no folder has.
pub const NO_TYPES: [u64; 8] = [
    2,
    3,
    256,
    1 << 32,
    (1 << 32) + 1,
    1 << 63,
    (1 << 63) + 1,
    u64::MAX,
];

/// Volumes whose inode 0 and whose invalid inodes have such types, or 0 or 1: these are not read.
pub fn unread_types() -> Vec<Folders> {
    let mut tree = Tree::default();
    tree.folder(ROOT, b"f", 1);
    tree.file(1, b"a", 2, 9);
    let volume = tree.volume(16, 8);
    let values = [0, 1].into_iter().chain(NO_TYPES);
    let made = |value: u64| {
        let mut volume = volume.clone();
        for inode in [0, 3, 4, 5, 6, 7] {
            set_word(&mut volume, type_word(inode), value);
        }
        let calls = vec![
            create(b"new"),
            create_in(1, b"new"),
            create_folder(ROOT, b"new"),
            unlink_in(1, b"a"),
            rename_in(1, b"a", ROOT, b"a"),
            clean(ROOT),
            clean(1),
        ];
        Folders::new(format!("unread types {value}: "), volume, calls)
    };
    values.map(made).collect()
}

/// Volumes that a power cut left with an open journal, in moves from each position from 12 on: each
/// choice of the two or three targets has landed.
pub fn open_moves() -> Vec<Folders> {
    let mut samples = Vec::new();
    for position in 12..16 {
        let made = Move {
            source: 7,
            target: 7,
            free: 3,
            position,
        };
        let volume = made.volume(&mut Random::new(position));
        for call in [
            rename_in(1, b"a", 2, b"gone"),
            rename_in(1, b"a", 2, b"new"),
            rename_in(1, b"sub", ROOT, b"new"),
        ] {
            let list = filled(&volume, &call).expect("the call is done");
            let targets = reference::groups(&list)[2].clone();
            for kept in 0..1 << targets.len() {
                let lands = |index: u64| {
                    let place = targets.iter().position(|store| store.0 == index);
                    place.is_some_and(|place| kept >> place & 1 == 1)
                };
                let mut broken = volume.clone();
                cut(&mut broken, &list, 2, lands); // group 2 has the targets
                let title = format!("targets {kept:b} of {call:?} at {position}: ");
                let calls = vec![Call::Recover, call.clone(), create(b"new"), clean(1)];
                samples.push(Folders::new(title, broken, calls));
            }
        }
    }
    samples
}

/// A volume that is damaged in one way, and what is wrong with it.
#[derive(Clone, Debug)]
pub struct DamagedFolders {
    /// What the volume is.
    pub title: String,
    /// The volume.
    pub volume: Vec<u8>,
    /// What is wrong with it.
    pub damage: Damage,
}

/// The volumes whose folders are damaged.
///
/// ```
/// use samples::damaged_folders;
///
/// for sample in damaged_folders() {
///     let refusal = reference::judge(&sample.volume).err();
///     assert_eq!(refusal, Some(reference::Refusal::Damaged), "{}", sample.title);
/// }
/// ```
pub fn damaged_folders() -> Vec<DamagedFolders> {
    let mut samples = damaged_trees();
    samples.extend(damaged_types());
    samples.extend(wrong_kinds());
    samples.extend(type_targets());
    samples
}

/// "f" (inode 1) in inode 0 with the file "a" (inode 2) of nine bytes, and "g" (inode 3) in inode 0.
fn small_tree() -> Tree {
    let mut tree = Tree::default();
    tree.folder(ROOT, b"f", 1);
    tree.file(1, b"a", 2, 9);
    tree.folder(ROOT, b"g", 3);
    tree
}

/// Folders that are not reached, that have no name or two, names that lead nowhere, and too many of
/// them.
fn damaged_trees() -> Vec<DamagedFolders> {
    let mut samples = Vec::new();
    let mut put = |title: &str, damage: BadNames, change: &dyn Fn(&mut Tree)| {
        let mut tree = small_tree();
        change(&mut tree);
        let pages = 16.max(tree.log_pages() + 4);
        samples.push(DamagedFolders {
            title: format!("{title}: "),
            volume: tree.volume(pages, 8),
            damage: Damage::Names(damage),
        });
    };
    let not_reached = |inode| BadNames::NotReached { inode };
    let not_one = |inode, count| BadNames::NotOneName { inode, count };
    put("a folder that holds itself", not_reached(4), &|tree| {
        tree.folder(4, b"self", 4);
    });
    put("with a file in it", not_reached(4), &|tree| {
        tree.folder(4, b"self", 4);
        tree.file(4, b"b", 5, 3);
    });
    put("two that hold each other", not_reached(4), &|tree| {
        tree.folder(5, b"one", 4);
        tree.folder(4, b"other", 5);
    });
    put("three in a ring", not_reached(4), &|tree| {
        tree.folder(6, b"one", 4);
        tree.folder(4, b"two", 5);
        tree.folder(5, b"three", 6);
    });
    put("a folder beneath a ring", not_reached(4), &|tree| {
        tree.folder(7, b"beneath", 4);
        tree.folder(7, b"self", 7);
    });
    put(
        "names of one file in a ring and outside",
        not_reached(4),
        &|tree| {
            tree.folder(4, b"self", 4);
            tree.name(4, b"a", 2);
        },
    );
    put("a folder without a name", not_one(4, 0), &|tree| {
        tree.nameless_folder(4);
    });
    put("with a named file in it", not_one(4, 0), &|tree| {
        tree.nameless_folder(4);
        tree.file(4, b"b", 5, 3);
    });
    put("with a named folder in it", not_one(4, 0), &|tree| {
        tree.nameless_folder(4);
        tree.folder(4, b"inner", 5);
    });
    put("the name removed again", not_one(4, 0), &|tree| {
        tree.folder(1, b"inner", 4);
        tree.remove(1, b"inner");
    });
    put("the name given to another", not_one(4, 0), &|tree| {
        tree.folder(1, b"inner", 4);
        tree.folder(1, b"inner", 5);
    });
    put("two names in one folder", not_one(3, 2), &|tree| {
        tree.name(ROOT, b"again", 3);
    });
    put("two names in two folders", not_one(3, 2), &|tree| {
        tree.name(1, b"again", 3);
    });
    put("a second name in itself", not_one(1, 2), &|tree| {
        tree.name(1, b"self", 1);
    });
    put("a second name beneath itself", not_one(1, 2), &|tree| {
        tree.folder(1, b"inner", 4);
        tree.name(4, b"above", 1);
    });
    let no_file = |folder, inode| BadNames::NoFile {
        folder,
        name: b"none".to_vec(),
        inode,
    };
    put("a name that leads nowhere", no_file(1, 7), &|tree| {
        tree.name(1, b"none", 7);
    });
    put("the same in inode 0", no_file(0, 7), &|tree| {
        tree.name(ROOT, b"none", 7);
    });
    put(
        "a file without a name",
        BadNames::NoName { inode: 2 },
        &|tree| {
            tree.remove(1, b"a");
        },
    );
    for (folder, standing) in [(1, 1), (ROOT, 2)] {
        let damage = BadNames::Many { folder, count: 225 };
        put("225 names", damage, &|tree| {
            for number in standing..225 {
                tree.name(folder, &numbered(number), 2);
            }
        });
    }
    samples
}

/// Types that are none, of a file and of folders.
fn damaged_types() -> Vec<DamagedFolders> {
    let made = |inode: u64, value: u64| {
        let mut volume = small_tree().volume(16, 8);
        set_word(&mut volume, type_word(inode), value);
        DamagedFolders {
            title: format!("type {value} of inode {inode}: "),
            volume,
            damage: Damage::Type { inode, value },
        }
    };
    let values = NO_TYPES.into_iter();
    values
        .flat_map(|value| [1, 2, 3].map(|inode| made(inode, value)))
        .collect()
}

/// Entries of a file in a folder's log, and the other way round: of inodes whose type was changed,
/// and among those of the right kind.
fn wrong_kinds() -> Vec<DamagedFolders> {
    let tree = small_tree();
    let entry = |inode, page, number, kind| Damage::Entry {
        inode,
        page,
        number,
        wrong: BadEntry::Kind { kind },
    };
    let typed = |inode: u64, value: u64, page, kind| {
        let mut volume = tree.volume(16, 8);
        set_word(&mut volume, type_word(inode), value);
        DamagedFolders {
            title: format!("inode {inode} with type {value}: "),
            volume,
            damage: entry(inode, page, 1, kind),
        }
    };
    let mixed = |wrong: [u64; 8]| {
        let mut tree = small_tree();
        tree.entry(1, wrong);
        DamagedFolders {
            title: format!("{wrong:?} in a folder: "),
            volume: tree.volume(16, 8),
            damage: entry(1, 3, 2, wrong[0]),
        }
    };
    // the logs: inode 0 in page 2, inode 1 in page 3, inode 2 in page 4
    vec![
        typed(1, 0, 3, 3),
        typed(2, 1, 4, 2),
        mixed(entry_size(0)),
        mixed(entry_write(0, 9, 1, 512)),
        mixed([0; 8]),
        mixed([5; 8]),
    ]
}

/// Open journals whose target is a type word, which none may be.
fn type_targets() -> Vec<DamagedFolders> {
    let made = |inode: u64| {
        let mut volume = small_tree().volume(16, 8);
        let target = type_word(inode);
        let old = word(&volume, target);
        let valid = (valid_word(1), 1);
        open_journal(&mut volume, 15, &[valid, (target, old)]);
        let position = 0;
        DamagedFolders {
            title: format!("the type word of inode {inode} in the journal: "),
            volume,
            damage: Damage::Journal(BadJournal::Target { position, target }),
        }
    };
    [0, 1, 2, 7].map(made).to_vec()
}
