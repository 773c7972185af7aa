//! Full handhelds: volumes filled with files until only one page is free, then emptied by unlink,
//! for any library of the calls.
//!
//! Order 4 of document 02: "On a full handheld unlink fails when the remove entry wants a log page.
//! Create, link, write and set size shall not take the last free page." So a volume that these
//! calls fill keeps a free page, and an unlink that takes it gives back the pages of the file that
//! goes: at least one, of a file with at least one byte. [`full_handheld`] makes such histories,
//! and [`rows_without_a_page`] those in which the page is used up without anything given back.

use crate::by_hand::{formatted, numbered, text};
use crate::calls::{clean, create, link, marked_list, rename, set_size, unlink, write};
use crate::cases::Library;
use reference::random::Random;
use reference::{Answer, Call, Refusal};

/// Page counts and inode counts for [`full_handheld`].
pub const HANDHELDS: [(u64, u64); 16] = [
    (16, 8),
    (17, 8),
    (18, 16),
    (20, 8),
    (23, 24),
    (29, 32),
    (33, 8),
    (40, 64),
    (48, 16),
    (64, 8),
    (80, 128),
    (100, 16),
    (128, 64),
    (180, 256),
    (256, 8),
    (256, 128),
];

/// What came of filling volumes and emptying them.
#[derive(Clone, Copy, Debug, Default)]
pub struct Emptied {
    /// How many names stood when the volumes were full.
    pub names: u64,
    /// How often each refusal was answered, by its number.
    pub refused: [u64; 19],
    /// How often the directory's page was full then, so that create was refused with 15.
    pub create_refused: u64,
    /// How many unlinks took the only free page.
    pub took_last: u64,
}

/// Fills a volume with files of at least one byte until one page is free and every call of the four
/// that takes a page is refused, and then unlinks every name, at every step done.
///
/// The files have names and sizes of all lengths; they are appended to, overwritten, cut,
/// lengthened and renamed, so that their logs grow. What is random comes from the seed. What came
/// of it is added to the counts.
pub fn full_handheld(
    library: &Library,
    seed: u64,
    (pages, inodes): (u64, u64),
    counts: &mut Emptied,
) {
    let mut handheld = Handheld {
        library,
        random: Random::new(seed),
        volume: formatted(pages, inodes),
        names: Vec::new(),
        made: 0,
        entries: 0,
        counts,
    };
    handheld.fill_up();
    handheld.fill_logs();
    handheld.fill_directory();
    handheld.counts.names += handheld.names.len() as u64;
    handheld.empty();
    let all = pages - inodes / 8 - 1;
    assert_eq!(handheld.free(), all - handheld.entries.div_ceil(7));
    assert_eq!(handheld.make(&clean(0)), Ok(24), "no entry is left");
    assert_eq!(handheld.free(), all);
}

/// A volume that is filled and emptied.
struct Handheld<'a> {
    library: &'a Library,
    random: Random,
    volume: Vec<u8>,
    /// The names that stand; each leads to a file of its own, of at least one byte.
    names: Vec<Vec<u8>>,
    /// How many names were ever made.
    made: u64,
    /// How many entries the directory's log has.
    entries: u64,
    counts: &'a mut Emptied,
}

/// The fewest free pages with which a file is created or renamed. Create and the write of one byte
/// take up to three, and leave one.
const ROOM: u64 = 4;

impl Handheld<'_> {
    /// The count of free pages.
    fn free(&self) -> u64 {
        (self.library.free_count)(&self.volume).expect("the volume is accepted")
    }

    /// Makes a call and carries its list out.
    fn make(&mut self, call: &Call) -> Answer {
        let mut list = marked_list(4_096);
        let answer = (self.library.fill)(call, &self.volume, &mut list);
        match answer {
            Ok(count) => {
                let stored = (self.library.carry_out)(&mut self.volume, &list, count);
                assert_eq!(stored, Ok(()), "{call:?}");
                self.entries += match call {
                    Call::Create { .. } | Call::Unlink { .. } => 1,
                    Call::Rename { .. } => 2,
                    _ => 0,
                };
            }
            Err(refusal) => self.counts.refused[refusal.number() as usize] += 1,
        }
        answer
    }

    /// A name that was not made before, of 4 to 32 bytes.
    fn new_name(&mut self) -> Vec<u8> {
        self.made += 1;
        let mut name = format!("{:04}", self.made).into_bytes();
        name.resize(self.random.between(4, 32) as usize, b'x');
        name
    }

    /// A name that stands, its place among the names, and its file's inode and size.
    fn any_file(&mut self) -> (usize, u64, u64) {
        let place = self.random.below(self.names.len() as u64) as usize;
        let inode = self.inode(place);
        (place, inode, self.size(inode))
    }

    fn inode(&self, place: usize) -> u64 {
        (self.library.find)(&self.volume, 0, &self.names[place]).expect("the name stands")
    }

    fn size(&self, inode: u64) -> u64 {
        (self.library.size)(&self.volume, inode).expect("the inode is valid")
    }

    /// Makes calls until one page is free. A call is done, or refused because all inodes are valid,
    /// or because its pages are more than are free or as many.
    fn fill_up(&mut self) {
        assert!(self.free() >= ROOM);
        let mut steps = 0;
        while self.free() > 1 {
            let answer = match self.random.below(8) {
                0 | 1 if self.free() >= ROOM => self.put_file(),
                _ if self.names.is_empty() => self.put_file(),
                2 if self.free() >= ROOM => self.rename_file(),
                _ => self.change_file(),
            };
            let number = answer.err().map_or(0, Refusal::number);
            assert!([0, 10, 12, 15].contains(&number), "{number}");
            assert!(self.free() >= 1, "the last page is kept back");
            steps += 1;
            assert!(steps < 20_000, "the logs grow with every step");
        }
    }

    /// Creates a file and writes some bytes into it; one byte where there is no room for more.
    fn put_file(&mut self) -> Answer {
        let name = self.new_name();
        self.make(&create(&name))?;
        self.names.push(name);
        let inode = self.inode(self.names.len() - 1);
        let length = match self.random.below(3) {
            0 => self.random.between(1, 4_096),
            _ => self.random.between(1, 600),
        };
        let bytes = self.random.bytes(length as usize);
        let offset = [0, 0, 100, 2_000][self.random.below(4) as usize];
        if self.make(&write(inode, offset, &bytes)).is_err() {
            let answer = self.make(&write(inode, 0, b"x"));
            assert!(answer.is_ok(), "two pages, and one is left");
        }
        Ok(0)
    }

    /// Gives a file another name.
    fn rename_file(&mut self) -> Answer {
        let new = self.new_name();
        let (place, ..) = self.any_file();
        let answer = self.make(&rename(&self.names[place], &new));
        self.names[place] = new;
        answer
    }

    /// Appends to a file, overwrites a part of it, or sets its size, which stays above 0.
    fn change_file(&mut self) -> Answer {
        let (_, inode, size) = self.any_file();
        let piece = self.random.between(1, 40) as usize;
        let longer = self.random.between(1, 2_000) as usize;
        let [piece, longer] = [piece, longer].map(|length| self.random.bytes(length));
        let inside = self.random.below(size);
        let call = match self.random.below(6) {
            0..=2 => write(inode, size, &piece),
            3 => write(inode, inside, &longer),
            4 => write(inode, inside, &piece),
            _ => set_size(inode, self.random.between(1, size + 600)),
        };
        match self.make(&call) {
            Err(Refusal::PastTheEnd) => self.make(&set_size(inode, 1)),
            answer => answer,
        }
    }

    /// With one free page: fills the tail's page of every file's log with sizes, which take no page
    /// until it is full, and then take one and are refused with 15. A write takes a page, or two.
    fn fill_logs(&mut self) {
        assert_eq!(self.free(), 1);
        for place in 0..self.names.len() {
            let inode = self.inode(place);
            let done = (0..7).find(|_| !self.size_fits(inode));
            assert!(done.is_some() && self.free() == 1);
        }
    }

    /// Sets another size, with one free page; answers whether that was done. A write of one byte
    /// beside it takes one page more, for its data.
    fn size_fits(&mut self, inode: u64) -> bool {
        let write = self.make(&write(inode, 0, b"y")).map_err(Refusal::number);
        let size = match self.size(inode) {
            65_536 => 512,
            size => size + 1,
        };
        let sized = self.make(&set_size(inode, size)).map_err(Refusal::number);
        assert_eq!(write, if sized.is_ok() { Err(15) } else { Err(12) });
        assert!(sized.is_ok() || sized == Err(15));
        sized.is_ok()
    }

    /// With one free page: renames files until that would take it. A create then takes a page too
    /// and is refused with 15, or there is room for just one entry.
    fn fill_directory(&mut self) {
        let room = |entries: u64| (7 - entries % 7) % 7;
        while room(self.entries) >= 2 {
            self.rename_file().expect("it takes no page");
        }
        assert_eq!(self.free(), 1);
        let name = self.new_name();
        let mut list = marked_list(4_096);
        let answer = (self.library.fill)(&create(&name), &self.volume, &mut list);
        if answer != Err(Refusal::NoInode) {
            let full = room(self.entries) == 0;
            let expected = if full { Err(Refusal::LastPage) } else { Ok(46) };
            assert_eq!(answer, expected);
            self.counts.create_refused += u64::from(full);
        }
    }

    /// Unlinks every name, in any order.
    fn empty(&mut self) {
        while !self.names.is_empty() {
            let place = self.random.below(self.names.len() as u64) as usize;
            let name = self.names.swap_remove(place);
            let free = self.free();
            let count = self.make(&unlink(&name)).expect("unlink is done");
            let takes_page = count == 42;
            self.counts.took_last += u64::from(takes_page && free == 1);
            assert!(self.free() >= free, "the file gives back what unlink takes");
        }
        let none = (self.library.kth_name)(&self.volume, 0, 0, &mut [0; 32]);
        assert_eq!(none, Err(Refusal::NotThere));
    }
}

/// Calls one after the other from a formatted volume on, each with its refusal's number or none.
#[derive(Clone, Debug)]
pub struct Row {
    /// What the row shows.
    pub title: &'static str,
    /// The page count and the inode count.
    pub sizes: [u64; 2],
    /// The calls with their answers.
    pub calls: Vec<(Call, Option<u64>)>,
}

/// Histories in which the page kept back is used up, and unlink is refused with 12: order 4 does
/// not promise more. "Unlink, rename and clean may take the last page", and what they take it for
/// need not give anything back.
pub fn rows_without_a_page() -> Vec<Row> {
    vec![
        empty_files(),
        names_of_one_file(),
        renames(),
        creates_undone(),
    ]
}

/// Runs a row on a library.
pub fn check_row(library: &Library, row: &Row) {
    let [pages, inodes] = row.sizes;
    let mut volume = formatted(pages, inodes);
    for (place, (call, expected)) in row.calls.iter().enumerate() {
        let mut list = marked_list(4_096);
        let answer = (library.fill)(call, &volume, &mut list);
        let number = answer.err().map(Refusal::number);
        assert_eq!(number, *expected, "{}: {call:?}, call {place}", row.title);
        let stored = (library.carry_out)(&mut volume, &list, answer.unwrap_or(0));
        assert_eq!(stored, Ok(()), "{}", row.title);
    }
}

/// These calls, all done.
fn all_done(calls: impl IntoIterator<Item = Call>) -> Vec<(Call, Option<u64>)> {
    calls.into_iter().map(|call| (call, None)).collect()
}

/// Four pages for logs and data. 21 empty files fill three of the directory's; of them seven are
/// unlinked with the fourth.
fn empty_files() -> Row {
    let mut calls = all_done((1..=21).map(|number| create(&numbered(number))));
    calls.push((create(b"x"), Some(15)));
    calls.extend(all_done((1..=7).map(|number| unlink(&numbered(number)))));
    let refused = [unlink(&numbered(8)), create(b"x"), clean(0)];
    calls.extend(refused.map(|call| (call, Some(12))));
    Row {
        title: "empty files",
        sizes: [16, 88],
        calls,
    }
}

/// A file of one byte has a page of data and one of log; its 77 names have eleven pages of the
/// directory's log. Seven of the names are unlinked with the last page, and the file stays.
fn names_of_one_file() -> Row {
    let mut calls = all_done([create(&numbered(1)), write(1, 0, b"x")]);
    calls.extend(all_done(
        (2..=77).map(|number| link(&numbered(1), &numbered(number))),
    ));
    calls.push((link(&numbered(1), b"x"), Some(15)));
    calls.extend(all_done((1..=7).map(|number| unlink(&numbered(number)))));
    calls.push((unlink(&numbered(8)), Some(12)));
    Row {
        title: "names of one file",
        sizes: [16, 8],
        calls,
    }
}

/// Two files that leave one page, and six entries in the directory's page.
fn two_files() -> Vec<(Call, Option<u64>)> {
    all_done([
        create(b"a"),
        create(b"b"),
        write(1, 0, b"x"),
        write(2, 0, &text(4_096)),
        rename(b"a", b"c"),
        rename(b"c", b"a"),
        write(1, 512, b"x"),
    ])
}

/// Two files with bytes, and one free page. A rename takes it, and three more fill it. The way out
/// is a size of 0, for which the file's log has room.
fn renames() -> Row {
    let mut calls = two_files();
    calls.push((write(1, 1_024, b"x"), Some(15)));
    let to_and_fro = [rename(b"a", b"c"), rename(b"c", b"a")];
    calls.extend(all_done(to_and_fro.clone()));
    calls.extend(all_done(to_and_fro));
    let refused = [unlink(b"a"), unlink(b"b"), clean(0), clean(1)];
    calls.extend(refused.map(|call| (call, Some(12))));
    calls.extend(all_done([set_size(2, 0), unlink(b"a"), unlink(b"b")]));
    Row {
        title: "renames",
        sizes: [16, 8],
        calls,
    }
}

/// Two files with bytes, and one free page. A third is created, cannot be written, and is unlinked
/// again: the unlink takes the page, and three more times fill it.
fn creates_undone() -> Row {
    let mut calls = two_files();
    for _ in 0..4 {
        calls.extend(all_done([create(b"new")]));
        calls.push((write(3, 0, b"x"), Some(12)));
        calls.extend(all_done([unlink(b"new")]));
    }
    let refused = [create(b"new"), unlink(b"a"), unlink(b"b")];
    calls.extend(refused.map(|call| (call, Some(12))));
    Row {
        title: "creates undone",
        sizes: [16, 8],
        calls,
    }
}
