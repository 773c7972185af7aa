//! What is wrong with bytes that are not accepted: one case for each sentence of document 01, and of
//! order 6 of document 02, that they can break, with the numbers and names that tell where.

use crate::uses::Use;
use crate::Refusal;

/// Why [`examine`](crate::examine) does not accept a slice of bytes.
#[derive(Clone, Debug, PartialEq, Eq)]
pub enum Fault {
    /// The slice is no volume. The refusal is 2.
    NoVolume(NoVolume),
    /// It is a volume, and not an accepted one. The refusal is 3.
    Damaged {
        /// What is wrong.
        damage: Damage,
        /// How many open entries of the journal were put back before it was read.
        put_back: usize,
    },
}

/// Why a slice is no volume: a sentence of the section "Volume" that its length and words 0 to 2
/// break.
#[derive(Clone, Debug, PartialEq, Eq)]
pub enum NoVolume {
    /// The slice has too few bytes for words 0 to 2.
    Short {
        /// Its length in bytes.
        length: usize,
    },
    /// "P is the page count, 16 to 4,096".
    PageCount {
        /// P.
        pages: u64,
    },
    /// "N the inode count, a multiple of 8 from 8 to 256".
    InodeCount {
        /// N.
        inodes: u64,
    },
    /// "T = N/8 and P is at least T+4".
    FewPages {
        /// P.
        pages: u64,
        /// N.
        inodes: u64,
        /// T + 4.
        least: u64,
    },
    /// "The slice is exactly P × 512 bytes long."
    Length {
        /// Its length in bytes.
        length: usize,
        /// P.
        pages: u64,
    },
    /// "word 2 is 1".
    FormatWord {
        /// Word 2.
        value: u64,
    },
}

/// Why a volume is not accepted: a sentence of the section "An accepted volume", or one of those
/// that it refers to, or one of order 6.
#[derive(Clone, Debug, PartialEq, Eq)]
pub enum Damage {
    /// The journal.
    Journal(BadJournal),
    /// "Inode 0 is the directory and always valid."
    NoDirectory,
    /// "Its first word is valid (0 or 1)".
    ValidWord {
        /// The inode.
        inode: u64,
        /// Its first word.
        value: u64,
    },
    /// Order 6: "A valid inode's type other than 0 or 1, inode 0's apart, makes a volume damaged."
    Type {
        /// The inode.
        inode: u64,
        /// Its fourth word.
        value: u64,
    },
    /// The walk through a log.
    Log {
        /// The inode.
        inode: u64,
        /// What is wrong with its log.
        wrong: BadLog,
    },
    /// An entry of a log.
    Entry {
        /// The inode.
        inode: u64,
        /// The log page.
        page: u64,
        /// The entry's number in the page, from 1 to 7.
        number: usize,
        /// What is wrong with the entry.
        wrong: BadEntry,
    },
    /// The names that stand in the end.
    Names(BadNames),
    /// "No page serves twice among log pages and mapped pages of valid inodes."
    ServesTwice {
        /// The page.
        page: u64,
        /// What it serves for.
        uses: [Use; 2],
    },
    /// "In the end no mapped page starts at or after the size".
    PastSize {
        /// The file's inode.
        inode: u64,
        /// The mapped file page.
        file_page: u64,
        /// The file's size.
        size: u64,
    },
    /// "a mapped page holding the size is zero from there on".
    NotZero {
        /// The file's inode.
        inode: u64,
        /// The first byte of the file from the size on that is not 0.
        byte: u64,
        /// The mapped file page.
        file_page: u64,
        /// The data page.
        data_page: u64,
        /// The file's size.
        size: u64,
    },
}

/// What is wrong with a journal.
#[derive(Clone, Debug, PartialEq, Eq)]
pub enum BadJournal {
    /// "A position is below 16": the dequeue position.
    Dequeue {
        /// Word 8.
        position: u64,
    },
    /// "A position is below 16": the enqueue position.
    Enqueue {
        /// Word 9.
        position: u64,
    },
    /// "At most four entries are open".
    ManyOpen {
        /// How many are.
        count: u64,
    },
    /// "their targets .. are valid, head or tail words of inodes".
    Target {
        /// The open entry's position.
        position: u64,
        /// The word that it names.
        target: u64,
    },
    /// "their targets differ".
    OneTarget {
        /// The positions of two open entries.
        positions: [u64; 2],
        /// The word that both name.
        target: u64,
    },
}

/// What is wrong with the walk through a log.
#[derive(Clone, Debug, PartialEq, Eq)]
pub enum BadLog {
    /// "the tail modulo 512 is one of 64, 128, .. 448".
    Tail {
        /// The tail.
        tail: u64,
    },
    /// "Every log walk ends, inside the log and data pages": it does not start there.
    Head {
        /// The head.
        head: u64,
    },
    /// "Every log walk ends, inside the log and data pages": it leaves them.
    Footer {
        /// The last page inside.
        page: u64,
        /// The page that its footer names.
        next: u64,
    },
    /// "Every log walk ends": it comes back to one of its pages before the tail's page.
    Endless {
        /// The page from which it goes back.
        page: u64,
        /// The page that it goes back to.
        next: u64,
        /// The tail's page.
        last: u64,
    },
}

/// What is wrong with the names that stand in the end.
#[derive(Clone, Debug, PartialEq, Eq)]
pub enum BadNames {
    /// "In the end at most 224 names stand"; order 6: each folder has "its own 224 names".
    Many {
        /// The folder's inode.
        folder: u64,
        /// How many do.
        count: usize,
    },
    /// "each names a valid file", or a valid folder.
    NoFile {
        /// The folder's inode.
        folder: u64,
        /// The name.
        name: Vec<u8>,
        /// The inode that it leads to.
        inode: u64,
    },
    /// "each valid file has a name".
    NoName {
        /// The file's inode.
        inode: u64,
    },
    /// Order 6: "Every valid folder but inode 0 has exactly one name": it has none, or several.
    NotOneName {
        /// The folder's inode.
        inode: u64,
        /// How many names lead to it, in all folders.
        count: usize,
    },
    /// Order 6: "Every valid folder but inode 0 .. is reached from inode 0". It has one name, but lies
    /// beneath itself, or beneath a folder that does.
    NotReached {
        /// The folder's inode.
        inode: u64,
    },
}

/// What is wrong with an entry: its kind, or what it says by itself.
#[derive(Clone, Debug, PartialEq, Eq)]
pub enum BadEntry {
    /// "The directory has kinds 3 and 4, files 1 and 2." Order 6: "A folder's log is like the
    /// directory's".
    Kind {
        /// The entry's first word.
        kind: u64,
    },
    /// "Sizes are at most 65,536."
    Size {
        /// The size.
        size: u64,
    },
    /// "Write counts are 1 to 128".
    Count {
        /// The page count.
        count: u64,
    },
    /// "file pages end at or below 128".
    FilePages {
        /// The first file page.
        first: u64,
        /// The page count.
        count: u64,
    },
    /// "data pages lie in T+1 to P−1".
    DataPages {
        /// The first data page.
        first: u64,
        /// The page count.
        count: u64,
        /// T + 1 and P − 1.
        allowed: [u64; 2],
    },
    /// "Added inodes are 1 to N−1."
    AddedInode {
        /// The inode.
        inode: u64,
        /// N − 1.
        last: u64,
    },
    /// "Names have 1 to 32 bytes".
    NameLength {
        /// The name length.
        length: u64,
    },
    /// "none of them 0 or 47".
    NameByte {
        /// The name.
        name: Vec<u8>,
        /// The first such byte.
        byte: u8,
    },
    /// "the bytes after a name are 0".
    AfterName {
        /// The name.
        name: Vec<u8>,
    },
}

impl From<NoVolume> for Fault {
    fn from(why: NoVolume) -> Fault {
        Fault::NoVolume(why)
    }
}

impl From<NoVolume> for Refusal {
    fn from(_: NoVolume) -> Refusal {
        Refusal::NoVolume
    }
}

impl From<Fault> for Refusal {
    fn from(fault: Fault) -> Refusal {
        match fault {
            Fault::NoVolume(why) => why.into(),
            Fault::Damaged { .. } => Refusal::Damaged,
        }
    }
}
