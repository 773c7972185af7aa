//! The refusals: what the screen says when a call is not done.
//!
//! ```
//! use refusal::Refusal;
//!
//! assert_eq!(Refusal::NoSpace.number(), 12);
//! assert_eq!(Refusal::with_number(12), Some(Refusal::NoSpace));
//! assert_eq!(Refusal::NoSpace.to_string(), "no space");
//! assert_eq!([16, 17, 18].map(|number| Refusal::with_number(number).unwrap().word()),
//!     ["wrong type", "not empty", "into itself"]);
//! assert_eq!(Refusal::with_number(19), None);
//! ```

#![warn(missing_docs)]
#![forbid(unsafe_code)]

use std::fmt;

/// What a call answers that answers a number: the number, or the refusal.
pub type Answer = Result<u64, Refusal>;

/// A refusal. It has no content but its number; of several that apply, the lowest is answered, with
/// 14 checked directly after 4, 15 directly after 12, and 16, 17 and 18 in this order directly
/// after 7.
#[derive(Clone, Copy, Debug, PartialEq, Eq, PartialOrd, Ord, Hash)]
pub enum Refusal {
    /// 1: the store list to be filled has under 4,096 words, or the name buffer under 32 bytes.
    ShortMemory = 1,
    /// 2: the slice length, word 0, 1 or 2, or format's P or N break their limits.
    NoVolume = 2,
    /// 3: otherwise not accepted.
    Damaged = 3,
    /// 4: the journal is open, for any call but format, recover and carry out.
    JournalOpen = 4,
    /// 5: a name's length or one of its bytes is not allowed, or create's name or the new name of
    /// link or rename is "." or ".." (document 02).
    BadName = 5,
    /// 6: the name is absent, the inode invalid or out of range, or k too large. Inode 0 is a folder,
    /// and not there where a file is wanted.
    NotThere = 6,
    /// 7: create's name, or link's new name, stands already.
    Taken = 7,
    /// 8: a write of over 4,096 bytes.
    LongWrite = 8,
    /// 9: a write's end, or set size's size, over 65,536.
    PastTheEnd = 9,
    /// 10: all inodes are valid.
    NoInode = 10,
    /// 11: a 225th name in one folder.
    DirectoryFull = 11,
    /// 12: the free pages are fewer than the data and log pages together.
    NoSpace = 12,
    /// 13: carry out's list is not a store list for this volume.
    BadList = 13,
    /// 14: the stretches of free pages exceed the list of pairs (document 02).
    TooManyGaps = 14,
    /// 15: create, link, write or set size would take the last free page (document 02).
    LastPage = 15,
    /// 16: a folder where a file is wanted, a file where a folder is wanted, a link to a folder, or a
    /// rename onto a folder or of a folder onto any standing name (document 02).
    WrongType = 16,
    /// 17: unlink of a folder that has names (document 02).
    NotEmpty = 17,
    /// 18: a folder's move into or beneath itself (document 02).
    IntoItself = 18,
}

impl Refusal {
    /// All refusals, in the order of their numbers.
    pub const ALL: [Refusal; 18] = [
        Refusal::ShortMemory,
        Refusal::NoVolume,
        Refusal::Damaged,
        Refusal::JournalOpen,
        Refusal::BadName,
        Refusal::NotThere,
        Refusal::Taken,
        Refusal::LongWrite,
        Refusal::PastTheEnd,
        Refusal::NoInode,
        Refusal::DirectoryFull,
        Refusal::NoSpace,
        Refusal::BadList,
        Refusal::TooManyGaps,
        Refusal::LastPage,
        Refusal::WrongType,
        Refusal::NotEmpty,
        Refusal::IntoItself,
    ];

    /// The refusal's number in document 01's table, which the orders of document 02 lengthen: 1 to
    /// 18.
    pub fn number(self) -> u64 {
        self as u64
    }

    /// The refusal with this number; none where no refusal has it.
    pub fn with_number(number: u64) -> Option<Refusal> {
        Refusal::ALL
            .into_iter()
            .find(|refusal| refusal.number() == number)
    }

    /// The refusal's word in document 01's table; those from 14 on are ours, since document 02 gives
    /// none.
    pub fn word(self) -> &'static str {
        match self {
            Refusal::ShortMemory => "short memory",
            Refusal::NoVolume => "no volume",
            Refusal::Damaged => "damaged",
            Refusal::JournalOpen => "journal open",
            Refusal::BadName => "bad name",
            Refusal::NotThere => "not there",
            Refusal::Taken => "taken",
            Refusal::LongWrite => "long write",
            Refusal::PastTheEnd => "past the end",
            Refusal::NoInode => "no inode",
            Refusal::DirectoryFull => "directory full",
            Refusal::NoSpace => "no space",
            Refusal::BadList => "bad list",
            Refusal::TooManyGaps => "too many gaps",
            Refusal::LastPage => "last page",
            Refusal::WrongType => "wrong type",
            Refusal::NotEmpty => "not empty",
            Refusal::IntoItself => "into itself",
        }
    }
}

impl fmt::Display for Refusal {
    fn fmt(&self, out: &mut fmt::Formatter<'_>) -> fmt::Result {
        out.write_str(self.word())
    }
}

impl std::error::Error for Refusal {}
