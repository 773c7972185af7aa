//! The layout of a volume: words, pages, its two sizes, the inode table and the limits.

use crate::damage::NoVolume;

/// A page has 512 bytes.
pub const PAGE_BYTES: u64 = 512;
/// A page has 64 words of 8 bytes.
pub const PAGE_WORDS: u64 = 64;
/// Inode 0, the root, is the folder that every volume has.
pub const ROOT: u64 = 0;
/// The type of a file.
pub const FILE_TYPE: u64 = 0;
/// The type of a folder.
pub const FOLDER_TYPE: u64 = 1;

/// A file's size is at most 65,536 bytes.
pub const SIZE_LIMIT: u64 = 65_536;
/// A file has at most 128 file pages.
pub const FILE_PAGES: u64 = SIZE_LIMIT / PAGE_BYTES;
/// One write has at most 4,096 bytes.
pub const WRITE_LIMIT: usize = 4_096;
/// A name has 1 to 32 bytes.
pub const NAME_BYTES: usize = 32;
/// At most 224 names stand in a folder.
pub const NAME_LIMIT: usize = 224;
/// At most four journal entries are open.
pub const OPEN_LIMIT: u64 = 4;
/// A store list to be filled has at least 4,096 words.
pub const LIST_WORDS: usize = 4_096;
/// The program volume-list reads at most 65,536 bytes.
pub const LISTING_BYTES: usize = 65_536;

/// The word that holds P, the page count.
pub const PAGES_WORD: u64 = 0;
/// The word that holds N, the inode count.
pub const INODES_WORD: u64 = 1;
/// The word that is 1 on every volume.
pub const FORMAT_WORD: u64 = 2;
/// The word that holds the journal's dequeue position.
pub const DEQUEUE_WORD: u64 = 8;
/// The word that holds the journal's enqueue position.
pub const ENQUEUE_WORD: u64 = 9;

const FIRST_INODE_WORD: u64 = 64;
const INODE_WORDS: u64 = 8;

/// The word that says whether an inode is valid: 0 or 1.
pub fn valid_word(inode: u64) -> u64 {
    FIRST_INODE_WORD + INODE_WORDS * inode
}

/// The word that holds an inode's head, the first page of its log.
pub fn head_word(inode: u64) -> u64 {
    valid_word(inode) + 1
}

/// The word that holds an inode's tail, the byte offset just after its log.
pub fn tail_word(inode: u64) -> u64 {
    valid_word(inode) + 2
}

/// The word that holds an inode's type: [`FILE_TYPE`] or [`FOLDER_TYPE`].
///
/// Order 6: "The fourth word of an inode becomes its type, 0 file and 1 folder. Inode 0 is a folder
/// whatever that word holds." It can be no target of the journal.
pub fn type_word(inode: u64) -> u64 {
    valid_word(inode) + 3
}

/// Word `index` of the volume. A word past the end reads as 0.
pub fn word(volume: &[u8], index: u64) -> u64 {
    byte_of_word(index)
        .and_then(|start| volume.get(start..))
        .and_then(|rest| rest.first_chunk())
        .map_or(0, |bytes| u64::from_le_bytes(*bytes))
}

/// Stores `value` in word `index` of the volume. A word past the end is not stored.
pub fn set_word(volume: &mut [u8], index: u64, value: u64) {
    let bytes = byte_of_word(index)
        .and_then(|start| volume.get_mut(start..))
        .and_then(|rest| rest.first_chunk_mut());
    if let Some(bytes) = bytes {
        *bytes = value.to_le_bytes();
    }
}

fn byte_of_word(index: u64) -> Option<usize> {
    usize::try_from(index.checked_mul(8)?).ok()
}

/// Whether a name is allowed: 1 to 32 bytes, none of them 0 or 47 ("/"). Such a name may stand on a
/// volume, and may be looked for.
pub fn allowed_name(name: &[u8]) -> bool {
    (1..=NAME_BYTES).contains(&name.len()) && name.iter().all(|&byte| allowed_byte(byte))
}

/// Whether a name may be given to a file or folder: an allowed one that is not kept for the
/// directory itself or its parent.
///
/// Order 5: "POSIX keeps the names "." and ".." for the directory itself and its parent. Create,
/// link's new name and rename's new name shall no longer accept them."
///
/// ```
/// use reference::layout::{allowed_name, allowed_new_name};
///
/// assert!(allowed_name(b".") && !allowed_new_name(b"."));
/// assert!(allowed_name(b"..") && !allowed_new_name(b".."));
/// assert!(allowed_new_name(b"...") && allowed_new_name(b".a"));
/// assert!(!allowed_new_name(b"") && !allowed_new_name(b"./"));
/// ```
pub fn allowed_new_name(name: &[u8]) -> bool {
    allowed_name(name) && !matches!(name, b"." | b"..")
}

/// Whether a name may have this byte.
pub(crate) fn allowed_byte(byte: u8) -> bool {
    byte != 0 && byte != b'/'
}

/// The volume's two sizes, within their limits.
#[derive(Clone, Copy, Debug, PartialEq, Eq)]
pub struct Sizes {
    pages: u64,
    inodes: u64,
}

impl Sizes {
    /// Judges P and N against each other and against the slice length. The refusal is 2.
    pub fn new(length: usize, pages: u64, inodes: u64) -> Result<Sizes, NoVolume> {
        if !(16..=4_096).contains(&pages) {
            return Err(NoVolume::PageCount { pages });
        }
        if !(8..=256).contains(&inodes) || !inodes.is_multiple_of(8) {
            return Err(NoVolume::InodeCount { inodes });
        }
        let least = inodes / 8 + 4;
        if pages < least {
            return Err(NoVolume::FewPages {
                pages,
                inodes,
                least,
            });
        }
        if length as u64 != pages * PAGE_BYTES {
            return Err(NoVolume::Length { length, pages });
        }
        Ok(Sizes { pages, inodes })
    }

    /// The sizes that words 0 and 1 of a slice give, if it is a volume. The refusal is 2.
    pub fn of(volume: &[u8]) -> Result<Sizes, NoVolume> {
        let length = volume.len();
        if length < 24 {
            return Err(NoVolume::Short { length });
        }
        let [pages, inodes] = [PAGES_WORD, INODES_WORD].map(|index| word(volume, index));
        let sizes = Sizes::new(length, pages, inodes)?;
        match word(volume, FORMAT_WORD) {
            1 => Ok(sizes),
            value => Err(NoVolume::FormatWord { value }),
        }
    }

    /// P, the page count.
    pub fn pages(self) -> u64 {
        self.pages
    }

    /// N, the inode count.
    pub fn inodes(self) -> u64 {
        self.inodes
    }

    /// T + 1, the first page that holds logs and data.
    pub fn first_page(self) -> u64 {
        self.inodes / 8 + 1
    }

    /// Whether a page is one of T+1 to P−1, the pages that hold logs and data.
    pub fn holds_page(self, page: u64) -> bool {
        (self.first_page()..self.pages).contains(&page)
    }

    /// Whether a word is the valid, head or tail word of one of the N inodes.
    pub fn is_inode_word(self, index: u64) -> bool {
        (FIRST_INODE_WORD..valid_word(self.inodes)).contains(&index)
            && (index - FIRST_INODE_WORD) % INODE_WORDS < 3
    }
}
