//! The numbers of document 01 that a program needs that keeps a volume and has calls made on it.
//!
//! ```
//! use calls::layout::{word_offset, LIST_WORDS};
//!
//! let mut volume = vec![0; 16 * 512];
//! let mut list = vec![0; LIST_WORDS];
//! calls::format(&mut volume, 16, 8)?;
//! let count = calls::create(&volume, 0, b"A1", &mut list)?;
//! calls::carry_out(&mut volume, &list, count)?;
//!
//! let tail = word_offset(66) as usize;
//! assert_eq!(volume[tail..tail + 8], 1_088_u64.to_le_bytes());
//! # Ok::<(), calls::Refusal>(())
//! ```

/// A word has 8 bytes.
pub const WORD_BYTES: u64 = 8;
/// A page has 512 bytes.
pub const PAGE_BYTES: u64 = 512;
/// A volume has at most 4,096 pages.
pub const PAGE_LIMIT: u64 = 4_096;
/// A volume has at most 2,097,152 bytes.
pub const VOLUME_LIMIT: u64 = PAGE_LIMIT * PAGE_BYTES;
/// Inode 0 is the folder that every volume has.
pub const ROOT: u64 = 0;
/// A file's size is at most 65,536 bytes.
pub const SIZE_LIMIT: u64 = 65_536;
/// One write has at most 4,096 bytes.
pub const WRITE_LIMIT: usize = 4_096;
/// A name has at most 32 bytes; a buffer for one has at least as many.
pub const NAME_BYTES: usize = 32;
/// A store list to be filled has at least 4,096 words.
pub const LIST_WORDS: usize = 4_096;

/// The byte offset of a word of a volume, from its index.
///
/// Every index that a call puts in a store list is one of the volume's words.
///
/// ```
/// assert_eq!(calls::layout::word_offset(66), 528);
/// ```
pub fn word_offset(index: u64) -> u64 {
    index * WORD_BYTES
}
