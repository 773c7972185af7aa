//! The compiled calls of the file store, for Rust programs.
//!
//! The calls are proved and compiled in `crates/host_calls`; `host/archives` makes the
//! archive that this crate links (see `build.rs`). Each call here hands its slices and numbers on and
//! turns the number that comes back into an [`Answer`]; it checks nothing itself.
//!
//! A *volume* is a lent slice of bytes, and every call works from the volume alone. Slices may have any
//! length and hold any bytes: every call returns, and a refusal leaves all lent memory as it was. A call
//! keeps nothing between two calls, so calls on different volumes may run at the same time. The reading
//! calls need about 40 KB of stack for their tables, the changing calls up to 64 KB.
//!
//! A changing call other than [`format()`] leaves the volume alone and fills a lent *store list* of 4,096 words or
//! more, which [`carry_out`] then stores. A program that stores a list by itself, group by group,
//! finds the groups with [`list::groups`] and the numbers that it needs in [`layout`].
//!
//! # Example
//!
//! ```
//! use calls::{carry_out, create, find, format, free_count, kth_name, read, size, write, Refusal};
//!
//! let mut volume = vec![0; 16 * 512];
//! let mut list = vec![0; 4_096];
//! format(&mut volume, 16, 8)?;
//! assert_eq!(free_count(&volume)?, 14);
//!
//! let count = create(&volume, 0, b"A1", &mut list)?;
//! assert_eq!(find(&volume, 0, b"A1"), Err(Refusal::NotThere));
//! carry_out(&mut volume, &list, count)?;
//! let inode = find(&volume, 0, b"A1")?;
//!
//! let count = write(&volume, inode, 510, b"text", &mut list)?;
//! carry_out(&mut volume, &list, count)?;
//! assert_eq!(size(&volume, inode)?, 514);
//! assert_eq!(free_count(&volume)?, 10);
//!
//! let mut buffer = *b"old bytes";
//! assert_eq!(read(&volume, inode, 509, &mut buffer)?, 5);
//! assert_eq!(&buffer, b"\0textytes");
//!
//! let mut name = [7; 33];
//! assert_eq!(kth_name(&volume, 0, 0, &mut name)?, 2);
//! assert_eq!(&name[..3], b"A1\0");
//! assert_eq!(name[32], 7);
//! # Ok::<(), Refusal>(())
//! ```

#![warn(missing_docs)]

pub mod layout;
pub mod list;

mod changing;

pub use changing::{clean, create, create_folder, link, recover, rename, set_size, unlink, write};
pub use refusal::{Answer, Refusal};

/// Format, carry out and the reading calls of libhost_calls.a. A slice is a pointer and a length; the answer is
/// the call's number, 0 where it has none, or minus the refusal's number.
mod exports {
    extern "C" {
        pub fn volume_format(volume: *mut u8, len: usize, pages: u64, inodes: u64) -> i64;
        pub fn volume_carry_out(
            volume: *mut u8,
            len: usize,
            list: *const u64,
            list_len: usize,
            count: u64,
        ) -> i64;
        pub fn volume_find(
            volume: *const u8,
            len: usize,
            folder: u64,
            name: *const u8,
            name_len: usize,
        ) -> i64;
        pub fn volume_size(volume: *const u8, len: usize, inode: u64) -> i64;
        pub fn volume_read(
            volume: *const u8,
            len: usize,
            inode: u64,
            offset: u64,
            buffer: *mut u8,
            buffer_len: usize,
        ) -> i64;
        pub fn volume_kth_name(
            volume: *const u8,
            len: usize,
            folder: u64,
            k: u64,
            buffer: *mut u8,
            buffer_len: usize,
        ) -> i64;
        pub fn volume_total(volume: *const u8, len: usize, folder: u64) -> i64;
        pub fn volume_free_count(volume: *const u8, len: usize) -> i64;
        pub fn volume_gaps(volume: *const u8, len: usize, pairs: *mut u64, pairs_len: usize)
            -> i64;
    }
}

/// What a number that a compiled call answered means.
///
/// # Panics
///
/// Panics if it is minus a number that no refusal has; no call answers such a number.
fn answer(code: i64) -> Answer {
    u64::try_from(code).map_err(|_| {
        Refusal::with_number(code.unsigned_abs())
            .unwrap_or_else(|| panic!("a call answered {code}, which no refusal has"))
    })
}

/// Format: makes the slice an empty volume of `pages` pages and `inodes` inodes.
///
/// Zeroes page 0 and the inode table, stores the header, and leaves the bytes of the other pages. Works
/// directly, without a store list. The refusal is 2 ([`Refusal::NoVolume`]), from the slice's length and
/// the two sizes alone.
///
/// ```
/// use calls::{format, Refusal};
///
/// let mut volume = vec![7; 16 * 512];
/// assert_eq!(format(&mut volume, 17, 8), Err(Refusal::NoVolume));
/// assert_eq!(volume, vec![7; 16 * 512]);
/// assert_eq!(format(&mut volume, 16, 8), Ok(()));
/// assert_eq!(volume[..9], [16, 0, 0, 0, 0, 0, 0, 0, 8]);
/// assert_eq!(volume[1024..], [7; 14 * 512]);
/// ```
pub fn format(volume: &mut [u8], pages: u64, inodes: u64) -> Result<(), Refusal> {
    // SAFETY: the pointer and the length are those of a slice that is lent for the call.
    let code = unsafe { exports::volume_format(volume.as_mut_ptr(), volume.len(), pages, inodes) };
    answer(code).map(|_| ())
}

/// Carry out: stores the first `count` words of a list, pairs of word index and value, in list order.
///
/// A pair whose index is 2^64−1 is a fence, and its value is 0; the last pair is a fence. The refusals are
/// 2 ([`Refusal::NoVolume`]) and 13 ([`Refusal::BadList`]), judged before the first store. A count of 0
/// stores nothing.
///
/// ```
/// use calls::{carry_out, format, Refusal};
///
/// let mut volume = vec![0; 16 * 512];
/// format(&mut volume, 16, 8)?;
/// let list = [200, 513, u64::MAX, 0];
/// assert_eq!(carry_out(&mut volume, &list, 2), Err(Refusal::BadList));
/// assert_eq!(carry_out(&mut volume, &list, 4), Ok(()));
/// assert_eq!(volume[1600..1608], [1, 2, 0, 0, 0, 0, 0, 0]);
/// # Ok::<(), Refusal>(())
/// ```
pub fn carry_out(volume: &mut [u8], list: &[u64], count: u64) -> Result<(), Refusal> {
    // SAFETY: the pointers and the lengths are those of slices that are lent for the call.
    let code = unsafe {
        exports::volume_carry_out(
            volume.as_mut_ptr(),
            volume.len(),
            list.as_ptr(),
            list.len(),
            count,
        )
    };
    answer(code).map(|_| ())
}

/// Find: answers the inode that a name leads to in a folder.
///
/// Inode 0 is the folder that every volume has. The refusals are 2 ([`Refusal::NoVolume`]), 3
/// ([`Refusal::Damaged`]), 4 ([`Refusal::JournalOpen`]), 5 ([`Refusal::BadName`]), 6
/// ([`Refusal::NotThere`], the folder, or the name in it) and 16 ([`Refusal::WrongType`], the folder is a file).
///
/// ```
/// use calls::{find, format, Refusal};
///
/// let mut volume = vec![0; 16 * 512];
/// assert_eq!(find(&volume, 0, b"A1"), Err(Refusal::NoVolume));
/// format(&mut volume, 16, 8)?;
/// assert_eq!(find(&volume, 0, b"A1"), Err(Refusal::NotThere));
/// assert_eq!(find(&volume, 0, b"A/1"), Err(Refusal::BadName));
/// # Ok::<(), Refusal>(())
/// ```
pub fn find(volume: &[u8], folder: u64, name: &[u8]) -> Answer {
    // SAFETY: the pointers and the lengths are those of slices that are lent for the call.
    answer(unsafe {
        exports::volume_find(
            volume.as_ptr(),
            volume.len(),
            folder,
            name.as_ptr(),
            name.len(),
        )
    })
}

/// Size: answers a file's size in bytes.
///
/// The refusals are 2 ([`Refusal::NoVolume`]), 3 ([`Refusal::Damaged`]), 4 ([`Refusal::JournalOpen`]), 6
/// ([`Refusal::NotThere`]), which inode 0 gets too, and 16 ([`Refusal::WrongType`], another folder).
///
/// ```
/// use calls::{format, size, Refusal};
///
/// let mut volume = vec![0; 16 * 512];
/// format(&mut volume, 16, 8)?;
/// assert_eq!(size(&volume, 1), Err(Refusal::NotThere));
/// # Ok::<(), Refusal>(())
/// ```
pub fn size(volume: &[u8], inode: u64) -> Answer {
    // SAFETY: the pointer and the length are those of a slice that is lent for the call.
    answer(unsafe { exports::volume_size(volume.as_ptr(), volume.len(), inode) })
}

/// Read: copies a file's bytes from the offset on into the buffer, as many as the file has there and the
/// buffer takes; answers how many.
///
/// The rest of the buffer keeps its bytes. At or past the file's end the answer is 0. The refusals are 2
/// ([`Refusal::NoVolume`]), 3 ([`Refusal::Damaged`]), 4 ([`Refusal::JournalOpen`]), 6
/// ([`Refusal::NotThere`]) and 16 ([`Refusal::WrongType`], a folder).
///
/// ```
/// use calls::{format, read, Refusal};
///
/// let mut volume = vec![0; 16 * 512];
/// format(&mut volume, 16, 8)?;
/// let mut buffer = [7; 20];
/// assert_eq!(read(&volume, 1, 0, &mut buffer), Err(Refusal::NotThere));
/// assert_eq!(buffer, [7; 20]);
/// # Ok::<(), Refusal>(())
/// ```
pub fn read(volume: &[u8], inode: u64, offset: u64, buffer: &mut [u8]) -> Answer {
    // SAFETY: the pointers and the lengths are those of slices that are lent for the call.
    answer(unsafe {
        exports::volume_read(
            volume.as_ptr(),
            volume.len(),
            inode,
            offset,
            buffer.as_mut_ptr(),
            buffer.len(),
        )
    })
}

/// K-th name of a folder (k from 0): writes the name and zeros after it into the first 32 bytes of the buffer; answers
/// the name's length.
///
/// Bytes past 32 stay. The refusals are 1 ([`Refusal::ShortMemory`], a buffer under 32 bytes), 2
/// ([`Refusal::NoVolume`]), 3 ([`Refusal::Damaged`]), 4 ([`Refusal::JournalOpen`]), 6
/// ([`Refusal::NotThere`], the folder, or k too large) and 16 ([`Refusal::WrongType`], the folder is a file).
///
/// ```
/// use calls::{format, kth_name, Refusal};
///
/// let mut volume = vec![0; 16 * 512];
/// format(&mut volume, 16, 8)?;
/// assert_eq!(kth_name(&volume, 0, 0, &mut [0; 31]), Err(Refusal::ShortMemory));
/// assert_eq!(kth_name(&volume, 0, 0, &mut [0; 32]), Err(Refusal::NotThere));
/// # Ok::<(), Refusal>(())
/// ```
pub fn kth_name(volume: &[u8], folder: u64, k: u64, buffer: &mut [u8]) -> Answer {
    // SAFETY: the pointers and the lengths are those of slices that are lent for the call.
    answer(unsafe {
        exports::volume_kth_name(
            volume.as_ptr(),
            volume.len(),
            folder,
            k,
            buffer.as_mut_ptr(),
            buffer.len(),
        )
    })
}

/// Total: answers the bytes beneath a folder, the sum over its names.
///
/// A file counts its size once for each name, and a folder what lies beneath it. The refusals are 2
/// ([`Refusal::NoVolume`]), 3 ([`Refusal::Damaged`]), 4 ([`Refusal::JournalOpen`]), 6
/// ([`Refusal::NotThere`]) and 16 ([`Refusal::WrongType`], a file). Its stack grows with the depth of the
/// folders: see docs/TRUST.md.
///
/// ```
/// use calls::{carry_out, create, format, link, total, write, Refusal};
///
/// let mut volume = vec![0; 16 * 512];
/// let mut list = vec![0; 4_096];
/// format(&mut volume, 16, 8)?;
/// assert_eq!(total(&volume, 0), Ok(0));
/// let count = create(&volume, 0, b"A1", &mut list)?;
/// carry_out(&mut volume, &list, count)?;
/// let count = write(&volume, 1, 510, b"text", &mut list)?;
/// carry_out(&mut volume, &list, count)?;
/// let count = link(&volume, 0, b"A1", 0, b"A2", &mut list)?;
/// carry_out(&mut volume, &list, count)?;
/// assert_eq!(total(&volume, 0), Ok(1_028));
/// assert_eq!(total(&volume, 1), Err(Refusal::WrongType));
/// # Ok::<(), Refusal>(())
/// ```
pub fn total(volume: &[u8], folder: u64) -> Answer {
    // SAFETY: the pointer and the length are those of a slice that is lent for the call.
    answer(unsafe { exports::volume_total(volume.as_ptr(), volume.len(), folder) })
}

/// Count of free pages.
///
/// The refusals are 2 ([`Refusal::NoVolume`]), 3 ([`Refusal::Damaged`]) and 4 ([`Refusal::JournalOpen`]).
///
/// ```
/// use calls::{format, free_count, Refusal};
///
/// let mut volume = vec![0; 40 * 512];
/// format(&mut volume, 40, 32)?;
/// assert_eq!(free_count(&volume), Ok(35));
/// volume[64] = 16; // the journal's dequeue position
/// assert_eq!(free_count(&volume), Err(Refusal::Damaged));
/// # Ok::<(), Refusal>(())
/// ```
pub fn free_count(volume: &[u8]) -> Answer {
    // SAFETY: the pointer and the length are those of a slice that is lent for the call.
    answer(unsafe { exports::volume_free_count(volume.as_ptr(), volume.len()) })
}

/// Gaps: fills in the stretches of free pages, each as a pair of its first page and its length; answers the count of
/// pairs filled.
///
/// The pairs are sorted by first page, each is the longest stretch possible and none is there twice, so that the
/// lengths add up to [`free_count`]. The list is flat, first page and length by turns: one of n words has room for
/// n / 2 pairs, and an odd last word is never filled. Later pairs keep their content. A volume has at most 2,047
/// stretches, so that a list of 4,094 words is always long enough; with no free page one of no words will do. The
/// refusals are 2 ([`Refusal::NoVolume`]), 3 ([`Refusal::Damaged`]), 4 ([`Refusal::JournalOpen`]) and 14
/// ([`Refusal::TooManyGaps`], more stretches than the list has pairs).
///
/// ```
/// use calls::{carry_out, clean, create, format, gaps, Refusal};
///
/// let mut volume = vec![0; 16 * 512];
/// format(&mut volume, 16, 8)?;
/// let mut pairs = [7; 6];
/// assert_eq!(gaps(&volume, &mut pairs), Ok(1));
/// assert_eq!(pairs, [2, 14, 7, 7, 7, 7]);
///
/// let mut list = vec![0; 4_096];
/// let count = create(&volume, 0, b"A1", &mut list)?;
/// carry_out(&mut volume, &list, count)?;
/// let count = clean(&volume, 0, &mut list)?; // the directory's log goes from page 2 to page 3
/// carry_out(&mut volume, &list, count)?;
/// assert_eq!(gaps(&volume, &mut pairs), Ok(2));
/// assert_eq!(pairs, [2, 1, 4, 12, 7, 7]);
/// assert_eq!(gaps(&volume, &mut pairs[..3]), Err(Refusal::TooManyGaps));
/// # Ok::<(), Refusal>(())
/// ```
pub fn gaps(volume: &[u8], pairs: &mut [u64]) -> Answer {
    // SAFETY: the pointers and the lengths are those of slices that are lent for the call.
    answer(unsafe {
        exports::volume_gaps(
            volume.as_ptr(),
            volume.len(),
            pairs.as_mut_ptr(),
            pairs.len(),
        )
    })
}
