//! The changing calls: each leaves the volume alone and fills a lent store list.

use crate::{answer, Answer};

/// The changing calls of libhost_calls.a. A slice is a pointer and a length; the answer is the count of words
/// filled or minus the refusal's number.
mod exports {
    /// A call with one name in a folder: create, create folder, unlink.
    pub type OneName =
        unsafe extern "C" fn(*const u8, usize, u64, *const u8, usize, *mut u64, usize) -> i64;
    /// A call with an old and a new name, each in its folder: link, rename.
    pub type TwoNames = unsafe extern "C" fn(
        *const u8,
        usize,
        u64,
        *const u8,
        usize,
        u64,
        *const u8,
        usize,
        *mut u64,
        usize,
    ) -> i64;

    /// Declares calls: what stands between the volume and the list differs.
    macro_rules! declared {
        ($($name:ident($($argument:ty),*);)*) => {
            extern "C" {
                $(pub fn $name(
                    volume: *const u8,
                    len: usize,
                    $(_: $argument,)*
                    list: *mut u64,
                    list_len: usize,
                ) -> i64;)*
            }
        };
    }

    declared! {
        volume_create(u64, *const u8, usize);
        volume_create_folder(u64, *const u8, usize);
        volume_unlink(u64, *const u8, usize);
        volume_link(u64, *const u8, usize, u64, *const u8, usize);
        volume_rename(u64, *const u8, usize, u64, *const u8, usize);
        volume_write(u64, u64, *const u8, usize);
        volume_set_size(u64, u64);
        volume_clean(u64);
        volume_recover();
    }
}

/// Makes a compiled call with one name in a folder.
fn with_name(
    call: exports::OneName,
    volume: &[u8],
    folder: u64,
    name: &[u8],
    list: &mut [u64],
) -> Answer {
    let (words, room) = (list.as_mut_ptr(), list.len());
    // SAFETY: the pointers and the lengths are those of slices that are lent for the call.
    answer(unsafe {
        call(
            volume.as_ptr(),
            volume.len(),
            folder,
            name.as_ptr(),
            name.len(),
            words,
            room,
        )
    })
}

/// Makes a compiled call with an old and a new name, each behind the inode of its folder.
fn with_names(
    call: exports::TwoNames,
    volume: &[u8],
    (old_folder, old): (u64, &[u8]),
    (new_folder, new): (u64, &[u8]),
    list: &mut [u64],
) -> Answer {
    let (words, room) = (list.as_mut_ptr(), list.len());
    // SAFETY: the pointers and the lengths are those of slices that are lent for the call.
    answer(unsafe {
        call(
            volume.as_ptr(),
            volume.len(),
            old_folder,
            old.as_ptr(),
            old.len(),
            new_folder,
            new.as_ptr(),
            new.len(),
            words,
            room,
        )
    })
}

/// Create: fills a list that adds a name to a folder, with the lowest invalid inode, an empty file.
///
/// Inode 0 is the folder that every volume has. Answers the count of words filled. The refusals are 1
/// (short memory: a list under 4,096 words), 2 (no volume), 3 (damaged), 4 (journal open), 5 (bad name),
/// 6 (not there: the folder), 7 (taken), 16 (wrong type: the folder is a file), 10 (no inode), 11
/// (directory full: 224 names stand in the folder), 12 (no space) and 15 (last page: the folder's log
/// would take the last free one). Nothing gets the name "." or "..": that is 5, here and as the new name
/// of [`link`] and [`rename`].
///
/// ```
/// use calls::{carry_out, create, find, format, Refusal};
///
/// let mut volume = vec![0; 16 * 512];
/// let mut list = vec![0; 4_096];
/// format(&mut volume, 16, 8)?;
/// assert_eq!(create(&volume, 0, b"A1", &mut list[..4_095]), Err(Refusal::ShortMemory));
/// let count = create(&volume, 0, b"A1", &mut list)?;
/// assert_eq!(count, 48);
/// assert_eq!(find(&volume, 0, b"A1"), Err(Refusal::NotThere));
/// carry_out(&mut volume, &list, count)?;
/// assert_eq!(find(&volume, 0, b"A1"), Ok(1));
/// assert_eq!(create(&volume, 0, b"A1", &mut list), Err(Refusal::Taken));
/// assert_eq!(create(&volume, 0, b".", &mut list), Err(Refusal::BadName));
/// assert_eq!(create(&volume, 1, b"A2", &mut list), Err(Refusal::WrongType));
/// # Ok::<(), Refusal>(())
/// ```
pub fn create(volume: &[u8], folder: u64, name: &[u8], list: &mut [u64]) -> Answer {
    with_name(exports::volume_create, volume, folder, name, list)
}

/// Create folder: fills a list that adds a name to a folder, with the lowest invalid inode, a folder without names.
///
/// Answers and refuses as [`create`] does.
///
/// ```
/// use calls::{carry_out, create, create_folder, find, format, Refusal};
///
/// let mut volume = vec![0; 16 * 512];
/// let mut list = vec![0; 4_096];
/// format(&mut volume, 16, 8)?;
/// let count = create_folder(&volume, 0, b"north", &mut list)?;
/// assert_eq!(count, 48);
/// carry_out(&mut volume, &list, count)?;
/// let north = find(&volume, 0, b"north")?;
/// let count = create(&volume, north, b"A1", &mut list)?;
/// carry_out(&mut volume, &list, count)?;
/// assert_eq!(find(&volume, north, b"A1"), Ok(2));
/// assert_eq!(find(&volume, 0, b"A1"), Err(Refusal::NotThere));
/// # Ok::<(), Refusal>(())
/// ```
pub fn create_folder(volume: &[u8], folder: u64, name: &[u8], list: &mut [u64]) -> Answer {
    with_name(exports::volume_create_folder, volume, folder, name, list)
}

/// Link: fills a list that adds the new name, in its folder, with the old one's inode, a file.
///
/// Answers the count of words filled. The refusals are 1 to 5 as for [`create`], 6 (not there: a folder,
/// or the old name in its folder), 7 (taken: the new name), 16 (wrong type: a folder is a file, or the old
/// name leads to a folder), 11 (directory full), 12 (no space) and 15 (last page: the log of the new
/// name's folder would take the last free one).
///
/// ```
/// use calls::{carry_out, create, find, format, link, Refusal};
///
/// let mut volume = vec![0; 16 * 512];
/// let mut list = vec![0; 4_096];
/// format(&mut volume, 16, 8)?;
/// assert_eq!(link(&volume, 0, b"A1", 0, b"A2", &mut list), Err(Refusal::NotThere));
/// let count = create(&volume, 0, b"A1", &mut list)?;
/// carry_out(&mut volume, &list, count)?;
/// let count = link(&volume, 0, b"A1", 0, b"A2", &mut list)?;
/// assert_eq!(count, 22);
/// carry_out(&mut volume, &list, count)?;
/// assert_eq!(find(&volume, 0, b"A2"), Ok(1));
/// # Ok::<(), Refusal>(())
/// ```
pub fn link(
    volume: &[u8],
    old_folder: u64,
    old: &[u8],
    new_folder: u64,
    new: &[u8],
    list: &mut [u64],
) -> Answer {
    with_names(
        exports::volume_link,
        volume,
        (old_folder, old),
        (new_folder, new),
        list,
    )
}

/// Unlink: fills a list that removes a name from a folder; a file left without a name goes, and a folder with its name.
///
/// Answers the count of words filled. The refusals are 1 to 5 as for [`create`], 6 (not there: the folder,
/// or the name in it), 16 (wrong type: the folder is a file), 17 (not empty: the name leads to a folder
/// that has names) and 12 (no space: the folder's log needs a page for the entry).
///
/// ```
/// use calls::{carry_out, create, create_folder, find, format, unlink, Refusal};
///
/// let mut volume = vec![0; 16 * 512];
/// let mut list = vec![0; 4_096];
/// format(&mut volume, 16, 8)?;
/// let count = create_folder(&volume, 0, b"north", &mut list)?;
/// carry_out(&mut volume, &list, count)?;
/// let count = create(&volume, 1, b"A1", &mut list)?;
/// carry_out(&mut volume, &list, count)?;
/// assert_eq!(unlink(&volume, 0, b"north", &mut list), Err(Refusal::NotEmpty));
/// let count = unlink(&volume, 1, b"A1", &mut list)?;
/// assert_eq!(count, 40);
/// carry_out(&mut volume, &list, count)?;
/// assert_eq!(find(&volume, 1, b"A1"), Err(Refusal::NotThere));
/// let count = unlink(&volume, 0, b"north", &mut list)?;
/// carry_out(&mut volume, &list, count)?;
/// assert_eq!(find(&volume, 1, b"A1"), Err(Refusal::NotThere));
/// # Ok::<(), Refusal>(())
/// ```
pub fn unlink(volume: &[u8], folder: u64, name: &[u8], list: &mut [u64]) -> Answer {
    with_name(exports::volume_unlink, volume, folder, name, list)
}

/// Rename: fills a list that removes the old name from its folder and adds the new one to its own, with the same inode;
/// a file left without a name goes.
///
/// Answers the count of words filled, 0 if both names lead to one inode. The refusals are 1 to 5 as for
/// [`create`], 6 (not there: a folder, or the old name in its folder), 16 (wrong type: a folder is a file,
/// the new name leads to a folder, or a folder would take a name that stands), 18 (into itself: a folder
/// into or beneath itself), 11 (directory full: a 225th name in the new name's folder) and 12 (no space).
///
/// ```
/// use calls::{carry_out, create, create_folder, find, format, rename, Refusal};
///
/// let mut volume = vec![0; 16 * 512];
/// let mut list = vec![0; 4_096];
/// format(&mut volume, 16, 8)?;
/// let count = create(&volume, 0, b"A1", &mut list)?;
/// carry_out(&mut volume, &list, count)?;
/// let count = create_folder(&volume, 0, b"north", &mut list)?;
/// carry_out(&mut volume, &list, count)?;
/// assert_eq!(rename(&volume, 0, b"A1", 0, b"A1", &mut list), Ok(0));
/// assert_eq!(rename(&volume, 0, b"north", 2, b"south", &mut list), Err(Refusal::IntoItself));
/// let count = rename(&volume, 0, b"A1", 2, b"A2", &mut list)?;
/// carry_out(&mut volume, &list, count)?;
/// assert_eq!(find(&volume, 0, b"A1"), Err(Refusal::NotThere));
/// assert_eq!(find(&volume, 2, b"A2"), Ok(1));
/// # Ok::<(), Refusal>(())
/// ```
pub fn rename(
    volume: &[u8],
    old_folder: u64,
    old: &[u8],
    new_folder: u64,
    new: &[u8],
    list: &mut [u64],
) -> Answer {
    with_names(
        exports::volume_rename,
        volume,
        (old_folder, old),
        (new_folder, new),
        list,
    )
}

/// Write: fills a list that lays the bytes over the file's from the offset on, in fresh data pages: the lowest run of
/// free pages that is long enough or, where there is none, the lowest free pages.
///
/// Answers the count of words filled, 0 if there are no bytes. The refusals are 1 to 4 as for
/// [`create`], 6 (not there), 16 (wrong type: a folder), 8 (long write: over 4,096 bytes), 9 (past the end: offset and length
/// over 65,536), 12 (no space: fewer free pages than data and log need) and 15 (last page: exactly
/// as many, so that none would be left).
///
/// ```
/// use calls::{carry_out, create, format, read, write, Refusal};
///
/// let mut volume = vec![0; 16 * 512];
/// let mut list = vec![0; 4_096];
/// format(&mut volume, 16, 8)?;
/// let count = create(&volume, 0, b"A1", &mut list)?;
/// carry_out(&mut volume, &list, count)?;
/// assert_eq!(write(&volume, 1, 0, &[7; 4_097], &mut list), Err(Refusal::LongWrite));
/// let count = write(&volume, 1, 510, b"text", &mut list)?;
/// assert_eq!(count, 280);
/// carry_out(&mut volume, &list, count)?;
/// let mut buffer = [7; 8];
/// assert_eq!(read(&volume, 1, 508, &mut buffer), Ok(6));
/// assert_eq!(&buffer, b"\0\0text\x07\x07");
/// # Ok::<(), Refusal>(())
/// ```
pub fn write(volume: &[u8], inode: u64, offset: u64, bytes: &[u8], list: &mut [u64]) -> Answer {
    // SAFETY: the pointers and the lengths are those of slices that are lent for the call.
    answer(unsafe {
        exports::volume_write(
            volume.as_ptr(),
            volume.len(),
            inode,
            offset,
            bytes.as_ptr(),
            bytes.len(),
            list.as_mut_ptr(),
            list.len(),
        )
    })
}

/// Set size: fills a list that cuts or lengthens a file to a size.
///
/// Answers the count of words filled, 0 if the file has that size. The refusals are 1 to 4 as for
/// [`create`], 6 (not there), 16 (wrong type: a folder), 9 (past the end: over 65,536), 12 (no space) and 15 (last page: a
/// copied page or the log would take the last free one).
///
/// ```
/// use calls::{carry_out, create, format, set_size, size, Refusal};
///
/// let mut volume = vec![0; 16 * 512];
/// let mut list = vec![0; 4_096];
/// format(&mut volume, 16, 8)?;
/// let count = create(&volume, 0, b"A1", &mut list)?;
/// carry_out(&mut volume, &list, count)?;
/// assert_eq!(set_size(&volume, 1, 0, &mut list), Ok(0));
/// assert_eq!(set_size(&volume, 1, 65_537, &mut list), Err(Refusal::PastTheEnd));
/// let count = set_size(&volume, 1, 65_536, &mut list)?;
/// carry_out(&mut volume, &list, count)?;
/// assert_eq!(size(&volume, 1), Ok(65_536));
/// # Ok::<(), Refusal>(())
/// ```
pub fn set_size(volume: &[u8], inode: u64, size: u64, list: &mut [u64]) -> Answer {
    let (words, room) = (list.as_mut_ptr(), list.len());
    // SAFETY: the pointers and the lengths are those of slices that are lent for the call.
    answer(unsafe {
        exports::volume_set_size(volume.as_ptr(), volume.len(), inode, size, words, room)
    })
}

/// Clean: fills a list that writes an inode's log anew, with only the entries that it needs in the end.
///
/// Folders are allowed, inode 0 too. Answers the count of words filled, 0 if the log is empty. The refusals
/// are 1 to 4 as for [`create`], 6 (not there) and 12 (no space: fewer free pages than the new log needs).
///
/// ```
/// use calls::{clean, create, carry_out, format, Refusal};
///
/// let mut volume = vec![0; 16 * 512];
/// let mut list = vec![0; 4_096];
/// format(&mut volume, 16, 8)?;
/// assert_eq!(clean(&volume, 0, &mut list), Ok(0));
/// assert_eq!(clean(&volume, 1, &mut list), Err(Refusal::NotThere));
/// let count = create(&volume, 0, b"A1", &mut list)?;
/// carry_out(&mut volume, &list, count)?;
/// assert_eq!(clean(&volume, 0, &mut list), Ok(40));
/// # Ok::<(), Refusal>(())
/// ```
pub fn clean(volume: &[u8], inode: u64, list: &mut [u64]) -> Answer {
    let (words, room) = (list.as_mut_ptr(), list.len());
    // SAFETY: the pointers and the lengths are those of slices that are lent for the call.
    answer(unsafe { exports::volume_clean(volume.as_ptr(), volume.len(), inode, words, room) })
}

/// Recover: fills a list that puts the old values of an open journal back and closes it.
///
/// Answers the count of words filled, 0 if the journal is closed. The refusals are 1 to 3 as for [`create`].
///
/// ```
/// use calls::{carry_out, create, find, format, recover, Refusal};
///
/// let mut volume = vec![0; 16 * 512];
/// let mut list = vec![0; 4_096];
/// format(&mut volume, 16, 8)?;
/// assert_eq!(recover(&volume, &mut list), Ok(0));
///
/// // A power cut: of the create's list the first two groups have landed.
/// create(&volume, 0, b"A1", &mut list)?;
/// carry_out(&mut volume, &list, 38)?;
/// assert_eq!(find(&volume, 0, b"A1"), Err(Refusal::JournalOpen));
/// let count = recover(&volume, &mut list)?;
/// assert_eq!(list[..10], [66, 0, 72, 0, u64::MAX, 0, 8, 2, u64::MAX, 0]);
/// carry_out(&mut volume, &list, count)?;
/// assert_eq!(find(&volume, 0, b"A1"), Err(Refusal::NotThere));
/// # Ok::<(), Refusal>(())
/// ```
pub fn recover(volume: &[u8], list: &mut [u64]) -> Answer {
    let (words, room) = (list.as_mut_ptr(), list.len());
    // SAFETY: the pointers and the lengths are those of slices that are lent for the call.
    answer(unsafe { exports::volume_recover(volume.as_ptr(), volume.len(), words, room) })
}
