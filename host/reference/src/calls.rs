//! The changing calls: format, create, create folder, link, unlink, rename, write, set size, clean,
//! recover.
//!
//! All but format leave the volume alone and fill a store list; they answer the count of words
//! filled, 0 if there is nothing to change. All is judged before the first word is filled.

use crate::accept::{judge, judge_closed, Volume};
use crate::commit::{append, commit, commit_journalled, data_stores, lay};
use crate::layout::{
    allowed_name, allowed_new_name, head_word, set_word, tail_word, type_word, valid_word, Sizes,
    DEQUEUE_WORD, FILE_TYPE, FOLDER_TYPE, FORMAT_WORD, INODES_WORD, LIST_WORDS, NAME_LIMIT,
    PAGES_WORD, PAGE_BYTES, ROOT, SIZE_LIMIT, WRITE_LIMIT,
};
use crate::log::{Entry, File};
use crate::space::Space;
use crate::stores::{fill, Store};
use crate::{Answer, Refusal};

/// Format: makes the slice an empty volume of `pages` pages and `inodes` inodes.
///
/// Zeroes pages 0 to T and sets words 0, 1, 2 and 64; leaves the other pages' bytes. It works
/// directly, without a store list. The refusal is 2, from the slice length, P and N alone.
///
/// ```
/// use reference::{format, free_count, Refusal};
///
/// let mut volume = vec![7; 16 * 512];
/// assert_eq!(format(&mut volume, 16, 9), Err(Refusal::NoVolume));
/// assert_eq!(format(&mut volume, 16, 8), Ok(()));
/// assert_eq!(free_count(&volume), Ok(14));
/// ```
pub fn format(volume: &mut [u8], pages: u64, inodes: u64) -> Result<(), Refusal> {
    let sizes = Sizes::new(volume.len(), pages, inodes)?;
    volume[..(sizes.first_page() * PAGE_BYTES) as usize].fill(0);
    set_word(volume, PAGES_WORD, pages);
    set_word(volume, INODES_WORD, inodes);
    set_word(volume, FORMAT_WORD, 1);
    set_word(volume, valid_word(ROOT), 1);
    Ok(())
}

/// Create: adds a name to a folder with the lowest invalid inode, an empty file.
///
/// The refusals are 1, 2, 3, 4, 5 ([`allowed_new_name`]), 6, 7, 16, 10, 11, 12 and 15.
///
/// ```
/// use reference::{carry_out, create, find, format, Refusal};
///
/// let mut volume = vec![0; 16 * 512];
/// let mut list = vec![0; 4096];
/// format(&mut volume, 16, 8)?;
///
/// let count = create(&volume, 0, b"A1", &mut list)?;
/// assert_eq!(count, 48);
/// assert_eq!(find(&volume, 0, b"A1"), Err(Refusal::NotThere));
/// carry_out(&mut volume, &list, count)?;
/// assert_eq!(find(&volume, 0, b"A1"), Ok(1));
/// assert_eq!(create(&volume, 0, b"A1", &mut list), Err(Refusal::Taken));
/// assert_eq!(create(&volume, 0, b".", &mut list), Err(Refusal::BadName));
/// assert_eq!(create(&volume, 2, b"B2", &mut list), Err(Refusal::NotThere));
/// assert_eq!(create(&volume, 1, b"B2", &mut list), Err(Refusal::WrongType));
/// # Ok::<(), Refusal>(())
/// ```
pub fn create(volume: &[u8], folder: u64, name: &[u8], list: &mut [u64]) -> Answer {
    create_with_type(volume, folder, name, list, FILE_TYPE)
}

/// Create folder: adds a name to a folder with the lowest invalid inode, an empty folder.
///
/// The refusals are those of [`create`].
///
/// ```
/// use reference::{carry_out, create, create_folder, find, format, unlink, Refusal};
///
/// let mut volume = vec![0; 16 * 512];
/// let mut list = vec![0; 4096];
/// format(&mut volume, 16, 8)?;
/// let count = create_folder(&volume, 0, b"field", &mut list)?;
/// carry_out(&mut volume, &list, count)?;
/// let count = create(&volume, 1, b"A1", &mut list)?;
/// carry_out(&mut volume, &list, count)?;
/// assert_eq!(find(&volume, 1, b"A1"), Ok(2));
/// assert_eq!(unlink(&volume, 0, b"field", &mut list), Err(Refusal::NotEmpty));
/// # Ok::<(), Refusal>(())
/// ```
pub fn create_folder(volume: &[u8], folder: u64, name: &[u8], list: &mut [u64]) -> Answer {
    create_with_type(volume, folder, name, list, FOLDER_TYPE)
}

/// Order 6: "Every create, of a file or a folder, stores the type in its first group".
fn create_with_type(
    volume: &[u8],
    folder: u64,
    name: &[u8],
    list: &mut [u64],
    kind: u64,
) -> Answer {
    let volume = judge_for_change(volume, list)?;
    check_new_name(name)?;
    check_inode(&volume, folder)?;
    check_absent(&volume, folder, name)?;
    check_folder(&volume, folder)?;
    let inode = volume.lowest_invalid_inode().ok_or(Refusal::NoInode)?;
    check_room_for_name(&volume, folder)?;
    let fresh = vec![
        (head_word(inode), 0),
        (tail_word(inode), 0),
        (type_word(inode), kind),
    ];
    let add = Entry::Add { inode, name };
    let space = Space::keeping_one(&volume);
    let valid = Some((valid_word(inode), 1));
    change_names(&volume, list, space, folder, &[add], fresh, valid)
}

/// Link: adds the new name to its folder with the inode that the old one leads to in its own.
///
/// The refusals are 1, 2, 3, 4, 5 (the new name: [`allowed_new_name`]), 6, 7, 16 (a file given as
/// folder; a link to a folder), 11, 12 and 15.
pub fn link(
    volume: &[u8],
    old_folder: u64,
    old: &[u8],
    new_folder: u64,
    new: &[u8],
    list: &mut [u64],
) -> Answer {
    let volume = judge_for_change(volume, list)?;
    check_name(old)?;
    check_new_name(new)?;
    check_inode(&volume, old_folder)?;
    check_inode(&volume, new_folder)?;
    let found = find_name(&volume, old_folder, old)?;
    check_absent(&volume, new_folder, new)?;
    check_folder(&volume, new_folder)?;
    let inode = found.ok_or(Refusal::WrongType)?;
    if volume.folders.contains_key(&inode) {
        return Err(Refusal::WrongType);
    }
    check_room_for_name(&volume, new_folder)?;
    let space = Space::keeping_one(&volume);
    let add = Entry::Add { inode, name: new };
    change_names(&volume, list, space, new_folder, &[add], Vec::new(), None)
}

/// Unlink: removes the name from its folder; a file left without a name goes, and so does a folder,
/// which has one name alone.
///
/// The refusals are 1, 2, 3, 4, 5, 6, 16, 17 (a folder that has names) and 12.
pub fn unlink(volume: &[u8], folder: u64, name: &[u8], list: &mut [u64]) -> Answer {
    let volume = judge_for_change(volume, list)?;
    check_name(name)?;
    check_inode(&volume, folder)?;
    let found = find_name(&volume, folder, name)?;
    let inode = found.ok_or(Refusal::WrongType)?;
    let names = volume.folders.get(&inode);
    if names.is_some_and(|names| !names.is_empty()) {
        return Err(Refusal::NotEmpty);
    }
    let gone = last_name_taken(&volume, inode);
    let space = Space::of(&volume);
    let remove = Entry::Remove { name };
    change_names(&volume, list, space, folder, &[remove], Vec::new(), gone)
}

/// Rename: removes the old name from its folder and adds the new one to its own, with its inode; a
/// file left without a name goes.
///
/// If both names lead to one inode, nothing changes. The refusals are 1, 2, 3, 4, 5 (the new name:
/// [`allowed_new_name`]), 6, 16 (a file given as folder; onto a folder, or of a folder onto any
/// standing name), 18 (a folder into or beneath itself), 11 (between folders) and 12. 5 and 6 come
/// before "nothing changes", so that a standing "." can be renamed away, but not to itself; the
/// others come after it.
///
/// Order 6: "Moving a name between folders takes log pages (12 if too few are free) and journals the
/// two tails, the source folder first in both, and then the valid word of a file that loses its last
/// name."
///
/// ```
/// use reference::{rename, Refusal};
///
/// let mut volume = samples::sample();
/// let mut list = vec![0; 4096];
/// assert_eq!(rename(&volume, 0, b"A1", 0, b"A1", &mut list), Ok(0));
/// assert_eq!(rename(&volume, 0, b"A1", 0, b".", &mut list), Err(Refusal::BadName));
/// assert_eq!(rename(&volume, 0, b"A1", 2, b"A1", &mut list), Err(Refusal::WrongType));
///
/// samples::give_name(&mut volume, b"A1", b".");
/// assert_eq!(rename(&volume, 0, b".", 0, b".", &mut list), Err(Refusal::BadName));
/// assert_eq!(rename(&volume, 0, b".", 0, b"A1", &mut list), Ok(38));
/// ```
pub fn rename(
    volume: &[u8],
    old_folder: u64,
    old: &[u8],
    new_folder: u64,
    new: &[u8],
    list: &mut [u64],
) -> Answer {
    let volume = judge_for_change(volume, list)?;
    check_name(old)?;
    check_new_name(new)?;
    check_inode(&volume, old_folder)?;
    check_inode(&volume, new_folder)?;
    let found = find_name(&volume, old_folder, old)?;
    let replaced = volume.inode_of(new_folder, new);
    if found.is_some() && found == replaced {
        return Ok(0);
    }
    check_folder(&volume, new_folder)?;
    let inode = found.ok_or(Refusal::WrongType)?;
    check_rename(&volume, inode, new_folder, replaced)?;
    let moves = old_folder != new_folder;
    if moves && replaced.is_none() {
        check_room_for_name(&volume, new_folder)?;
    }
    let gone = replaced.and_then(|replaced| last_name_taken(&volume, replaced));
    let remove = Entry::Remove { name: old };
    let add = Entry::Add { inode, name: new };
    let mut space = Space::of(&volume);
    if !moves {
        let entries = [remove, add];
        return change_names(&volume, list, space, old_folder, &entries, Vec::new(), gone);
    }
    let removed = append(&volume, &mut space, old_folder, &[remove])?;
    let added = append(&volume, &mut space, new_folder, &[add])?;
    let preparation = [removed.stores, added.stores].concat();
    let targets: Vec<Store> = [removed.tail, added.tail].into_iter().chain(gone).collect();
    commit_journalled(&volume, list, preparation, &targets)
}

/// What a rename of an inode may not do, in folders that are folders: 16, "a rename onto an existing
/// folder or of a folder onto any standing name", and 18, "a folder's move into or beneath itself".
fn check_rename(
    volume: &Volume<'_>,
    inode: u64,
    new_folder: u64,
    replaced: Option<u64>,
) -> Result<(), Refusal> {
    let is_folder = |inode: u64| volume.folders.contains_key(&inode);
    if replaced.is_some_and(|replaced| is_folder(inode) || is_folder(replaced)) {
        return Err(Refusal::WrongType);
    }
    if is_folder(inode) && volume.is_within(new_folder, inode) {
        return Err(Refusal::IntoItself);
    }
    Ok(())
}

/// Write: lays the bytes over the file's from the offset on, in fresh data pages.
///
/// 0 bytes changes nothing. The fresh pages may lie scattered: order 3, "It appends one write entry
/// for each longest stretch among them, all with the final size, in file order." The refusals are
/// 1, 2, 3, 4, 6 (inode 0 too), 16, 8, 9, 12 and 15.
///
/// ```
/// use reference::{carry_out, create, format, judge, unlink, write};
///
/// let mut volume = vec![0; 16 * 512];
/// let mut list = vec![0; 4096];
/// format(&mut volume, 16, 8)?;
/// for name in [b"a", b"b", b"c"] {
///     let count = create(&volume, 0, name, &mut list)?;
///     carry_out(&mut volume, &list, count)?;
/// }
/// for (inode, length) in [(1, 512), (2, 3_072), (3, 512)] {
///     let count = write(&volume, inode, 0, &vec![7; length], &mut list)?;
///     carry_out(&mut volume, &list, count)?;
/// }
/// let count = unlink(&volume, 0, b"a", &mut list)?;
/// carry_out(&mut volume, &list, count)?;
/// assert_eq!(judge(&volume)?.free_stretches(), [(3, 2), (14, 2)]);
///
/// let count = write(&volume, 3, 0, &[8; 1_536], &mut list)?;
/// assert_eq!(count, 2 * (3 * 64 + 2 * 8 + 3));
/// carry_out(&mut volume, &list, count)?;
/// let volume = judge(&volume)?;
/// let pages: Vec<_> = volume.files[&3].mapped().collect();
/// assert_eq!(pages, [(0, 3), (1, 4), (2, 14)]);
/// # Ok::<(), reference::Refusal>(())
/// ```
pub fn write(volume: &[u8], inode: u64, offset: u64, bytes: &[u8], list: &mut [u64]) -> Answer {
    let volume = judge_for_change(volume, list)?;
    let file = find_file(&volume, inode)?;
    if bytes.len() > WRITE_LIMIT {
        return Err(Refusal::LongWrite);
    }
    let end = offset.saturating_add(bytes.len() as u64);
    check_size(end)?;
    if bytes.is_empty() {
        return Ok(0);
    }
    let file_page = offset / PAGE_BYTES;
    let count = end.div_ceil(PAGE_BYTES) - file_page;
    let mut fresh = vec![0; (count * PAGE_BYTES) as usize];
    volume.copy_file(file, file_page * PAGE_BYTES, &mut fresh);
    let start = (offset % PAGE_BYTES) as usize;
    fresh[start..start + bytes.len()].copy_from_slice(bytes);

    let mut space = Space::keeping_one(&volume);
    let pages = space.take_data_pages(count as usize)?;
    let mapped = (file_page..).zip(pages.iter().copied());
    let entries = write_entries(mapped, file.size.max(end));
    change_file(
        &volume,
        list,
        space,
        inode,
        &entries,
        data_stores(&pages, &fresh),
    )
}

/// Set size: cuts or lengthens the file to a size.
///
/// The equal size changes nothing. The refusals are 1, 2, 3, 4, 6 (inode 0 too), 16, 9, 12 and 15.
pub fn set_size(volume: &[u8], inode: u64, size: u64, list: &mut [u64]) -> Answer {
    let volume = judge_for_change(volume, list)?;
    let file = find_file(&volume, inode)?;
    check_size(size)?;
    if size == file.size {
        return Ok(0);
    }
    let mut space = Space::keeping_one(&volume);
    let cut = Entry::SetSize { size };
    let file_page = size / PAGE_BYTES;
    let kept = (size % PAGE_BYTES) as usize;
    if size > file.size || kept == 0 || file.data_page(file_page).is_none() {
        return change_file(&volume, list, space, inode, &[cut], std::iter::empty());
    }
    let mut fresh = [0; PAGE_BYTES as usize];
    volume.copy_file(file, file_page * PAGE_BYTES, &mut fresh[..kept]);
    let data_page = space.take_page()?;
    let copy = Entry::Write {
        file_page,
        data_page,
        count: 1,
        size,
    };
    change_file(
        &volume,
        list,
        space,
        inode,
        &[cut, copy],
        data_stores(&[data_page], &fresh),
    )
}

/// Clean: writes an inode's log anew, with only the entries that it needs in the end.
///
/// Files and folders are allowed, inode 0 too. A log whose tail is 0 changes nothing. The refusals
/// are 1, 2, 3, 4, 6 and 12.
pub fn clean(volume: &[u8], inode: u64, list: &mut [u64]) -> Answer {
    let volume = judge_for_change(volume, list)?;
    let log = volume.logs.get(&inode).ok_or(Refusal::NotThere)?;
    if log.tail == 0 {
        return Ok(0);
    }
    let entries = match volume.files.get(&inode) {
        Some(file) => file_entries(file),
        None => folder_entries(&volume, inode),
    };
    let laid = lay(&mut Space::of(&volume), 0, &entries)?;
    let targets = [
        (head_word(inode), laid.head.unwrap_or(0)),
        (tail_word(inode), laid.tail),
    ];
    commit_journalled(&volume, list, laid.stores, &targets)
}

/// Recover: if the journal is open, puts the old values back and closes it.
///
/// The refusals are 1, 2 and 3.
pub fn recover(volume: &[u8], list: &mut [u64]) -> Answer {
    check_list(list)?;
    let journal = judge(volume)?.journal;
    if !journal.is_open() {
        return Ok(0);
    }
    let old_values = journal.open.iter().map(|entry| (entry.target, entry.old));
    let closed = (DEQUEUE_WORD, journal.enqueue.number());
    Ok(fill(list, vec![old_values.collect(), vec![closed]]))
}

/// The checks that come before the arguments: the refusals 1, 2, 3 and 4.
fn judge_for_change<'v>(volume: &'v [u8], list: &[u64]) -> Result<Volume<'v>, Refusal> {
    check_list(list)?;
    judge_closed(volume)
}

fn check_list(list: &[u64]) -> Result<(), Refusal> {
    if list.len() < LIST_WORDS {
        return Err(Refusal::ShortMemory);
    }
    Ok(())
}

/// Judges a name that a call looks for.
pub(crate) fn check_name(name: &[u8]) -> Result<(), Refusal> {
    if !allowed_name(name) {
        return Err(Refusal::BadName);
    }
    Ok(())
}

/// Judges a name that a call would give to a file or folder.
fn check_new_name(name: &[u8]) -> Result<(), Refusal> {
    if !allowed_new_name(name) {
        return Err(Refusal::BadName);
    }
    Ok(())
}

/// Checks that an inode given as folder is valid: the refusal is 6. Inode 0 always is.
pub(crate) fn check_inode(volume: &Volume<'_>, inode: u64) -> Result<(), Refusal> {
    if !volume.logs.contains_key(&inode) {
        return Err(Refusal::NotThere);
    }
    Ok(())
}

/// Checks that a valid inode given as folder is one: the refusal is 16.
pub(crate) fn check_folder(volume: &Volume<'_>, inode: u64) -> Result<(), Refusal> {
    if !volume.folders.contains_key(&inode) {
        return Err(Refusal::WrongType);
    }
    Ok(())
}

/// The inode that a name leads to in a valid inode given as folder; none in a file, where "no name
/// counts as absent". The refusal is 6.
pub(crate) fn find_name(
    volume: &Volume<'_>,
    folder: u64,
    name: &[u8],
) -> Result<Option<u64>, Refusal> {
    match volume.inode_of(folder, name) {
        None if volume.folders.contains_key(&folder) => Err(Refusal::NotThere),
        found => Ok(found),
    }
}

/// The file of an inode: 6 for inode 0 and what is not valid, 16 for another folder.
pub(crate) fn find_file<'a>(volume: &'a Volume<'_>, inode: u64) -> Result<&'a File, Refusal> {
    if inode == ROOT {
        return Err(Refusal::NotThere);
    }
    check_inode(volume, inode)?;
    volume.files.get(&inode).ok_or(Refusal::WrongType)
}

/// Checks that a name does not stand in a folder; in a file none counts as taken.
fn check_absent(volume: &Volume<'_>, folder: u64, name: &[u8]) -> Result<(), Refusal> {
    if volume.inode_of(folder, name).is_some() {
        return Err(Refusal::Taken);
    }
    Ok(())
}

fn check_size(size: u64) -> Result<(), Refusal> {
    if size > SIZE_LIMIT {
        return Err(Refusal::PastTheEnd);
    }
    Ok(())
}

/// Checks that a folder has fewer than 224 names.
fn check_room_for_name(volume: &Volume<'_>, folder: u64) -> Result<(), Refusal> {
    let names = volume.folders.get(&folder);
    if names.is_some_and(|names| names.len() >= NAME_LIMIT) {
        return Err(Refusal::DirectoryFull);
    }
    Ok(())
}

/// The store that makes an inode invalid, if a call takes its last name away. Names are counted over
/// all folders.
fn last_name_taken(volume: &Volume<'_>, inode: u64) -> Option<Store> {
    (volume.name_count(inode) == 1).then_some((valid_word(inode), 0))
}

/// Appends entries to a folder's log. Its tail commits them, together with a valid word if one must
/// change too.
fn change_names(
    volume: &Volume<'_>,
    list: &mut [u64],
    mut space: Space,
    folder: u64,
    entries: &[Entry<'_>],
    mut preparation: Vec<Store>,
    valid: Option<Store>,
) -> Answer {
    let appended = append(volume, &mut space, folder, entries)?;
    preparation.extend(appended.stores);
    match valid {
        Some(valid) => commit_journalled(volume, list, preparation, &[appended.tail, valid]),
        None => commit(list, preparation, appended.tail),
    }
}

/// Appends entries to a file's log, with fresh data pages; its tail commits them.
fn change_file(
    volume: &Volume<'_>,
    list: &mut [u64],
    mut space: Space,
    inode: u64,
    entries: &[Entry<'_>],
    data: impl Iterator<Item = Store>,
) -> Answer {
    let appended = append(volume, &mut space, inode, entries)?;
    let preparation = data.chain(appended.stores).collect();
    commit(list, preparation, appended.tail)
}

/// A folder's clean log: one add for each name, in list order.
fn folder_entries<'v>(volume: &Volume<'v>, folder: u64) -> Vec<Entry<'v>> {
    let names = volume.folders.get(&folder).into_iter().flatten();
    names
        .map(|&(name, inode)| Entry::Add { inode, name })
        .collect()
}

/// A file's clean log: one write for each longest stretch of consecutive file pages on
/// consecutive data pages; with no mapped page, one set size if the size is not 0.
fn file_entries(file: &File) -> Vec<Entry<'static>> {
    let size = file.size;
    let entries = write_entries(file.mapped(), size);
    if entries.is_empty() && size != 0 {
        return vec![Entry::SetSize { size }];
    }
    entries
}

/// One write entry for each longest stretch of consecutive file pages on consecutive data pages,
/// all with this size. The pairs of file page and data page are given by ascending file page.
fn write_entries(mapped: impl Iterator<Item = (u64, u64)>, size: u64) -> Vec<Entry<'static>> {
    let mut stretches: Vec<(u64, u64, u64)> = Vec::new();
    for (file_page, data_page) in mapped {
        match stretches.last_mut() {
            Some((first_file, first_data, count))
                if *first_file + *count == file_page && *first_data + *count == data_page =>
            {
                *count += 1;
            }
            _ => stretches.push((file_page, data_page, 1)),
        }
    }
    let write = |(file_page, data_page, count)| Entry::Write {
        file_page,
        data_page,
        count,
        size,
    };
    stretches.into_iter().map(write).collect()
}

/// A changing call that fills a store list, with its arguments.
#[derive(Clone, Debug, PartialEq, Eq)]
pub enum Call {
    /// See [`create`].
    Create {
        /// The folder's inode.
        folder: u64,
        /// The name to add.
        name: Vec<u8>,
    },
    /// See [`create_folder`].
    CreateFolder {
        /// The inode of the folder that gets the name.
        folder: u64,
        /// The name to add.
        name: Vec<u8>,
    },
    /// See [`link`].
    Link {
        /// The inode of the old name's folder.
        old_folder: u64,
        /// The name that stands.
        old: Vec<u8>,
        /// The inode of the new name's folder.
        new_folder: u64,
        /// The name to add.
        new: Vec<u8>,
    },
    /// See [`unlink`].
    Unlink {
        /// The folder's inode.
        folder: u64,
        /// The name to remove.
        name: Vec<u8>,
    },
    /// See [`rename`].
    Rename {
        /// The inode of the old name's folder.
        old_folder: u64,
        /// The name to remove.
        old: Vec<u8>,
        /// The inode of the new name's folder.
        new_folder: u64,
        /// The name to add.
        new: Vec<u8>,
    },
    /// See [`write()`].
    Write {
        /// The file's inode.
        inode: u64,
        /// The offset of the first byte.
        offset: u64,
        /// The bytes to lay over the file's.
        bytes: Vec<u8>,
    },
    /// See [`set_size`].
    SetSize {
        /// The file's inode.
        inode: u64,
        /// The size to set.
        size: u64,
    },
    /// See [`clean`].
    Clean {
        /// The inode of the log.
        inode: u64,
    },
    /// See [`recover`].
    Recover,
}

impl Call {
    /// Makes the call: fills the store list and answers the count of words, or the refusal.
    pub fn fill(&self, volume: &[u8], list: &mut [u64]) -> Answer {
        match self {
            Call::Create { folder, name } => create(volume, *folder, name, list),
            Call::CreateFolder { folder, name } => create_folder(volume, *folder, name, list),
            Call::Link {
                old_folder,
                old,
                new_folder,
                new,
            } => link(volume, *old_folder, old, *new_folder, new, list),
            Call::Unlink { folder, name } => unlink(volume, *folder, name, list),
            Call::Rename {
                old_folder,
                old,
                new_folder,
                new,
            } => rename(volume, *old_folder, old, *new_folder, new, list),
            Call::Write {
                inode,
                offset,
                bytes,
            } => write(volume, *inode, *offset, bytes, list),
            Call::SetSize { inode, size } => set_size(volume, *inode, *size, list),
            Call::Clean { inode } => clean(volume, *inode, list),
            Call::Recover => recover(volume, list),
        }
    }
}
