//! The paths of folders on a volume whose logs can be read, though the names in them are not as they should be.

use crate::path::VolumePath;
use calls::layout::{PAGE_BYTES, ROOT};
use reference::layout::{
    head_word, tail_word, type_word, valid_word, word, Sizes, FOLDER_TYPE, PAGE_WORDS,
};
use reference::{Entry, Log};

/// The names that stand in a folder, each with its inode.
type Names<'v> = Vec<(&'v [u8], u64)>;

/// The path of a folder; none if it has none, or if a log on the way cannot be read.
///
/// The journal is taken as closed.
pub(super) fn path_of(volume: &[u8], folder: u64) -> Option<VolumePath> {
    let sizes = Sizes::of(volume).ok()?;
    let mut names = Vec::new();
    let mut inode = folder;
    while inode != ROOT {
        let (parent, name) = (ROOT..sizes.inodes()).find_map(|parent| {
            let standing = names_in(volume, sizes, parent)?;
            let mut leading = standing.into_iter().filter(|pair| pair.1 == inode);
            leading.next().map(|(name, _)| (parent, name))
        })?;
        names.push(name);
        inode = parent;
        if names.len() as u64 > sizes.inodes() {
            return None; // it lies beneath itself
        }
    }
    let names = names.iter().rev();
    Some(names.fold(VolumePath::root(), |path, name| path.join(name)))
}

/// The names that stand in a folder; none if the inode is no valid folder or its log cannot be read.
fn names_in(volume: &[u8], sizes: Sizes, folder: u64) -> Option<Names<'_>> {
    let is_folder = folder == ROOT || word(volume, type_word(folder)) == FOLDER_TYPE;
    if word(volume, valid_word(folder)) != 1 || !is_folder {
        return None;
    }
    let log = log_of(volume, sizes, folder)?;
    let mut names = Names::new();
    for entry in log.placed(volume) {
        match Entry::read(entry.bytes, sizes).ok()? {
            Entry::Add { inode, name } => {
                names.retain(|pair| pair.0 != name);
                names.push((name, inode));
            }
            Entry::Remove { name } => names.retain(|pair| pair.0 != name),
            _ => return None,
        }
    }
    Some(names)
}

/// The log of an inode; none if its walk does not end at the tail's page.
fn log_of(volume: &[u8], sizes: Sizes, inode: u64) -> Option<Log> {
    let tail = word(volume, tail_word(inode));
    let mut pages = Vec::new();
    let mut next = word(volume, head_word(inode));
    while tail != 0 && pages.last() != Some(&(tail / PAGE_BYTES)) {
        if next >= sizes.pages() || pages.len() as u64 >= sizes.pages() {
            return None;
        }
        pages.push(next);
        next = word(volume, next * PAGE_WORDS + PAGE_WORDS - 8);
    }
    Some(Log { tail, pages })
}
