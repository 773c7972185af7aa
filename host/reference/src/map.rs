//! The file map with its folders, and the map after a call, defined on maps alone.

use crate::accept::Volume;
use crate::calls::Call;
use crate::layout::{allowed_name, allowed_new_name, NAME_LIMIT, ROOT, SIZE_LIMIT, WRITE_LIMIT};
use crate::Refusal;
use std::collections::{BTreeMap, BTreeSet};

/// The file map: what a volume means to those who read its files.
///
/// Order 6: "The file map now includes folders". An empty folder and an empty file differ: each inode
/// stands in one of the two tables.
#[derive(Clone, Debug, Default, PartialEq, Eq)]
pub struct FileMap {
    /// The list of names of each valid folder, each name with its inode, by the folder's inode;
    /// inode 0's too.
    pub folders: BTreeMap<u64, Vec<(Vec<u8>, u64)>>,
    /// The bytes of each valid file, as many as its size, by inode.
    pub files: BTreeMap<u64, Vec<u8>>,
}

/// The file map of an accepted volume, read with the journal's open entries put back.
pub fn map(volume: &Volume<'_>) -> FileMap {
    let folders = volume.folders.iter();
    let files = volume.files.iter();
    FileMap {
        folders: folders
            .map(|(&inode, names)| {
                let names = names.iter();
                let names = names.map(|&(name, inode)| (name.to_vec(), inode));
                (inode, names.collect())
            })
            .collect(),
        files: files
            .map(|(&inode, file)| {
                let mut bytes = vec![0; file.size as usize];
                volume.copy_file(file, 0, &mut bytes);
                (inode, bytes)
            })
            .collect(),
    }
}

impl FileMap {
    /// The names of a folder, in list order; none of what is no valid folder.
    pub fn names(&self, folder: u64) -> &[(Vec<u8>, u64)] {
        self.folders.get(&folder).map_or(&[], |names| names)
    }

    /// The inode that a name leads to in a folder; none if it does not stand there, and none if the
    /// inode is no valid folder.
    pub fn inode_of(&self, folder: u64, name: &[u8]) -> Option<u64> {
        let mut names = self.names(folder).iter();
        names.find(|pair| pair.0 == name).map(|pair| pair.1)
    }

    /// Whether an inode is valid, a file or a folder.
    pub fn is_valid(&self, inode: u64) -> bool {
        self.files.contains_key(&inode) || self.is_folder(inode)
    }

    /// Whether an inode is a valid folder.
    pub fn is_folder(&self, inode: u64) -> bool {
        self.folders.contains_key(&inode)
    }

    /// The lowest invalid inode of `inodes`; none if all are valid.
    pub fn lowest_invalid_inode(&self, inodes: u64) -> Option<u64> {
        (ROOT + 1..inodes).find(|&inode| !self.is_valid(inode))
    }

    /// A folder and all folders beneath it, each once.
    pub fn folders_within(&self, folder: u64) -> Vec<u64> {
        let mut found = vec![folder];
        let mut next = 0;
        while let Some(&inode) = found.get(next) {
            for &(_, inside) in self.names(inode) {
                if self.is_folder(inside) && !found.contains(&inside) {
                    found.push(inside);
                }
            }
            next += 1;
        }
        found
    }

    /// The bytes beneath a folder: the sizes of the files that the names of it and of all folders
    /// beneath it lead to, each once for each name.
    pub fn total(&self, folder: u64) -> u64 {
        let within = self.folders_within(folder);
        let names = within.iter().flat_map(|&inode| self.names(inode));
        let files = names.filter_map(|pair| self.files.get(&pair.1));
        files.map(|bytes| bytes.len() as u64).sum()
    }

    /// Adds a name to a folder as kind 3 does it.
    fn add(&mut self, folder: u64, name: &[u8], inode: u64) {
        self.remove(folder, name);
        let names = self.folders.entry(folder).or_default();
        names.push((name.to_vec(), inode));
    }

    /// Removes a name from a folder as kind 4 does it.
    fn remove(&mut self, folder: u64, name: &[u8]) {
        let names = self.folders.entry(folder).or_default();
        names.retain(|pair| pair.0 != name);
    }

    /// Lets go the files and the folders left without a name, inode 0 apart.
    fn drop_nameless(&mut self) {
        let names = self.folders.values().flatten();
        let named: BTreeSet<u64> = names.map(|pair| pair.1).collect();
        self.files.retain(|inode, _| named.contains(inode));
        self.folders
            .retain(|inode, _| *inode == ROOT || named.contains(inode));
    }
}

/// The map after a call that was not refused, from the map before it, the volume's inode count
/// and the call's arguments.
///
/// Where the map alone shows that the call is refused ([`refused_by_map`]), the map is kept. For
/// refusals 1, 2, 3, 4, 12 and 15, which it cannot show, the map is the one before.
pub fn map_after(before: &FileMap, inodes: u64, call: &Call) -> FileMap {
    let mut map = before.clone();
    if refused_by_map(before, inodes, call).is_none() {
        change(&mut map, inodes, call);
    }
    map
}

fn change(map: &mut FileMap, inodes: u64, call: &Call) {
    match call {
        Call::Create { folder, name } => {
            if let Some(inode) = map.lowest_invalid_inode(inodes) {
                map.add(*folder, name, inode);
                map.files.insert(inode, Vec::new());
            }
        }
        Call::CreateFolder { folder, name } => {
            if let Some(inode) = map.lowest_invalid_inode(inodes) {
                map.add(*folder, name, inode);
                map.folders.insert(inode, Vec::new());
            }
        }
        Call::Link {
            old_folder,
            old,
            new_folder,
            new,
        } => {
            if let Some(inode) = map.inode_of(*old_folder, old) {
                map.add(*new_folder, new, inode);
            }
        }
        Call::Unlink { folder, name } => {
            map.remove(*folder, name);
            map.drop_nameless();
        }
        Call::Rename {
            old_folder,
            old,
            new_folder,
            new,
        } => rename(map, (*old_folder, old), (*new_folder, new)),
        Call::Write {
            inode,
            offset,
            bytes,
        } => {
            if let Some(file) = map.files.get_mut(inode) {
                lay_over(file, *offset as usize, bytes);
            }
        }
        Call::SetSize { inode, size } => {
            if let Some(file) = map.files.get_mut(inode) {
                file.resize(*size as usize, 0);
            }
        }
        Call::Clean { .. } | Call::Recover => {}
    }
}

/// A name with the folder that it is looked for or added in.
type Place<'a> = (u64, &'a [u8]);

/// Removes the old name and adds the new with its inode, unless both lead to one inode.
fn rename(map: &mut FileMap, old: Place<'_>, new: Place<'_>) {
    if let Some(inode) = map.inode_of(old.0, old.1) {
        if map.inode_of(new.0, new.1) != Some(inode) {
            map.remove(old.0, old.1);
            map.add(new.0, new.1, inode);
            map.drop_nameless();
        }
    }
}

/// Lays bytes over a file's from an offset on; zeros fill any gap. 0 bytes change nothing.
fn lay_over(file: &mut Vec<u8>, offset: usize, bytes: &[u8]) {
    if bytes.is_empty() {
        return;
    }
    let end = offset + bytes.len();
    if file.len() < end {
        file.resize(end, 0);
    }
    file[offset..end].copy_from_slice(bytes);
}

/// The first of the refusals 5, 6, 7, 16, 17, 18, 8, 9, 10 and 11, in this order, that applies to a
/// call, as the map before it shows; none if none does.
///
/// Refusals 1 to 4 come before these, 12 and 15 after; the map cannot show them.
pub fn refused_by_map(map: &FileMap, inodes: u64, call: &Call) -> Option<Refusal> {
    let stands = |folder: &u64, name: &[u8]| map.inode_of(*folder, name).is_some();
    // in a file, "no name counts as absent"
    let absent =
        |folder: &u64, name: &[u8]| !map.files.contains_key(folder) && !stands(folder, name);
    let is_file = |inode: &u64| map.files.contains_key(inode);
    let not_there = |inode: &u64| *inode == ROOT || !map.is_valid(*inode);
    let full = |folder: &u64| map.names(*folder).len() >= NAME_LIMIT;
    let applying: &[(bool, Refusal)] = match call {
        Call::Create { folder, name } | Call::CreateFolder { folder, name } => &[
            (!allowed_new_name(name), Refusal::BadName),
            (!map.is_valid(*folder), Refusal::NotThere),
            (stands(folder, name), Refusal::Taken),
            (is_file(folder), Refusal::WrongType),
            (map.lowest_invalid_inode(inodes).is_none(), Refusal::NoInode),
            (full(folder), Refusal::DirectoryFull),
        ],
        Call::Link {
            old_folder,
            old,
            new_folder,
            new,
        } => &[
            (bad_names(old, new), Refusal::BadName),
            (!map.is_valid(*old_folder), Refusal::NotThere),
            (!map.is_valid(*new_folder), Refusal::NotThere),
            (absent(old_folder, old), Refusal::NotThere),
            (stands(new_folder, new), Refusal::Taken),
            (
                is_file(old_folder) || is_file(new_folder),
                Refusal::WrongType,
            ),
            (leads_to_folder(map, *old_folder, old), Refusal::WrongType),
            (full(new_folder), Refusal::DirectoryFull),
        ],
        Call::Unlink { folder, name } => &[
            (!allowed_name(name), Refusal::BadName),
            (!map.is_valid(*folder), Refusal::NotThere),
            (absent(folder, name), Refusal::NotThere),
            (is_file(folder), Refusal::WrongType),
            (
                (map.inode_of(*folder, name)).is_some_and(|inode| !map.names(inode).is_empty()),
                Refusal::NotEmpty,
            ),
        ],
        Call::Rename {
            old_folder,
            old,
            new_folder,
            new,
        } => {
            let not_there =
                !map.is_valid(*old_folder) || !map.is_valid(*new_folder) || absent(old_folder, old);
            let first = match (bad_names(old, new), not_there) {
                (true, _) => Some(Refusal::BadName),
                (false, true) => Some(Refusal::NotThere),
                (false, false) => None,
            };
            return first.or_else(|| rename_refused(map, (*old_folder, old), (*new_folder, new)));
        }
        Call::Write {
            inode,
            offset,
            bytes,
        } => &[
            (not_there(inode), Refusal::NotThere),
            (!is_file(inode), Refusal::WrongType),
            (bytes.len() > WRITE_LIMIT, Refusal::LongWrite),
            (ends_past(*offset, bytes.len()), Refusal::PastTheEnd),
        ],
        Call::SetSize { inode, size } => &[
            (not_there(inode), Refusal::NotThere),
            (!is_file(inode), Refusal::WrongType),
            (ends_past(*size, 0), Refusal::PastTheEnd),
        ],
        Call::Clean { inode } => &[(!map.is_valid(*inode), Refusal::NotThere)],
        Call::Recover => &[],
    };
    applying
        .iter()
        .find(|(applies, _)| *applies)
        .map(|&(_, refusal)| refusal)
}

/// What applies to a rename behind 5 and 6: nothing where both names lead to one inode, else the
/// first of 16, 18 and 11.
fn rename_refused(map: &FileMap, old: Place<'_>, new: Place<'_>) -> Option<Refusal> {
    let [moved, standing] = [old, new].map(|(folder, name)| map.inode_of(folder, name));
    if moved.is_some() && moved == standing {
        return None;
    }
    let moved_folder = moved.filter(|&inode| map.is_folder(inode));
    let given_files = !map.is_folder(old.0) || !map.is_folder(new.0);
    let onto_folder = leads_to_folder(map, new.0, new.1);
    if given_files || onto_folder || (moved_folder.is_some() && standing.is_some()) {
        return Some(Refusal::WrongType);
    }
    if moved_folder.is_some_and(|inode| map.folders_within(inode).contains(&new.0)) {
        return Some(Refusal::IntoItself);
    }
    let one_more = old.0 != new.0 && standing.is_none();
    (one_more && map.names(new.0).len() >= NAME_LIMIT).then_some(Refusal::DirectoryFull)
}

/// Whether a name stands in a folder and leads to a folder.
fn leads_to_folder(map: &FileMap, folder: u64, name: &[u8]) -> bool {
    let inode = map.inode_of(folder, name);
    inode.is_some_and(|inode| map.is_folder(inode))
}

/// Whether the old name of a link or rename may not be looked for, or the new one not be given.
fn bad_names(old: &[u8], new: &[u8]) -> bool {
    !allowed_name(old) || !allowed_new_name(new)
}

fn ends_past(offset: u64, length: usize) -> bool {
    u128::from(offset) + length as u128 > u128::from(SIZE_LIMIT)
}
