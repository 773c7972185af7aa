//! The paths that lead to the inodes of an accepted volume.

use crate::path::VolumePath;
use calls::layout::ROOT;
use reference::Volume;
use std::collections::BTreeMap;

/// The paths by inode.
pub(super) struct Paths {
    paths: BTreeMap<u64, Vec<Vec<u8>>>,
}

impl Paths {
    /// The paths of a volume.
    pub(super) fn of(volume: &Volume<'_>) -> Paths {
        let paths = BTreeMap::new();
        let mut all = Paths { paths };
        all.add_within(volume, ROOT, &VolumePath::root());
        all
    }

    /// Adds the paths of all that is in a folder; no folder of an accepted volume lies beneath itself.
    fn add_within(&mut self, volume: &Volume<'_>, folder: u64, path: &VolumePath) {
        for &(name, inode) in volume.folders.get(&folder).into_iter().flatten() {
            let path = path.join(name);
            let is_folder = volume.folders.contains_key(&inode);
            let mut bytes = path.bytes();
            bytes.extend(is_folder.then_some(b'/'));
            self.paths.entry(inode).or_default().push(bytes);
            if is_folder {
                self.add_within(volume, inode, &path);
            }
        }
    }

    /// The paths that lead to an inode, in list order, a folder's with a "/" at the end; none to the root.
    pub(super) fn to(&self, inode: u64) -> Vec<Vec<u8>> {
        self.paths.get(&inode).cloned().unwrap_or_default()
    }
}
