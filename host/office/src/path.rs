//! Paths inside a volume: names joined by "/", looked up name by name from the root on.
//!
//! A path means the same with a "/" at its start or without one. "" and "/" are the root, inode 0. Where a path ends
//! in "/", it must lead to a folder. "." and ".." are names like any other.

use crate::store::names_of;
use crate::text::{shown_name, typed_path};
use calls::layout::{NAME_BYTES, ROOT};
use refusal::{Answer, Refusal};
use std::ffi::OsStr;
use std::os::unix::ffi::OsStrExt;

/// A path inside a volume.
///
/// ```
/// use office::path::VolumePath;
///
/// let path = VolumePath::of(b"/north//week1/");
/// assert_eq!(path.names(), [b"north".to_vec(), b"week1".to_vec()]);
/// assert_eq!(path.shown(), "north/week1");
/// assert_eq!(path.parent().shown(), "north");
/// assert!(path.wants_folder() && !path.parent().wants_folder());
/// assert_eq!(VolumePath::of(b"").shown(), "/");
/// assert_eq!(VolumePath::of(b"-x").typed(), "/-x");
/// ```
#[derive(Clone, Debug, PartialEq, Eq, PartialOrd, Ord)]
pub struct VolumePath {
    names: Vec<Vec<u8>>,
    wants_folder: bool,
}

impl VolumePath {
    /// The path that these bytes are.
    pub fn of(bytes: &[u8]) -> VolumePath {
        let names = bytes.split(|&byte| byte == b'/');
        VolumePath {
            names: names
                .filter(|name| !name.is_empty())
                .map(<[u8]>::to_vec)
                .collect(),
            wants_folder: bytes.ends_with(b"/"),
        }
    }

    /// The path of the root.
    pub fn root() -> VolumePath {
        VolumePath::of(b"")
    }

    /// Whether this is the root's.
    pub fn is_root(&self) -> bool {
        self.names.is_empty()
    }

    /// Whether it ends in "/".
    pub fn wants_folder(&self) -> bool {
        self.wants_folder
    }

    /// The same path, which must lead to a folder.
    pub fn as_folder(&self) -> VolumePath {
        VolumePath {
            names: self.names.clone(),
            wants_folder: true,
        }
    }

    /// The names that it is made of.
    pub fn names(&self) -> &[Vec<u8>] {
        &self.names
    }

    /// The last of its names; of the root no byte.
    pub fn last(&self) -> &[u8] {
        self.names.last().map_or(&[], Vec::as_slice)
    }

    /// The path of the folder in which the last name stands.
    pub fn parent(&self) -> VolumePath {
        self.start(self.names.len().saturating_sub(1))
    }

    /// The path of its first names, so many.
    pub fn start(&self, count: usize) -> VolumePath {
        VolumePath {
            names: self.names[..count].to_vec(),
            wants_folder: false,
        }
    }

    /// The path of a name in the folder that this one leads to.
    pub fn join(&self, name: &[u8]) -> VolumePath {
        let mut names = self.names.clone();
        names.push(name.to_vec());
        VolumePath {
            names,
            wants_folder: false,
        }
    }

    /// The path of what another path leads to, taken from the folder that this one leads to.
    pub fn join_all(&self, other: &VolumePath) -> VolumePath {
        VolumePath {
            names: [self.names.as_slice(), &other.names].concat(),
            wants_folder: other.wants_folder,
        }
    }

    /// Its names with "/" between them; the root's is "/".
    pub fn bytes(&self) -> Vec<u8> {
        match self.is_root() {
            true => b"/".to_vec(),
            false => self.names.join(&b'/'),
        }
    }

    /// The path as a screen can show it (see [`shown_name`]).
    pub fn shown(&self) -> String {
        shown_name(&self.bytes())
    }

    /// The path as a shell takes it, for a command line that is to be typed (see [`typed_path`]).
    pub fn typed(&self) -> String {
        let mut bytes = self.bytes();
        if bytes.len() > 1 && bytes[0] == b'-' {
            bytes.insert(0, b'/'); // it would be taken for an option
        }
        match bytes.as_slice() {
            b"-" => "-".into(),
            bytes => typed_path(OsStr::from_bytes(bytes)),
        }
    }
}

/// Why a path leads nowhere.
#[derive(Clone, Copy, Debug, PartialEq, Eq)]
pub struct Lost {
    /// The refusal.
    pub refusal: Refusal,
    /// How many names of the path lead somewhere.
    pub found: usize,
}

/// The inode that a path leads to.
///
/// ```
/// use office::path::{find, Lost, VolumePath};
/// use refusal::Refusal;
///
/// let mut volume = vec![0; 16 * 512];
/// calls::format(&mut volume, 16, 8)?;
/// let mut list = vec![0; 4_096];
/// let count = calls::create(&volume, 0, b"a", &mut list)?;
/// calls::carry_out(&mut volume, &list, count)?;
/// assert_eq!(find(&volume, &VolumePath::of(b"/a")), Ok(1));
/// let lost = find(&volume, &VolumePath::of(b"a/b/c")).unwrap_err();
/// assert_eq!(lost, Lost { refusal: Refusal::WrongType, found: 1 });
/// # Ok::<(), Refusal>(())
/// ```
pub fn find(volume: &[u8], path: &VolumePath) -> Result<u64, Lost> {
    let lost = |refusal, found| Lost { refusal, found };
    // Of the root no name is asked for, so the volume is.
    calls::free_count(volume).map_err(|refusal| lost(refusal, 0))?;
    let mut inode = ROOT;
    for (found, name) in path.names.iter().enumerate() {
        inode = calls::find(volume, inode, name).map_err(|refusal| lost(refusal, found))?;
    }
    if path.wants_folder && !is_folder(volume, inode) {
        return Err(lost(Refusal::WrongType, path.names.len()));
    }
    Ok(inode)
}

/// Whether an inode to which a name leads is a folder's.
pub fn is_folder(volume: &[u8], inode: u64) -> bool {
    let name = calls::kth_name(volume, inode, 0, &mut [0; NAME_BYTES]);
    name != Err(Refusal::WrongType)
}

/// The size of what an inode is: a file's, or a folder's total.
pub fn size_of(volume: &[u8], inode: u64) -> Answer {
    match is_folder(volume, inode) {
        true => calls::total(volume, inode),
        false => calls::size(volume, inode),
    }
}

/// A name that stands in a folder.
#[derive(Clone, Debug, PartialEq, Eq)]
pub struct Standing {
    /// Its path.
    pub path: VolumePath,
    /// The inode of the folder.
    pub folder: u64,
    /// The inode that it leads to.
    pub inode: u64,
    /// Whether that is a folder.
    pub is_folder: bool,
}

impl Standing {
    /// The path's bytes, a folder's with a "/" at the end.
    pub fn marked(&self) -> Vec<u8> {
        let mut bytes = self.path.bytes();
        bytes.extend(self.is_folder.then_some(b'/'));
        bytes
    }
}

/// The names in a folder at a path, in list order.
pub fn names_in(volume: &[u8], folder: u64, path: &VolumePath) -> Result<Vec<Standing>, Refusal> {
    let names = names_of(volume, folder)?.into_iter();
    let standing = names.map(|name| {
        let inode = calls::find(volume, folder, &name)?;
        Ok(Standing {
            path: path.join(&name),
            folder,
            inode,
            is_folder: is_folder(volume, inode),
        })
    });
    standing.collect()
}

/// The names in a folder at a path and in all folders beneath it, in list order; a folder comes before what is in it.
pub fn names_beneath(
    volume: &[u8],
    folder: u64,
    path: &VolumePath,
) -> Result<Vec<Standing>, Refusal> {
    let mut all = Vec::new();
    for name in names_in(volume, folder, path)? {
        let within = name.is_folder.then(|| (name.inode, name.path.clone()));
        all.push(name);
        if let Some((inode, path)) = within {
            all.extend(names_beneath(volume, inode, &path)?);
        }
    }
    Ok(all)
}

/// The names of all folders of a volume, from the root on.
pub fn all_names(volume: &[u8]) -> Result<Vec<Standing>, Refusal> {
    names_beneath(volume, ROOT, &VolumePath::root())
}
