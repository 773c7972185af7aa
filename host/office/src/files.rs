//! Files of the host: those that are put, and those that are written.

use crate::failure::Failure;
use crate::path::VolumePath;
use crate::text::{shown_path, thousands};
use calls::layout::SIZE_LIMIT;
use std::ffi::{OsStr, OsString};
use std::fs::{self, File, Metadata, OpenOptions};
use std::io::{self, ErrorKind, Read, Write};
use std::os::unix::ffi::OsStrExt;
use std::os::unix::fs::MetadataExt;
use std::path::{Path, PathBuf};

/// A file or a folder to be put into a volume.
#[derive(Debug)]
pub struct Source {
    /// The path that it gets in the volume, without the folder that everything is put into.
    pub path: VolumePath,
    /// A file's size in bytes; of a folder 0.
    pub size: u64,
    origin: Origin,
}

/// Where a source's bytes are.
#[derive(Debug)]
enum Origin {
    /// In a file of the host.
    Path(PathBuf),
    /// There are none: it is a folder of the host.
    Folder(PathBuf),
    /// Here, as standard input gave them.
    Input(Vec<u8>),
}

impl Source {
    /// The source as a screen can show it: its path, or "standard input".
    pub fn shown(&self) -> String {
        match &self.origin {
            Origin::Path(path) | Origin::Folder(path) => shown_path(path),
            Origin::Input(_) => "standard input".into(),
        }
    }

    /// Whether it is a folder.
    pub fn is_folder(&self) -> bool {
        matches!(self.origin, Origin::Folder(_))
    }

    /// The source's bytes; a folder has none.
    ///
    /// A file that can no longer be read, or has grown over 65,536 bytes, is [`Failure::Host`].
    pub fn read(&self) -> Result<Vec<u8>, Failure> {
        let bytes = match &self.origin {
            Origin::Input(bytes) => return Ok(bytes.clone()),
            Origin::Folder(_) => return Ok(Vec::new()),
            Origin::Path(path) => File::open(path).and_then(read_limited),
        };
        let bytes = bytes.map_err(|error| self.failed(&error.to_string()))?;
        check_size(bytes.len() as u64).map_err(|problem| self.failed(&problem))?;
        Ok(bytes)
    }

    fn failed(&self, what: &str) -> Failure {
        Failure::Host(format!("{}: {what}", self.shown()))
    }
}

/// Reads at most one byte more than a file of a volume can have.
fn read_limited(from: impl Read) -> io::Result<Vec<u8>> {
    let mut bytes = Vec::new();
    from.take(SIZE_LIMIT + 1).read_to_end(&mut bytes)?;
    Ok(bytes)
}

/// Whether a file of a volume can have so many bytes; if not, what to say of the source.
fn check_size(size: u64) -> Result<(), String> {
    if size > SIZE_LIMIT {
        let limit = thousands(SIZE_LIMIT);
        return Err(format!(
            "over {limit} bytes, more than a file of a volume can have"
        ));
    }
    Ok(())
}

/// The names in a folder, in byte order.
fn names_in(folder: &Path) -> io::Result<Vec<OsString>> {
    let entries = fs::read_dir(folder)?.map(|entry| Ok(entry?.file_name()));
    let mut names: Vec<OsString> = entries.collect::<io::Result<_>>()?;
    names.sort_by(|one, other| one.as_bytes().cmp(other.as_bytes()));
    Ok(names)
}

/// The size of a file that can be put; if it cannot, what to say of it.
fn size_of_file(path: &Path) -> Result<u64, String> {
    let about = path.metadata().map_err(|error| error.to_string())?;
    if about.is_dir() {
        return Err("a symbolic link to a folder".into());
    }
    if !about.is_file() {
        return Err("no regular file".into());
    }
    check_size(about.len())?;
    Ok(about.len())
}

/// The bytes of standard input, if they can be put; if not, what to say of them.
fn input() -> Result<Vec<u8>, String> {
    let bytes = read_limited(io::stdin().lock()).map_err(|error| error.to_string())?;
    check_size(bytes.len() as u64)?;
    Ok(bytes)
}

/// The sources that paths lead to, and what is wrong with some.
#[derive(Debug, Default)]
pub struct Sources {
    /// The files and folders, in the order in which they are put: a folder before what is in it.
    pub all: Vec<Source>,
    /// A line for each path that cannot be put.
    pub problems: Vec<String>,
}

impl Sources {
    /// The sources of these paths: each a file, or a folder, of which all that is in it comes in byte order of the names.
    pub fn of_paths<'p>(paths: impl IntoIterator<Item = &'p OsStr>) -> Sources {
        let mut sources = Sources::default();
        for path in paths.into_iter().map(Path::new) {
            if path.is_dir() {
                sources.add_within(path, &VolumePath::root());
            } else {
                let name = path.file_name().unwrap_or_default();
                sources.add_file(path, VolumePath::of(name.as_bytes()));
            }
        }
        sources
    }

    /// One file under a path of its own; `-` is standard input.
    pub fn of_one(path: &OsStr, new: VolumePath) -> Sources {
        let mut sources = Sources::default();
        if path == "-" {
            sources.add_input(new);
        } else {
            sources.add_file(Path::new(path), new);
        }
        sources
    }

    /// Adds all that is in a folder of the host, which gets this path. Symbolic links to folders are not followed, so
    /// that this ends.
    fn add_within(&mut self, folder: &Path, new: &VolumePath) {
        let names = match names_in(folder) {
            Ok(names) => names,
            Err(error) => return self.problem(folder, &error.to_string()),
        };
        for name in names {
            let (path, new) = (folder.join(&name), new.join(name.as_bytes()));
            if path.is_dir() && !path.is_symlink() {
                self.add(Origin::Folder(path.clone()), new.clone(), 0);
                self.add_within(&path, &new);
            } else {
                self.add_file(&path, new);
            }
        }
    }

    fn add_file(&mut self, path: &Path, new: VolumePath) {
        match size_of_file(path) {
            Ok(size) => self.add(Origin::Path(path.to_path_buf()), new, size),
            Err(problem) => self.problem(path, &problem),
        }
    }

    fn add_input(&mut self, new: VolumePath) {
        match input() {
            Ok(bytes) => {
                let size = bytes.len() as u64;
                self.add(Origin::Input(bytes), new, size);
            }
            Err(problem) => self.problem("standard input", &problem),
        }
    }

    /// Adds a source, unless there is one of its path already. Two folders of one path are one.
    fn add(&mut self, origin: Origin, path: VolumePath, size: u64) {
        let source = Source { path, size, origin };
        let earlier = self.all.iter().find(|earlier| earlier.path == source.path);
        match earlier {
            Some(earlier) if earlier.is_folder() && source.is_folder() => {}
            Some(earlier) => {
                let what = format!("has the name of {}", earlier.shown());
                self.problem(source.shown(), &what);
            }
            None => self.all.push(source),
        }
    }

    /// Notes that a source cannot be put.
    pub fn problem(&mut self, source: impl AsRef<OsStr>, what: &str) {
        self.problems
            .push(format!("{}: {what}", shown_path(source)));
    }
}

/// Whether a name stands for a folder, wherever it is used: "." for the folder itself, ".." for the one above it.
/// No file of the host can have it, and no file of a volume can get it.
pub fn stands_for_folder(name: &[u8]) -> bool {
    matches!(name, b"." | b"..")
}

/// What stands in the way of a file that is to be written; none if nothing does.
///
/// A regular file is in the way unless it may be replaced (`force`); a folder, a pipe, a device and the volume's own
/// file always are.
pub fn in_the_way(path: &Path, force: bool, volume: &Path) -> Option<String> {
    let shown = shown_path(path);
    match path.metadata() {
        Ok(about) if about.is_dir() => Some(format!("{shown}: a folder is in the way")),
        Ok(about) if !about.is_file() => Some(format!("{shown}: no regular file")),
        Ok(about) if is_file_of(&about, volume) => Some(format!("{shown}: is the volume itself")),
        Ok(_) if !force => Some(format!("{shown}: exists; --force replaces it")),
        _ => None,
    }
}

/// What stands in the way of a folder of the host that is to be there; none if nothing does.
pub fn folder_in_the_way(path: &Path) -> Option<String> {
    let other = path.metadata().is_ok_and(|about| !about.is_dir());
    other.then(|| format!("{}: a file is in the way", shown_path(path)))
}

/// Whether what is known of a file is known of the one at this path.
pub fn is_file_of(about: &Metadata, path: &Path) -> bool {
    path.metadata()
        .is_ok_and(|other| (about.dev(), about.ino()) == (other.dev(), other.ino()))
}

/// Writes a file of the host whole or not at all: under a temporary name beside it, then renamed to its own.
///
/// A file that stands there is replaced.
pub fn write_whole(path: &Path, bytes: &[u8]) -> Result<(), Failure> {
    let folder = match path.parent() {
        Some(folder) if !folder.as_os_str().is_empty() => folder,
        _ => Path::new("."),
    };
    let written = write_beside(folder, bytes).and_then(|beside| {
        let renamed = fs::rename(&beside, path);
        if renamed.is_err() {
            let _ = fs::remove_file(&beside);
        }
        renamed
    });
    let synced = written.and_then(|()| File::open(folder)?.sync_all());
    synced.map_err(|error| Failure::Host(format!("{}: {error}", shown_path(path))))
}

/// Writes a new file in a folder, under a name that is free; answers its path. A file half written is removed.
fn write_beside(folder: &Path, bytes: &[u8]) -> io::Result<PathBuf> {
    let (path, mut file) = create_free(folder)?;
    let written = file.write_all(bytes).and_then(|()| file.sync_all());
    if written.is_err() {
        let _ = fs::remove_file(&path);
    }
    written.map(|()| path)
}

/// Creates a file in a folder under the first name of the tool's own that is free.
fn create_free(folder: &Path) -> io::Result<(PathBuf, File)> {
    let mut number = 0;
    loop {
        let path = folder.join(format!(".office-{}-{number}.tmp", std::process::id()));
        match OpenOptions::new().write(true).create_new(true).open(&path) {
            Ok(file) => return Ok((path, file)),
            Err(error) if error.kind() == ErrorKind::AlreadyExists => number += 1,
            Err(error) => return Err(error),
        }
    }
}
