//! `get` and `cat`: files of the volume to the host, and folders as trees.

use super::{contents, inode, is_part, open, paths, size};
use crate::arguments::Arguments;
use crate::failure::{Failure, Outcome};
use crate::files::{folder_in_the_way, in_the_way, stands_for_folder, write_whole};
use crate::path::{is_folder, names_in, Standing, VolumePath};
use crate::progress::Progress;
use crate::store::Store;
use crate::text::{complain, counted, print, say, shown_path, typed_path};
use refusal::Refusal;
use std::ffi::OsStr;
use std::fs;
use std::os::unix::ffi::OsStrExt;
use std::path::{Path, PathBuf};

/// Copies a file, a folder with all that is in it, or all there is.
pub fn run(arguments: &Arguments) -> Outcome {
    match (arguments.value("--all"), arguments.plain()) {
        (Some(dest), []) => {
            let store = open(arguments)?;
            get_folder(&store, arguments, &VolumePath::root(), Path::new(dest))
        }
        (Some(_), _) => Err(Failure::Use("get: --all takes no PATH".into())),
        (None, [path, dest @ ..]) => {
            let dest = dest.first().map(|dest| dest.as_os_str());
            get_path(arguments, &VolumePath::of(path.as_bytes()), dest)
        }
        (None, []) => Err(Failure::Use("get: PATH or --all FOLDER is missing".into())),
    }
}

/// Prints files.
pub fn cat(arguments: &Arguments) -> Outcome {
    let store = open(arguments)?;
    for path in paths(arguments) {
        print(&contents(&store, &path)?)?;
    }
    Ok(())
}

fn get_path(arguments: &Arguments, path: &VolumePath, dest: Option<&OsStr>) -> Outcome {
    let store = open(arguments)?;
    if !is_folder(store.volume(), inode(&store, path)?) {
        return get_file(&store, arguments, path, dest);
    }
    match dest {
        Some(dest) if dest == "-" => Err(store.refused(&path.shown(), Refusal::WrongType)),
        Some(dest) => get_folder(&store, arguments, path, Path::new(dest)),
        None if path.is_root() => Err(Failure::Use(
            "get: the root has no name; DEST is missing".into(),
        )),
        None => {
            let dest = within(&store, path, true, Path::new("")).map_err(Failure::Host)?;
            get_folder(&store, arguments, path, &dest)
        }
    }
}

fn get_file(
    store: &Store,
    arguments: &Arguments,
    path: &VolumePath,
    dest: Option<&OsStr>,
) -> Outcome {
    if dest == Some(OsStr::new("-")) {
        return print(&contents(store, path)?);
    }
    let bytes = size(store, path)?;
    let dest = destination(store, path, dest).map_err(Failure::Host)?;
    if let Some(problem) = in_the_way(&dest, arguments.has("--force"), arguments.volume()) {
        return Err(Failure::Host(problem));
    }
    copy(store, &[(path.clone(), dest)], bytes, arguments)
}

/// Where a file goes: to its own name, into a folder, or to the path that is given. If it cannot have its own name
/// there, what to say of it.
fn destination(store: &Store, path: &VolumePath, dest: Option<&OsStr>) -> Result<PathBuf, String> {
    let here = Path::new("");
    match dest.map(Path::new) {
        None if path.last() == b"-" => {
            Err(unfit(store, path, here, "as DEST this is standard output"))
        }
        None => within(store, path, false, here),
        Some(folder) if folder.is_dir() => within(store, path, false, folder),
        Some(path) => Ok(path.to_path_buf()),
    }
}

/// The path of a name in a folder of the host; if nothing can have this name there, what to say of it.
fn within(
    store: &Store,
    path: &VolumePath,
    is_folder: bool,
    folder: &Path,
) -> Result<PathBuf, String> {
    let name = path.last();
    if stands_for_folder(name) {
        let what = if is_folder { "folder" } else { "file" };
        let why = format!("the host cannot have a {what} of this name");
        return Err(unfit(store, path, folder, &why));
    }
    Ok(folder.join(OsStr::from_bytes(name)))
}

/// Says why a file or a folder cannot have its own name in a folder of the host, and how it gets there under another.
fn unfit(store: &Store, path: &VolumePath, folder: &Path, why: &str) -> String {
    let (volume, dest) = (store.typed(), typed_path(folder.join("DEST")));
    let (shown, typed) = (path.shown(), path.typed());
    format!("{shown}: {why}; 'office get {volume} {typed} {dest}' copies it under another name")
}

/// What goes into a folder of the host, and what cannot.
#[derive(Default)]
struct Sorted {
    /// The folders of the host that are to be there, each behind the one that it is in.
    folders: Vec<PathBuf>,
    /// The paths of the files, each with its path on the host.
    copies: Vec<(VolumePath, PathBuf)>,
    /// Their bytes together.
    bytes: u64,
    /// A line for each path at which something is in the way.
    blocked: Vec<String>,
    /// A line for each file and each folder that cannot have its own name on the host.
    left_out: Vec<String>,
    /// How many of these are folders.
    folders_left_out: usize,
}

/// Copies what is in a folder of the volume, as far as that can be, then says what was left out.
fn get_folder(store: &Store, arguments: &Arguments, path: &VolumePath, dest: &Path) -> Outcome {
    let mut sorted = Sorted::default();
    sort(
        store,
        arguments,
        (inode(store, path)?, path),
        dest,
        &mut sorted,
    )?;
    if !sorted.blocked.is_empty() {
        complain_all(sorted.blocked.iter().chain(&sorted.left_out));
        return Err(Failure::Host("get: nothing was copied".into()));
    }
    for folder in &sorted.folders {
        let made = fs::create_dir_all(folder);
        made.map_err(|error| Failure::Host(format!("{}: {error}", shown_path(folder))))?;
    }
    let copied = copy(store, &sorted.copies, sorted.bytes, arguments);
    // Where nobody reads what was copied, it is still to be said what was not.
    let whole = matches!(copied, Ok(()) | Err(Failure::Quiet));
    if !whole || sorted.left_out.is_empty() {
        return copied;
    }
    complain_all(&sorted.left_out);
    Err(Failure::Host(format!(
        "get: {} left out",
        sorted.count_left_out()
    )))
}

impl Sorted {
    /// How many files and folders were left out, in words.
    fn count_left_out(&self) -> String {
        let folders = self.folders_left_out;
        let files = self.left_out.len() - folders;
        let [files, folders] = [(files, "file"), (folders, "folder")]
            .map(|(count, noun)| (count > 0).then(|| counted(count as u64, noun)));
        files
            .into_iter()
            .chain(folders)
            .collect::<Vec<String>>()
            .join(" and ")
    }
}

/// Sorts what is in a folder of the volume, given with its path, that is to go into a folder of the host.
fn sort(
    store: &Store,
    arguments: &Arguments,
    (folder, path): (u64, &VolumePath),
    dest: &Path,
    sorted: &mut Sorted,
) -> Outcome {
    sorted.blocked.extend(folder_in_the_way(dest));
    sorted.folders.push(dest.to_path_buf());
    let names = names_in(store.volume(), folder, path);
    for name in names.map_err(|refusal| store.refused_whole(refusal))? {
        if is_part(&name) {
            let path = name.path.shown();
            complain(&format!("{path}: left by a killed put, not copied"));
            continue;
        }
        match within(store, &name.path, name.is_folder, dest) {
            Ok(dest) if name.is_folder => {
                sort(store, arguments, (name.inode, &name.path), &dest, sorted)?;
            }
            Ok(dest) => sort_file(store, arguments, name, dest, sorted)?,
            Err(line) => {
                sorted.left_out.push(line);
                sorted.folders_left_out += usize::from(name.is_folder);
            }
        }
    }
    Ok(())
}

/// Sorts a file that is to go to a path of the host.
fn sort_file(
    store: &Store,
    arguments: &Arguments,
    name: Standing,
    dest: PathBuf,
    sorted: &mut Sorted,
) -> Outcome {
    let (force, volume) = (arguments.has("--force"), arguments.volume());
    sorted.bytes += size(store, &name.path)?;
    sorted.blocked.extend(in_the_way(&dest, force, volume));
    sorted.copies.push((name.path, dest));
    Ok(())
}

fn complain_all<'l>(lines: impl IntoIterator<Item = &'l String>) {
    for line in lines {
        complain(line);
    }
}

/// Copies files of `bytes` bytes together, each to its path on the host.
fn copy(
    store: &Store,
    copies: &[(VolumePath, PathBuf)],
    bytes: u64,
    arguments: &Arguments,
) -> Outcome {
    let mut progress = Progress::new(copies.len() as u64, bytes, arguments.has("--progress"));
    for (path, dest) in copies {
        let bytes = contents(store, path)?;
        write_whole(dest, &bytes)?;
        progress.add_bytes(bytes.len() as u64);
        progress.add_file();
    }
    let (files, bytes) = (progress.files(), progress.bytes());
    drop(progress);
    say(&format!(
        "{} copied, {}",
        counted(files, "file"),
        counted(bytes, "byte")
    ))
}
