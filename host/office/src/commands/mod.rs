//! The commands: which there are, and what each does.

mod check;
mod clean;
mod folders;
mod format;
mod get;
mod look;
mod names;
mod put;
mod recover;
mod table;

use crate::arguments::Arguments;
use crate::failure::{Failure, Outcome};
use crate::help::{of_command, overview, Command};
use crate::path::{all_names, find as find_path, is_folder, Standing, VolumePath};
use crate::room::{planned, Change, Keeping, INODES};
use crate::store::{Mode, Store};
use crate::text::{print, shown_name, shown_path};
use calls::layout::ROOT;
use refusal::Refusal;
use std::ffi::{OsStr, OsString};
use std::io::{self, Write};
use std::os::unix::ffi::OsStrExt;

pub use table::COMMANDS;

/// The name under which `put` writes a file before it gets its own name.
pub const PART: &[u8] = b".office-part";

/// Does what the arguments of the tool ask for.
pub fn run(arguments: Vec<OsString>) -> Outcome {
    let mut arguments = arguments.into_iter();
    let Some(name) = arguments.next() else {
        let _ = io::stderr().write_all(overview(&COMMANDS).as_bytes());
        return Err(Failure::Said(2));
    };
    let rest: Vec<OsString> = arguments.collect();
    if name == "--help" || name == "help" {
        return help(rest.first().map(OsString::as_os_str));
    }
    let command = find(&name)?;
    let asks = rest.iter().take_while(|argument| *argument != "--");
    if asks.into_iter().any(|argument| argument == "--help") {
        return help(Some(&name));
    }
    (command.run)(&Arguments::sort(command, rest)?)
}

/// The command of this name.
fn find(name: &OsStr) -> Result<&'static Command, Failure> {
    let mut commands = COMMANDS.iter();
    commands
        .find(|command| name == command.name)
        .ok_or_else(|| Failure::Use(format!("there is no command {}", shown_path(name))))
}

/// Prints the help of the tool, or of a command.
fn help(command: Option<&OsStr>) -> Outcome {
    let text = match command {
        Some(name) => of_command(find(name)?),
        None => overview(&COMMANDS),
    };
    print(text.as_bytes())
}

/// Opens the volume of a command that reads.
fn open(arguments: &Arguments) -> Result<Store, Failure> {
    Store::open(arguments.volume(), Mode::Read)
}

/// Opens the volume of a command that changes it, with the cut that is asked for.
fn open_to_change(arguments: &Arguments) -> Result<Store, Failure> {
    let cut = arguments.number("--cut")?;
    if cut == Some(0) {
        return Err(Failure::Use("--cut: groups are counted from 1".into()));
    }
    Store::open(arguments.volume(), Mode::Change { cut })
}

/// The names of all folders of a volume.
fn names(store: &Store) -> Result<Vec<Standing>, Failure> {
    all_names(store.volume()).map_err(|refusal| store.refused_whole(refusal))
}

/// The count of free pages.
fn free(store: &Store) -> Result<u64, Failure> {
    calls::free_count(store.volume()).map_err(|refusal| store.refused_whole(refusal))
}

/// The paths inside the volume that the plain arguments are.
fn paths(arguments: &Arguments) -> Vec<VolumePath> {
    let plain = arguments.plain().iter();
    plain.map(|path| VolumePath::of(path.as_bytes())).collect()
}

/// The inode that a path leads to.
fn inode(store: &Store, path: &VolumePath) -> Result<u64, Failure> {
    find_path(store.volume(), path).map_err(|lost| store.lost(path, lost))
}

/// The inode of the file that a path leads to.
fn file(store: &Store, path: &VolumePath) -> Result<u64, Failure> {
    let inode = inode(store, path)?;
    match is_folder(store.volume(), inode) {
        true => Err(store.refused(&path.shown(), Refusal::WrongType)),
        false => Ok(inode),
    }
}

/// A name in a folder, one that stands or one that is to stand.
#[derive(Clone, Debug)]
struct Place {
    /// The inode of the folder.
    folder: u64,
    /// The name's path.
    path: VolumePath,
}

impl Place {
    /// The place of a path's last name, in a volume of this store or in one that a plan leaves.
    fn of(store: &Store, volume: &[u8], path: &VolumePath) -> Result<Place, Failure> {
        if path.is_root() {
            return Err(Failure::Use("/: the root has no name".into()));
        }
        let folder = find_path(volume, &path.parent().as_folder());
        Ok(Place {
            folder: folder.map_err(|lost| store.lost(path, lost))?,
            path: path.clone(),
        })
    }

    fn name(&self) -> &[u8] {
        self.path.last()
    }
}

/// The size of a file.
fn size(store: &Store, path: &VolumePath) -> Result<u64, Failure> {
    let size = calls::size(store.volume(), file(store, path)?);
    size.map_err(|refusal| store.refused(&path.shown(), refusal))
}

/// The bytes of a file.
fn contents(store: &Store, path: &VolumePath) -> Result<Vec<u8>, Failure> {
    let mut bytes = vec![0; size(store, path)? as usize];
    let read = calls::read(store.volume(), file(store, path)?, 0, &mut bytes);
    read.map_err(|refusal| store.refused(&path.shown(), refusal))?;
    Ok(bytes)
}

/// Whether a name is that of a part that a killed `put` left.
fn is_part(name: &Standing) -> bool {
    name.path.last() == PART && !name.is_folder
}

/// The folder in which a killed `put` left a part; none if it left none.
fn folder_of_part(volume: &[u8]) -> Option<u64> {
    let has_part = |folder: &u64| {
        let part = calls::find(volume, *folder, PART);
        part.is_ok_and(|inode| calls::size(volume, inode).is_ok())
    };
    (ROOT..INODES).find(has_part)
}

/// Unlinks what a killed `put` left; answers its path, if there was something.
fn remove_part(store: &mut Store) -> Result<Option<String>, Failure> {
    let Some(folder) = folder_of_part(store.volume()) else {
        return Ok(None);
    };
    let names = names(store)?;
    let part = names.iter().find(|name| is_part(name));
    let what = part.map_or(shown_name(PART), |part| part.path.shown());
    let change = Change {
        what: &what,
        folders: &[folder],
        file: None,
        keeping: Keeping::IfPossible,
    };
    let planned = planned(store, &change, |plan| {
        store.ask(plan, &what, |volume, list| {
            calls::unlink(volume, folder, PART, list)
        })
    })?;
    planned.finish(store)?;
    Ok(Some(what))
}

/// Refuses a new name that `put` keeps for itself.
fn check_not_part(name: &[u8]) -> Outcome {
    if name == PART {
        let name = shown_name(name);
        return Err(Failure::Use(format!(
            "{name}: put keeps this name for itself"
        )));
    }
    Ok(())
}
