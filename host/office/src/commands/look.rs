//! `ls`, `du`, `map`, `gaps` and `log`: what the volume holds, as text.

use super::{inode, open, paths};
use crate::arguments::Arguments;
use crate::failure::{Failure, Outcome};
use crate::files::{in_the_way, write_whole};
use crate::path::{is_folder, names_beneath, names_in, size_of, Standing, VolumePath};
use crate::show;
use crate::store::Store;
use crate::text::{print, shown_name};
use calls::layout::ROOT;
use refusal::Refusal;
use std::env;
use std::io::{self, IsTerminal};
use std::path::Path;

/// Lists the names in a folder as document 01's volume-list does, or in all folders beneath it, or a file; on a
/// terminal with names that it can show.
pub fn ls(arguments: &Arguments) -> Outcome {
    let (store, path, inode) = open_at(arguments)?;
    let volume = store.volume();
    let names = match (is_folder(volume, inode), arguments.has("-R")) {
        (false, _) => Ok(vec![file_at(path, inode)]),
        (true, true) => names_beneath(volume, inode, &path),
        (true, false) => names_in(volume, inode, &VolumePath::root()),
    };
    let lines = names.and_then(|names| listing(volume, &names, io::stdout().is_terminal()));
    print(&lines.map_err(|refusal| store.refused_whole(refusal))?)
}

/// Opens the volume; answers the path that the command is about too, the root if none is given, and its inode.
fn open_at(arguments: &Arguments) -> Result<(Store, VolumePath, u64), Failure> {
    let path = paths(arguments).pop().unwrap_or_else(VolumePath::root);
    let store = open(arguments)?;
    let inode = inode(&store, &path)?;
    Ok((store, path, inode))
}

/// A file that a path leads to.
fn file_at(path: VolumePath, inode: u64) -> Standing {
    Standing {
        path,
        folder: ROOT,
        inode,
        is_folder: false,
    }
}

/// The counts of names and free pages, then inode, size and path of each.
fn listing(volume: &[u8], names: &[Standing], shown: bool) -> Result<Vec<u8>, Refusal> {
    let free = calls::free_count(volume)?;
    let mut lines = format!("files {} free {free}\n", names.len()).into_bytes();
    for name in names {
        let size = size_of(volume, name.inode)?;
        lines.extend(format!("{} ", name.inode).into_bytes());
        lines.extend(line(size, &name.marked(), shown));
    }
    Ok(lines)
}

/// A size and a path in a line.
fn line(size: u64, path: &[u8], shown: bool) -> Vec<u8> {
    let path = match shown {
        true => shown_name(path).into_bytes(),
        false => path.to_vec(),
    };
    [format!("{size} ").as_bytes(), &path, b"\n"].concat()
}

/// Prints the totals of all folders beneath a folder, and last its own; of a file its size.
pub fn du(arguments: &Arguments) -> Outcome {
    let (store, path, inode) = open_at(arguments)?;
    let lines = totals(store.volume(), path, inode, io::stdout().is_terminal());
    print(&lines.map_err(|refusal| store.refused_whole(refusal))?)
}

/// The lines of `du`: folders stand behind those that are in them.
fn totals(volume: &[u8], path: VolumePath, inode: u64, shown: bool) -> Result<Vec<u8>, Refusal> {
    let mut lines = Vec::new();
    if is_folder(volume, inode) {
        let mut folders = names_in(volume, inode, &path)?;
        folders.retain(|name| name.is_folder);
        for folder in folders {
            lines.extend(totals(volume, folder.path, folder.inode, shown)?);
        }
    }
    lines.extend(line(size_of(volume, inode)?, &path.bytes(), shown));
    Ok(lines)
}

/// Draws the pages, as text or into an SVG file.
pub fn map(arguments: &Arguments) -> Outcome {
    let store = open(arguments)?;
    let refused = |refusal| store.refused_whole(refusal);
    let Some(file) = arguments.value("--svg") else {
        let colour = io::stdout().is_terminal() && env::var_os("NO_COLOR").is_none();
        let text = show::map_text(store.volume(), width(), colour).map_err(refused)?;
        return print(text.as_bytes());
    };
    let svg = show::map_svg(store.volume()).map_err(refused)?;
    if file == "-" {
        return print(svg.as_bytes());
    }
    let path = Path::new(file);
    match in_the_way(path, arguments.has("--force"), arguments.volume()) {
        Some(problem) => Err(Failure::Host(problem)),
        None => write_whole(path, svg.as_bytes()),
    }
}

/// The columns of the screen: what COLUMNS says, else 80.
fn width() -> usize {
    let columns = env::var("COLUMNS").ok();
    columns.and_then(|text| text.parse().ok()).unwrap_or(80)
}

/// Lists the stretches of free pages.
pub fn gaps(arguments: &Arguments) -> Outcome {
    let store = open(arguments)?;
    let refused = |refusal| store.refused_whole(refusal);
    let text = show::gaps_text(store.volume()).map_err(refused)?;
    print(text.as_bytes())
}

/// Tells a log in words: that of a file or a folder, or the root's.
pub fn log(arguments: &Arguments) -> Outcome {
    let number = arguments.number("--inode")?;
    let path = paths(arguments).pop();
    if path.is_some() && number.is_some() {
        return Err(Failure::Use("log: PATH and --inode name two logs".into()));
    }
    let store = open(arguments)?;
    let inode = match path {
        Some(path) => inode(&store, &path)?,
        None => number.unwrap_or(ROOT),
    };
    let text = show::log_text(store.volume(), inode);
    let refused = |refusal| store.refused(&format!("inode {inode}"), refusal);
    print(text.map_err(refused)?.as_bytes())
}

#[cfg(test)]
mod tests {
    use super::listing;
    use crate::path::all_names;
    use samples::{create, done, formatted};

    /// Only where they are shown, names that a terminal would not take are written with `\xNN`.
    #[test]
    fn names_of_any_bytes() {
        let mut volume = formatted(16, 8);
        done(&mut volume, &create(b"a\x1B\xFF"));
        let names = all_names(&volume).expect("accepted");
        let lines = |shown| listing(&volume, &names, shown).expect("accepted");
        assert_eq!(lines(true), b"files 1 free 13\n1 0 a\\x1B\\xFF\n");
        assert_eq!(lines(false), b"files 1 free 13\n1 0 a\x1B\xFF\n");
    }
}
