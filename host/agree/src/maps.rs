//! Questions about the file map: the map of a volume, and after each call that is done.

use crate::arguments::standing;
use crate::changing::Kind;
use crate::sheet::{Equation, Sheet};
use crate::{term, volumes};
use reference::layout::word;
use reference::{map_after, Call, FileMap};
use samples::{filled, Random};
use std::collections::BTreeSet;

/// The longest file whose bytes are asked for.
const LONGEST: usize = 1_200;

/// The map after a done call of this kind.
pub fn after(kind: Kind, name: &str, random: &mut Random) -> Option<Sheet> {
    let volume = volumes::used(random);
    let call = kind.call(&standing(&volume), random);
    after_call(&call, &volume, name, random)
}

/// The map after a done call: the names of each folder that it changed, and the bytes of one file; or
/// that there is none.
pub fn after_call(call: &Call, volume: &[u8], name: &str, random: &mut Random) -> Option<Sheet> {
    let before = standing(volume);
    filled(volume, call).ok()?;
    let (pages, inodes) = (word(volume, 0), word(volume, 1));
    let after = map_after(&before, inodes, call);
    let file = changed_file(&before, &after).unwrap_or(random.between(1, 3));
    let content = match after.files.get(&file) {
        Some(bytes) if bytes.len() > LONGEST => return None,
        Some(bytes) => format!("some {}", term::bytes(bytes)),
        None => "none".to_string(),
    };
    let mut sheet = Sheet::new(name);
    let words = sheet.words(volume);
    let map = format!("map_of (view {words}) {pages} {inodes}");
    let left = format!("map_after {inodes} {} ({map})", term::call(call));
    for folder in changed_folders(&before, &after, random) {
        ask_folder(&mut sheet, &left, &after, folder);
    }
    sheet.ask_of(
        "bytes",
        Equation {
            kind: "Option (List ℕ)",
            left: format!("({left}).files {file}"),
            right: content,
        },
    );
    Some(sheet)
}

/// Asks for the names of a folder in a map, or that there is none; `left` is the map's definition.
pub fn ask_folder(sheet: &mut Sheet, left: &str, map: &FileMap, folder: u64) {
    let names = map.folders.get(&folder);
    let names = names.map(|names| format!("some {}", term::names(names)));
    let equation = Equation {
        kind: "Option (List (List ℕ × ℕ))",
        left: format!("({left}).folders {folder}"),
        right: names.unwrap_or("none".to_string()),
    };
    sheet.ask_of(&format!("folder-{folder}"), equation);
}

/// The folders that the call changed, made or let go; any inode where there is none.
fn changed_folders(before: &FileMap, after: &FileMap, random: &mut Random) -> Vec<u64> {
    let all: BTreeSet<u64> = [before, after]
        .into_iter()
        .flat_map(|map| map.folders.keys().copied())
        .collect();
    let changed = |inode: &u64| before.folders.get(inode) != after.folders.get(inode);
    let changed: Vec<u64> = all.into_iter().filter(changed).collect();
    match changed.is_empty() {
        true => vec![random.below(4)],
        false => changed,
    }
}

/// A file that the call changed, made or let go.
fn changed_file(before: &FileMap, after: &FileMap) -> Option<u64> {
    let all = before.files.keys().chain(after.files.keys());
    all.copied()
        .find(|inode| before.files.get(inode) != after.files.get(inode))
}
