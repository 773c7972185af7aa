//! Arguments, at random, that are often about what stands on a volume.

use reference::{judge, map, FileMap};
use samples::{any_name, any_number, Random};

const NAMES: [&[u8]; 4] = [b"a", b"b", b"A1", b"long name of thirty-two bytes .."];

/// The file map of a volume; an empty one where it is not accepted.
pub fn standing(volume: &[u8]) -> FileMap {
    judge(volume).map_or_else(|_| FileMap::default(), |judged| map(&judged))
}

/// The names that stand, each with its folder and the inode that it leads to.
pub fn names(map: &FileMap) -> Vec<(u64, &[u8], u64)> {
    let folders = map.folders.iter();
    let names = folders.flat_map(|(&folder, names)| {
        let names = names.iter();
        names.map(move |(name, inode)| (folder, name.as_slice(), *inode))
    });
    names.collect()
}

/// An inode given as folder: mostly one of a folder.
pub fn folder(map: &FileMap, random: &mut Random) -> u64 {
    let folders: Vec<u64> = map.folders.keys().copied().collect();
    match random.choose(&folders) {
        Some(&folder) if !random.once_in(6) => folder,
        _ => inode(map, random),
    }
}

/// A folder and a name: mostly one that stands in it, if there is one.
pub fn old_name(map: &FileMap, random: &mut Random) -> (u64, Vec<u8>) {
    match random.choose(&names(map)) {
        Some(&(folder, name, _)) if !random.once_in(4) => (folder, name.to_vec()),
        _ => (folder(map, random), new_name(random)),
    }
}

/// One of a few names, or bytes that are often no name.
pub fn new_name(random: &mut Random) -> Vec<u8> {
    if random.once_in(4) {
        return any_name(random);
    }
    random
        .choose(&NAMES)
        .map_or(Vec::new(), |name| name.to_vec())
}

/// An inode: mostly one of a file, if there is one.
pub fn inode(map: &FileMap, random: &mut Random) -> u64 {
    let files: Vec<u64> = map.files.keys().copied().collect();
    match random.choose(&files) {
        Some(&inode) if !random.once_in(4) => inode,
        _ => match random.once_in(3) {
            true => any_number(random),
            false => random.below(17),
        },
    }
}

/// An offset or a size: near the file's own size, inside a few pages, or any number.
pub fn offset(map: &FileMap, inode: u64, random: &mut Random) -> u64 {
    let size = map.files.get(&inode).map_or(0, |bytes| bytes.len() as u64);
    match random.below(6) {
        0 => size,
        1 => (size + random.below(6)).saturating_sub(3),
        2 => any_number(random),
        3 => 65_536 - random.below(40),
        _ => random.below(1_600),
    }
}

/// Bytes to write. Those of a long write are all the same, so that they are quick to read.
pub fn data(random: &mut Random) -> Vec<u8> {
    let byte = random.number() as u8;
    match random.below(10) {
        0 => Vec::new(),
        1 => vec![byte; random.between(4_097, 4_200) as usize],
        2 => vec![byte; random.between(500, 1_100) as usize],
        _ => {
            let length = random.below(40) as usize;
            random.bytes(length)
        }
    }
}
