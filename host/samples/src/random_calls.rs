//! Random changing calls, and the volumes that they lead to.

use crate::by_hand::formatted;
use crate::calls::{
    clean, create, create_folder, create_in, filled, link, link_in, rename, rename_in, run,
    set_size, unlink, unlink_in, write,
};
use crate::numbers::{any_name, any_number};
use reference::layout::ROOT;
use reference::random::Random;
use reference::{cut, groups, Call, FileMap};

/// A call of each kind with arguments that take no notice of the volume.
pub fn any_calls(random: &mut Random) -> Vec<Call> {
    let length = match random.below(3) {
        0 => random.below(5_000),
        _ => random.below(700),
    };
    let bytes = random.bytes(length as usize);
    vec![
        create(&any_name(random)),
        create_folder(random.below(3), &any_name(random)),
        create_in(random.below(6), &any_name(random)),
        link(&any_name(random), &any_name(random)),
        link_in(
            random.below(4),
            &any_name(random),
            any_number(random),
            &any_name(random),
        ),
        unlink(&any_name(random)),
        unlink_in(random.below(5), &any_name(random)),
        rename(&any_name(random), &any_name(random)),
        rename_in(
            random.below(5),
            &any_name(random),
            random.below(5),
            &any_name(random),
        ),
        write(any_number(random), any_number(random), &bytes),
        write(random.below(8), random.below(1_500), &bytes),
        set_size(any_number(random), any_number(random)),
        set_size(random.below(8), random.below(1_500)),
        clean(any_number(random)),
        clean(random.below(4)),
        Call::Recover,
    ]
}

/// An accepted volume that some calls have changed, the last perhaps cut.
pub fn used_volume(random: &mut Random) -> Vec<u8> {
    let mut volume = formatted(random.between(16, 24), 8);
    for _ in 0..6 {
        for call in any_calls(random) {
            let _ = run(&mut volume, &call);
        }
    }
    if random.once_in(4) {
        // clean is done where no inode is left for create
        let list = filled(&volume, &create(b"zz")).or_else(|_| filled(&volume, &clean(0)));
        if let Ok(list) = list {
            cut(&mut volume, &list, 2, |_| random.once_in(2));
        }
    }
    volume
}

/// Cuts a list in a random group: nothing, everything, or any set of its words kept.
pub fn random_cut(random: &mut Random, volume: &mut [u8], list: &[u64]) {
    let group = random.below(groups(list).len() as u64) as usize;
    match random.below(4) {
        0 => cut(volume, list, group, |_| true),
        1 => {
            let left_out = random.below(4);
            cut(volume, list, group, |_| random.below(4) != left_out);
        }
        _ => cut(volume, list, group, |_| random.once_in(2)),
    }
}

/// A call mostly about what stands on a volume with this map and so many inodes.
pub fn any_call(random: &mut Random, inodes: u64, map: &FileMap) -> Call {
    let [one, other] = [(); 2].map(|()| folder_for(random, inodes, map));
    match random.below(22) {
        0..=2 => create_in(one, &name_for(random, map, one, 1)),
        3..=4 => create_folder(one, &name_for(random, map, one, 1)),
        5..=6 => {
            let old = name_for(random, map, one, 7);
            link_in(one, &old, other, &name_for(random, map, other, 2))
        }
        7 => unlink_in(one, &name_for(random, map, one, 7)),
        8..=10 => {
            let old = name_for(random, map, one, 7);
            let other = if random.once_in(3) { one } else { other };
            rename_in(one, &old, other, &name_for(random, map, other, 4))
        }
        11..=16 => write_for(random, inodes, map),
        17..=19 => {
            let inode = inode_for(random, inodes, map);
            set_size(inode, offset_for(random, map, inode))
        }
        20 => clean(inode_for(random, inodes, map)),
        _ => Call::Recover,
    }
}

/// A call about the folders of a volume with this map and so many inodes, each drawn as often as inode 0: mostly a rename
/// from one to another. Every fourth time a call as [`any_call`] draws it.
///
/// ```
/// use samples::{any_call_in_folders, formatted, map_of, run, Random};
///
/// let mut random = Random::new(1);
/// let mut volume = formatted(60, 32);
/// for _ in 0..200 {
///     let call = any_call_in_folders(&mut random, 32, &map_of(&volume));
///     let _ = run(&mut volume, &call);
/// }
/// assert!(map_of(&volume).folders.len() > 4);
/// ```
pub fn any_call_in_folders(random: &mut Random, inodes: u64, map: &FileMap) -> Call {
    if random.once_in(4) {
        return any_call(random, inodes, map);
    }
    let folders: Vec<u64> = map.folders.keys().copied().collect();
    let mut with_names = folders.clone();
    with_names.retain(|&folder| !map.names(folder).is_empty());
    let [one, other] = [(); 2].map(|()| random.choose(&folders).copied().unwrap_or(ROOT));
    let from = random.choose(&with_names).copied().unwrap_or(ROOT);
    let old = name_for(random, map, from, 8);
    match random.below(12) {
        0 => create_in(one, &name_for(random, map, one, 1)),
        1..=3 => create_folder(one, &name_for(random, map, one, 1)),
        4 => link_in(from, &old, other, &name_for(random, map, other, 1)),
        5 => unlink_in(from, &old),
        6 => clean(one),
        _ => rename_in(from, &old, other, &name_for(random, map, other, 3)),
    }
}

/// An inode given as folder; mostly one of a folder, and every second time inode 0.
fn folder_for(random: &mut Random, inodes: u64, map: &FileMap) -> u64 {
    let folders: Vec<u64> = map.folders.keys().copied().collect();
    match random.below(20) {
        0 => random.number(),
        1 => random.below(inodes + 2),
        2..=10 => 0,
        _ => random.choose(&folders).copied().unwrap_or(0),
    }
}

/// A name; about `standing` in 8 times one that stands in a folder.
fn name_for(random: &mut Random, map: &FileMap, folder: u64, standing: u64) -> Vec<u8> {
    if random.below(8) < standing {
        if let Some((name, _)) = random.choose(map.names(folder)) {
            return name.clone();
        }
    }
    let length = match random.below(40) {
        0 => 0,
        1 => 33,
        2..=5 => 32,
        _ => random.between(1, 3) as usize,
    };
    let mut name = vec![97 + random.below(12) as u8; length];
    match random.below(80) {
        0 => name.push(0),
        1 => name.insert(0, b'/'),
        _ => {}
    }
    name
}

/// An inode; mostly one of a file, sometimes one of a folder.
fn inode_for(random: &mut Random, inodes: u64, map: &FileMap) -> u64 {
    let valid: Vec<u64> = map.files.keys().copied().collect();
    let folders: Vec<u64> = map.folders.keys().copied().collect();
    match random.below(16) {
        0 => random.number(),
        1 => random.below(inodes + 2),
        2 => random.choose(&folders).copied().unwrap_or(0),
        _ => random.choose(&valid).copied().unwrap_or(1),
    }
}

/// An offset or size: often near the file's end, a page boundary or the limit.
fn offset_for(random: &mut Random, map: &FileMap, inode: u64) -> u64 {
    let size = map.files.get(&inode).map_or(0, |bytes| bytes.len() as u64);
    let base = match random.below(12) {
        0 => return random.number(),
        1 => 65_536,
        2..=3 => random.below(65_536),
        4..=6 => size,
        7..=8 => 512 * random.below(12),
        _ => return random.below(4_096),
    };
    (base + random.below(4)).saturating_sub(2)
}

/// A write with bytes of any length up to one past the limit, sometimes all zeros.
fn write_for(random: &mut Random, inodes: u64, map: &FileMap) -> Call {
    let inode = inode_for(random, inodes, map);
    let offset = offset_for(random, map, inode);
    let length = match random.below(12) {
        0 => 0,
        1 => 4_097,
        2 => 4_096,
        3..=4 => random.below(4_096),
        5..=7 => random.below(1_400),
        _ => random.below(20),
    };
    let zeros = random.once_in(8);
    let bytes = if zeros {
        vec![0; length as usize]
    } else {
        random.bytes(length as usize)
    };
    write(inode, offset, &bytes)
}
