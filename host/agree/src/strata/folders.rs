//! The strata of folders (document 02, order 6). Most are of one volume ([`volumes::with_folders`]), whose folders and names the calls
//! here are about.

use super::Stratum;
use crate::changing::{self, Kind};
use crate::outcome::Outcome::{self, Done, Refused, Unchanged};
use crate::reading::{self, Reading};
use crate::{maps, storing, volumes};
use reference::{BadNames, Call, Damage};
use samples::{
    clean, create_folder, create_in, damaged_folders, link_in, rename_in, set_size, unlink_in,
    unread_types, write, DamagedFolders, Move, Random,
};
use std::collections::BTreeSet;

/// All of them.
pub fn strata() -> Vec<Stratum> {
    let mut all = of_refusals();
    all.extend(of_done());
    all.extend(of_moves());
    all.extend(of_reading());
    all.extend(of_damage());
    all.extend(of_maps());
    all.extend(of_cuts());
    all
}

/// The strata of calls on the volume with folders.
fn given<const C: usize>(rows: [(Call, Outcome, &'static str); C]) -> Vec<Stratum> {
    let stratum = |(call, outcome, detail)| {
        let name = Kind::of(&call).told().0;
        let draw = move |name: &str, random: &mut Random| {
            changing::given(&call, volumes::with_folders(random), outcome, name)
        };
        Stratum::new(name, outcome, draw).with(detail)
    };
    rows.into_iter().map(stratum).collect()
}

/// 6 of folders that are not there; 16, in each of its ways, and what is judged before it; 17 and 18; and names that lead to one inode.
fn of_refusals() -> Vec<Stratum> {
    given([
        (create_in(7, b"n"), Refused(6), "invalid folder"),
        (create_in(8, b"n"), Refused(6), "folder out of range"),
        (create_folder(7, b"n"), Refused(6), "invalid folder"),
        (create_folder(8, b"n"), Refused(6), "folder out of range"),
        (link_in(7, b"a", 0, b"n"), Refused(6), "invalid old folder"),
        (link_in(0, b"a", 7, b"n"), Refused(6), "invalid new folder"),
        (link_in(8, b"a", 0, b"n"), Refused(6), "old out of range"),
        (link_in(0, b"a", 8, b"n"), Refused(6), "new out of range"),
        (link_in(4, b"b", 7, b"n"), Refused(6), "file as old folder"),
        (unlink_in(7, b"a"), Refused(6), "invalid folder"),
        (unlink_in(8, b"a"), Refused(6), "folder out of range"),
        (
            rename_in(7, b"a", 0, b"a"),
            Refused(6),
            "invalid old folder",
        ),
        (
            rename_in(0, b"a", 7, b"a"),
            Refused(6),
            "invalid new folder",
        ),
        (rename_in(8, b"a", 0, b"a"), Refused(6), "old out of range"),
        (rename_in(0, b"a", 8, b"a"), Refused(6), "new out of range"),
        (
            rename_in(0, b"n", 4, b"n"),
            Refused(6),
            "file as new folder",
        ),
        (write(0, 0, b"n"), Refused(6), "inode 0"),
        (set_size(0, 9), Refused(6), "inode 0"),
        (link_in(4, b"b", 0, b"a"), Refused(7), "file as old folder"),
        (create_in(4, b"b"), Refused(16), "file as folder"),
        (create_folder(4, b"b"), Refused(16), "file as folder"),
        (link_in(4, b"b", 0, b"n"), Refused(16), "file as old folder"),
        (link_in(0, b"a", 4, b"n"), Refused(16), "file as new folder"),
        (link_in(0, b"f", 1, b"n"), Refused(16), "to a folder"),
        (unlink_in(4, b"b"), Refused(16), "file as folder"),
        (
            rename_in(4, b"b", 0, b"n"),
            Refused(16),
            "file as old folder",
        ),
        (
            rename_in(0, b"a", 4, b"n"),
            Refused(16),
            "file as new folder",
        ),
        (rename_in(4, b"b", 4, b"b"), Refused(16), "one file as both"),
        (rename_in(0, b"a", 1, b"g"), Refused(16), "onto a folder"),
        (
            rename_in(0, b"e", 1, b"b"),
            Refused(16),
            "folder onto a file",
        ),
        (
            rename_in(0, b"e", 0, b"f"),
            Refused(16),
            "folder onto a folder",
        ),
        (
            rename_in(0, b"f", 1, b"b"),
            Refused(16),
            "into itself onto a file",
        ),
        (write(5, 0, b""), Refused(16), "no bytes"),
        (unlink_in(0, b"f"), Refused(17), "in inode 0"),
        (unlink_in(1, b"g"), Refused(17), "in a folder"),
        (rename_in(0, b"f", 1, b"n"), Refused(18), "into itself"),
        (rename_in(0, b"f", 2, b"n"), Refused(18), "beneath itself"),
        (rename_in(0, b"a", 1, b"l"), Unchanged, "two folders"),
        (rename_in(0, b"f", 0, b"f"), Unchanged, "folder to itself"),
    ])
}

/// Calls in folders that are done.
fn of_done() -> Vec<Stratum> {
    given([
        (create_in(2, b"n"), Done, "in a folder"),
        (create_folder(2, b"n"), Done, "in a folder"),
        (link_in(0, b"a", 2, b"n"), Done, "in another folder"),
        (unlink_in(0, b"e"), Done, "empty folder"),
        (unlink_in(0, b"a"), Done, "one of two names"),
        (unlink_in(2, b"c"), Done, "last name"),
        (rename_in(1, b"b", 1, b"n"), Done, "inside a folder"),
        (rename_in(1, b"b", 1, b"l"), Done, "onto one of two names"),
        (rename_in(1, b"g", 0, b"n"), Done, "folder moves up"),
        (rename_in(0, b"e", 2, b"n"), Done, "folder moves down"),
        (rename_in(2, b"c", 5, b"n"), Done, "into an empty folder"),
        (rename_in(1, b"b", 2, b"c"), Done, "moved onto a last name"),
        (rename_in(1, b"b", 0, b"a"), Done, "moved onto one of two"),
        (clean(1), Done, "folder"),
    ])
}

/// Moves onto no name and onto a file's last name, with each count of new log pages: there are enough free pages, or one lacks. And a move
/// onto a name of a folder with 224 names.
fn of_moves() -> Vec<Stratum> {
    let rows = [
        ([3, 3], 0, "new", Done, "no log page"),
        ([7, 3], 1, "new", Done, "log page of the source"),
        ([3, 0], 1, "new", Done, "first log page of the target"),
        ([7, 7], 2, "new", Done, "two log pages"),
        ([7, 7], 3, "gone", Done, "two log pages and a last name"),
        ([3, 7], 0, "new", Refused(12), "log page of the target"),
        ([7, 7], 1, "gone", Refused(12), "second log page"),
    ];
    let stratum =
        |([source, target], free, new, outcome, detail): ([usize; 2], u64, &'static str, _, _)| {
            let draw = move |name: &str, random: &mut Random| {
                let position = random.below(16);
                let made = Move {
                    source,
                    target,
                    free,
                    position,
                };
                let call = rename_in(1, b"a", 2, new.as_bytes());
                changing::given(&call, made.volume(random), outcome, name)
            };
            Stratum::new("rename", outcome, draw).with(detail)
        };
    let mut all: Vec<Stratum> = rows.into_iter().map(stratum).collect();
    let draw = |name: &str, random: &mut Random| {
        let volume = volumes::full_directory(random);
        let new = [random.between(48, 224) as u8]; // a name of the file
        changing::given(&rename_in(2, b"in", 0, &new), volume, Done, name)
    };
    all.push(Stratum::new("rename", Done, draw).with("in a full folder"));
    all
}

/// Reading calls in folders.
fn of_reading() -> Vec<Stratum> {
    let buffer = || vec![7; 33];
    let name = |name: &[u8]| name.to_vec();
    let rows = [
        (Reading::Find(7, name(b"a")), Refused(6), "invalid folder"),
        (Reading::Find(8, name(b"a")), Refused(6), "out of range"),
        (
            Reading::KthName(7, 0, buffer()),
            Refused(6),
            "invalid folder",
        ),
        (Reading::KthName(8, 0, buffer()), Refused(6), "out of range"),
        (Reading::KthName(1, 3, buffer()), Refused(6), "large k"),
        (Reading::Total(7), Refused(6), "invalid folder"),
        (Reading::Total(8), Refused(6), "out of range"),
        (Reading::Size(0), Refused(6), "inode 0"),
        (Reading::Read(0, 0, buffer()), Refused(6), "inode 0"),
        (Reading::Find(4, name(b"b")), Refused(16), "file as folder"),
        (
            Reading::KthName(4, u64::MAX, buffer()),
            Refused(16),
            "large k",
        ),
        (Reading::Find(2, name(b"c")), Done, "in a folder"),
        (Reading::KthName(1, 2, buffer()), Done, "in a folder"),
        (Reading::Total(0), Done, "inode 0"),
        (Reading::Total(1), Done, "folder in it"),
        (Reading::Total(5), Done, "empty folder"),
        (Reading::Listing, Done, "folders"),
    ];
    let stratum = |(call, outcome, detail): (Reading, _, _)| {
        let name = call.kind().told().0;
        let draw = move |name: &str, random: &mut Random| {
            reading::given(&call, &volumes::with_folders(random), outcome, name)
        };
        Stratum::new(name, outcome, draw).with(detail)
    };
    rows.into_iter().map(stratum).collect()
}

/// The longest volume that is taken from the samples.
const LONGEST: usize = 20 * 512;

/// What is wrong with the folders of a damaged volume.
fn wrong(damage: &Damage) -> &'static str {
    match damage {
        Damage::Names(BadNames::NotReached { .. }) => "ring",
        Damage::Names(BadNames::NotOneName { count: 0, .. }) => "nameless folder",
        Damage::Names(BadNames::NotOneName { .. }) => "folder with two names",
        Damage::Names(_) => "other names",
        Damage::Type { .. } => "type",
        Damage::Entry { .. } => "kind of entry",
        _ => "type in the journal",
    }
}

/// Damaged volumes, by what is wrong; and types that are not read, of inode 0 and of invalid inodes.
fn of_damage() -> Vec<Stratum> {
    let mut samples = damaged_folders();
    samples.retain(|sample| sample.volume.len() <= LONGEST);
    let details: BTreeSet<&str> = samples.iter().map(|sample| wrong(&sample.damage)).collect();
    let stratum = |detail| {
        let samples = samples.iter();
        let wanted = samples.filter(|sample| wrong(&sample.damage) == detail);
        let wanted: Vec<DamagedFolders> = wanted.cloned().collect();
        let draw = move |name: &str, random: &mut Random| {
            let sample = random.choose(&wanted)?;
            reading::given(&Reading::FreeCount, &sample.volume, Refused(3), name)
        };
        Stratum::new("free count", Refused(3), draw).with(detail)
    };
    let mut all: Vec<Stratum> = details.into_iter().map(stratum).collect();
    let draw = |name: &str, random: &mut Random| {
        let samples = unread_types();
        let sample = random.choose(&samples)?;
        let call = create_folder(0, b"new");
        changing::given(&call, sample.volume.clone(), Done, name)
    };
    all.push(Stratum::new("create folder", Done, draw).with("types not read"));
    all
}

/// The map after moves, and after the unlink of a folder.
fn of_maps() -> Vec<Stratum> {
    let rows = [
        (rename_in(1, b"b", 2, b"n"), "move"),
        (rename_in(1, b"b", 2, b"c"), "move onto a last name"),
        (rename_in(1, b"b", 0, b"a"), "move onto one of two"),
        (rename_in(1, b"g", 0, b"n"), "move of a folder"),
        (unlink_in(0, b"e"), "unlink of a folder"),
    ];
    let stratum = |(call, detail): (Call, _)| {
        let draw = move |name: &str, random: &mut Random| {
            maps::after_call(&call, &volumes::with_folders(random), name, random)
        };
        Stratum::besides("map after", detail, draw)
    };
    rows.into_iter().map(stratum).collect()
}

/// A cut in each group of a move.
fn of_cuts() -> Vec<Stratum> {
    let rows = [
        "in group 0 of a move",
        "in group 1 of a move",
        "in group 2 of a move",
        "in group 3 of a move",
    ];
    let stratum = |(group, detail)| {
        let draw = move |name: &str, random: &mut Random| storing::cut_move(group, name, random);
        Stratum::besides("cut", detail, draw)
    };
    rows.into_iter().enumerate().map(stratum).collect()
}
