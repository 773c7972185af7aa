//! Volumes that hold the names "." and ".." and names like these, and the calls by name on them.
//!
//! Order 5 of document 02: "Create, link's new name and rename's new name shall no longer accept
//! them. Volumes that already hold one stay accepted, and such a name can still be found, unlinked
//! and renamed away." So no call makes such a volume, and these are made by hand:
//!
//! - Each choice of ".", "..", "..." and ".a" stands: as names of files of their own, as further
//!   names of one file, added again behind other names, or no longer, since all were removed.
//! - The tail's page of the directory's log has 1 to 7 entries, and clean makes the log shorter.
//! - Every number after 5 applies too: the name stands, no inode is left, 224 names stand, no page
//!   is free or only the last.
//! - The journal is open, after a cut in a call that takes "." away.

use crate::by_hand::give_name;
use crate::calls::{
    clean, create, create_folder, create_in, done, filled, link, link_in, rename, rename_in, unlink,
};
use crate::directory_logs::{added_again, added_and_removed, varied_names, DirectoryLog};
use crate::last_page::FewFree;
use crate::random_calls::any_call;
use reference::layout::{tail_word, NAME_LIMIT, ROOT};
use reference::random::Random;
use reference::{cut, Call, FileMap};

/// The names that no call gives to a file.
pub const DOT_NAMES: [&[u8]; 2] = [b".", b".."];

/// Names that are like these, and may be given.
const LIKE: [&[u8]; 7] = [b"...", b".a", b"..a", b"a.", b"a", b". ", &[b'.'; 32]];

/// Full stops that are no allowed name.
const BAD: [&[u8]; 6] = [&[b'.'; 33], b"", b"/", b"./", b"../", b".\0"];

/// The names of which each choice stands on a volume.
const CHOSEN: [&[u8]; 4] = [b".", b"..", b"...", b".a"];

/// A volume on which the calls by name are to be made.
#[derive(Clone, Debug)]
pub struct DotNames {
    /// What the volume is.
    pub title: String,
    /// The volume. It is accepted; its journal may be open.
    pub volume: Vec<u8>,
}

impl DotNames {
    fn new(title: impl Into<String>, volume: Vec<u8>) -> DotNames {
        let title = title.into();
        DotNames { title, volume }
    }
}

/// The names to try: ".", "..", names that are like these, and full stops that are no allowed name.
pub fn tried_names() -> Vec<&'static [u8]> {
    [&DOT_NAMES[..], &LIKE, &BAD].concat()
}

/// Every call by name with each of the [`tried_names`], and with each two of them; and clean of the
/// directory.
pub fn calls_by_name() -> Vec<Call> {
    let names = tried_names();
    let mut calls = vec![clean(0)];
    for one in &names {
        calls.extend([create(one), create_folder(ROOT, one), unlink(one)]);
        calls.extend(names.iter().map(|other| link(one, other)));
        calls.extend(names.iter().map(|other| rename(one, other)));
    }
    calls
}

/// Whether a call would give "." or ".." to a file or folder: as create's name, or as the new name of
/// link or rename.
pub fn gives_dot_name(call: &Call) -> bool {
    match call {
        Call::Create { name: new, .. }
        | Call::CreateFolder { name: new, .. }
        | Call::Link { new, .. }
        | Call::Rename { new, .. } => DOT_NAMES.contains(&&new[..]),
        _ => false,
    }
}

/// Which of "." and ".." stand in inode 0 of a map.
pub fn standing_dot_names(map: &FileMap) -> Vec<&'static [u8]> {
    let stands = |name: &&'static [u8]| map.inode_of(ROOT, name).is_some();
    DOT_NAMES.into_iter().filter(stands).collect()
}

/// Every second time "." or "..", else a name that is like these.
pub(crate) fn dot_name_or_like(random: &mut Random) -> &'static [u8] {
    let names = match random.once_in(2) {
        true => &DOT_NAMES[..],
        false => &LIKE,
    };
    random.choose(names).copied().expect("there are names")
}

/// A call as [`any_call`] draws it. The name that it would give to a file is, every second time,
/// "." or ".." or like these.
pub fn any_call_with_dots(random: &mut Random, inodes: u64, map: &FileMap) -> Call {
    let call = any_call(random, inodes, map);
    if random.once_in(2) {
        return call;
    }
    let name = dot_name_or_like(random);
    match call {
        Call::Create { folder, .. } => create_in(folder, name),
        Call::CreateFolder { folder, .. } => create_folder(folder, name),
        Call::Link {
            old_folder,
            old,
            new_folder,
            ..
        } => link_in(old_folder, &old, new_folder, name),
        Call::Rename {
            old_folder,
            old,
            new_folder,
            ..
        } => rename_in(old_folder, &old, new_folder, name),
        other => other,
    }
}

/// All the volumes.
///
/// ```
/// use samples::{dot_names, map_of, standing_dot_names};
///
/// let sample = dot_names().find(|sample| sample.title.contains("a 224th name")).unwrap();
/// let map = map_of(&sample.volume);
/// assert_eq!(map.names(0).len(), 224);
/// assert_eq!(standing_dot_names(&map), [&b"."[..], b".."]);
/// ```
pub fn dot_names() -> impl Iterator<Item = DotNames> {
    let choices = (0..16).flat_map(chosen_names);
    choices
        .chain(long_logs())
        .chain(nothing_left())
        .chain(few_pages_left())
        .chain(open_journals())
}

/// Volumes for one choice of names, in each way. The log is filled up, for another fill of its
/// tail's page each time.
fn chosen_names(choice: usize) -> Vec<DotNames> {
    let all = CHOSEN.iter().enumerate();
    let chosen = all.filter(|(place, _)| choice >> place & 1 == 1);
    let chosen: Vec<Vec<u8>> = chosen.map(|(_, name)| name.to_vec()).collect();
    let other = [b"a".to_vec()];
    let ways = [
        ("files of their own", DirectoryLog::of_adds(&chosen)),
        ("one file", of_one_file(&chosen)),
        ("removed", added_and_removed(&chosen, &other)),
        ("again", added_again(&[&other, &chosen[..]].concat(), true)),
    ];
    let titled = |(number, (way, mut log)): (usize, (&str, DirectoryLog))| {
        log.fill_up(log.length() + (choice + 2 * number) % 7);
        let names: Vec<_> = chosen
            .iter()
            .map(|name| String::from_utf8_lossy(name))
            .collect();
        DotNames::new(format!("{way} {names:?}: "), log.volume(20))
    };
    ways.into_iter().enumerate().map(titled).collect()
}

/// A log in which "a" and these names lead to one file.
fn of_one_file(names: &[Vec<u8>]) -> DirectoryLog {
    let mut log = DirectoryLog::default();
    log.add_for(b"a", 1);
    names.iter().for_each(|name| log.add_for(name, 1));
    log
}

/// The names "." and "..", as a log takes them.
fn both() -> Vec<Vec<u8>> {
    DOT_NAMES.map(<[u8]>::to_vec).to_vec()
}

/// Logs in which 300 other names come and go, with "." and ".." in front of these or behind.
fn long_logs() -> Vec<DotNames> {
    let others = varied_names(0..300);
    let behind = added_and_removed(&others, &both());
    let mut in_front = DirectoryLog::of_adds(&both());
    in_front.add_each(&others);
    in_front.remove_each(&others);
    vec![
        DotNames::new("behind other names: ", behind.volume(100)),
        DotNames::new("in front of other names: ", in_front.volume(100)),
    ]
}

/// Volumes on which no inode is left, and such on which 224 names stand; with "." and ".." and
/// without.
fn nothing_left() -> Vec<DotNames> {
    let mut samples = Vec::new();
    for dots in [both(), Vec::new()] {
        let inodes = [&dots[..], &varied_names(0..5)].concat();
        let mut volume = DirectoryLog::of_adds(&inodes).volume(20);
        for name in [b"p", b"q"] {
            done(&mut volume, &create(name)); // inodes 6 and 7
        }
        samples.push(DotNames::new(format!("no inode, {dots:?}: "), volume));
        let others = varied_names(0..(NAME_LIMIT - dots.len()) as u64);
        let log = DirectoryLog::of_adds(&[dots.clone(), others].concat());
        let title = format!("a 224th name, {dots:?}: ");
        samples.push(DotNames::new(title, log.volume(80)));
    }
    samples
}

/// Volumes with 0 to 2 free pages whose directory's page has room for one entry or for none; with
/// "." and ".." and without.
fn few_pages_left() -> Vec<DotNames> {
    let fills = [6, 7].into_iter();
    let ways = fills.flat_map(|directory| (0..=2).map(move |free| (directory, free)));
    let made = |(directory, free)| {
        let few = FewFree {
            pages: 16,
            inodes: 8,
            free,
            directory,
            file: 3,
            more_names: 0,
        };
        let without = few.volume(&mut Random::new(free));
        let mut with = without.clone();
        give_name(&mut with, b"a", b".");
        give_name(&mut with, b"b", b"..");
        [
            DotNames::new(format!("without dot names, {few:?}: "), without),
            DotNames::new(format!("with dot names, {few:?}: "), with),
        ]
    };
    ways.flat_map(made).collect()
}

/// Volumes that a power cut left with an open journal, in calls that take "." away: with the
/// journal's entries put back it stands.
fn open_journals() -> Vec<DotNames> {
    let names = [both(), vec![b"a".to_vec()]].concat();
    let volume = DirectoryLog::of_adds(&names).volume(20);
    let mut samples = Vec::new();
    for call in [unlink(b"."), rename(b".", b"a")] {
        let list = filled(&volume, &call).expect("the call is done");
        let tail = tail_word(ROOT);
        for (landed, [tail_lands, other_lands]) in [
            ("the tail", [true, false]),
            ("the valid word", [false, true]),
            ("both", [true, true]),
        ] {
            let mut broken = volume.clone();
            let lands = |index| match index == tail {
                true => tail_lands,
                false => other_lands,
            };
            cut(&mut broken, &list, 2, lands); // group 2 has the two targets
            samples.push(DotNames::new(format!("{landed} of {call:?}: "), broken));
        }
    }
    samples
}
