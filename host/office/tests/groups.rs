//! Every group of every changing command cut: the file is accepted, its map is one that the command passes through,
//! and recover closes the journal.

mod tool;

use calls::layout::ROOT;
use office::commands::PART;
use reference::layout::set_word;
use reference::{groups, judge, land, Call, FileMap, Store};
use samples::{
    clean, create, create_folder, create_in, done, filled, link, link_in, map_of, rename,
    rename_in, set_size, text, unlink, unlink_in, write,
};
use tool::{calls_of_put, maps_of_calls, without_part, Folder};

/// "a" has two pages and a cut in size, "b" one byte, "c" two names, "e" is empty.
fn used() -> Vec<u8> {
    let mut volume = samples::formatted(64, 16);
    for name in [b"a", b"b", b"c", b"e"] {
        done(&mut volume, &create(name));
    }
    done(&mut volume, &write(1, 0, &text(700)));
    done(&mut volume, &set_size(1, 600));
    done(&mut volume, &write(2, 0, b"!"));
    done(&mut volume, &write(3, 5_000, &text(2_000)));
    done(&mut volume, &link(b"c", b"d"));
    volume
}

/// How often things were reached.
#[derive(Debug, Default, PartialEq)]
struct Counts {
    cut: usize,
    open: usize,
    parts: usize,
}

/// Cuts a command in each of its groups, from a volume; `calls` are those that it makes.
///
/// By the reference, the file then holds the groups before, and of the one that is cut every other store.
fn cut_everywhere(folder: &Folder, volume: &[u8], command: &[&str], calls: &[Call]) -> Counts {
    let maps = maps_of_calls(volume, calls);
    let groups = groups_of(volume, calls);
    let mut counts = Counts::default();
    let mut reached = 0;
    for number in 1..=groups.len() {
        folder.write("v", volume);
        let ran = cut(folder, command, number);
        let line = format!("power cut in group {number} (rehearsed); run 'office recover v'");
        assert_eq!(ran, (4, format!("office: {line}\n")), "{command:?}");
        let bytes = folder.read("v");
        assert!(
            bytes == landed(volume, &groups, number),
            "{command:?} cut in {number}"
        );
        let judged = judge(&bytes).expect("a cut volume is accepted");
        let map = reference::map(&judged);
        // Maps of finished calls are behind: those calls are kept.
        let ahead = maps[reached..].iter().position(|passed| *passed == map);
        reached += ahead.unwrap_or_else(|| panic!("{command:?} cut in {number}: {map:?}"));
        counts.cut += 1;
        let mut names = map.folders.values().flatten();
        counts.parts += usize::from(names.any(|(name, _)| name == PART));
        counts.open += usize::from(judged.journal.is_open());
        recovered(folder, &map);
    }
    folder.write("v", volume);
    let (status, said) = cut(folder, command, groups.len() + 1);
    let line = format!("no cut: the command had only {} groups", groups.len());
    let said = said.replace("office: room was made by cleaning the root's log\n", "");
    assert_eq!(
        (status, said),
        (0, format!("office: {line}\n")),
        "{command:?}"
    );
    assert_eq!(Some(&folder.map()), maps.last(), "{command:?} run through");
    counts
}

/// Runs a command with a cut in a group; answers its exit status and what it said on standard error.
fn cut(folder: &Folder, command: &[&str], group: usize) -> (i32, String) {
    let ran = folder.office(&[command, &["--cut", &group.to_string()]].concat());
    (ran.status, ran.err)
}

/// The groups of calls by the reference, from 0.
fn groups_of(volume: &[u8], calls: &[Call]) -> Vec<Vec<Store>> {
    let mut volume = volume.to_vec();
    let mut all = Vec::new();
    for call in calls {
        let list = filled(&volume, call).expect("no call is refused");
        land(&mut volume, &list);
        all.extend(groups(&list));
    }
    all
}

/// A volume after groups, of the last of which every other store is left out.
fn landed(volume: &[u8], groups: &[Vec<Store>], count: usize) -> Vec<u8> {
    let mut volume = volume.to_vec();
    for (number, group) in (1..=count).zip(groups) {
        let step = if number == count { 2 } else { 1 };
        for &(index, value) in group.iter().step_by(step) {
            set_word(&mut volume, index, value);
        }
    }
    volume
}

/// Recovers the volume: the journal is closed, the map kept but for a part that a put left.
fn recovered(folder: &Folder, map: &FileMap) {
    folder.done(&["recover", "v"]);
    folder.done(&["check", "v"]);
    let volume = folder.read("v");
    let judged = judge(&volume).expect("accepted");
    assert!(!judged.journal.is_open());
    assert_eq!(reference::map(&judged), without_part(map));
}

/// Cuts a command of these calls in each of its groups; answers how often what was reached.
fn explore(test: &str, command: &[&str], calls: &[Call]) -> Counts {
    let folder = Folder::new(test);
    let volume = used();
    cut_everywhere(&folder, &volume, command, calls)
}

fn counts(cut: usize, open: usize, parts: usize) -> Counts {
    Counts { cut, open, parts }
}

#[test]
fn mv() {
    let plain = explore("cut-mv", &["mv", "v", "a", "z"], &[rename(b"a", b"z")]);
    assert_eq!(plain, counts(2, 0, 0));
    let over = explore("cut-mv-over", &["mv", "v", "a", "b"], &[rename(b"a", b"b")]);
    assert_eq!(over, counts(4, 2, 0));
}

#[test]
fn ln() {
    let plain = explore("cut-ln", &["ln", "v", "a", "z"], &[link(b"a", b"z")]);
    assert_eq!(plain, counts(2, 0, 0));
}

#[test]
fn rm() {
    let calls = [unlink(b"a"), unlink(b"c"), unlink(b"e"), unlink(b"d")];
    let all = explore("cut-rm", &["rm", "v", "a", "c", "e", "d"], &calls);
    assert_eq!(all, counts(4 + 2 + 4 + 4, 6, 0));
}

#[test]
fn truncate() {
    let smaller = ["truncate", "v", "c", "5500"];
    let smaller = explore("cut-truncate", &smaller, &[set_size(3, 5_500)]);
    assert_eq!(smaller, counts(2, 0, 0));
    let larger = ["truncate", "v", "b", "9"];
    let larger = explore("cut-truncate-larger", &larger, &[set_size(2, 9)]);
    assert_eq!(larger, counts(2, 0, 0));
}

#[test]
fn clean_all() {
    let calls = [clean(0), clean(1), clean(2), clean(3)];
    let all = explore("cut-clean", &["clean", "v"], &calls);
    assert_eq!(all, counts(4 * 4, 8, 0));
    let two = ["clean", "v", "c", "/"];
    let two = explore("cut-clean-two", &two, &[clean(0), clean(3)]);
    assert_eq!(two, counts(8, 4, 0));
}

/// [`used`] with the folders "f" (inode 5) and "f/g" (6), and the file "f/x" (7) of one byte.
fn with_folders() -> Vec<u8> {
    let mut volume = used();
    let calls = [
        create_folder(ROOT, b"f"),
        create_folder(5, b"g"),
        create_in(5, b"x"),
        write(7, 0, b"!"),
    ];
    for call in calls {
        done(&mut volume, &call);
    }
    volume
}

/// Cuts a command of these calls on [`with_folders`] in each of its groups.
fn explore_folders(test: &str, command: &[&str], calls: &[Call]) -> Counts {
    let folder = Folder::new(test);
    cut_everywhere(&folder, &with_folders(), command, calls)
}

#[test]
fn folders() {
    let calls = [create_folder(ROOT, b"h"), create_folder(8, b"i")];
    let made = explore_folders("cut-mkdir", &["mkdir", "v", "-p", "h/i"], &calls);
    assert_eq!(made, counts(8, 4, 0));
    let gone = explore_folders("cut-rmdir", &["rmdir", "v", "f/g"], &[unlink_in(5, b"g")]);
    assert_eq!(gone, counts(4, 2, 0));
    let calls = [unlink_in(5, b"x"), unlink_in(5, b"g"), unlink(b"f")];
    let whole = explore_folders("cut-rm-r", &["rm", "v", "-r", "f"], &calls);
    assert_eq!(whole, counts(12, 6, 0));
}

/// A move is always through the journal; one over a file has a third target.
#[test]
fn moves() {
    let moved = [rename_in(5, b"x", 6, b"x")];
    let moved = explore_folders("cut-move", &["mv", "v", "f/x", "f/g"], &moved);
    assert_eq!(moved, counts(4, 2, 0));
    let over = [rename_in(ROOT, b"b", 5, b"x")];
    let over = explore_folders("cut-move-over", &["mv", "v", "b", "f/x"], &over);
    assert_eq!(over, counts(4, 2, 0));
    let folder = [rename_in(5, b"g", ROOT, b"g")];
    let folder = explore_folders("cut-move-folder", &["mv", "v", "f/g", "/"], &folder);
    assert_eq!(folder, counts(4, 2, 0));
    let linked = [link_in(ROOT, b"a", 6, b"a")];
    let linked = explore_folders("cut-ln-folder", &["ln", "v", "a", "f/g/"], &linked);
    assert_eq!(linked, counts(2, 0, 0));
}

/// A file is put in its folder: the part stands there until it is renamed.
#[test]
fn put_into_a_folder() {
    let folder = Folder::new("cut-put-folder");
    folder.write("y", &text(600));
    let calls = [
        create_folder(6, b"h"),
        create_in(8, PART),
        write(9, 0, &text(600)),
        rename_in(8, PART, 8, b"y"),
    ];
    let command = ["put", "v", "y", "--to", "f/g/h"];
    let counts = cut_everywhere(&folder, &with_folders(), &command, &calls);
    assert_eq!(
        (counts.cut, counts.open, counts.parts),
        (4 + 4 + 2 + 2, 4, 4)
    );
}

#[test]
fn put() {
    let folder = Folder::new("cut-put");
    for (name, size, groups, open) in [("a", 9_000, 4 + 3 * 2 + 4, 4), ("new", 0, 4 + 2, 2)] {
        let counts = cut_put(&folder, &used(), name, size);
        assert_eq!((counts.cut, counts.open), (groups, open));
    }
}

/// Two of the three writes take several stretches, and each has two groups all the same.
#[test]
fn put_into_scattered_gaps() {
    let folder = Folder::with_scattered_gaps("cut-scattered");
    let volume = folder.read("v");
    let counts = cut_put(&folder, &volume, "b01", 9_000);
    assert_eq!((counts.cut, counts.open), (4 + 3 * 2 + 4, 4));
}

/// The groups of the clean come first, and keep the map.
#[test]
fn put_that_cleans() {
    let folder = Folder::new("cut-cleaning");
    let volume = tool::with_long_logs(10, 1);
    let bytes = text(1_000);
    folder.write("a", &bytes);
    let mut cleaned = volume.clone();
    done(&mut cleaned, &clean(0));
    let put = calls_of_put(&cleaned, &[(b"a".to_vec(), bytes)]);
    let calls = [vec![clean(0)], put].concat();
    let counts = cut_everywhere(&folder, &volume, &["put", "v", "a"], &calls);
    assert_eq!((counts.cut, counts.open), (4 + 4 + 2 + 4, 6));
}

/// Cuts the put of a file of this name and size in each of its groups, from a volume.
fn cut_put(folder: &Folder, volume: &[u8], name: &str, size: usize) -> Counts {
    let bytes = text(size);
    folder.write(name, &bytes);
    let calls = calls_of_put(volume, &[(name.into(), bytes.clone())]);
    let counts = cut_everywhere(folder, volume, &["put", "v", name], &calls);
    assert!(counts.parts > 0);
    for map in maps_of_calls(volume, &calls) {
        old_or_new(&map_of(volume), &map, name.as_bytes(), &bytes);
    }
    counts
}

/// Of a put that passes through a map, all other files are as before and the one put is old or new.
fn old_or_new(before: &FileMap, map: &FileMap, put: &[u8], new: &[u8]) {
    let bytes_of = |map: &FileMap, name: &[u8]| {
        let inode = map.inode_of(ROOT, name);
        inode.and_then(|inode| map.files.get(&inode).cloned())
    };
    let others = |map: &FileMap| -> Vec<(Vec<u8>, u64)> {
        let other = |name: &[u8]| name != put && name != PART;
        let mut names = map.names(ROOT).to_vec();
        names.retain(|(name, _)| other(name));
        names
    };
    assert_eq!(others(map), others(before));
    for (name, _) in others(before) {
        assert_eq!(bytes_of(map, &name), bytes_of(before, &name));
    }
    let now = bytes_of(map, put);
    assert!(now == bytes_of(before, put) || now.as_deref() == Some(new));
}

#[test]
fn put_of_a_folder() {
    let folder = Folder::new("cut-folder");
    let mut volume = used();
    // What an earlier put left goes first.
    done(&mut volume, &create(PART));
    let files = [("a", 3), ("k", 5_000), ("l", 0)].map(|(name, size)| (name.into(), text(size)));
    for (name, bytes) in &files {
        let name = String::from_utf8(Vec::clone(name)).expect("text");
        folder.write(format!("day/{name}"), bytes);
    }
    let calls = calls_of_put(&volume, &files);
    let counts = cut_everywhere(&folder, &volume, &["put", "v", "day"], &calls);
    assert_eq!(counts.cut, 4 + (4 + 2 + 4) + (4 + 4 + 2) + (4 + 2));
    assert_eq!(counts.open, 2 * 5);
}

#[test]
fn recover() {
    let folder = Folder::new("cut-recover");
    let mut volume = used();
    done(&mut volume, &create(PART));
    let list = filled(&volume, &unlink(b"a")).expect("done");
    reference::cut(&mut volume, &list, 2, |_| false);
    let calls = [Call::Recover, unlink(PART)];
    let counts = cut_everywhere(&folder, &volume, &["recover", "v"], &calls);
    assert_eq!((counts.cut, counts.open), (2 + 4, 1 + 2));
}

#[test]
fn nothing_to_change_has_no_groups() {
    let folder = Folder::new("cut-nothing");
    let volume = used();
    for command in [["mv", "v", "c", "d"], ["truncate", "v", "b", "1"]] {
        let none = cut_everywhere(&folder, &volume, &command, &[]);
        assert_eq!(none, counts(0, 0, 0));
        assert!(folder.read("v") == volume);
    }
}
