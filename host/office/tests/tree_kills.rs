//! A tree of 184 files in eight folders, put, moved, linked and removed by commands that are killed at random moments.
//!
//! A killed process is a power cut. After each kill and the recovery that follows, the tree is one that the command
//! passes through, and after a command that ended, the one that it leaves: so every finished command is kept.

mod tool;

use calls::layout::ROOT;
use office::commands::PART;
use reference::random::Random;
use reference::{judge, FileMap};
use std::collections::BTreeMap;
use std::fs;
use std::time::{Duration, Instant};
use tool::{run_killed, Folder};

/// How often the put of the whole tree is killed, and how many commands on it are killed after that.
const PUTS: u64 = 6;
const ROUNDS: u64 = 80;
/// The folders of the host's tree, with so many files each.
const FOLDERS: [&str; 8] = [
    "north",
    "north/week1",
    "north/week2",
    "south",
    "south/week1",
    "south/week1/tents",
    "east",
    "west",
];
const FILES: usize = 23;
/// From so many names on nothing is added, so that inodes are left.
const MANY: usize = 220;
/// The kinds of commands; puts are killed more often than others.
const KINDS: [&str; 8] = [
    "put",
    "put",
    "mv",
    "move folder",
    "ln",
    "rm -r",
    "mkdir",
    "clean",
];

/// What a volume holds, by path: a file's bytes, or none for a folder.
type Tree = BTreeMap<String, Option<Vec<u8>>>;

/// What a command does to a tree, one step after another.
enum Step {
    Set(String, Option<Vec<u8>>),
    Remove(String),
    /// A name and all that is beneath it gets another path.
    Move(String, String),
}

/// A command, and what it does.
struct Planned {
    arguments: Vec<String>,
    steps: Vec<Step>,
}

/// How often things were reached.
#[derive(Debug, Default)]
struct Counts {
    killed: u64,
    ended: u64,
    /// Killed commands that left the tree from before them, one from their midst, the one from after them.
    trees: [u64; 3],
    open: u64,
    parts: u64,
}

/// The tree of a map, without the part that a killed put left.
fn tree_of(map: &FileMap) -> Tree {
    let mut tree = Tree::new();
    add_names(&mut tree, map, ROOT, "");
    tree
}

fn add_names(tree: &mut Tree, map: &FileMap, folder: u64, start: &str) {
    for (name, inode) in map.names(folder).iter().filter(|(name, _)| name != PART) {
        let path = format!("{start}{}", String::from_utf8_lossy(name));
        tree.insert(path.clone(), map.files.get(inode).cloned());
        if map.is_folder(*inode) {
            add_names(tree, map, *inode, &format!("{path}/"));
        }
    }
}

/// Whether a path is another or lies beneath it.
fn is_within(path: &str, other: &str) -> bool {
    path == other
        || path
            .strip_prefix(other)
            .is_some_and(|rest| rest.starts_with('/'))
}

fn apply(tree: &mut Tree, step: &Step) {
    match step {
        Step::Set(path, bytes) => {
            tree.insert(path.clone(), bytes.clone());
        }
        Step::Remove(path) => {
            tree.remove(path);
        }
        Step::Move(old, new) => {
            let moved: Vec<String> = tree
                .keys()
                .filter(|path| is_within(path, old))
                .cloned()
                .collect();
            for path in moved {
                let value = tree.remove(&path).expect("it stands");
                tree.insert(format!("{new}{}", &path[old.len()..]), value);
            }
        }
    }
}

#[test]
fn a_tree_survives_kills() {
    let folder = Folder::with_volume("tree-kills", 2_048, 256);
    let mut random = Random::new(6);
    let mut counts = Counts::default();
    for place in FOLDERS {
        write_files(&folder, &mut random, place);
    }
    put_until_it_ends(&folder, &mut random, &mut counts);
    let usual: Vec<Duration> = KINDS
        .iter()
        .map(|kind| usual_time(&folder, &mut random, kind))
        .collect();
    for _ in 0..ROUNDS {
        let kind = random.below(KINDS.len() as u64) as usize;
        let planned = plan(&folder, &mut random, KINDS[kind]);
        check_killed(&folder, &mut random, &planned, usual[kind], &mut counts);
    }
    println!("{PUTS} puts and {ROUNDS} commands, usual times {usual:?}: {counts:?}");
    assert!(counts.killed >= 20 && counts.trees[1] >= 2, "{counts:?}");
    assert!(
        tree_of(&folder.map()).len() > 100,
        "most of the tree stands"
    );
}

/// The put of the whole tree is killed again and again; run once more, it puts all of it.
fn put_until_it_ends(folder: &Folder, random: &mut Random, counts: &mut Counts) {
    let empty = folder.read("v");
    let start = Instant::now();
    folder.done(&["put", "v", "day/west"]);
    let usual = start.elapsed() * FOLDERS.len() as u32;
    folder.write("v", &empty);
    for _ in 0..PUTS {
        let planned = put(folder, "", "day");
        check_killed(folder, random, &planned, usual, counts);
    }
    let planned = put(folder, "", "day");
    run_through(folder, &planned);
    folder.done(&["get", "v", "--all", "evening"]);
    for place in FOLDERS {
        for name in folder.names(format!("day/{place}")) {
            let (went, came) = (
                format!("day/{place}/{name}"),
                format!("evening/{place}/{name}"),
            );
            if folder.join(&went).is_file() {
                assert!(folder.read(&went) == folder.read(&came), "{went}");
            }
        }
    }
}

/// Writes the files of a folder of the host's tree, with new bytes.
fn write_files(folder: &Folder, random: &mut Random, place: &str) {
    for number in 0..FILES {
        let size = random.below(1_500) as usize;
        folder.write(format!("day/{place}/f{number:02}"), &random.bytes(size));
    }
}

/// Runs a command to its end; the tree is then the one that it leaves.
fn run_through(folder: &Folder, planned: &Planned) {
    let mut tree = tree_of(&folder.map());
    let ran = folder.office(&planned.arguments);
    assert_eq!(
        (ran.status, ran.err.as_str()),
        (0, ""),
        "{:?}",
        planned.arguments
    );
    planned.steps.iter().for_each(|step| apply(&mut tree, step));
    assert!(tree_of(&folder.map()) == tree, "{:?}", planned.arguments);
}

/// How long commands of a kind take that are not killed.
fn usual_time(folder: &Folder, random: &mut Random, kind: &str) -> Duration {
    let start = Instant::now();
    for _ in 0..2 {
        run_through(folder, &plan(folder, random, kind));
    }
    start.elapsed() / 2
}

/// Kills a command, recovers, and checks that the tree is one that the command passes through; if it ended before, the
/// one that it leaves.
fn check_killed(
    folder: &Folder,
    random: &mut Random,
    planned: &Planned,
    usual: Duration,
    counts: &mut Counts,
) {
    let mut tree = tree_of(&folder.map());
    let killed = run_killed(folder, random, &planned.arguments, usual);
    let volume = folder.read("v");
    let judged = judge(&volume).expect("the volume is accepted");
    let names = judged.folders.values().flatten();
    counts.open += u64::from(judged.journal.is_open());
    counts.parts += names.filter(|(name, _)| *name == PART).count() as u64;
    folder.done(&["recover", "v"]);
    folder.done(&["check", "v"]);
    let map = folder.map();
    assert!(!map.folders.values().flatten().any(|(name, _)| name == PART));
    let left = tree_of(&map);
    let mut step = 0;
    while tree != left || (!killed && step < planned.steps.len()) {
        let next = planned.steps.get(step);
        let next = next.unwrap_or_else(|| panic!("{:?}: no tree on its way", planned.arguments));
        apply(&mut tree, next);
        step += 1;
    }
    if killed {
        counts.killed += 1;
        let midst = step > 0 && step < planned.steps.len();
        counts.trees[if midst { 1 } else { step.min(1) * 2 }] += 1;
    } else {
        counts.ended += 1;
    }
}

/// A random command of a kind for the tree as it is.
fn plan(folder: &Folder, random: &mut Random, kind: &str) -> Planned {
    let tree = tree_of(&folder.map());
    let folders: Vec<&String> = paths(&tree, true);
    let files: Vec<&String> = paths(&tree, false);
    let [one, other] = [0, 1].map(|_| random.choose(&folders).expect("a folder").as_str());
    let file = random.choose(&files).expect("a file").as_str();
    let fresh = format!("n{}", random.below(1_000_000));
    match kind {
        "put" | "ln" | "mkdir" if tree.len() > MANY => remove_few(folder, &tree, one, file),
        "put" => {
            let place = *random.choose(&FOLDERS[5..]).expect("a folder");
            write_files(folder, random, place);
            put(folder, place, &format!("day/{place}"))
        }
        "mv" => {
            let name = file.rsplit('/').next().expect("a name");
            let new = format!("{other}/{name}");
            match tree.get(&new) {
                Some(None) => rename(file, &format!("{other}/{fresh}")),
                _ => into(file, other, &new),
            }
        }
        "move folder" if is_within(other, one) => rename(one, &fresh),
        "move folder" => rename(one, &format!("{other}/{fresh}")),
        "ln" => {
            let new = format!("{other}/{fresh}");
            Planned {
                arguments: words(&["ln", "v", file, &new]),
                steps: vec![Step::Set(new, tree[file].clone())],
            }
        }
        "rm -r" => remove_few(folder, &tree, one, file),
        "mkdir" => Planned {
            arguments: words(&["mkdir", "v", "-p", &format!("{one}/{fresh}/in")]),
            steps: vec![
                Step::Set(format!("{one}/{fresh}"), None),
                Step::Set(format!("{one}/{fresh}/in"), None),
            ],
        },
        _ => Planned {
            arguments: words(&["clean", "v", one, file, "/"]),
            steps: Vec::new(),
        },
    }
}

/// The paths of the folders of a tree, or of its files.
fn paths(tree: &Tree, folders: bool) -> Vec<&String> {
    let names = tree.iter().filter(|(_, bytes)| bytes.is_none() == folders);
    names.map(|(path, _)| path).collect()
}

fn words(words: &[&str]) -> Vec<String> {
    words.iter().map(|word| word.to_string()).collect()
}

fn rename(old: &str, new: &str) -> Planned {
    Planned {
        arguments: words(&["mv", "v", old, new]),
        steps: vec![Step::Move(old.into(), new.into())],
    }
}

/// The move of a file into a folder.
fn into(old: &str, folder: &str, new: &str) -> Planned {
    Planned {
        arguments: words(&["mv", "v", old, folder]),
        steps: vec![Step::Move(old.into(), new.into())],
    }
}

/// The removal of a folder of at most eight names with all that is in it, or else of a file.
fn remove_few(folder: &Folder, tree: &Tree, place: &str, file: &str) -> Planned {
    let few = tree.keys().filter(|path| is_within(path, place)).count() <= 9;
    let path = if few { place } else { file };
    let map = folder.map();
    let mut order = Vec::new();
    list_order(&map, ROOT, "", &mut order);
    let gone = order.into_iter().rev().filter(|name| is_within(name, path));
    Planned {
        arguments: words(&["rm", "v", "-r", path]),
        steps: gone.map(Step::Remove).collect(),
    }
}

/// The paths of a map in list order, a folder before what is in it.
fn list_order(map: &FileMap, folder: u64, start: &str, order: &mut Vec<String>) {
    for (name, inode) in map.names(folder) {
        let path = format!("{start}{}", String::from_utf8_lossy(name));
        order.push(path.clone());
        list_order(map, *inode, &format!("{path}/"), order);
    }
}

/// The put of what is in a folder of the host into a folder of the volume.
fn put(folder: &Folder, to: &str, source: &str) -> Planned {
    let standing = tree_of(&folder.map());
    let mut steps = Vec::new();
    let parts: Vec<&str> = to.split('/').filter(|part| !part.is_empty()).collect();
    for count in 1..=parts.len() {
        steps.push(Step::Set(parts[..count].join("/"), None));
    }
    let start = if to.is_empty() {
        String::new()
    } else {
        format!("{to}/")
    };
    put_within(folder, source, &start, &mut steps);
    steps.retain(|step| !matches!(step, Step::Set(path, None) if standing.contains_key(path)));
    let to = if to.is_empty() { "/" } else { to };
    Planned {
        arguments: words(&["put", "v", source, "--to", to]),
        steps,
    }
}

fn put_within(folder: &Folder, source: &str, start: &str, steps: &mut Vec<Step>) {
    for name in folder.names(source) {
        let (from, path) = (format!("{source}/{name}"), format!("{start}{name}"));
        match fs::read(folder.join(&from)) {
            Ok(bytes) => steps.push(Step::Set(path, Some(bytes))),
            Err(_) => {
                steps.push(Step::Set(path.clone(), None));
                put_within(folder, &from, &format!("{path}/"), steps);
            }
        }
    }
}
