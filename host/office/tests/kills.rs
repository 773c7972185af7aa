//! Commands killed at random moments: a killed process is a power cut.
//!
//! A volume goes through hundreds of commands, each killed (SIGKILL) after a random part of the time that its kind
//! usually takes. After each the file is accepted, its map is one that the command passes through, recover and check
//! are done, and the next command goes on from there.

mod tool;

use calls::layout::ROOT;
use office::commands::PART;
use reference::random::Random;
use reference::{judge, Call, FileMap};
use samples::{clean, done, link, map_of, rename, set_size, unlink};
use std::fs;
use std::time::{Duration, Instant};
use tool::{calls_of_put, maps_of_calls, run_killed, with_long_logs, without_part, Folder};

/// How many commands are killed, besides the recoveries.
const ROUNDS: u64 = 400;
/// The names that files have.
const NAMES: [&str; 9] = [
    "a",
    "b",
    "c",
    "d",
    "e",
    "f",
    "g",
    "h",
    "a longer name with 32 bytes.....",
];
/// The kinds of commands.
const KINDS: [&str; 8] = [
    "put", "folder", "mv", "ln", "rm", "truncate", "clean", "recover",
];

/// How often things were reached.
#[derive(Debug, Default)]
struct Counts {
    /// Commands that the signal ended.
    killed: u64,
    /// Commands that were done or refused before it came.
    ended: u64,
    /// Killed commands that left the map from before them, one from their midst, the one from after them.
    maps: [u64; 3],
    /// Killed commands that left the journal open, other than recoveries.
    open: u64,
    /// Killed puts that left a part.
    parts: u64,
    /// Recoveries that the signal ended.
    recoveries: u64,
}

/// A command and the maps that it passes through, the one before it first.
struct Planned {
    arguments: Vec<String>,
    maps: Vec<FileMap>,
}

#[test]
fn killed_commands() {
    // So large that every command has room.
    let folder = Folder::with_volume("kills", 512, 16);
    let mut random = Random::new(41);
    let usual: Vec<Duration> = KINDS
        .iter()
        .map(|kind| usual_time(&folder, &mut random, kind))
        .collect();
    let mut counts = Counts::default();
    for _ in 0..ROUNDS {
        let kind = random.below(KINDS.len() as u64) as usize;
        let planned = plan(&folder, &mut random, KINDS[kind]);
        let killed = run_killed(&folder, &mut random, &planned.arguments, usual[kind]);
        let map = check_map(&folder, &planned, killed, &mut counts);
        recover(&folder, &mut random, &map, usual[7], &mut counts);
    }
    println!("{ROUNDS} commands, usual times {usual:?}: {counts:?}");
    assert!(counts.killed >= 50, "{counts:?}");
    // Where storing takes most of the time, kills must have met it. Of 400 some 10 to 35 leave the journal open, as the disk is.
    if usual[0] > 5 * time_without_stores(&folder) {
        assert!(counts.open >= 2 && counts.parts >= 2, "{counts:?}");
        assert!(counts.recoveries >= 5, "{counts:?}");
        assert!(counts.maps[0] >= 5 && counts.maps[1] >= 5, "{counts:?}");
    }
}

/// How long a command takes that stores nothing.
fn time_without_stores(folder: &Folder) -> Duration {
    let start = Instant::now();
    for _ in 0..4 {
        folder.done(&["check", "v"]);
    }
    start.elapsed() / 4
}

/// How long commands of a kind take that are not killed.
fn usual_time(folder: &Folder, random: &mut Random, kind: &str) -> Duration {
    let mut all = Duration::ZERO;
    for _ in 0..4 {
        let planned = plan(folder, random, kind);
        let start = Instant::now();
        let ran = folder.office(&planned.arguments);
        all += start.elapsed();
        assert!(ran.status < 2, "{:?}: {ran:?}", planned.arguments);
        assert_eq!(Some(&folder.map()), planned.maps.last());
    }
    all / 4
}

/// The map that a command left must be one that it passes through, and the last if it was not killed.
fn check_map(folder: &Folder, planned: &Planned, killed: bool, counts: &mut Counts) -> FileMap {
    let volume = folder.read("v");
    let judged = judge(&volume).expect("the volume is accepted");
    let map = reference::map(&judged);
    let (arguments, maps) = (&planned.arguments, &planned.maps);
    if !killed {
        counts.ended += 1;
        assert_eq!(Some(&map), maps.last(), "{arguments:?} ended");
        return map;
    }
    counts.killed += 1;
    if arguments[0] == "recover" {
        counts.recoveries += 1;
    } else {
        counts.open += u64::from(judged.journal.is_open());
    }
    counts.parts += u64::from(map.inode_of(ROOT, PART).is_some());
    if maps.len() > 1 {
        let place = maps.iter().position(|passed| *passed == map);
        let place = place.unwrap_or_else(|| panic!("{arguments:?} killed: {map:?}"));
        let midst = place > 0 && place < maps.len() - 1;
        counts.maps[if midst { 1 } else { place.min(1) * 2 }] += 1;
    } else {
        assert_eq!(map, maps[0], "{arguments:?} killed");
    }
    map
}

/// Recovers, after recoveries that are killed where the journal is open; the map stays but for a part that a put left.
fn recover(
    folder: &Folder,
    random: &mut Random,
    map: &FileMap,
    usual: Duration,
    counts: &mut Counts,
) {
    let open = judge(&folder.read("v"))
        .expect("accepted")
        .journal
        .is_open();
    for _ in 0..if open { 3 } else { 0 } {
        let killed = run_killed(folder, random, &words(&["recover", "v"]), usual);
        counts.recoveries += u64::from(killed);
        let left = folder.map();
        assert!(left == *map || left == without_part(map), "recover killed");
    }
    folder.done(&["recover", "v"]);
    let volume = folder.read("v");
    let judged = judge(&volume).expect("accepted");
    assert!(!judged.journal.is_open());
    assert_eq!(reference::map(&judged), without_part(map), "recovered");
    folder.done(&["check", "v"]);
}

/// A random command of a kind for the volume as it is. Where no name stands it is a put.
fn plan(folder: &Folder, random: &mut Random, kind: &str) -> Planned {
    let volume = folder.read("v");
    let map = map_of(&volume);
    let standing: Vec<String> = map
        .names(ROOT)
        .iter()
        .map(|(name, _)| String::from_utf8(name.clone()).expect("text"))
        .collect();
    let Some(old) = random.choose(&standing).cloned() else {
        return put(folder, random, &volume);
    };
    let new = random.choose(&NAMES).expect("a name").to_string();
    let calls = |arguments: &[&str], calls: &[Call]| Planned {
        arguments: words(arguments),
        maps: maps_of_calls(&volume, calls),
    };
    match kind {
        "put" => put(folder, random, &volume),
        "folder" => put_folder(folder, random, &volume),
        "mv" => calls(
            &["mv", "v", &old, &new],
            &[rename(old.as_bytes(), new.as_bytes())],
        ),
        "ln" => calls(
            &["ln", "v", &old, &new],
            &[link(old.as_bytes(), new.as_bytes())],
        ),
        "rm" => rm(&standing, random, &volume),
        "truncate" => {
            let inode = map.inode_of(ROOT, old.as_bytes()).expect("it stands");
            let size = random.below(20_000);
            let arguments = ["truncate", "v", &old, &size.to_string()];
            calls(&arguments, &[set_size(inode, size)])
        }
        "clean" => {
            let arguments: &[&str] = match random.below(3) {
                0 => &["clean", "v", "/"],
                1 => &["clean", "v", &old],
                _ => &["clean", "v"],
            };
            calls(arguments, &[clean(0)])
        }
        _ => recover_open(folder, random, &old),
    }
}

fn words(words: &[&str]) -> Vec<String> {
    words.iter().map(|word| word.to_string()).collect()
}

/// A put of one file of the host.
fn put(folder: &Folder, random: &mut Random, volume: &[u8]) -> Planned {
    let name = *random.choose(&NAMES).expect("a name");
    let size = random.below(12_000) as usize;
    let bytes = random.bytes(size);
    folder.write(name, &bytes);
    Planned {
        arguments: words(&["put", "v", name]),
        maps: maps_of_calls(volume, &calls_of_put(volume, &[(name.into(), bytes)])),
    }
}

/// A put of a folder with three files.
fn put_folder(folder: &Folder, random: &mut Random, volume: &[u8]) -> Planned {
    let _ = fs::remove_dir_all(folder.join("day"));
    let first = random.below(NAMES.len() as u64 - 2) as usize;
    let mut files: Vec<(Vec<u8>, Vec<u8>)> = Vec::new();
    for name in &NAMES[first..first + 3] {
        let size = random.below(5_000) as usize;
        let bytes = random.bytes(size);
        folder.write(format!("day/{name}"), &bytes);
        files.push((name.as_bytes().to_vec(), bytes));
    }
    files.sort();
    Planned {
        arguments: words(&["put", "v", "day"]),
        maps: maps_of_calls(volume, &calls_of_put(volume, &files)),
    }
}

/// The removal of the first names that stand, one to three.
fn rm(standing: &[String], random: &mut Random, volume: &[u8]) -> Planned {
    let names = &standing[..standing.len().min(random.between(1, 3) as usize)];
    let calls: Vec<Call> = names.iter().map(|name| unlink(name.as_bytes())).collect();
    let mut maps = maps_of_calls(volume, &calls);
    if maps.len() <= calls.len() {
        maps.truncate(1); // one was refused, so none is removed
    }
    let arguments = [words(&["rm", "v"]), names.to_vec()].concat();
    Planned { arguments, maps }
}

/// A recovery of a volume whose journal a rehearsed cut left open.
fn recover_open(folder: &Folder, random: &mut Random, old: &str) -> Planned {
    folder.write("x", b"text");
    let cut = match random.below(3) {
        0 => ["put", "v", "x", "--cut", "2"].as_slice(),
        1 => &["put", "v", "x", "--cut", "3"],
        _ => &["clean", "v", old, "--cut", "3"],
    };
    folder.office(cut);
    let volume = folder.read("v");
    Planned {
        arguments: words(&["recover", "v"]),
        maps: maps_of_calls(&volume, &[Call::Recover]),
    }
}

/// A put that cleans the root's log first leaves the old file or the new too, and all others.
#[test]
fn killed_puts_that_clean() {
    let folder = Folder::new("kills-cleaning");
    let mut random = Random::new(42);
    let volume = with_long_logs(10, 1);
    let bytes = random.bytes(3_000);
    folder.write("a", &bytes);
    let mut cleaned = volume.clone();
    done(&mut cleaned, &clean(0));
    let planned = Planned {
        arguments: words(&["put", "v", "a"]),
        maps: maps_of_calls(&cleaned, &calls_of_put(&cleaned, &[(b"a".to_vec(), bytes)])),
    };
    folder.write("v", &volume);
    let start = Instant::now();
    assert_eq!(folder.office(&planned.arguments).status, 0);
    let usual = start.elapsed();
    let mut counts = Counts::default();
    for _ in 0..60 {
        folder.write("v", &volume);
        let killed = run_killed(&folder, &mut random, &planned.arguments, usual);
        let map = check_map(&folder, &planned, killed, &mut counts);
        recover(&folder, &mut random, &map, usual, &mut counts);
    }
    println!("60 puts: {counts:?}");
    assert!(counts.killed >= 5, "{counts:?}");
}

/// A killed format leaves the old file or the new.
#[test]
fn killed_formats() {
    let folder = Folder::with_volume("kills-format", 256, 16);
    let mut random = Random::new(43);
    let format = words(&["format", "v", "--force"]);
    let start = Instant::now();
    folder.done(&format);
    let usual = start.elapsed();
    let new = folder.read("v");
    let old = samples::formatted(64, 8);
    let mut left = [0, 0];
    for _ in 0..60 {
        folder.write("v", &old);
        run_killed(&folder, &mut random, &format, usual);
        let bytes = folder.read("v");
        assert!(bytes == old || bytes == new);
        left[usize::from(bytes == new)] += 1;
    }
    println!("60 formats: {left:?} left the old file and the new");
    assert!(left[0] > 0, "{left:?}");
}
