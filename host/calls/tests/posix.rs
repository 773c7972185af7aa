//! The compiled calls beside the host's own file system: the same random calls on a volume and, as open(O_CREAT|O_EXCL),
//! mkdir, link, unlink or rmdir, rename, pwrite and ftruncate, in a fresh directory.
//!
//! After each call both have the same folders, names, sizes and bytes, the same names share a file, and both have done the
//! call or refused it. A folder's total is the sum of what the host's names beneath it have. The papers are narrower than
//! POSIX in these places, where the host is not asked:
//!
//! - Refusal 5: names of 33 bytes and more. (Empty names and names with "/" or a 0 byte are no names of a
//!   directory's entries on the host either, and are left out there.)
//! - Refusals 8 and 9: writes over 4,096 bytes, files over 65,536 bytes.
//! - Refusals 10, 11, 12 and 15: no inode, a 225th name, no space, the last page kept back; the
//!   host has room.
//! - Refusal 6 for an inode: the volume has no open files, so a file or folder is named by its inode, and one without a
//!   name is gone. On the host it has a path for the call alone.
//! - Refusal 16 for a folder that is renamed onto an empty folder (order 6 of document 02: "a rename onto an existing
//!   folder"): the host lets it take that one's place.
//! - Clean and recover have no counterpart: the host's directory stays as it is, and so must the map.
//!
//! Refusals 16, 17 and 18 of order 6 are errors on the host too, but 16 is several of them: EISDIR for a folder given where
//! a file is wanted, ENOTDIR for a file given where a folder is wanted, EPERM for a link to a folder; for a rename onto a
//! folder, or of a folder onto a name, EISDIR, ENOTDIR, ENOTEMPTY or EINVAL, by what stands there and where. 17 is
//! ENOTEMPTY and 18 is EINVAL. Where a call has two faults, POSIX leaves open which is told; the papers do not.
//!
//! Unlink takes a folder away too, if it is empty. On the host that is another call, rmdir; unlink there refuses a
//! directory, and rmdir a file.
//!
//! "." and ".." as create's name, or as the new name of link or rename, are refused by both (order 5 of document
//! 02): with 5 here; there open, mkdir and link find the name taken, and rename gives EINVAL, as POSIX has it, or EBUSY, as
//! Linux does for every file system.
//!
//! Document 02 is wider than POSIX in one place: on a volume that already holds "." or "..", it is a file's or a folder's
//! name like others, and can be found, linked from, unlinked and renamed away. On the host it is a directory's own, and these
//! calls are refused.

mod compiled;

use compiled::fill;
use reference::layout::{allowed_name, ROOT};
use reference::{judge, Answer, Call, FileMap, Refusal};
use samples::{
    any_call, any_call_in_folders, any_call_with_dots, appended_entries, create, create_folder,
    create_in, done, emptied_folders, folder_moves, formatted, full_folders, give_name,
    gives_dot_name, link, link_in, map_of, marked_list, rename, rename_in, scattered, set_size,
    trees, unlink, unlink_in, write, Random, DOT_NAMES,
};
use std::collections::{BTreeMap, BTreeSet};
use std::ffi::OsStr;
use std::fs::{self, OpenOptions};
use std::io;
use std::os::unix::ffi::{OsStrExt, OsStringExt};
use std::os::unix::fs::{FileExt, MetadataExt};
use std::path::{Path, PathBuf};

/// A fresh directory of the host; it goes with the value.
struct Directory(PathBuf);

impl Directory {
    fn new(seed: u64) -> Directory {
        let name = format!("calls-posix-{}-{seed}", std::process::id());
        let path = std::env::temp_dir().join(name);
        fs::create_dir(&path).expect("a fresh directory");
        Directory(path)
    }

    /// A path of each valid inode of a volume with this map, whose root this directory is: of a folder its one, of a
    /// file that of one of its names.
    fn paths(&self, map: &FileMap) -> Paths {
        let mut paths = BTreeMap::from([(ROOT, self.0.clone())]);
        for folder in map.folders_within(ROOT) {
            let above = paths[&folder].clone();
            for (name, inode) in map.names(folder) {
                paths.insert(*inode, above.join(OsStr::from_bytes(name)));
            }
        }
        Paths(paths)
    }
}

impl Drop for Directory {
    fn drop(&mut self) {
        let _ = fs::remove_dir_all(&self.0);
    }
}

/// The host's paths of inodes.
struct Paths(BTreeMap<u64, PathBuf>);

impl Paths {
    /// The path of a valid inode.
    fn of(&self, inode: u64) -> &Path {
        let path = self.0.get(&inode);
        path.expect("the host is asked about valid inodes alone")
    }

    /// The path of a name in a folder.
    fn name(&self, folder: u64, name: &[u8]) -> PathBuf {
        self.of(folder).join(OsStr::from_bytes(name))
    }
}

/// What a name leads to.
#[derive(Debug, PartialEq, Eq)]
enum Held {
    /// A file, with its bytes.
    File(Vec<u8>),
    /// A folder, with the bytes beneath it.
    Folder { total: u64 },
}

/// What a program can tell of a tree of folders: what each path leads to, and which paths share a file.
#[derive(Debug, PartialEq, Eq)]
struct Seen {
    held: BTreeMap<Vec<u8>, Held>,
    shared: BTreeSet<BTreeSet<Vec<u8>>>,
}

impl Seen {
    /// From paths, each with a number of what it leads to.
    fn new(entries: Vec<(Vec<u8>, u64, Held)>) -> Seen {
        let mut numbers: BTreeMap<u64, BTreeSet<Vec<u8>>> = BTreeMap::new();
        let mut held = BTreeMap::new();
        for (path, number, one) in entries {
            numbers.entry(number).or_default().insert(path.clone());
            held.insert(path, one);
        }
        let shared = numbers.into_values().collect();
        Seen { held, shared }
    }

    /// Of a directory of the host.
    fn on_host(directory: &Directory) -> io::Result<Seen> {
        let mut entries = Vec::new();
        let root = directory.0.metadata()?.ino();
        let total = walk_host(&directory.0, b"", &mut entries)?;
        entries.push((Vec::new(), root, Held::Folder { total }));
        Ok(Seen::new(entries))
    }

    /// Of a volume, by the compiled reading calls.
    fn on_volume(volume: &[u8]) -> Result<Seen, Refusal> {
        let mut entries = Vec::new();
        let mut folders = vec![(Vec::new(), ROOT)];
        while let Some((path, folder)) = folders.pop() {
            let mut name = [0; 32];
            let mut k = 0;
            while let Ok(length) = calls::kth_name(volume, folder, k, &mut name) {
                let name = &name[..length as usize];
                let inode = calls::find(volume, folder, name)?;
                let path = [&path[..], b"/", name].concat();
                match calls::size(volume, inode) {
                    Ok(size) => {
                        let mut bytes = vec![0; size as usize];
                        assert_eq!(calls::read(volume, inode, 0, &mut bytes)?, size);
                        entries.push((path, inode, Held::File(bytes)));
                    }
                    Err(refusal) => {
                        assert_eq!(refusal, Refusal::WrongType);
                        folders.push((path, inode));
                    }
                }
                k += 1;
            }
            let total = calls::total(volume, folder)?;
            entries.push((path, folder, Held::Folder { total }));
        }
        Ok(Seen::new(entries))
    }
}

/// Adds what lies beneath a directory of the host, whose path in the tree this is; answers the bytes of it all.
fn walk_host(
    directory: &Path,
    path: &[u8],
    entries: &mut Vec<(Vec<u8>, u64, Held)>,
) -> io::Result<u64> {
    let mut total = 0;
    for entry in fs::read_dir(directory)? {
        let entry = entry?;
        let path = [path, b"/", &entry.file_name().into_vec()].concat();
        let about = entry.metadata()?;
        let held = if about.is_dir() {
            let beneath = walk_host(&entry.path(), &path, entries)?;
            total += beneath;
            Held::Folder { total: beneath }
        } else {
            let bytes = fs::read(entry.path())?;
            assert_eq!(about.len(), bytes.len() as u64);
            total += about.len();
            Held::File(bytes)
        };
        entries.push((path, about.ino(), held));
    }
    Ok(total)
}

/// Makes a call in the host's directory, beside a volume with this map.
fn on_host(directory: &Directory, map: &FileMap, call: &Call) -> io::Result<()> {
    let paths = directory.paths(map);
    let opened = |inode: u64| OpenOptions::new().write(true).open(paths.of(inode));
    match call {
        Call::Create { folder, name } => {
            let mut options = OpenOptions::new();
            let file = options.write(true).create_new(true);
            file.open(paths.name(*folder, name)).map(|_| ())
        }
        Call::CreateFolder { folder, name } => fs::create_dir(paths.name(*folder, name)),
        Call::Link {
            old_folder,
            old,
            new_folder,
            new,
        } => fs::hard_link(paths.name(*old_folder, old), paths.name(*new_folder, new)),
        Call::Unlink { folder, name } => {
            let path = paths.name(*folder, name);
            match leads_to_folder(map, *folder, name) {
                true => fs::remove_dir(path),
                false => fs::remove_file(path),
            }
        }
        Call::Rename {
            old_folder,
            old,
            new_folder,
            new,
        } => fs::rename(paths.name(*old_folder, old), paths.name(*new_folder, new)),
        Call::Write {
            inode,
            offset,
            bytes,
        } => opened(*inode)?.write_all_at(bytes, *offset),
        Call::SetSize { inode, size } => opened(*inode)?.set_len(*size),
        Call::Clean { .. } | Call::Recover => Ok(()),
    }
}

/// Whether a name stands in a folder and leads to a folder.
fn leads_to_folder(map: &FileMap, folder: u64, name: &[u8]) -> bool {
    let inode = map.inode_of(folder, name);
    inode.is_some_and(|inode| map.is_folder(inode))
}

/// The inodes that a call is given.
fn given_inodes(call: &Call) -> Vec<u64> {
    match call {
        Call::Create { folder, .. }
        | Call::CreateFolder { folder, .. }
        | Call::Unlink { folder, .. } => vec![*folder],
        Call::Link {
            old_folder,
            new_folder,
            ..
        }
        | Call::Rename {
            old_folder,
            new_folder,
            ..
        } => vec![*old_folder, *new_folder],
        Call::Write { inode, .. } | Call::SetSize { inode, .. } | Call::Clean { inode } => {
            vec![*inode]
        }
        Call::Recover => vec![],
    }
}

/// Whether a call names a file by an inode.
fn has_inode(call: &Call) -> bool {
    matches!(
        call,
        Call::Write { .. } | Call::SetSize { .. } | Call::Clean { .. }
    )
}

/// The host's errors for a rename from or to "." or "..".
const BUSY: &[io::ErrorKind] = &[io::ErrorKind::InvalidInput, io::ErrorKind::ResourceBusy];

/// The host's errors for a refusal that POSIX has too; none where the papers are narrower.
fn expected_errors(map: &FileMap, call: &Call, refusal: Refusal) -> Vec<io::ErrorKind> {
    let given = given_inodes(call);
    let has_path = given.iter().all(|&inode| map.is_valid(inode));
    let mut kinds = match refusal {
        _ if !has_path => return vec![],
        Refusal::NotThere if !has_inode(call) => vec![io::ErrorKind::NotFound],
        Refusal::Taken => vec![io::ErrorKind::AlreadyExists],
        Refusal::WrongType => wrong_type_errors(map, call),
        Refusal::NotEmpty => vec![io::ErrorKind::DirectoryNotEmpty],
        Refusal::IntoItself => vec![io::ErrorKind::InvalidInput],
        Refusal::BadName if gives_dot_name(call) => match call {
            Call::Create { .. } | Call::CreateFolder { .. } => vec![io::ErrorKind::AlreadyExists],
            // POSIX leaves open which of two errors comes first: the old name may be absent too
            Call::Link { old, .. } if allowed_name(old) => {
                vec![io::ErrorKind::AlreadyExists, io::ErrorKind::NotFound]
            }
            Call::Rename { old, .. } if allowed_name(old) => BUSY.to_vec(),
            _ => return vec![],
        },
        _ => return vec![],
    };
    // the same where a folder is a file
    if !has_inode(call) && given.iter().any(|&inode| !map.is_folder(inode)) {
        kinds.push(io::ErrorKind::NotADirectory);
    }
    kinds
}

/// The host's errors for what gets 16 here; none where the host does it, or where [`expected_errors`] has the error.
fn wrong_type_errors(map: &FileMap, call: &Call) -> Vec<io::ErrorKind> {
    use io::ErrorKind::{DirectoryNotEmpty, InvalidInput, IsADirectory, NotADirectory};
    match call {
        Call::Write { .. } | Call::SetSize { .. } => vec![IsADirectory],
        Call::Link {
            old_folder, old, ..
        } if leads_to_folder(map, *old_folder, old) => vec![io::ErrorKind::PermissionDenied],
        Call::Rename {
            old_folder,
            old,
            new_folder,
            new,
        } => {
            let [moved, standing] = [(old_folder, old), (new_folder, new)]
                .map(|(folder, name)| map.inode_of(*folder, name));
            let (Some(moved), Some(standing)) = (moved, standing) else {
                return vec![];
            };
            // which of two errors comes first is open, where one folder lies beneath the other
            match (map.is_folder(moved), map.is_folder(standing)) {
                (false, _) => vec![IsADirectory, DirectoryNotEmpty],
                (true, false) => vec![NotADirectory, InvalidInput],
                (true, true) if map.names(standing).is_empty() => {
                    match is_beneath(map, standing, moved) {
                        true => vec![InvalidInput],
                        false => vec![],
                    }
                }
                (true, true) => vec![DirectoryNotEmpty, InvalidInput],
            }
        }
        _ => vec![],
    }
}

/// Whether a folder lies beneath another one.
fn is_beneath(map: &FileMap, folder: u64, other: u64) -> bool {
    map.folders_within(other).contains(&folder)
}

/// How often a call was done, refused as by the host, or refused where the papers are narrower.
#[derive(Debug, Default)]
struct Counts {
    done: u64,
    /// Calls that both refused, by the refusal's number.
    both_refused: BTreeMap<u64, u64>,
    narrower: BTreeMap<u64, u64>,
    /// Calls that would have given a file the name "." or "..", of those that both refused.
    dot_names: u64,
    /// Writes that were done in several stretches of pages.
    scattered: u64,
    /// Names that went from one folder to another.
    moves: u64,
}

impl Counts {
    /// How many calls both refused.
    fn refused_by_both(&self) -> u64 {
        self.both_refused.values().sum()
    }

    /// Checks that each of these refusals was given so often at least, by both or here alone.
    #[track_caller]
    fn reached(&self, refused: &BTreeMap<u64, u64>, numbers: &[u64], times: u64) {
        for number in numbers {
            let found = refused.get(number).copied().unwrap_or(0);
            assert!(found >= times, "{number}: {found} times; {self:?}");
        }
    }
}

/// Makes a call on a volume and in a directory; then both hold the same.
fn on_both(directory: &Directory, volume: &mut [u8], call: &Call, counts: &mut Counts) {
    let map = map_of(volume);
    let mut list = marked_list(4_096);
    match fill(call, volume, &mut list) {
        Ok(count) => {
            let before = volume.to_vec();
            calls::carry_out(volume, &list, count).expect("a filled list is good");
            on_host(directory, &map, call).expect("the host does it too");
            counts.done += 1;
            if let Call::Write { inode, .. } = call {
                let entries = appended_entries(&before, volume, *inode);
                counts.scattered += u64::from(entries > 1);
            }
            if let Call::Rename {
                old_folder,
                new_folder,
                ..
            } = call
            {
                counts.moves += u64::from(count > 0 && old_folder != new_folder);
            }
        }
        Err(refusal) => match &expected_errors(&map, call, refusal)[..] {
            [] => *counts.narrower.entry(refusal.number()).or_default() += 1,
            kinds => {
                let error = on_host(directory, &map, call).expect_err("the host refuses it too");
                assert!(kinds.contains(&error.kind()), "{call:?}: {error}");
                *counts.both_refused.entry(refusal.number()).or_default() += 1;
                counts.dot_names += u64::from(gives_dot_name(call));
            }
        },
    }
    check_same(directory, volume, call);
}

/// Checks that a directory and a volume hold the same after a call.
fn check_same(directory: &Directory, volume: &[u8], call: &Call) {
    let seen = Seen::on_host(directory).expect("the directory can be read");
    assert_eq!(Seen::on_volume(volume), Ok(seen), "{call:?}");
}

/// Draws a call on a volume with so many inodes and this map.
type Draw = fn(&mut Random, u64, &FileMap) -> Call;

/// So many random calls on a volume and in a directory.
fn history(seed: u64, pages: u64, inodes: u64, length: u64, draw: Draw, counts: &mut Counts) {
    let mut random = Random::new(seed);
    let directory = Directory::new(seed);
    let mut volume = random.bytes(pages as usize * 512);
    calls::format(&mut volume, pages, inodes).expect("the sizes are allowed");
    for _ in 0..length {
        let call = draw(&mut random, inodes, &map_of(&volume));
        on_both(&directory, &mut volume, &call, counts);
    }
    judge(&volume).expect("the volume is accepted");
}

/// A directory with the folders and files that stand on a volume.
fn directory_of(seed: u64, volume: &[u8]) -> io::Result<Directory> {
    let directory = Directory::new(seed);
    let map = map_of(volume);
    let paths = directory.paths(&map);
    for folder in map.folders_within(ROOT) {
        if folder != ROOT {
            fs::create_dir(paths.of(folder))?;
        }
    }
    let mut made = BTreeMap::new();
    for folder in map.folders_within(ROOT) {
        for (name, inode) in map.names(folder) {
            let path = paths.name(folder, name);
            let Some(bytes) = map.files.get(inode) else {
                continue;
            };
            match made.get(inode) {
                Some(first) => fs::hard_link(first, &path)?,
                None => fs::write(&path, bytes)?,
            }
            made.entry(*inode).or_insert(path);
        }
    }
    Ok(directory)
}

#[test]
fn the_host_does_the_same() {
    let mut counts = Counts::default();
    for seed in 0..30 {
        history(
            seed,
            16 + 12 * (seed % 10),
            8 + 8 * (seed % 3),
            150,
            any_call,
            &mut counts,
        );
    }
    history(30, 1_000, 64, 400, any_call, &mut counts);
    assert!(
        counts.done > 2_500 && counts.refused_by_both() > 300,
        "{counts:?}"
    );
    counts.reached(&counts.narrower, &[5, 6, 8, 9, 10, 12, 15], 21);
}

/// Random calls about folders.
#[test]
fn the_host_does_the_same_in_folders() {
    let mut counts = Counts::default();
    for seed in 4_000..4_020 {
        let (pages, inodes) = (20 + 10 * (seed % 8), 8 + 8 * (seed % 4));
        history(seed, pages, inodes, 150, any_call_in_folders, &mut counts);
    }
    assert!(counts.done > 1_200 && counts.moves > 200, "{counts:?}");
    counts.reached(&counts.both_refused, &[6, 7, 16, 17, 18], 20);
    counts.reached(&counts.narrower, &[10, 16], 10);
}

/// Volumes with folders, and directories with the same: the samples' calls, one after the other; on trees of hundreds of
/// names some of them.
#[test]
fn the_host_does_the_same_with_the_samples() {
    let mut counts = Counts::default();
    let moves = folder_moves().step_by(7);
    let samples = trees()
        .into_iter()
        .chain(emptied_folders())
        .chain(full_folders());
    for (sample, seed) in samples.chain(moves).zip(4_100..) {
        let mut volume = sample.volume;
        let directory = directory_of(seed, &volume).expect("the host has room");
        let names: usize = map_of(&volume).folders.values().map(Vec::len).sum();
        let step = if names > 200 { 7 } else { 1 };
        for call in sample.calls.iter().step_by(step) {
            on_both(&directory, &mut volume, call, &mut counts);
        }
    }
    assert!(counts.done > 250 && counts.moves > 80, "{counts:?}");
    counts.reached(&counts.both_refused, &[6, 7, 16, 17, 18], 10);
    counts.reached(&counts.narrower, &[10, 11, 12, 16], 2);
}

/// Volumes with scattered free pages, and directories with the same files: the samples' writes, one after the other with
/// other calls between them.
#[test]
fn the_host_does_the_same_as_scattered_writes() {
    let mut counts = Counts::default();
    for (sample, seed) in scattered().step_by(29).zip(1_000..) {
        let mut random = Random::new(seed);
        let mut volume = sample.volume;
        let inodes = judge(&volume).expect("accepted").sizes.inodes();
        let directory = directory_of(seed, &volume).expect("the host has room");
        for call in &sample.writes {
            on_both(&directory, &mut volume, call, &mut counts);
            let other = any_call(&mut random, inodes, &map_of(&volume));
            on_both(&directory, &mut volume, &other, &mut counts);
        }
    }
    assert!(counts.done > 1_000 && counts.scattered > 100, "{counts:?}");
}

/// Random calls of which many would give a file the name "." or "..", or one like these.
#[test]
fn the_host_refuses_the_same_names() {
    let mut counts = Counts::default();
    for seed in 2_000..2_020 {
        history(seed, 60, 16, 100, any_call_with_dots, &mut counts);
    }
    assert!(counts.done > 700 && counts.dot_names > 100, "{counts:?}");
}

/// A volume and a directory with the file "a".
fn with_one_file(seed: u64) -> (Vec<u8>, Directory) {
    let mut volume = formatted(16, 8);
    for call in [create(b"a"), write(1, 0, b"text")] {
        done(&mut volume, &call);
    }
    let directory = directory_of(seed, &volume).expect("the host has room");
    (volume, directory)
}

/// Checks what a call answers compiled, and that the host refuses it with one of these errors.
fn check_answers(
    volume: &[u8],
    directory: &Directory,
    call: &Call,
    expected: Answer,
    kinds: &[io::ErrorKind],
) {
    let answer = fill(call, volume, &mut marked_list(4_096));
    assert_eq!(answer, expected, "{call:?}");
    let error = on_host(directory, &map_of(volume), call).expect_err("the host refuses it");
    assert!(kinds.contains(&error.kind()), "{call:?}: {error}");
}

/// "." and ".." as new names: 5 here, an error there, and nothing moves. "..." and ".a" are names like others.
#[test]
fn new_names_of_full_stops() {
    let bad_name = Err(Refusal::BadName);
    let taken = &[io::ErrorKind::AlreadyExists][..];
    for (name, number) in DOT_NAMES.into_iter().zip(3_000..) {
        let (volume, directory) = with_one_file(number);
        for (call, kinds) in [
            (create(name), taken),
            (create_folder(ROOT, name), taken),
            (link(b"a", name), taken),
            (rename(b"a", name), BUSY),
            (rename(name, name), BUSY),
        ] {
            check_answers(&volume, &directory, &call, bad_name, kinds);
            check_same(&directory, &volume, &call);
        }
    }
    let mut counts = Counts::default();
    for (name, number) in [&b"..."[..], b".a"].into_iter().zip(3_010..) {
        let (mut volume, directory) = with_one_file(number);
        for call in [
            create(name),
            unlink(name),
            link(b"a", name),
            unlink(name),
            rename(b"a", name),
            rename(name, b"a"),
        ] {
            on_both(&directory, &mut volume, &call, &mut counts);
        }
    }
    assert_eq!(
        (counts.done, counts.refused_by_both()),
        (12, 0),
        "{counts:?}"
    );
}

/// A volume that holds "." or "..": it can be linked from, unlinked and renamed away, and the host refuses to.
#[test]
fn old_names_of_full_stops() {
    let no_file = &[io::ErrorKind::PermissionDenied, io::ErrorKind::IsADirectory][..];
    for (name, number) in DOT_NAMES.into_iter().zip(3_020..) {
        let (mut volume, directory) = with_one_file(number);
        give_name(&mut volume, b"a", name);
        for (call, words, kinds) in [
            (link(name, b"b"), 22, no_file),
            (unlink(name), 40, no_file),
            (rename(name, b"b"), 38, BUSY),
        ] {
            check_answers(&volume, &directory, &call, Ok(words), kinds);
        }
    }
}

/// A volume and a directory with folders: in inode 0 the folders "empty" (1) and "full" (2) and the file "a" (3); in "full"
/// the file "b" (4) and the empty folder "sub" (5).
fn with_folders(seed: u64) -> (Vec<u8>, Directory) {
    let mut volume = formatted(24, 8);
    for call in [
        create_folder(ROOT, b"empty"),
        create_folder(ROOT, b"full"),
        create(b"a"),
        create_in(2, b"b"),
        create_folder(2, b"sub"),
    ] {
        done(&mut volume, &call);
    }
    let directory = directory_of(seed, &volume).expect("the host has room");
    (volume, directory)
}

/// The refusals of order 6, each beside the host's error.
#[test]
fn refusals_of_folders() {
    use io::ErrorKind::{
        DirectoryNotEmpty, InvalidInput, IsADirectory, NotADirectory, PermissionDenied,
    };
    let (volume, directory) = with_folders(4_300);
    let wrong_type = [
        // a folder given where a file is wanted, and a file where a folder is wanted
        (write(1, 0, b"x"), IsADirectory),
        (set_size(2, 0), IsADirectory),
        (create_in(3, b"new"), NotADirectory),
        (create_folder(3, b"new"), NotADirectory),
        (unlink_in(3, b"b"), NotADirectory),
        (link_in(3, b"b", ROOT, b"new"), NotADirectory),
        (rename_in(ROOT, b"a", 3, b"a"), NotADirectory),
        // a link to a folder: POSIX has EPERM for it
        (link_in(ROOT, b"empty", 2, b"new"), PermissionDenied),
        // a rename onto a folder, and of a folder onto a name
        (rename_in(ROOT, b"a", ROOT, b"empty"), IsADirectory),
        (rename_in(ROOT, b"empty", ROOT, b"a"), NotADirectory),
        (rename_in(ROOT, b"empty", ROOT, b"full"), DirectoryNotEmpty),
        (rename_in(ROOT, b"full", 2, b"sub"), InvalidInput),
    ];
    let not_empty = [(unlink(b"full"), DirectoryNotEmpty)];
    let into_itself = [
        (rename_in(ROOT, b"full", 2, b"new"), InvalidInput),
        (rename_in(ROOT, b"full", 5, b"new"), InvalidInput),
    ];
    for (refusal, rows) in [
        (Refusal::WrongType, &wrong_type[..]),
        (Refusal::NotEmpty, &not_empty),
        (Refusal::IntoItself, &into_itself),
    ] {
        for (call, kind) in rows {
            check_answers(&volume, &directory, call, Err(refusal), &[*kind]);
            check_same(&directory, &volume, call);
        }
    }
}

/// What the host does and order 6 refuses: a folder may take an empty folder's place there, and here gets 16. And what the
/// host takes two calls for: unlink refuses a directory and rmdir a file there, and here unlink takes both.
#[test]
fn where_the_host_differs() {
    for (old_folder, old, new_folder, new) in [
        (ROOT, &b"full"[..], ROOT, &b"empty"[..]),
        (2, b"sub", ROOT, b"empty"),
        (ROOT, b"empty", 2, b"sub"),
    ] {
        let (volume, directory) = with_folders(4_310 + new_folder + old_folder * 4);
        let call = rename_in(old_folder, old, new_folder, new);
        let answer = fill(&call, &volume, &mut marked_list(4_096));
        assert_eq!(answer, Err(Refusal::WrongType), "{call:?}");
        let map = map_of(&volume);
        assert_eq!(expected_errors(&map, &call, Refusal::WrongType), []);
        on_host(&directory, &map, &call).expect("the host does it");
        let seen = Seen::on_host(&directory).expect("the directory can be read");
        assert_ne!(Seen::on_volume(&volume), Ok(seen), "{call:?}");
    }
    let (mut volume, directory) = with_folders(4_320);
    let paths = directory.paths(&map_of(&volume));
    let unlinked = fs::remove_file(paths.of(1)).expect_err("unlink refuses a directory");
    let kinds = [io::ErrorKind::IsADirectory, io::ErrorKind::PermissionDenied];
    assert!(kinds.contains(&unlinked.kind()), "{unlinked}");
    let removed = fs::remove_dir(paths.of(3)).expect_err("rmdir refuses a file");
    assert_eq!(removed.kind(), io::ErrorKind::NotADirectory);
    let mut counts = Counts::default();
    for call in [unlink(b"empty"), unlink(b"a")] {
        on_both(&directory, &mut volume, &call, &mut counts);
    }
    assert_eq!(counts.done, 2);
}
