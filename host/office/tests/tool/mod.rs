//! The built tool, run in a folder of the test's own; and the file maps that its commands pass through.
#![allow(dead_code)]

use calls::layout::ROOT;
use office::commands::PART;
use reference::layout::WRITE_LIMIT;
use reference::random::Random;
use reference::{judge, Call, FileMap};
use samples::{create, done, map_of, rename, run, set_size, text, unlink, write};
use std::ffi::OsStr;
use std::fs;
use std::io::Write;
use std::os::unix::process::ExitStatusExt;
use std::path::{Path, PathBuf};
use std::process::{Child, Command, Output, Stdio};
use std::time::{Duration, Instant};

/// A folder that goes when the test ends.
pub struct Folder {
    pub path: PathBuf,
}

impl Folder {
    /// An empty folder for the test of this name.
    pub fn new(test: &str) -> Folder {
        let name = format!("{test}-{}", std::process::id());
        let path = Path::new(env!("CARGO_TARGET_TMPDIR")).join(name);
        let _ = fs::remove_dir_all(&path);
        fs::create_dir_all(&path).expect("a folder for the test");
        Folder { path }
    }

    /// A folder with a formatted volume "v" of these sizes.
    pub fn with_volume(test: &str, pages: u64, inodes: u64) -> Folder {
        let folder = Folder::new(test);
        folder.write("v", &samples::formatted(pages, inodes));
        folder
    }

    /// A folder with a volume "v" of 64 pages and 32 inodes on which no three free pages lie side by
    /// side: 24 files of one page, "b00" to "b23", filled it, by the calls alone, and every second
    /// one of them, from "b00" on, is removed.
    pub fn with_scattered_gaps(test: &str) -> Folder {
        let mut volume = samples::formatted(64, 32);
        let names: Vec<String> = (0..24).map(|number| format!("b{number:02}")).collect();
        let files = names
            .iter()
            .map(|name| (name.clone().into(), name.clone().into()));
        let calls = calls_of_put(&volume, &files.collect::<Vec<_>>());
        for call in &calls {
            done(&mut volume, call);
        }
        let folder = Folder::new(test);
        folder.write("v", &volume);
        folder.says(
            &["check", "v"],
            "accepted: 24 names, 0 free pages, journal closed\n",
        );
        let second = names.iter().step_by(2).map(String::as_str);
        let remove: Vec<&str> = ["rm", "v"].into_iter().chain(second).collect();
        folder.says(&remove, "");
        folder
    }

    /// The path of a file in the folder.
    pub fn join(&self, name: impl AsRef<Path>) -> PathBuf {
        self.path.join(name)
    }

    /// Writes a file.
    pub fn write(&self, name: impl AsRef<Path>, bytes: &[u8]) {
        let path = self.join(name);
        fs::create_dir_all(path.parent().expect("a folder")).expect("a folder");
        fs::write(path, bytes).expect("a file is written");
    }

    /// A file's bytes.
    pub fn read(&self, name: impl AsRef<Path>) -> Vec<u8> {
        fs::read(self.join(name)).expect("a file is read")
    }

    /// The names in the folder, sorted.
    pub fn names(&self, name: impl AsRef<Path>) -> Vec<String> {
        let entries = fs::read_dir(self.join(name)).expect("a folder is read");
        let mut names: Vec<String> = entries
            .map(|entry| {
                let name = entry.expect("an entry").file_name();
                name.to_string_lossy().into_owned()
            })
            .collect();
        names.sort();
        names
    }

    /// The file map of the volume "v", which must be accepted.
    pub fn map(&self) -> FileMap {
        map_of(&self.read("v"))
    }

    /// The tool with these arguments, not yet started, in this folder.
    pub fn command(&self, arguments: &[impl AsRef<OsStr>]) -> Command {
        let mut command = Command::new(env!("CARGO_BIN_EXE_office"));
        command
            .args(arguments)
            .current_dir(&self.path)
            .env_remove("COLUMNS")
            .stdin(Stdio::null())
            .stdout(Stdio::piped())
            .stderr(Stdio::piped());
        command
    }

    /// The tool with these arguments, started, saying nothing.
    pub fn start(&self, arguments: &[impl AsRef<OsStr>]) -> Child {
        let mut command = self.command(arguments);
        command.stdout(Stdio::null()).stderr(Stdio::null());
        command.spawn().expect("the tool starts")
    }

    /// Runs the tool to its end.
    pub fn office(&self, arguments: &[impl AsRef<OsStr>]) -> Ran {
        Ran::of(self.command(arguments).output().expect("the tool runs"))
    }

    /// Runs the tool with standard input.
    pub fn office_with_input(&self, arguments: &[impl AsRef<OsStr>], input: &[u8]) -> Ran {
        let mut command = self.command(arguments);
        let mut child = command.stdin(Stdio::piped()).spawn().expect("it starts");
        let mut stdin = child.stdin.take().expect("a pipe");
        // The tool reads no more than it needs, and may close the pipe.
        let _ = stdin.write_all(input);
        drop(stdin);
        Ran::of(child.wait_with_output().expect("the tool runs"))
    }

    /// Types a command line in a shell, in this folder, to whose end it runs; "office" is the tool.
    pub fn types(&self, line: &str) -> Ran {
        let tool = Path::new(env!("CARGO_BIN_EXE_office"));
        let mut shell = Command::new("/bin/sh");
        shell.args(["-c", line]).current_dir(&self.path);
        shell.env("PATH", tool.parent().expect("a folder"));
        Ran::of(shell.output().expect("a shell"))
    }

    /// Runs a command that must be done, with nothing on standard error; answers what it said.
    pub fn done(&self, arguments: &[impl AsRef<OsStr>]) -> Vec<u8> {
        let ran = self.office(arguments);
        assert_eq!((ran.status, ran.err.as_str()), (0, ""));
        ran.out
    }

    /// Runs a command that must be done and say this.
    pub fn says(&self, arguments: &[impl AsRef<OsStr>], out: &str) {
        assert_eq!(String::from_utf8_lossy(&self.done(arguments)), out);
    }

    /// Runs a command that must be done and say this, and that cleaning these logs made room.
    pub fn says_cleaned(&self, arguments: &[impl AsRef<OsStr>], out: &str, logs: &str) {
        let ran = self.office(arguments);
        let line = format!("office: room was made by cleaning {logs}\n");
        assert_eq!((ran.status, ran.err.as_str()), (0, line.as_str()));
        assert_eq!(String::from_utf8_lossy(&ran.out), out);
    }

    /// Runs a command that must end with this status and this on standard error, and say nothing else.
    pub fn fails(&self, arguments: &[impl AsRef<OsStr>], status: i32, err: &str) {
        let ran = self.office(arguments);
        assert_eq!((ran.status, ran.err.as_str()), (status, err));
        assert_eq!(ran.out, b"");
    }
}

impl Drop for Folder {
    fn drop(&mut self) {
        let _ = fs::remove_dir_all(&self.path);
    }
}

/// Runs commands that must end with a status and a line, and leave the volume "v" as it was.
pub fn each_fails(folder: &Folder, status: i32, cases: &[(&[&str], &str)]) {
    for (command, line) in cases {
        let before = fs::read(folder.join("v")).ok();
        let ran = folder.office(command);
        let expected = format!("office: {line}\n");
        assert_eq!((ran.status, ran.err), (status, expected), "{command:?}");
        assert_eq!(ran.out, b"", "{command:?}");
        assert!(fs::read(folder.join("v")).ok() == before, "{command:?}");
    }
}

/// A volume of 16 pages and 8 inodes with the files "a" (one page) and "e" (empty). The logs of the
/// root and of "a" are on so many pages, for the root an even number, all full and nearly
/// all dead; the other pages are free.
pub fn with_long_logs(root: u64, file: u64) -> Vec<u8> {
    let mut volume = samples::formatted(16, 8);
    done(&mut volume, &create(b"a"));
    done(&mut volume, &create(b"e"));
    done(&mut volume, &write(1, 0, &text(500)));
    for number in 1..7 * file {
        done(&mut volume, &set_size(1, 500 + number));
    }
    for _ in 0..(7 * root - 2) / 2 {
        done(&mut volume, &create(b"t"));
        done(&mut volume, &unlink(b"t"));
    }
    let judged = judge(&volume).expect("accepted");
    assert_eq!(judged.free_pages(), 13 - root - file);
    let pages = [0, 1].map(|inode| judged.logs[&inode].pages.len() as u64);
    assert_eq!(pages, [root, file]);
    volume
}

/// How a run of the tool ended.
#[derive(Debug)]
pub struct Ran {
    /// The exit status; -1 if a signal ended it.
    pub status: i32,
    pub out: Vec<u8>,
    pub err: String,
}

impl Ran {
    fn of(output: Output) -> Ran {
        Ran {
            status: output.status.code().unwrap_or(-1),
            out: output.stdout,
            err: String::from_utf8(output.stderr).expect("texts are UTF-8"),
        }
    }
}

/// Starts a command and kills it at a random moment, up to a bit more than the usual time after the start; answers
/// whether that came before its end.
pub fn run_killed(
    folder: &Folder,
    random: &mut Random,
    arguments: &[String],
    usual: Duration,
) -> bool {
    let most = usual.as_micros() as u64 * 11 / 10;
    let wait = Duration::from_micros(random.below(most));
    let mut child = folder.start(arguments);
    let start = Instant::now();
    while start.elapsed() < wait {
        std::hint::spin_loop();
    }
    child.kill().expect("the child is ours");
    let status = child.wait().expect("the child is ours");
    match status.code() {
        Some(code) => assert!(code < 2, "exit status {code}"),
        None => assert_eq!(status.signal(), Some(9)),
    }
    status.code().is_none()
}

/// A file map by hand: the names in list order, each with its inode and bytes.
pub fn files(names: &[(&str, u64, &[u8])]) -> FileMap {
    let standing = names.iter();
    let standing = standing.map(|(name, inode, _)| (name.as_bytes().to_vec(), *inode));
    FileMap {
        folders: [(ROOT, standing.collect())].into(),
        files: names
            .iter()
            .map(|(_, inode, bytes)| (*inode, bytes.to_vec()))
            .collect(),
    }
}

/// The maps that calls pass through by the reference, the one before them first.
///
/// A refused call leaves the map, as the next ones do.
pub fn maps_of_calls(volume: &[u8], calls: &[Call]) -> Vec<FileMap> {
    let mut volume = volume.to_vec();
    let mut maps = vec![map_of(&volume)];
    for call in calls {
        if run(&mut volume, call).is_err() {
            break;
        }
        maps.push(map_of(&volume));
    }
    maps
}

/// The calls of a put of files, by the reference: first a part that a killed put left is unlinked.
///
/// A file that is refused is not begun, nor are those after it.
pub fn calls_of_put(volume: &[u8], files: &[(Vec<u8>, Vec<u8>)]) -> Vec<Call> {
    let mut volume = volume.to_vec();
    let mut calls = Vec::new();
    if map_of(&volume).inode_of(ROOT, PART).is_some() {
        calls.push(unlink(PART));
        done(&mut volume, &calls[0]);
    }
    for (name, bytes) in files {
        let mut tried = volume.clone();
        let more = calls_of_file(&tried, name, bytes);
        if more.iter().any(|call| run(&mut tried, call).is_err()) {
            break;
        }
        calls.extend(more);
        volume = tried;
    }
    calls
}

/// The calls that put one file.
fn calls_of_file(volume: &[u8], name: &[u8], bytes: &[u8]) -> Vec<Call> {
    let judged = judge(volume).expect("accepted");
    let inode = judged.lowest_invalid_inode().unwrap_or(0);
    let mut calls = vec![create(PART)];
    for (piece, offset) in bytes.chunks(WRITE_LIMIT).zip((0..).step_by(WRITE_LIMIT)) {
        calls.push(write(inode, offset, piece));
    }
    calls.push(rename(PART, name));
    calls
}

/// A map without the part that a killed put left.
pub fn without_part(map: &FileMap) -> FileMap {
    let mut map = map.clone();
    for names in map.folders.values_mut() {
        if let Some(place) = names.iter().position(|(name, _)| name == PART) {
            let (_, inode) = names.remove(place);
            map.files.remove(&inode);
        }
    }
    map
}
