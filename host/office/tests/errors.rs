//! What goes wrong: the line that is said, the exit status, and that nothing is stored then; and the help.

mod tool;

use office::commands::COMMANDS;
use samples::{create, done, formatted, map_of, numbered, text};
use std::fs::{self, File};
use std::io::Read;
use std::process::Command;
use tool::{each_fails, files, Folder};

/// A folder with the files "a" and "b" and a volume of 16 pages and 8 inodes that holds "a" (4 bytes).
fn with_file(test: &str) -> Folder {
    let folder = Folder::with_volume(test, 16, 8);
    folder.write("a", b"text");
    folder.write("b", b"!");
    folder.done(&["put", "v", "a"]);
    folder
}

#[test]
fn refused_by_the_volume() {
    let folder = with_file("refused");
    let long = "n".repeat(33);
    let bad = "refused 5 (bad name); a name has 1 to 32 bytes, none of them 0 or '/'";
    let gone = "refused 6 (not there); 'office ls v' lists the names";
    let cases: &[(&[&str], &str)] = &[
        (&["put", "v", "b", "--as", &long], &format!("{long}: {bad}")),
        (&["mv", "v", "a", &long], &format!("a to {long}: {bad}")),
        (&["cat", "v", &long], &format!("{long}: {bad}")),
        (&["cat", "v", "z"], &format!("z: {gone}")),
        (&["get", "v", "z"], &format!("z: {gone}")),
        (&["get", "v", "z", "-"], &format!("z: {gone}")),
        (&["mv", "v", "z", "a"], &format!("z to a: {gone}")),
        (&["ln", "v", "z", "y"], &format!("z to y: {gone}")),
        (&["rm", "v", "z"], &format!("z: {gone}")),
        (&["truncate", "v", "z", "1"], &format!("z: {gone}")),
        (&["clean", "v", "a", "z"], &format!("z: {gone}")),
        (&["log", "v", "z"], &format!("z: {gone}")),
        (&["log", "v", "--inode", "7"], &format!("inode 7: {gone}")),
        (&["log", "v", "--inode", "8"], &format!("inode 8: {gone}")),
        (
            &["ln", "v", "a", "a"],
            "a to a: refused 7 (taken); take another name, or 'office rm v NAME' first",
        ),
        (
            &["truncate", "v", "a", "65537"],
            "a: refused 9 (past the end); a file has at most 65,536 bytes",
        ),
    ];
    each_fails(&folder, 1, cases);
}

#[test]
fn refused_for_want_of_room() {
    let folder = with_file("no-room");
    folder.write("large", &text(7_000));
    let space = "refused 12 (no space); cleaning logs gives back too little; \
                 remove files with 'office rm v NAME', or take a larger volume";
    each_fails(
        &folder,
        1,
        &[(&["put", "v", "large"], &format!("large: {space}"))],
    );

    let mut volume = formatted(40, 8);
    for number in 1..8 {
        done(&mut volume, &create(&numbered(number)));
    }
    folder.write("v", &volume);
    let inode =
        "a: refused 10 (no inode); every inode is in use; remove files with 'office rm v NAME'";
    each_fails(&folder, 1, &[(&["put", "v", "a"], inode)]);

    folder.write("v", &samples::long_directory(224));
    let full =
        "refused 11 (directory full); 224 names stand already; remove some with 'office rm v NAME'";
    each_fails(
        &folder,
        1,
        &[(&["ln", "v", "n000", "x"], &format!("n000 to x: {full}"))],
    );
}

#[test]
fn refused_in_the_middle_says_how_far() {
    let folder = Folder::with_volume("middle", 16, 8);
    for (name, size) in [("a", 10), ("b", 600), ("c", 6_000), ("d", 1)] {
        folder.write(format!("day/{name}"), &text(size));
    }
    let ran = folder.office(&["put", "v", "day"]);
    let lines = "office: in the volume: a, b\n\
                 office: not put: c, d\n\
                 office: c: refused 12 (no space); cleaning logs gives back too little; \
                 remove files with 'office rm v NAME', or take a larger volume\n";
    assert_eq!((ran.status, ran.err.as_str()), (1, lines));
    assert_eq!(ran.out, b"");
    let both = files(&[("a", 1, &text(10)), ("b", 2, &text(600))]);
    assert_eq!(folder.map(), both, "and no part is left");
}

#[test]
fn refused_volumes() {
    let folder = with_file("refused-volumes");
    let mut open = formatted(16, 8);
    let list = samples::filled(&open, &create(b"b")).expect("done");
    reference::cut(&mut open, &list, 1, |_| true);
    let mut damaged = formatted(16, 8);
    damaged[512] = 2;
    let kinds = [
        (
            vec![7; 8_192],
            "refused 2 (no volume); 'office check v' says why",
        ),
        (
            [formatted(4_096, 8), vec![0]].concat(),
            "refused 2 (no volume); 'office check v' says why",
        ),
        (
            Vec::new(),
            "refused 2 (no volume); 'office check v' says why",
        ),
        (damaged, "refused 3 (damaged); 'office check v' says why"),
        (open, "refused 4 (journal open); run 'office recover v'"),
    ];
    let commands: [&[&str]; 12] = [
        &["put", "v", "a"],
        &["get", "v", "a"],
        &["get", "v", "--all", "all"],
        &["ls", "v"],
        &["gaps", "v"],
        &["cat", "v", "a"],
        &["mv", "v", "a", "b"],
        &["ln", "v", "a", "b"],
        &["rm", "v", "a"],
        &["truncate", "v", "a", "1"],
        &["clean", "v"],
        &["clean", "v", "/"],
    ];
    for (volume, refused) in kinds {
        folder.write("v", &volume);
        for command in commands {
            each_fails(&folder, 1, &[(command, &format!("v: {refused}"))]);
        }
        if !refused.contains('4') {
            for command in [["recover", "v"], ["map", "v"], ["log", "v"]] {
                each_fails(&folder, 1, &[(&command, &format!("v: {refused}"))]);
            }
        }
    }
    assert!(!folder.join("all").exists());
}

#[test]
fn format_of_wrong_sizes() {
    let folder = Folder::new("format-sizes");
    let advice = "pages are 16 to 4,096, inodes a multiple of 8 from 8 to 256, \
                  and pages at least inodes / 8 + 4";
    for (pages, inodes) in [
        ("15", "8"),
        ("4097", "8"),
        ("18446744073709551615", "8"),
        ("16", "12"),
        ("35", "256"),
    ] {
        let line =
            format!("office: {pages} pages, {inodes} inodes: refused 2 (no volume); {advice}\n");
        folder.fails(
            &["format", "v", "--pages", pages, "--inodes", inodes],
            1,
            &line,
        );
    }
    assert_eq!(folder.names("."), [""; 0]);
}

#[test]
fn wrong_use() {
    let folder = with_file("use");
    let see = "; see office --help";
    let cases: &[(&[&str], &str)] = &[
        (&["nothing"], "there is no command nothing"),
        (&["--nothing"], "there is no command --nothing"),
        (&["help", "nothing"], "there is no command nothing"),
        (&["ls"], "ls: VOLUME is missing"),
        (&["ls", "v", "w", "x"], "ls: too many arguments"),
        (&["gaps"], "gaps: VOLUME is missing"),
        (&["gaps", "v", "w"], "gaps: too many arguments"),
        (
            &["gaps", "v", "--svg", "-"],
            "gaps: option --svg is unknown",
        ),
        (&["cat", "v"], "cat: too few arguments"),
        (&["mv", "v", "a"], "mv: too few arguments"),
        (&["mv", "v", "a", "b", "c"], "mv: too many arguments"),
        (&["ls", "v", "--cut", "1"], "ls: option --cut is unknown"),
        (
            &["format", "v", "--cut", "1"],
            "format: option --cut is unknown",
        ),
        (&["rm", "v", "-f", "a"], "rm: option -f is unknown"),
        (
            &["rm", "v", "a", "--cut"],
            "rm: option --cut needs a value, GROUP",
        ),
        (
            &["rm", "v", "a", "--cut", "0"],
            "--cut: groups are counted from 1",
        ),
        (&["rm", "v", "a", "--cut", "x"], "--cut: x is no number"),
        (&["rm", "v", "a", "--cut=+1"], "--cut: +1 is no number"),
        (
            &["rm", "v", "a", "--cut", "1", "--cut", "2"],
            "rm: option --cut is given twice",
        ),
        (
            &["put", "v", "a", "--progress=1"],
            "put: option --progress takes no value",
        ),
        (
            &["put", "v", "-"],
            "put: standard input needs a name, --as NAME",
        ),
        (
            &["put", "v", "a", "b", "--as", "c"],
            "put: --as names one file",
        ),
        (
            &["put", "v", "a", "--as", ""],
            "put: --as names one file, no folder",
        ),
        (
            &["put", "v", ".", "--as", "c"],
            "put: --as names one file, no folder",
        ),
        (
            &["put", "v", "a", "--as", ".office-part"],
            ".office-part: put keeps this name for itself",
        ),
        (
            &["mv", "v", "a", ".office-part"],
            ".office-part: put keeps this name for itself",
        ),
        (
            &["ln", "v", "a", ".office-part"],
            ".office-part: put keeps this name for itself",
        ),
        (&["get", "v"], "get: PATH or --all FOLDER is missing"),
        (
            &["get", "v", "a", "--all", "all"],
            "get: --all takes no PATH",
        ),
        (&["truncate", "v", "a", "many"], "SIZE: many is no number"),
        (
            &["log", "v", "a", "--inode", "1"],
            "log: PATH and --inode name two logs",
        ),
    ];
    for (command, line) in cases {
        each_fails(&folder, 2, &[(command, &format!("{line}{see}"))]);
    }
}

#[test]
fn files_of_the_host() {
    let folder = with_file("host");
    let missing = "No such file or directory (os error 2)";
    let cases: &[(&[&str], &str)] = &[
        (&["ls", "gone"], &format!("gone: {missing}")),
        (&["check", "gone"], &format!("gone: {missing}")),
        (&["gaps", "gone"], &format!("gone: {missing}")),
        (&["rm", "gone", "a"], &format!("gone: {missing}")),
        (&["ls", "."], ".: no regular file"),
        (&["ls", "/dev/null"], "/dev/null: no regular file"),
        (&["format", "."], ".: no regular file"),
        (&["format", "no/folder"], &format!("no/folder: {missing}")),
        (
            &["get", "v", "a", "no/folder"],
            &format!("no/folder: {missing}"),
        ),
        (
            &["get", "v", "a", "/dev/null", "--force"],
            "/dev/null: no regular file",
        ),
        (
            &["get", "v", "a", "v", "--force"],
            "v: is the volume itself",
        ),
        (
            &["map", "v", "--svg", "v", "--force"],
            "v: is the volume itself",
        ),
    ];
    each_fails(&folder, 3, cases);
    assert_eq!(
        folder.names("."),
        ["a", "b", "v"],
        "no temporary file is left"
    );
}

#[test]
fn sources_that_cannot_be_put() {
    let folder = with_file("sources");
    let long = "n".repeat(33);
    for name in [
        "day/a",
        "day/inner/x",
        "day/.office-part",
        &format!("day/{long}"),
    ] {
        folder.write(name, b"x");
    }
    folder.write("day/large", &text(65_537));
    let before = folder.read("v");
    let ran = folder.office(&["put", "v", "b", "a", "day", "gone", "/dev/null"]);
    let lines = format!(
        "office: day/a: has the name of a\n\
         office: day/large: over 65,536 bytes, more than a file of a volume can have\n\
         office: gone: No such file or directory (os error 2)\n\
         office: /dev/null: no regular file\n\
         office: day/.office-part: put keeps this name for itself\n\
         office: day/{long}: the name has 33 bytes, 32 at most; --as gives another\n\
         office: put: nothing was put\n"
    );
    assert_eq!((ran.status, ran.err), (3, lines));
    assert!(folder.read("v") == before);
    let ran = folder.office_with_input(&["put", "v", "-", "--as", "x"], &text(65_537));
    let lines =
        "office: standard input: over 65,536 bytes, more than a file of a volume can have\n\
                 office: put: nothing was put\n";
    assert_eq!((ran.status, ran.err.as_str()), (3, lines));
    assert!(folder.read("v") == before);
}

#[test]
fn a_folder_in_the_way() {
    let folder = with_file("in-the-way");
    fs::create_dir_all(folder.join("all/a")).expect("a folder");
    let lines = "office: all/a: a folder is in the way\noffice: get: nothing was copied\n";
    folder.fails(&["get", "v", "--all", "all", "--force"], 3, lines);
    let line = "office: a: exists; --force replaces it\n";
    folder.fails(&["get", "v", "a"], 3, line);
    folder.fails(
        &["get", "v", "--all", "a"],
        3,
        "office: a: a file is in the way\noffice: get: nothing was copied\n",
    );
}

#[test]
fn a_locked_volume() {
    let folder = with_file("locked");
    let line = "v: locked: another command is at work on it; try again when it has ended";
    let reading: [&[&str]; 5] = [
        &["ls", "v"],
        &["cat", "v", "a"],
        &["check", "v"],
        &["map", "v"],
        &["gaps", "v"],
    ];
    let changing: [&[&str]; 8] = [
        &["put", "v", "b"],
        &["mv", "v", "a", "c"],
        &["ln", "v", "a", "c"],
        &["rm", "v", "a"],
        &["truncate", "v", "a", "0"],
        &["clean", "v"],
        &["recover", "v"],
        &["format", "v", "--force"],
    ];
    let file = File::open(folder.join("v")).expect("a file");
    file.lock().expect("a lock");
    for command in reading.iter().chain(&changing) {
        each_fails(&folder, 3, &[(command, line)]);
    }
    file.unlock().expect("no lock");
    file.lock_shared().expect("a lock");
    for command in changing {
        each_fails(&folder, 3, &[(command, line)]);
    }
    for command in reading {
        folder.done(command);
    }
    file.unlock().expect("no lock");
    folder.done(&["rm", "v", "a"]);
    assert_eq!(folder.map(), files(&[]));
}

/// A command that still prints keeps nobody from changing the volume.
#[test]
fn a_reader_lets_go_early() {
    let folder = Folder::with_volume("reader", 256, 8);
    folder.write("a", &text(65_536));
    folder.done(&["put", "v", "a"]);
    let mut child = folder
        .command(&["cat", "v", "a", "a", "a"])
        .spawn()
        .expect("it starts");
    let mut out = child.stdout.take().expect("a pipe");
    let mut bytes = vec![0];
    out.read_exact(&mut bytes).expect("a byte");
    folder.done(&["rm", "v", "a"]);
    out.read_to_end(&mut bytes).expect("the rest");
    assert!(bytes == text(65_536).repeat(3));
    assert!(child.wait().expect("it ends").success());
}

/// A file that cannot be written past its first pages stands for a disk that fails.
#[test]
fn an_error_while_storing() {
    let folder = with_file("broken");
    let before = folder.map();
    let script = "trap '' XFSZ; ulimit -f 1; exec \"$0\" \"$@\"";
    let ran = Command::new("sh")
        .args(["-c", script, env!("CARGO_BIN_EXE_office"), "rm", "v", "a"])
        .current_dir(&folder.path)
        .output()
        .expect("a shell");
    let line = "office: v: File too large (os error 27); \
                the volume may hold part of the change; run 'office recover v'\n";
    assert_eq!(String::from_utf8(ran.stderr).expect("text"), line);
    assert_eq!(ran.status.code(), Some(3));
    assert_eq!(map_of(&folder.read("v")), before);
    folder.done(&["recover", "v"]);
    folder.done(&["rm", "v", "a"]);
    assert_eq!(folder.map(), files(&[]));
}

#[test]
fn help() {
    let folder = Folder::new("help");
    let none = folder.office(&[""; 0]);
    let overview = folder.done(&["--help"]);
    assert_eq!((none.status, none.err.as_bytes()), (2, overview.as_slice()));
    assert_eq!(none.out, b"");
    assert_eq!(folder.done(&["help"]), overview);
    let overview = String::from_utf8(overview).expect("text");
    assert!(overview.ends_with("4 a rehearsed power cut.\n"));
    for command in &COMMANDS {
        let name = command.name;
        let text = folder.done(&["help", name]);
        assert_eq!(folder.done(&[name, "v", "x", "--help", "-y"]), text);
        let text = String::from_utf8(text).expect("text");
        for form in command.forms {
            let usage = format!("office {name} {form}\n");
            assert!(
                overview.contains(&usage) && text.contains(&usage),
                "{usage}"
            );
        }
        assert!(text.contains(command.text) && text.contains(command.example));
        for option in command.options {
            let line = format!("\n  {}", option.name);
            assert!(text.contains(&line), "{name} {}", option.name);
            let stands = |form: &&str| form.contains(option.name);
            assert!(command.forms.iter().any(stands), "{name} {}", option.name);
        }
        assert!(text
            .lines()
            .chain(overview.lines())
            .all(|line| line.len() <= 100));
    }
}

#[test]
fn help_says_which_of_several_is_the_longest() {
    let folder = Folder::new("help-gaps");
    let text = "\
office gaps VOLUME

Prints the pages and the length of each stretch of free pages, in page order and
each as long as it can be; then the longest, and the total, which is the count of
free pages that ls and check give. Where several stretches are equally long, the
longest is the first of them.

Example:
  office gaps day.vol
";
    folder.says(&["help", "gaps"], text);
    let map = String::from_utf8(folder.done(&["help", "map"])).expect("text");
    assert!(map.contains("where several are equally long, the first of them"));
}

#[test]
fn one_command_of_help() {
    let folder = Folder::new("help-rm");
    let text = "\
office rm VOLUME PATH.. [-r] [--cut GROUP]

Removes each PATH; a file left without a name goes. A folder is removed only with
-r, with all that is in it. If one of them is refused, none is removed. A power cut
leaves the first ones removed. Where there is no room, rm cleans logs first, if
that helps, and says which.

Options:
  -r              remove folders too, with all that is in them, from the leaves up
  --cut GROUP     rehearse a battery swap: of this group of stores (from 1) every other one
                  is written, and the command ends there, with exit status 4

Example:
  office rm day.vol north/cancelled.txt
";
    folder.says(&["rm", "--help"], text);
    folder.fails(
        &["rm", "v", "--", "--help"],
        3,
        "office: v: No such file or directory (os error 2)\n",
    );
}
