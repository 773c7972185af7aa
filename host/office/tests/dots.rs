//! The names "." and "..": no file can get one any more. On a volume that holds one, every file can be
//! copied back, and what the tool says of it is typed in a shell.

mod tool;

use calls::layout::ROOT;
use samples::{create, done, formatted, give_name, link, map_of, numbered, write};
use std::{fs, io};
use tool::{each_fails, files, Folder};

/// What is said of a new name that no file can get.
const NO_FILE: &str = "refused 5 (bad name); \".\" and \"..\" stand for a folder \
                       and the one above it, and no file can get such a name";

/// Names that files can have on a volume, though some not on the host.
const ALL: [&str; 6] = [".", "a", "..", "...", "-", ".a"];

/// The bytes of the file with this name.
fn bytes_of(name: &str) -> Vec<u8> {
    name.repeat(300).into_bytes()
}

/// A volume of 64 pages and 16 inodes with files of these names, from inode 1 on.
fn volume_with(names: &[&str]) -> Vec<u8> {
    let mut volume = formatted(64, 16);
    for (name, number) in names.iter().zip(1..) {
        done(&mut volume, &create(&numbered(number)));
        done(&mut volume, &write(number, 0, &bytes_of(name)));
        give_name(&mut volume, &numbered(number), name.as_bytes());
    }
    volume
}

/// A folder with the volume "v" of [`volume_with`] and a file "new".
fn with_names(test: &str, names: &[&str]) -> Folder {
    let folder = Folder::new(test);
    folder.write("v", &volume_with(names));
    folder.write("new", b"new");
    folder
}

/// What is said of a name that the host cannot have: how it is copied from the volume, as typed, to DEST.
fn unfit(name: &str, volume: &str, dest: &str) -> String {
    format!(
        "{name}: the host cannot have a file of this name; \
         'office get {volume} {name} {dest}' copies it under another name"
    )
}

/// The lines on standard error of a command that left out "." and "..", with DEST in the folder "all".
fn left_out_both() -> String {
    let [one, two] = [".", ".."].map(|name| unfit(name, "v", "all/DEST"));
    format!("office: {one}\noffice: {two}\noffice: get: 2 files left out\n")
}

/// The command that a line has in quotes, if it has one.
fn advised(line: &str) -> Option<&str> {
    let start = line.find("'office ")? + 1;
    Some(&line[start..line.rfind('\'')?])
}

/// Types the commands that lines have in quotes, with a name for each DEST; each must be done.
fn follow(folder: &Folder, lines: &str, names: &[&str]) {
    let commands: Vec<&str> = lines.lines().filter_map(advised).collect();
    assert_eq!(commands.len(), names.len(), "{lines}");
    for (command, name) in commands.iter().zip(names) {
        let ran = folder.types(&command.replace("DEST", name));
        assert_eq!((ran.status, ran.err.as_str()), (0, ""), "{command}");
    }
}

/// Checks that a folder has just these files, each with the bytes of a name of the volume.
fn check_copied(folder: &Folder, at: &str, copied: &[(&str, &str)]) {
    let mut names: Vec<&str> = copied.iter().map(|(name, _)| *name).collect();
    names.sort();
    assert_eq!(folder.names(at), names);
    for (name, of) in copied {
        assert!(
            folder.read(format!("{at}/{name}")) == bytes_of(of),
            "{name}"
        );
    }
}

#[test]
fn no_file_can_get_one() {
    let folder = with_names("dots-new", &["a", "b"]);
    let cases: &[(&[&str], &str)] = &[
        (&["put", "v", "new", "--as", "."], "."),
        (&["put", "v", "new", "--as=.."], ".."),
        (&["put", "v", "-", "--as", "."], "."),
        (&["mv", "v", "a", "."], "a to ."),
        (&["mv", "v", "a", ".."], "a to .."),
        (&["ln", "v", "a", "."], "a to ."),
        (&["ln", "v", "a", ".."], "a to .."),
        // The bad name counts before the missing one.
        (&["mv", "v", "gone", "."], "gone to ."),
        (&["ln", "v", "gone", ".."], "gone to .."),
    ];
    for (command, what) in cases {
        each_fails(&folder, 1, &[(command, &format!("{what}: {NO_FILE}"))]);
    }
}

/// The same where such names stand: before "nothing changes" and before "taken".
#[test]
fn no_file_can_get_one_that_stands() {
    let folder = with_names("dots-standing", &["a", ".", ".."]);
    let cases: &[(&[&str], &str)] = &[
        (&["put", "v", "new", "--as", "."], "."),
        (&["put", "v", "new", "--as", ".."], ".."),
        (&["mv", "v", "a", "."], "a to ."),
        (&["mv", "v", ".", "."], ". to ."),
        (&["mv", "v", "..", "."], ".. to ."),
        (&["ln", "v", "a", ".."], "a to .."),
        (&["ln", "v", ".", "."], ". to ."),
    ];
    for (command, what) in cases {
        each_fails(&folder, 1, &[(command, &format!("{what}: {NO_FILE}"))]);
    }
}

#[test]
fn other_refusals_are_said_as_before() {
    let folder = with_names("dots-others", &["a", "."]);
    let long = "n".repeat(33);
    let bad = "refused 5 (bad name); a name has 1 to 32 bytes, none of them 0 or '/'";
    let taken = "refused 7 (taken); take another name, or 'office rm v NAME' first";
    let gone = "refused 6 (not there); 'office ls v' lists the names";
    let cases: &[(&[&str], &str)] = &[
        (
            &["mv", "v", ".", "./a"],
            "./a: refused 16 (wrong type); . is a file, not a folder",
        ),
        (&["mv", "v", ".", &long], &format!(". to {long}: {bad}")),
        (&["ln", "v", ".", ""], &format!(". to .: {NO_FILE}")),
        (
            &["put", "v", "new", "--as", "x/."],
            &format!("x/.: {NO_FILE}"),
        ),
        (&["ln", "v", ".", "a"], &format!(". to a: {taken}")),
        (&["mv", "v", "..", "a"], &format!(".. to a: {gone}")),
        (&["get", "v", ".."], &format!("..: {gone}")),
        (&["rm", "v", ".", ".."], &format!("..: {gone}")),
    ];
    each_fails(&folder, 1, cases);

    let mut volume = folder.read("v");
    let list = samples::filled(&volume, &create(b"b")).expect("done");
    reference::cut(&mut volume, &list, 1, |_| true);
    folder.write("v", &volume);
    let open = "v: refused 4 (journal open); run 'office recover v'";
    let cases: [&[&str]; 2] = [&["mv", "v", "a", "."], &["put", "v", "new", "--as", "."]];
    each_fails(&folder, 1, &cases.map(|command| (command, open)));
}

#[test]
fn names_that_only_begin_with_dots() {
    let folder = Folder::with_volume("dots-more", 64, 16);
    for name in ["day/...", "day/.a", "day/..b"] {
        folder.write(name, name.as_bytes());
    }
    folder.done(&["put", "v", "day"]);
    folder.done(&["put", "v", "day/.a", "--as", "...."]);
    folder.done(&["mv", "v", "....", ".b"]);
    folder.done(&["ln", "v", "...", ". "]);
    let all = files(&[
        ("...", 1, b"day/..."),
        ("..b", 2, b"day/..b"),
        (".a", 3, b"day/.a"),
        (".b", 4, b"day/.a"),
        (". ", 1, b"day/..."),
    ]);
    assert_eq!(folder.map(), all);
    folder.says(&["get", "v", "--all", "all"], "5 files copied, 33 bytes\n");
    assert_eq!(folder.names("all"), [". ", "...", "..b", ".a", ".b"]);
    for (name, _) in all.names(ROOT) {
        let name = String::from_utf8(name.clone()).expect("text");
        folder.done(&["get", "v", &name]);
        assert_eq!(folder.read(&name), folder.read(format!("all/{name}")));
    }
    assert_eq!(folder.read("..."), b"day/...");
    assert_eq!(folder.read(".b"), b"day/.a");
}

#[test]
fn get_needs_another_name() {
    let folder = with_names("dots-get", &ALL);
    fs::create_dir_all(folder.join("in here")).expect("a folder");
    for name in [".", ".."] {
        let cases: [(&[&str], &str); 5] = [
            (&["get", "v", name], "DEST"),
            (&["get", "v", name, "--force"], "DEST"),
            (&["get", "v", name, "in here"], "in\\ here/DEST"),
            (&["get", "v", name, "."], "./DEST"),
            (&["get", "v", name, "in here/.."], "in\\ here/../DEST"),
        ];
        for (command, dest) in cases {
            each_fails(&folder, 3, &[(command, &unfit(name, "v", dest))]);
        }
        assert_eq!(folder.done(&["get", "v", name, "-"]), bytes_of(name));
        assert_eq!(folder.done(&["cat", "v", name]), bytes_of(name));
        let line = folder.office(&["get", "v", name, "in here"]).err;
        follow(&folder, &line, &[&format!("new{name}")]);
    }
    check_copied(&folder, "in here", &[("new.", "."), ("new..", "..")]);

    let exists = "new: exists; --force replaces it";
    each_fails(&folder, 3, &[(&["get", "v", ".", "new"], exists)]);
    assert_eq!(folder.read("new"), b"new");
    folder.says(
        &["get", "v", ".", "new", "--force"],
        "1 file copied, 300 bytes\n",
    );
    assert_eq!(folder.read("new"), bytes_of("."));
    assert_eq!(folder.names("."), ["in here", "new", "v"]);
}

/// The host can have a file "-", but as DEST it is standard output.
#[test]
fn get_of_a_dash() {
    let folder = with_names("dots-dash", &ALL);
    let line =
        "-: as DEST this is standard output; 'office get v - DEST' copies it under another name";
    each_fails(&folder, 3, &[(&["get", "v", "-"], line)]);
    follow(&folder, line, &["dash"]);
    assert_eq!(folder.read("dash"), bytes_of("-"));
    folder.done(&["get", "v", "-", "."]);
    assert_eq!(folder.read("-"), bytes_of("-"));
}

#[test]
fn every_file_is_copied_back() {
    let folder = with_names("dots-all", &ALL);
    let volume = folder.read("v");
    let ran = folder.office(&["get", "v", "--all", "all"]);
    assert_eq!((ran.status, ran.err), (3, left_out_both()));
    assert_eq!(ran.out, b"4 files copied, 2,100 bytes\n");
    let others = [("a", "a"), ("...", "..."), ("-", "-"), (".a", ".a")];
    check_copied(&folder, "all", &others);

    follow(&folder, &left_out_both(), &["dot", "dots"]);
    let both = [("dot", "."), ("dots", "..")];
    check_copied(&folder, "all", &[others.as_slice(), &both].concat());
    assert_eq!(folder.names("all").len(), map_of(&volume).names(ROOT).len());
    assert!(folder.read("v") == volume, "the volume is as it was");
}

/// Files that exist are replaced by force, and what is left out stays so.
#[test]
fn get_all_by_force() {
    let folder = with_names("dots-force", &ALL);
    folder.write("all/a", b"mine");
    let ran = folder.office(&["get", "v", "--all", "all", "--force"]);
    assert_eq!((ran.status, ran.err), (3, left_out_both()));
    assert_eq!(ran.out, b"4 files copied, 2,100 bytes\n");
    check_copied(
        &folder,
        "all",
        &[("a", "a"), ("...", "..."), ("-", "-"), (".a", ".a")],
    );
}

/// Something in the way keeps all from being copied; the names that the host cannot have are said too.
#[test]
fn get_all_with_something_in_the_way() {
    let folder = with_names("dots-way", &ALL);
    let [one, two] = [".", ".."].map(|name| unfit(name, "v", "all/DEST"));
    let fails = |command: &[&str], way: &str| {
        let lines = format!(
            "office: {way}\noffice: {one}\noffice: {two}\noffice: get: nothing was copied\n"
        );
        folder.fails(command, 3, &lines);
    };
    let plain = ["get", "v", "--all", "all"];
    let force = ["get", "v", "--all", "all", "--force"];
    folder.write("all/...", b"mine");
    fails(&plain, "all/...: exists; --force replaces it");
    assert_eq!(folder.names("all"), ["..."]);
    assert_eq!(folder.read("all/..."), b"mine");
    fs::remove_file(folder.join("all/...")).expect("it goes");
    fs::create_dir(folder.join("all/-")).expect("a folder");
    fails(&plain, "all/-: a folder is in the way");
    fails(&force, "all/-: a folder is in the way");
    assert_eq!(folder.names("all"), ["-"]);
}

/// The progress line counts what is copied, and is ended before the rest is said.
#[test]
fn get_all_with_progress() {
    let folder = with_names("dots-progress", &[".", "a", "b"]);
    let ran = folder.office(&["get", "v", "--all", "all", "--progress"]);
    let lines = format!(
        "\r0 of 2 files, 300 bytes\r1 of 2 files, 300 bytes\r1 of 2 files, 600 bytes\
         \r2 of 2 files, 600 bytes\noffice: {}\noffice: get: 1 file left out\n",
        unfit(".", "v", "all/DEST")
    );
    assert_eq!((ran.status, ran.err), (3, lines));
}

/// Nobody reads the count of the files that were copied; what was left out is said all the same.
#[test]
fn get_all_into_a_closed_pipe() {
    let folder = with_names("dots-pipe", &ALL);
    let (reader, writer) = io::pipe().expect("a pipe");
    drop(reader);
    let mut command = folder.command(&["get", "v", "--all", "all"]);
    let ran = command.stdout(writer).output().expect("the tool runs");
    let err = String::from_utf8(ran.stderr).expect("text");
    assert_eq!((ran.status.code(), err), (Some(3), left_out_both()));
    assert_eq!(folder.names("all"), ["-", "...", ".a", "a"]);
}

/// The folder is made all the same, so that what is said can be typed.
#[test]
fn get_all_where_all_are_left_out() {
    let folder = with_names("dots-only", &[".", ".."]);
    let ran = folder.office(&["get", "v", "--all", "all"]);
    assert_eq!((ran.status, ran.err), (3, left_out_both()));
    assert_eq!(ran.out, b"0 files copied, 0 bytes\n");
    assert_eq!(folder.names("all"), [""; 0]);
    follow(&folder, &left_out_both(), &["one", "two"]);
    check_copied(&folder, "all", &[("one", "."), ("two", "..")]);
}

/// A file with another name is copied under that; the name that was left out is still said.
#[test]
fn get_all_of_a_file_with_two_names() {
    let folder = with_names("dots-linked", &["a"]);
    let mut volume = folder.read("v");
    done(&mut volume, &link(b"a", b"b"));
    give_name(&mut volume, b"b", b".");
    folder.write("v", &volume);
    let ran = folder.office(&["get", "v", "--all", "all"]);
    let lines = format!(
        "office: {}\noffice: get: 1 file left out\n",
        unfit(".", "v", "all/DEST")
    );
    assert_eq!((ran.status, ran.err.as_str()), (3, lines.as_str()));
    assert_eq!(ran.out, b"1 file copied, 300 bytes\n");
    check_copied(&folder, "all", &[("a", "a")]);
    follow(&folder, &lines, &["b"]);
    check_copied(&folder, "all", &[("a", "a"), ("b", "a")]);
}

/// Paths that a shell would split or change stand in a command as they are typed.
#[test]
fn paths_as_a_shell_takes_them() {
    let volume = volume_with(&["a", "."]);
    let cases = [
        (
            "one day.vol",
            "this evening",
            "one\\ day.vol",
            "this\\ evening/DEST",
        ),
        (
            "d'a*y;$1.vol",
            "~ (\"x\")",
            "d\\'a\\*y\\;\\$1.vol",
            "\\~\\ \\(\\\"x\\\"\\)/DEST",
        ),
        (
            "Käse\\1!&.vol",
            "#`x`",
            "Käse\\\\1\\!\\&.vol",
            "\\#\\`x\\`/DEST",
        ),
        ("-v", "-x", "./-v", "./-x/DEST"),
    ];
    for (path, all, typed, dest) in cases {
        let folder = Folder::new("dots-paths");
        folder.write(path, &volume);
        let ran = folder.office(&["get", &format!("--all={all}"), "--", path]);
        let lines = format!(
            "office: {}\noffice: get: 1 file left out\n",
            unfit(".", typed, dest)
        );
        assert_eq!((ran.status, ran.err.as_str()), (3, lines.as_str()));
        follow(&folder, &lines, &["dot"]);
        check_copied(&folder, all, &[("a", "a"), ("dot", ".")]);
    }
}

/// So do the commands that the tool advises for other reasons.
#[test]
fn other_advice_as_a_shell_takes_it() {
    let folder = Folder::new("dots-advice");
    folder.write("one day.vol", &volume_with(&["a"]));
    folder.write("new", b"new");
    let cut = folder.office(&["rm", "one day.vol", "a", "--cut", "3"]);
    let line = "office: power cut in group 3 (rehearsed); run 'office recover one\\ day.vol'\n";
    assert_eq!((cut.status, cut.err.as_str()), (4, line));
    let line =
        "office: one day.vol: refused 4 (journal open); run 'office recover one\\ day.vol'\n";
    folder.fails(&["ls", "one day.vol"], 1, line);
    let check = folder.office(&["check", "one day.vol"]);
    let said = String::from_utf8(check.out).expect("text");
    assert!(
        said.ends_with("; run 'office recover one\\ day.vol'\n"),
        "{said}"
    );
    follow(&folder, line, &["DEST"]);
    folder.done(&["rm", "one day.vol", "a"]);
}

#[test]
fn what_stands_is_used_as_before() {
    let folder = with_names("dots-used", &[".", "a", ".."]);
    let volume = folder.read("v");
    folder.says(
        &["ls", "v"],
        "files 3 free 53\n1 300 .\n2 300 a\n3 600 ..\n",
    );
    folder.says(
        &["check", "v"],
        "accepted: 3 names, 53 free pages, journal closed\n",
    );
    for (command, inode) in [(["log", "v"].as_slice(), ROOT), (&["log", "v", ".."], 3)] {
        let text = office::show::log_text(&volume, inode).expect("it stands");
        assert!(text.contains("\"..\""), "{text}");
        folder.says(command, &text);
    }
    folder.done(&["map", "v"]);
    assert!(folder.read("v") == volume);

    folder.says(&["truncate", "v", ".", "100"], "");
    folder.says(
        &["clean", "v", ".", ".."],
        "free pages: 53 before, 53 after\n",
    );
    folder.says(&["ln", "v", ".", "b"], "");
    let short = &bytes_of(".")[..100];
    let all = files(&[
        (".", 1, short),
        ("a", 2, &bytes_of("a")),
        ("..", 3, &bytes_of("..")),
        ("b", 1, short),
    ]);
    assert_eq!(folder.map(), all);
    folder.says(&["mv", "v", ".", "b"], "");
    assert_eq!(folder.map(), all, "names of one file");
    folder.says(&["mv", "v", "..", "a"], "");
    let rest = files(&[(".", 1, short), ("b", 1, short), ("a", 3, &bytes_of(".."))]);
    assert_eq!(folder.map(), rest);
}

#[test]
fn renamed_or_removed_all_is_whole() {
    let folder = with_names("dots-away", &ALL);
    folder.says(&["mv", "v", ".", "dot"], "");
    folder.says(&["mv", "v", "..", "dots"], "");
    folder.says(
        &["get", "v", "--all", "all"],
        "6 files copied, 3,000 bytes\n",
    );
    let others = [("a", "a"), ("...", "..."), ("-", "-"), (".a", ".a")];
    let both = [("dot", "."), ("dots", "..")];
    check_copied(&folder, "all", &[others.as_slice(), &both].concat());

    folder.write("v", &volume_with(&ALL));
    folder.says(&["rm", "v", ".", ".."], "");
    folder.says(
        &["get", "v", "--all", "rest"],
        "4 files copied, 2,100 bytes\n",
    );
    check_copied(&folder, "rest", &others);
}

#[test]
fn the_help_says_so() {
    let folder = Folder::new("dots-help");
    let says = |command: &str, part: &str| {
        let text = folder.done(&["help", command]);
        let text = String::from_utf8(text).expect("text").replace('\n', " ");
        assert!(text.contains(part), "{text}");
    };
    says(
        "put",
        "No file and no folder can get the name \".\" or \"..\".",
    );
    says("mv", "NEW cannot be named \".\" or \"..\", but OLD can.");
    says(
        "ln",
        "The new name must not stand, and cannot be \".\" or \"..\".",
    );
    let copied = "The host cannot have a file or a folder named \".\" or \"..\": one of the volume is \
                  copied only to a DEST that names it. The copy of the folder that it is in has the \
                  others, says what it left out and how to get it, and the exit status is then 3.";
    says("get", copied);
    let overview = String::from_utf8(folder.done(&["--help"])).expect("text");
    assert!(overview.contains("cannot be put or cannot be made"));
}
