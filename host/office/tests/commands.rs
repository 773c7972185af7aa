//! Each command doing its work: what it says, whole, and the volume afterwards, held against the reference.

mod tool;

use calls::layout::ROOT;
use office::commands::PART;
use reference::layout::{tail_word, word};
use reference::listing;
use samples::{
    create, done, formatted, map_of, rename, set_size, text, unlink, volumes_with_gaps,
    with_free_pages, write,
};
use std::ffi::OsStr;
use std::fs;
use std::os::unix::ffi::OsStrExt;
use std::process::Stdio;
use tool::{calls_of_put, files, maps_of_calls, Folder};

/// A folder with a volume of 64 pages and 16 inodes that holds "a" (700 bytes) and "b" (1 byte).
fn with_files(test: &str) -> Folder {
    let folder = Folder::with_volume(test, 64, 16);
    folder.write("a", &text(700));
    folder.write("b", b"!");
    folder.done(&["put", "v", "a", "b"]);
    folder
}

/// A volume with "a" and an open journal: of the create of "b" the first two groups have landed.
fn open_journal() -> Vec<u8> {
    let mut volume = formatted(16, 8);
    done(&mut volume, &create(b"a"));
    let list = samples::filled(&volume, &create(b"b")).expect("done");
    reference::cut(&mut volume, &list, 1, |_| true);
    volume
}

#[test]
fn format() {
    let folder = Folder::new("format");
    folder.says(&["format", "v"], "256 pages, 64 inodes; 247 pages free\n");
    assert_eq!(folder.read("v").len(), 256 * 512);
    assert_eq!(folder.map(), files(&[]));
    let sizes = ["format", "--pages", "16", "w", "--inodes=8"];
    folder.says(&sizes, "16 pages, 8 inodes; 14 pages free\n");
    assert_eq!(listing(&folder.read("w")), b"files 0 free 14\n");
    assert_eq!(folder.names("."), ["v", "w"], "nothing else is left");
}

#[test]
fn format_replaces_only_by_force() {
    let folder = Folder::new("format-force");
    folder.write("empty", b"");
    folder.done(&["format", "empty"]);
    folder.write("old", b"old");
    let line = "office: old: exists and is not empty; --force replaces it\n";
    folder.fails(&["format", "old"], 3, line);
    assert_eq!(folder.read("old"), b"old");
    folder.done(&["format", "old", "--force"]);
    assert_eq!(map_of(&folder.read("old")), files(&[]));
}

#[test]
fn put_and_ls() {
    let folder = Folder::with_volume("put", 64, 16);
    folder.write("a", &text(9_000));
    folder.write("b", b"");
    folder.says(
        &["put", "v", "a", "b"],
        "2 files put, 9,000 bytes; 41 pages free\n",
    );
    let both = files(&[("a", 1, &text(9_000)), ("b", 2, b"")]);
    assert_eq!(folder.map(), both);
    folder.says(&["ls", "v"], "files 2 free 41\n1 9000 a\n2 0 b\n");

    folder.write("a", b"new");
    folder.says(&["put", "v", "a"], "1 file put, 3 bytes; 57 pages free\n");
    assert_eq!(folder.map(), files(&[("b", 2, b""), ("a", 3, b"new")]));
    assert_eq!(folder.done(&["ls", "v"]), listing(&folder.read("v")));
}

#[test]
fn put_under_another_name() {
    let folder = Folder::with_volume("put-as", 64, 16);
    folder.write("a", b"one");
    folder.done(&["put", "v", "a", "--as", "x"]);
    let ran = folder.office_with_input(&["put", "v", "-", "--as=y"], b"two");
    assert_eq!((ran.status, ran.err.as_str()), (0, ""));
    folder.done(&["put", "--as", "-", "v", "a"]);
    let all = files(&[("x", 1, b"one"), ("y", 2, b"two"), ("-", 3, b"one")]);
    assert_eq!(folder.map(), all);
}

#[test]
fn put_of_a_folder_and_files() {
    let folder = Folder::with_volume("put-folder", 64, 16);
    for name in ["day/b", "day/a", "day/Z", "c"] {
        folder.write(name, name.as_bytes());
    }
    folder.done(&["put", "v", "c", "day"]);
    let all = files(&[
        ("c", 1, b"c"),
        ("Z", 2, b"day/Z"),
        ("a", 3, b"day/a"),
        ("b", 4, b"day/b"),
    ]);
    assert_eq!(folder.map(), all);
    fs::create_dir(folder.join("empty")).expect("a folder");
    folder.says(
        &["put", "v", "empty"],
        "0 files put, 0 bytes; 51 pages free\n",
    );
}

#[test]
fn put_over_one_of_two_names() {
    let folder = with_files("put-linked");
    folder.done(&["ln", "v", "a", "gate"]);
    folder.write("a", b"new");
    folder.done(&["put", "v", "a"]);
    let all = files(&[("b", 2, b"!"), ("gate", 1, &text(700)), ("a", 3, b"new")]);
    assert_eq!(folder.map(), all);
}

/// A folder with a volume of scattered gaps into which "c" (3,073 bytes) and "d" (5,000 bytes) were
/// put.
fn with_scattered_files(test: &str) -> Folder {
    let folder = Folder::with_scattered_gaps(test);
    folder.write("c", &text(3_073));
    folder.write("d", &text(5_000));
    folder.says(
        &["put", "v", "c", "d"],
        "2 files put, 8,073 bytes; 3 pages free\n",
    );
    folder
}

#[test]
fn put_into_scattered_gaps() {
    let folder = Folder::with_scattered_gaps("scattered-gaps");
    let gaps = String::from_utf8(folder.done(&["gaps", "v"])).expect("text");
    let end = "\nlongest: 2 pages, 10-11\ntotal: 23 free pages in 12 stretches\n";
    assert!(gaps.ends_with(end), "{gaps}");
    let put = [("c", 3_073), ("d", 5_000)].map(|(name, size)| (name.into(), text(size)));
    let calls = calls_of_put(&folder.read("v"), &put);
    let map = maps_of_calls(&folder.read("v"), &calls).pop();

    let folder = with_scattered_files("put-scattered");
    assert_eq!(Some(folder.map()), map);
    folder.says(
        &["check", "v"],
        "accepted: 14 names, 3 free pages, journal closed\n",
    );
    for (name, size) in [("c", 3_073), ("d", 5_000)] {
        assert!(
            folder.done(&["get", "v", name, "-"]) == text(size),
            "{name}"
        );
    }
}

/// A write has an entry for each stretch that it takes. The end of "d" finds a run, 54 and 55, and
/// takes it though 50 is free.
#[test]
fn log_of_scattered_writes() {
    let folder = with_scattered_files("log-scattered");
    let text = "\
inode 1, file, name \"c\", size 3073: log of 4 entries on 1 page, head 26, tail 13568
page 26, entry 1: write: file pages 0-1 on data pages 10-11, size 3073
page 26, entry 2: write: file pages 2-3 on data pages 15-16, size 3073
page 26, entry 3: write: file pages 4-5 on data pages 20-21, size 3073
page 26, entry 4: write: file page 6 on data page 25, size 3073
";
    folder.says(&["log", "v", "c"], text);
    let text = "\
inode 3, file, name \"d\", size 5000: log of 5 entries on 1 page, head 49, tail 25408
page 49, entry 1: write: file pages 0-1 on data pages 30-31, size 4096
page 49, entry 2: write: file pages 2-3 on data pages 35-36, size 4096
page 49, entry 3: write: file pages 4-5 on data pages 40-41, size 4096
page 49, entry 4: write: file pages 6-7 on data pages 44-45, size 4096
page 49, entry 5: write: file pages 8-9 on data pages 54-55, size 5000
";
    folder.says(&["log", "v", "d"], text);
}

/// 23 pages are free, and ten more once the root's log is cleaned: 26 for the data, two for the
/// file's log, one for the root's, and four are kept. One byte more needs another page.
#[test]
fn put_fills_every_gap_or_stores_nothing() {
    let folder = Folder::with_scattered_gaps("put-fills");
    let before = folder.read("v");
    folder.write("large", &text(13_313));
    let line = "office: large: refused 12 (no space); cleaning logs gives back too little; \
                remove files with 'office rm v NAME', or take a larger volume\n";
    folder.fails(&["put", "v", "large"], 1, line);
    assert!(folder.read("v") == before, "refused whole");
    folder.write("large", &text(13_312));
    folder.says_cleaned(
        &["put", "v", "large"],
        "1 file put, 13,312 bytes; 4 pages free\n",
        "the root's log",
    );
    folder.says(
        &["check", "v"],
        "accepted: 13 names, 4 free pages, journal closed\n",
    );
    assert!(folder.done(&["get", "v", "large", "-"]) == text(13_312));
    let log = String::from_utf8(folder.done(&["log", "v", "large"])).expect("text");
    let lines: Vec<&str> = log.lines().collect();
    let head = "inode 1, file, name \"large\", size 13312: log of 12 entries on 2 pages, \
                head 21, tail 18752";
    assert_eq!((lines[0], lines.len()), (head, 1 + 12));
    assert!(lines[1..].iter().all(|line| line.contains(": write: ")));
}

#[test]
fn put_removes_the_part_of_a_killed_put() {
    let folder = with_files("put-part");
    folder.write("c", &text(5_000));
    let cut = folder.office(&["put", "v", "c", "--cut", "6"]);
    assert_eq!(cut.status, 4);
    let left = folder.map();
    assert_eq!(left.inode_of(ROOT, PART), Some(3));
    assert_eq!(left.files[&3], text(4_096));
    let line = "accepted: 3 names, 46 free pages, journal closed\n\
                .office-part: left by a killed put; the next put or 'office recover v' removes it\n";
    folder.says(&["check", "v"], line);
    folder.done(&["put", "v", "b"]);
    assert_eq!(folder.map(), files(&[("a", 1, &text(700)), ("b", 3, b"!")]));
}

#[test]
fn names_of_any_bytes() {
    let folder = Folder::with_volume("bytes", 64, 16);
    let name = OsStr::from_bytes(b"\xFF\x01 \xC3");
    folder.write(name, b"odd");
    let arguments = ["put", "v"].map(OsStr::new);
    folder.done(&[arguments[0], arguments[1], name]);
    assert_eq!(
        folder.done(&["ls", "v"]),
        b"files 1 free 58\n1 3 \xFF\x01 \xC3\n"
    );
    assert_eq!(
        folder.done(&[OsStr::new("cat"), arguments[1], name]),
        b"odd"
    );
    folder.done(&["get", "v", "--all", "all"]);
    assert_eq!(
        fs::read(folder.join("all").join(name)).expect("a file"),
        b"odd"
    );
    let twice = [OsStr::new("ln"), arguments[1], name, name];
    let line = "office: \\xFF\\x01 \\xC3 to \\xFF\\x01 \\xC3: refused 7 (taken); \
                take another name, or 'office rm v NAME' first\n";
    folder.fails(&twice, 1, line);
    folder.done(&[OsStr::new("rm"), arguments[1], name]);
    assert_eq!(folder.map(), files(&[]));
}

#[test]
fn names_like_options() {
    let folder = with_files("dashes");
    folder.done(&["mv", "v", "--", "a", "--cut"]);
    folder.done(&["ln", "--", "v", "--cut", "-x"]);
    let all = files(&[
        ("b", 2, b"!"),
        ("--cut", 1, &text(700)),
        ("-x", 1, &text(700)),
    ]);
    assert_eq!(folder.map(), all);
    folder.done(&["rm", "v", "--", "-x", "--cut"]);
    assert_eq!(folder.map(), files(&[("b", 2, b"!")]));
}

#[test]
fn get() {
    let folder = with_files("get");
    for name in ["a", "b"] {
        fs::remove_file(folder.join(name)).expect("it goes");
    }
    folder.says(&["get", "v", "a"], "1 file copied, 700 bytes\n");
    assert_eq!(folder.read("a"), text(700));
    folder.says(&["get", "v", "b", "c"], "1 file copied, 1 byte\n");
    assert_eq!(folder.read("c"), b"!");
    fs::create_dir(folder.join("into")).expect("a folder");
    folder.done(&["get", "v", "a", "into"]);
    assert_eq!(folder.read("into/a"), text(700));
    assert_eq!(folder.done(&["get", "v", "a", "-"]), text(700));
    folder.fails(
        &["get", "v", "b", "a"],
        3,
        "office: a: exists; --force replaces it\n",
    );
    assert_eq!(folder.read("a"), text(700));
    folder.done(&["get", "v", "b", "a", "--force"]);
    assert_eq!(folder.read("a"), b"!");
    assert_eq!(folder.names("."), ["a", "c", "into", "v"]);
}

#[test]
fn get_all() {
    let folder = with_files("get-all");
    folder.says(
        &["get", "v", "--all", "to/here"],
        "2 files copied, 701 bytes\n",
    );
    assert_eq!(folder.names("to/here"), ["a", "b"]);
    assert_eq!(folder.read("to/here/a"), text(700));
    folder.write("to/here/a", b"mine");
    fs::remove_file(folder.join("to/here/b")).expect("it goes");
    let line = "office: to/here/a: exists; --force replaces it\noffice: get: nothing was copied\n";
    folder.fails(&["get", "v", "--all", "to/here"], 3, line);
    assert_eq!(folder.names("to/here"), ["a"]);
    assert_eq!(folder.read("to/here/a"), b"mine");
    folder.done(&["get", "v", "--all", "to/here", "--force"]);
    assert_eq!(folder.read("to/here/a"), text(700));
    assert_eq!(folder.read("to/here/b"), b"!");
}

#[test]
fn get_all_leaves_the_part_of_a_killed_put() {
    let folder = with_files("get-part");
    assert_eq!(folder.office(&["put", "v", "a", "--cut", "6"]).status, 4);
    let got = folder.office(&["get", "v", "--all", "all"]);
    let line = "office: .office-part: left by a killed put, not copied\n";
    assert_eq!((got.status, got.err.as_str()), (0, line));
    assert_eq!(folder.names("all"), ["a", "b"]);
}

#[test]
fn cat() {
    let folder = with_files("cat");
    let both = [text(700), b"!".to_vec()].concat();
    assert_eq!(folder.done(&["cat", "v", "a", "b"]), both);
}

#[test]
fn a_closed_pipe_is_quiet() {
    let folder = Folder::with_volume("pipe", 256, 8);
    folder.write("a", &text(65_536));
    folder.done(&["put", "v", "a"]);
    let mut child = folder
        .command(&["cat", "v", "a", "a", "a", "a"])
        .stdout(Stdio::piped())
        .spawn()
        .expect("it starts");
    drop(child.stdout.take());
    let ended = child.wait_with_output().expect("it ends");
    assert_eq!((ended.status.code(), ended.stderr), (Some(0), Vec::new()));
}

#[test]
fn mv_and_ln() {
    let folder = with_files("mv");
    folder.says(&["mv", "v", "a", "c"], "");
    assert_eq!(folder.map(), files(&[("b", 2, b"!"), ("c", 1, &text(700))]));
    folder.says(&["ln", "v", "c", "d"], "");
    let three = files(&[("b", 2, b"!"), ("c", 1, &text(700)), ("d", 1, &text(700))]);
    assert_eq!(folder.map(), three);
    folder.says(&["mv", "v", "b", "c"], "");
    assert_eq!(folder.map(), files(&[("d", 1, &text(700)), ("c", 2, b"!")]));
    folder.says(&["mv", "v", "c", "d"], "");
    assert_eq!(folder.map(), files(&[("d", 2, b"!")]));
}

#[test]
fn rm() {
    let folder = with_files("rm");
    folder.done(&["ln", "v", "a", "c"]);
    folder.says(&["rm", "v", "a", "b"], "");
    assert_eq!(folder.map(), files(&[("c", 1, &text(700))]));
    let before = folder.read("v");
    let line = "office: gone: refused 6 (not there); 'office ls v' lists the names\n";
    folder.fails(&["rm", "v", "c", "gone"], 1, line);
    assert!(folder.read("v") == before, "one refused, none removed");
}

#[test]
fn truncate() {
    let folder = with_files("truncate");
    folder.says(&["truncate", "v", "a", "100"], "");
    folder.says(&["truncate", "v", "b", "3"], "");
    let both = files(&[("a", 1, &text(100)), ("b", 2, b"!\0\0")]);
    assert_eq!(folder.map(), both);
}

#[test]
fn clean() {
    let folder = Folder::new("clean");
    let mut volume = formatted(64, 16);
    for name in [b"a", b"b"] {
        done(&mut volume, &create(name));
        done(&mut volume, &unlink(name));
        done(&mut volume, &create(name));
    }
    for size in (0..20).chain([9]) {
        done(&mut volume, &set_size(1, size));
        done(&mut volume, &write(2, size, b"!"));
    }
    folder.write("v", &volume);
    folder.says(&["clean", "v", "a"], "free pages: 53 before, 55 after\n");
    folder.says(
        &["clean", "v", "b", "a"],
        "free pages: 55 before, 57 after\n",
    );
    folder.says(&["clean", "v", "/"], "free pages: 57 before, 57 after\n");
    assert_eq!(folder.map(), map_of(&volume));
    folder.write("v", &volume);
    folder.says(&["clean", "v"], "free pages: 53 before, 57 after\n");
    assert_eq!(folder.map(), map_of(&volume));
    let tail = word(&folder.read("v"), tail_word(ROOT));
    assert_eq!(tail % 512, 2 * 64, "the root's log has two entries");
}

#[test]
fn clean_skips_where_there_is_no_room() {
    let folder = Folder::new("clean-full");
    let mut volume = formatted(16, 8);
    done(&mut volume, &create(b"a"));
    done(&mut volume, &write(1, 0, &text(4_096)));
    done(&mut volume, &write(1, 4_096, &text(1_536)));
    for (old, new) in [(b"a", b"b"), (b"b", b"a"), (b"a", b"b"), (b"b", b"a")] {
        done(&mut volume, &rename(old, new)); // the fourth takes the last page
    }
    folder.write("v", &volume);
    let ran = folder.office(&["clean", "v"]);
    let lines = "office: /: skipped, no room for its new log: refused 12 (no space)\n\
                 office: a: skipped, no room for its new log: refused 12 (no space)\n";
    assert_eq!((ran.status, ran.err.as_str()), (1, lines));
    assert_eq!(ran.out, b"free pages: 0 before, 0 after\n");
    assert!(folder.read("v") == volume);
}

#[test]
fn recover() {
    let folder = Folder::new("recover");
    folder.write("v", &open_journal());
    folder.says(&["recover", "v"], "journal closed: 2 words put back\n");
    assert_eq!(folder.map(), files(&[("a", 1, b"")]));
    folder.says(&["recover", "v"], "nothing to do\n");
    folder.write("b", b"text");
    assert_eq!(folder.office(&["put", "v", "b", "--cut", "6"]).status, 4);
    folder.says(
        &["recover", "v"],
        ".office-part removed: a killed put left it\n",
    );
    folder.write("c", b"");
    assert_eq!(folder.office(&["put", "v", "c", "--cut", "5"]).status, 4);
    assert_eq!(folder.office(&["clean", "v", "/", "--cut", "2"]).status, 4);
    let both = "journal closed: 2 words put back\n.office-part removed: a killed put left it\n";
    folder.says(&["recover", "v"], both);
    assert_eq!(folder.map(), files(&[("a", 1, b"")]));
}

#[test]
fn check() {
    let folder = with_files("check");
    folder.says(
        &["check", "v"],
        "accepted: 2 names, 55 free pages, journal closed\n",
    );
    let good = folder.read("v");
    let says = |bytes: &[u8], line: &str| {
        folder.write("v", bytes);
        let ran = folder.office(&["check", "v"]);
        let said = String::from_utf8(ran.out).expect("text");
        assert_eq!((ran.status, said.as_str(), ran.err.as_str()), (1, line, ""));
    };
    let mut damaged = good.clone();
    damaged[64] = 16;
    let line = "refused 3 (damaged): the journal's dequeue position is 16, not below 16\n";
    says(&damaged, line);
    let line =
        "refused 2 (no volume): the file has 1024 bytes, but word 0 says 64 pages, 32768 bytes\n";
    says(&good[..1_024], line);
    let line = "refused 2 (no volume): the file has 2100000 bytes, a volume at most 2097152\n";
    says(&vec![0; 2_100_000], line);
    let line = "refused 4 (journal open): 2 entries are open: word 66 (tail of inode 0) goes back to 1088, \
                word 80 (valid word of inode 2) to 0; run 'office recover v'\n";
    says(&open_journal(), line);
}

#[test]
fn map_and_log() {
    let folder = with_files("map");
    let volume = folder.read("v");
    let text = office::show::map_text(&volume, 80, false).expect("accepted");
    folder.says(&["map", "v"], &text);
    let narrow = folder.command(&["map", "v"]).env("COLUMNS", "30").output();
    let text = office::show::map_text(&volume, 30, false).expect("accepted");
    assert_eq!(narrow.expect("it runs").stdout, text.as_bytes());
    let svg = office::show::map_svg(&volume).expect("accepted");
    folder.says(&["map", "v", "--svg", "-"], &svg);
    folder.says(&["map", "v", "--svg", "v.svg"], "");
    assert_eq!(folder.read("v.svg"), svg.as_bytes());
    let line = "office: v.svg: exists; --force replaces it\n";
    folder.fails(&["map", "v", "--svg", "v.svg"], 3, line);
    folder.done(&["map", "v", "--svg", "v.svg", "--force"]);
    for (arguments, inode) in [
        (["log", "v"].as_slice(), 0),
        (&["log", "v", "b"], 2),
        (&["log", "v", "--inode", "1"], 1),
    ] {
        let text = office::show::log_text(&volume, inode).expect("it stands");
        folder.says(arguments, &text);
    }
}

#[test]
fn gaps_of_a_fresh_volume() {
    let folder = Folder::with_volume("gaps-fresh", 64, 16);
    let text = "\
free pages  length
3-63            61

longest: 61 pages, 3-63
total: 61 free pages in 1 stretch
";
    folder.says(&["gaps", "v"], text);
}

/// Two stretches are the longest, and it is the first of them.
#[test]
fn gaps_of_several_stretches() {
    let folder = Folder::new("gaps-several");
    let free = |page| [4, 6, 7, 8, 12, 13, 14, 20].contains(&page);
    folder.write("v", &with_free_pages(32, 8, free));
    let text = "\
free pages  length
4                1
6-8              3
12-14            3
20               1

longest: 3 pages, 6-8
total: 8 free pages in 4 stretches
";
    folder.says(&["gaps", "v"], text);
    let map = String::from_utf8(folder.done(&["map", "v"])).expect("text");
    let lines: Vec<&str> = map.lines().take(3).collect();
    let drawn = [
        "pages: # fixed, L log, D data, . free",
        "       _ longest free stretch: 3 pages, 6-8",
        " 0  ##DD.D__ _DDD...D DDDL.LLL LLLLLLLL",
    ];
    assert_eq!(lines, drawn);
}

#[test]
fn gaps_that_commands_leave() {
    let folder = with_files("gaps-left");
    folder.done(&["rm", "v", "a"]);
    let text = "\
free pages  length
4-6              3
9-63            55

longest: 55 pages, 9-63
total: 58 free pages in 2 stretches
";
    folder.says(&["gaps", "v"], text);
}

#[test]
fn gaps_of_one_page_and_of_none() {
    let folder = Folder::new("gaps-full");
    folder.write("v", &with_free_pages(16, 8, |page| page == 9));
    let text = "\
free pages  length
9                1

longest: 1 page, 9
total: 1 free page in 1 stretch
";
    folder.says(&["gaps", "v"], text);
    folder.write("v", &with_free_pages(16, 8, |_| false));
    folder.says(&["gaps", "v"], "no page is free\n");
    let map = String::from_utf8(folder.done(&["map", "v"])).expect("text");
    assert!(map.starts_with("pages: # fixed, L log, D data, . free\n 0  ##DDDDDD LLLLLLLL\n"));
    let svg = String::from_utf8(folder.done(&["map", "v", "--svg", "-"])).expect("text");
    assert!(!svg.contains("stretch") && !svg.contains("<polygon"));
}

/// A volume of the most pages, every second of them free.
#[test]
fn as_many_gaps_as_can_be() {
    let folder = Folder::new("gaps-most");
    folder.write("v", &with_free_pages(4_096, 8, |page| page % 2 == 0));
    let text = String::from_utf8(folder.done(&["gaps", "v"])).expect("text");
    let lines: Vec<&str> = text.lines().collect();
    assert_eq!(lines.len(), 1 + 2_047 + 3);
    assert_eq!(lines[2_047], "4094             1");
    let end = [
        "",
        "longest: 1 page, 2",
        "total: 2047 free pages in 2047 stretches",
    ];
    assert_eq!(lines[2_048..], end);
}

/// The free pages that `gaps` adds up are those that `ls`, `check` and `map` count.
#[test]
fn gaps_add_up_to_the_free_pages() {
    let folder = Folder::new("gaps-total");
    for (way, volume) in volumes_with_gaps(40, 16) {
        folder.write("v", &volume);
        let says = |command: &str| {
            let text = folder.done(&[command, "v"]);
            String::from_utf8(text).expect("text")
        };
        let gaps = says("gaps");
        let total = gaps.lines().last().expect("a line");
        let free = match total.strip_prefix("total: ") {
            Some(total) => total.split(' ').next().expect("a count"),
            None => "0",
        };
        let first = format!(" free {free}");
        let ls = says("ls");
        assert!(
            ls.lines().next().expect("a line").ends_with(&first),
            "{way}"
        );
        let plural = if free == "1" { "" } else { "s" };
        let counted = format!(", {free} free page{plural}, journal closed\n");
        assert!(says("check").ends_with(&counted), "{way}");
        assert!(says("map").ends_with(&format!(", {free} free\n")), "{way}");
    }
}

#[test]
fn reading_commands_change_nothing() {
    let folder = with_files("reading");
    let volume = folder.read("v");
    for command in [
        ["ls", "v"].as_slice(),
        &["cat", "v", "a"],
        &["get", "v", "a", "c"],
        &["get", "v", "--all", "all"],
        &["check", "v"],
        &["map", "v"],
        &["gaps", "v"],
        &["log", "v"],
    ] {
        folder.done(command);
        assert!(folder.read("v") == volume, "{command:?}");
    }
}
