//! Paths inside a volume: every command with folders, and what each says where a path is wrong.

mod tool;

use calls::layout::ROOT;
use reference::layout::set_word;
use reference::{judge, FileMap};
use samples::{
    create, create_folder, create_in, done, entry_add, formatted, link_in, map_of, text, unlink_in,
    write,
};
use std::fs;
use tool::{each_fails, Folder};

/// What is said of a file where a folder is wanted, and of a folder where a file is.
const NO_FILE: &str = "refused 16 (wrong type); a folder, where a file is wanted";

/// A volume with the folders "north" (1), "north/week1" (2) and "south" (3), and the files "a" (4, 700 bytes),
/// "north/b" (5, one byte) and "north/week1/c" (6, empty).
fn with_folders() -> Vec<u8> {
    let mut volume = formatted(64, 16);
    let calls = [
        create_folder(ROOT, b"north"),
        create_folder(1, b"week1"),
        create_folder(ROOT, b"south"),
        create(b"a"),
        create_in(1, b"b"),
        create_in(2, b"c"),
        write(4, 0, &text(700)),
        write(5, 0, b"!"),
    ];
    for call in calls {
        done(&mut volume, &call);
    }
    volume
}

/// A folder with the volume "v" of [`with_folders`].
fn folder_with(test: &str) -> Folder {
    let folder = Folder::new(test);
    folder.write("v", &with_folders());
    folder
}

/// The paths of a map, in list order, a folder's with a "/" at the end.
fn paths(map: &FileMap) -> Vec<String> {
    paths_in(map, ROOT, "")
}

fn paths_in(map: &FileMap, folder: u64, start: &str) -> Vec<String> {
    let mut all = Vec::new();
    for (name, inode) in map.names(folder) {
        let path = format!("{start}{}", String::from_utf8_lossy(name));
        if map.is_folder(*inode) {
            all.push(format!("{path}/"));
            all.extend(paths_in(map, *inode, &format!("{path}/")));
        } else {
            all.push(path);
        }
    }
    all
}

/// The paths of the volume "v".
fn paths_of(folder: &Folder) -> Vec<String> {
    paths(&folder.map())
}

#[test]
fn ls() {
    let folder = folder_with("paths-ls");
    folder.says(
        &["ls", "v"],
        "files 3 free 53\n1 1 north/\n3 0 south/\n4 700 a\n",
    );
    let north = "files 2 free 53\n2 0 week1/\n5 1 b\n";
    for path in ["north", "/north", "north/", "//north//"] {
        folder.says(&["ls", "v", path], north);
    }
    folder.says(&["ls", "v", "south"], "files 0 free 53\n");
    folder.says(&["ls", "v", "north/b"], "files 1 free 53\n5 1 north/b\n");
    let all = "files 6 free 53\n1 1 north/\n2 0 north/week1/\n6 0 north/week1/c\n5 1 north/b\n\
               3 0 south/\n4 700 a\n";
    folder.says(&["ls", "v", "-R"], all);
    folder.says(&["ls", "-R", "v", "/"], all);
    let north = "files 3 free 53\n2 0 north/week1/\n6 0 north/week1/c\n5 1 north/b\n";
    folder.says(&["ls", "v", "north", "-R"], north);
}

/// A file counts once for each name.
#[test]
fn du() {
    let folder = folder_with("paths-du");
    folder.done(&["ln", "v", "a", "north/week1/d"]);
    folder.says(
        &["du", "v"],
        "700 north/week1\n701 north\n0 south\n1401 /\n",
    );
    folder.says(&["du", "v", "north"], "700 north/week1\n701 north\n");
    folder.says(&["du", "v", "north/b"], "1 north/b\n");
}

#[test]
fn cat_and_get() {
    let folder = folder_with("paths-get");
    assert_eq!(
        folder.done(&["cat", "v", "a", "/north/b"]),
        [text(700), b"!".to_vec()].concat()
    );
    folder.says(&["get", "v", "north/b"], "1 file copied, 1 byte\n");
    assert_eq!(folder.read("b"), b"!");
    folder.says(&["get", "v", "north"], "2 files copied, 1 byte\n");
    assert_eq!(folder.names("north"), ["b", "week1"]);
    assert_eq!(folder.read("north/week1/c"), b"");
    folder.says(
        &["get", "v", "north/week1", "north"],
        "1 file copied, 0 bytes\n",
    );
    assert_eq!(folder.names("north"), ["b", "c", "week1"]);
    for command in [["get", "v", "--all", "all"], ["get", "v", "/", "every"]] {
        folder.says(&command, "3 files copied, 701 bytes\n");
        assert_eq!(folder.names(command[3]), ["a", "north", "south"]);
        assert_eq!(folder.names(format!("{}/south", command[3])), [""; 0]);
        assert_eq!(folder.read(format!("{}/north/b", command[3])), b"!");
    }
}

/// All that is in the way is said first, and nothing is copied.
#[test]
fn get_with_something_in_the_way() {
    let folder = folder_with("paths-way");
    folder.write("all/north/b", b"mine");
    folder.write("all/south", b"mine");
    fs::create_dir_all(folder.join("all/a")).expect("a folder");
    let fails = |command: &[&str], lines: &[&str]| {
        let lines = lines.iter().map(|line| format!("office: {line}\n"));
        folder.fails(command, 3, &lines.collect::<String>());
    };
    let end = "get: nothing was copied";
    let exists = "all/north/b: exists; --force replaces it";
    let others = [
        "all/south: a file is in the way",
        "all/a: a folder is in the way",
    ];
    fails(
        &["get", "v", "--all", "all"],
        &[exists, others[0], others[1], end],
    );
    fails(
        &["get", "v", "--all", "all", "--force"],
        &[others[0], others[1], end],
    );
    fails(&["get", "v", "north", "all/south"], &[others[0], end]);
    assert_eq!(folder.names("all/north"), ["b"]);
    folder.says(
        &["get", "v", "north", "all/north", "--force"],
        "2 files copied, 1 byte\n",
    );
    assert_eq!(folder.read("all/north/b"), b"!");
}

/// A dot name in any folder is left out and said, with the command that copies it.
#[test]
fn dot_names() {
    let folder = Folder::new("paths-dots");
    let mut volume = with_folders();
    done(&mut volume, &create_in(2, b"x"));
    done(&mut volume, &create_folder(3, b"y"));
    done(&mut volume, &create_in(8, b"z"));
    put_name(&mut volume, 2, b"x", b".");
    put_name(&mut volume, 3, b"y", b"..");
    folder.write("v", &volume);
    let lines = "office: north/week1/.: the host cannot have a file of this name; \
                 'office get v north/week1/. all/north/week1/DEST' copies it under another name\n\
                 office: south/..: the host cannot have a folder of this name; \
                 'office get v south/.. all/south/DEST' copies it under another name\n\
                 office: get: 1 file and 1 folder left out\n";
    let ran = folder.office(&["get", "v", "--all", "all"]);
    assert_eq!((ran.status, ran.err.as_str()), (3, lines));
    assert_eq!(ran.out, b"3 files copied, 701 bytes\n");
    folder.done(&["get", "v", "north/week1/.", "all/north/week1/dot"]);
    folder.done(&["get", "v", "south/..", "all/south/dots"]);
    assert_eq!(folder.names("all/north/week1"), ["c", "dot"]);
    assert_eq!(folder.names("all/south/dots"), ["z"]);
    let new = "refused 5 (bad name); \".\" and \"..\" stand for a folder and the one above it, \
               and no file can get such a name";
    let cases: &[(&[&str], &str)] = &[
        (&["mkdir", "v", "north/."], &format!("north/.: {new}")),
        (
            &["mv", "v", "a", "north/.."],
            &format!("a to north/..: {new}"),
        ),
        (
            &["mv", "v", "north/week1/.", "south"],
            &format!("north/week1/. to south/.: {new}"),
        ),
        (
            &["put", "v", "b", "--to", "north/.."],
            &format!("north/..: {new}"),
        ),
    ];
    folder.write("b", b"");
    each_fails(&folder, 1, cases);
}

/// Gives a name that stands in a folder since the last entry of its log another, which no call would give it.
fn put_name(volume: &mut [u8], folder: u64, old: &[u8], new: &[u8]) {
    let judged = judge(volume).expect("accepted");
    let inode = judged.inode_of(folder, old).expect("it stands");
    let first = judged.logs[&folder].tail / 8 - 8;
    for (value, index) in entry_add(inode, new).into_iter().zip(first..) {
        set_word(volume, index, value);
    }
}

#[test]
fn put_a_tree() {
    let folder = folder_with("paths-put");
    for (path, size) in [("a", 9), ("x", 600), ("north/b", 3), ("north/week2/d", 0)] {
        folder.write(format!("day/{path}"), &text(size));
    }
    fs::create_dir_all(folder.join("day/east/empty")).expect("a folder");
    folder.says(
        &["put", "v", "day"],
        "4 files put, 3 folders made, 612 bytes; 48 pages free\n",
    );
    let all = [
        "north/",
        "north/week1/",
        "north/week1/c",
        "north/week2/",
        "north/week2/d",
        "north/b",
        "south/",
        "a",
        "east/",
        "east/empty/",
        "x",
    ];
    let mut found = paths_of(&folder);
    let mut expected: Vec<String> = all.iter().map(|path| path.to_string()).collect();
    found.sort();
    expected.sort();
    assert_eq!(found, expected);
    assert_eq!(
        folder.done(&["cat", "v", "north/b", "a"]),
        [text(3), text(9)].concat()
    );
    folder.done(&["get", "v", "north/week2", "back"]);
    assert_eq!(folder.names("back"), ["d"]);
}

#[test]
fn put_into_a_folder() {
    let folder = Folder::with_volume("paths-to", 64, 16);
    folder.write("bookings/a", &text(700));
    folder.write("bookings/more/b", b"!");
    folder.says(
        &["put", "v", "bookings/", "--to", "north/week1"],
        "2 files put, 3 folders made, 701 bytes; 52 pages free\n",
    );
    let all = [
        "north/",
        "north/week1/",
        "north/week1/a",
        "north/week1/more/",
        "north/week1/more/b",
    ];
    assert_eq!(paths_of(&folder), all);
    folder.says(
        &["put", "v", "bookings/a", "--to", "/north/", "--as", "d/e"],
        "1 file put, 1 folder made, 700 bytes; 48 pages free\n",
    );
    assert_eq!(folder.done(&["cat", "v", "north/d/e"]), text(700));
    folder.says(
        &["put", "v", "bookings/a", "--to", "north"],
        "1 file put, 700 bytes; 45 pages free\n",
    );
    let ran = folder.office_with_input(&["put", "v", "-", "--as", "north/in"], b"typed");
    assert_eq!((ran.status, ran.err.as_str()), (0, ""));
    assert_eq!(folder.done(&["cat", "v", "north/in"]), b"typed");
}

/// What cannot be put is all said before the first store.
#[test]
fn put_with_something_in_the_way() {
    let folder = folder_with("paths-put-way");
    let long = "n".repeat(33);
    folder.write("day/a/x", b"");
    folder.write("day/north/week1", b"");
    folder.write(format!("day/{long}/y"), b"");
    folder.write("day/.office-part/y", b"");
    std::os::unix::fs::symlink(folder.join("day"), folder.join("day/link")).expect("a link");
    let before = folder.read("v");
    let ran = folder.office(&["put", "v", "day"]);
    let lines = format!(
        "office: day/link: a symbolic link to a folder\n\
         office: day/.office-part: put keeps this name for itself\n\
         office: day/{long}: the name has 33 bytes, 32 at most; --as gives another\n\
         office: day/a: a is a file of the volume\n\
         office: day/north/week1: north/week1 is a folder of the volume\n\
         office: put: nothing was put\n"
    );
    assert_eq!((ran.status, ran.err), (3, lines));
    folder.write("x", b"");
    let bad = "refused 5 (bad name); a name has 1 to 32 bytes, none of them 0 or '/'";
    let cases: &[(&[&str], &str)] = &[
        (
            &["put", "v", "x", "--to", "a"],
            "a: refused 16 (wrong type); a is a file, not a folder",
        ),
        (
            &["put", "v", "x", "--to", "a/new"],
            "a/new: refused 16 (wrong type); a is a file, not a folder",
        ),
        (&["put", "v", "x", "--to", &long], &format!("{long}: {bad}")),
        (
            &["put", "v", "x", "--as", &format!("new/{long}")],
            &format!("new/{long}: {bad}"),
        ),
    ];
    each_fails(&folder, 1, cases);
    assert!(folder.read("v") == before);
}

#[test]
fn mv() {
    let folder = folder_with("paths-mv");
    let moved = |old: &str, new: &str, all: &[&str]| {
        folder.says(&["mv", "v", old, new], "");
        assert_eq!(paths_of(&folder), all, "{old} to {new}");
    };
    moved(
        "a",
        "south",
        &[
            "north/",
            "north/week1/",
            "north/week1/c",
            "north/b",
            "south/",
            "south/a",
        ],
    );
    moved(
        "south/a",
        "/",
        &[
            "north/",
            "north/week1/",
            "north/week1/c",
            "north/b",
            "south/",
            "a",
        ],
    );
    moved(
        "north/week1",
        "south/",
        &[
            "north/",
            "north/b",
            "south/",
            "south/week1/",
            "south/week1/c",
            "a",
        ],
    );
    moved(
        "south",
        "north/s",
        &[
            "north/",
            "north/b",
            "north/s/",
            "north/s/week1/",
            "north/s/week1/c",
            "a",
        ],
    );
    moved(
        "north/s/week1",
        "w/",
        &["north/", "north/b", "north/s/", "a", "w/", "w/c"],
    );
    // Over a file that stands, which goes.
    moved(
        "a",
        "north/b",
        &["north/", "north/s/", "north/b", "w/", "w/c"],
    );
    assert_eq!(folder.done(&["cat", "v", "north/b"]), text(700));
    moved("w", "w2", &["north/", "north/s/", "north/b", "w2/", "w2/c"]);
}

#[test]
fn ln() {
    let folder = folder_with("paths-ln");
    folder.says(&["ln", "v", "a", "north"], "");
    folder.says(&["ln", "v", "north/b", "south/d"], "");
    folder.says(&["ln", "v", "north/b", "south/"], "");
    let all = [
        "north/",
        "north/week1/",
        "north/week1/c",
        "north/b",
        "north/a",
        "south/",
        "south/d",
        "south/b",
        "a",
    ];
    assert_eq!(paths_of(&folder), all);
    folder.says(&["log", "v", "north/a"], &log(&folder, 4));
    folder.says(&["rm", "v", "north/b", "south/d"], "");
    assert_eq!(folder.done(&["cat", "v", "south/b"]), b"!");
}

fn log(folder: &Folder, inode: u64) -> String {
    office::show::log_text(&folder.read("v"), inode).expect("it stands")
}

#[test]
fn rm_and_rmdir() {
    let folder = folder_with("paths-rm");
    folder.says(&["rm", "v", "north/week1/c", "a"], "");
    folder.says(&["rmdir", "v", "north/week1", "south"], "");
    assert_eq!(paths_of(&folder), ["north/", "north/b"]);
    folder.write("v", &with_folders());
    folder.says(&["rm", "v", "-r", "north", "a"], "");
    assert_eq!(paths_of(&folder), ["south/"]);
    folder.says(&["rm", "-r", "v", "south"], "");
    assert_eq!(folder.map(), map_of(&formatted(64, 16)));
}

#[test]
fn mkdir() {
    let folder = folder_with("paths-mkdir");
    folder.says(&["mkdir", "v", "east", "east/in", "north/week2/"], "");
    folder.says(&["mkdir", "v", "-p", "north/week2/x/y", "north", "/"], "");
    let all = [
        "north/",
        "north/week1/",
        "north/week1/c",
        "north/b",
        "north/week2/",
        "north/week2/x/",
        "north/week2/x/y/",
        "south/",
        "a",
        "east/",
        "east/in/",
    ];
    assert_eq!(paths_of(&folder), all);
}

/// Of several paths one is refused, and nothing changes.
#[test]
fn refusals() {
    let folder = folder_with("paths-refused");
    let lists = "'office ls v' lists the names";
    let whole = "removes it if no name stands in it, 'office rm -r v north' with all that is in it";
    let taken = "refused 7 (taken); take another name, or 'office rm v NAME' first";
    let replaced = "refused 16 (wrong type); no folder is replaced, and a folder replaces nothing";
    let itself = "refused 18 (into itself); no folder can go into itself or a folder beneath it";
    let cases: &[(&[&str], &str)] = &[
        (
            &["cat", "v", "north/x"],
            "north/x: refused 6 (not there); no name x in north; 'office ls v north' lists the names",
        ),
        (
            &["cat", "v", "north/x/y"],
            "north/x/y: refused 6 (not there); no name x in north; 'office ls v north' lists the names",
        ),
        (
            &["ls", "v", "x/y"],
            &format!("x/y: refused 6 (not there); no name x in /; {lists}"),
        ),
        (&["ls", "v", "x"], &format!("x: refused 6 (not there); {lists}")),
        (&["du", "v", "x"], &format!("x: refused 6 (not there); {lists}")),
        (&["cat", "v", "a/b"], "a/b: refused 16 (wrong type); a is a file, not a folder"),
        (&["cat", "v", "a/"], "a: refused 16 (wrong type); a is a file, not a folder"),
        (&["cat", "v", "north"], &format!("north: {NO_FILE}")),
        (&["get", "v", "north", "-"], &format!("north: {NO_FILE}")),
        (&["truncate", "v", "north", "1"], &format!("north: {NO_FILE}")),
        (&["truncate", "v", "/", "1"], &format!("/: {NO_FILE}")),
        (
            &["rm", "v", "a", "north"],
            &format!("north: refused 16 (wrong type); a folder; 'office rmdir v north' {whole}"),
        ),
        (
            &["rmdir", "v", "south", "north"],
            "north: refused 17 (not empty); it has week1/, b; \
             'office rm -r v north' removes it with all that is in it",
        ),
        (&["rmdir", "v", "a"], "a: refused 16 (wrong type); a is a file, not a folder"),
        (
            &["mkdir", "v", "x", "y/z"],
            "y/z: refused 6 (not there); no folder y; 'office mkdir -p v y/z' makes it too",
        ),
        (&["mkdir", "v", "north"], &format!("north: {taken}")),
        (&["mkdir", "v", "-p", "a/b"], "a/b: refused 16 (wrong type); a is a file, not a folder"),
        (&["mkdir", "v", "-p", "a"], "a: refused 16 (wrong type); a is a file, not a folder"),
        (&["mv", "v", "north", "north/week1"], &format!("north to north/week1/north: {itself}")),
        (&["mv", "v", "north", "north"], &format!("north to north/north: {itself}")),
        (&["mv", "v", "north", "a"], &format!("north to a: {replaced}")),
        (
            &["mv", "v", "north/x", "y"],
            "north/x to y: refused 6 (not there); 'office ls v north' lists the names",
        ),
        (&["mv", "v", "a", "x/"], &format!("x: refused 6 (not there); {lists}")),
        (&["mv", "v", "a", "north/b/"], "north/b: refused 16 (wrong type); north/b is a file, not a folder"),
        (&["ln", "v", "north", "x"], "north to x: refused 16 (wrong type); a folder has one name only"),
        (&["ln", "v", "a", "north/b"], &format!("a to north/b: {taken}")),
        (
            &["clean", "v", "north/x"],
            "north/x: refused 6 (not there); no name x in north; 'office ls v north' lists the names",
        ),
    ];
    each_fails(&folder, 1, cases);
    let more = ["mkdir", "v", "north/1", "north/2", "north/3"];
    folder.done(&more);
    let line = "north: refused 17 (not empty); it has week1/, b, 1/ and 2 more; \
                'office rm -r v north' removes it with all that is in it";
    each_fails(&folder, 1, &[(&["rmdir", "v", "north"], line)]);
    // A folder of the same name is in the way.
    folder.done(&["mkdir", "v", "south/a"]);
    let line = format!("a to south/a: {replaced}");
    each_fails(&folder, 1, &[(&["mv", "v", "a", "south"], &line)]);
}

#[test]
fn wrong_use() {
    let folder = folder_with("paths-use");
    folder.write("x", b"");
    let see = "; see office --help";
    let root = "/: the root has no name";
    let part = ".office-part: put keeps this name for itself";
    let cases: &[(&[&str], &str)] = &[
        (&["rm", "v", "-r", "/"], root),
        (&["rmdir", "v", "/"], root),
        (&["mkdir", "v", "/"], root),
        (&["mv", "v", "/", "x"], root),
        (&["ln", "v", "", "x"], root),
        (
            &["get", "v", "/"],
            "get: the root has no name; DEST is missing",
        ),
        (&["mkdir", "v", "north/.office-part"], part),
        (&["mv", "v", "a", "north/.office-part"], part),
        (&["put", "v", "x", "--to", ".office-part"], part),
        (
            &["put", "v", "x", "--as", "y/"],
            "put: --as names one file, no folder",
        ),
        (&["mkdir", "v"], "mkdir: too few arguments"),
        (&["du", "v", "a", "b"], "du: too many arguments"),
    ];
    for (command, line) in cases {
        each_fails(&folder, 2, &[(command, &format!("{line}{see}"))]);
    }
}

#[test]
fn clean() {
    let folder = folder_with("paths-clean");
    for number in 0..10 {
        let name = format!("north/t{number}");
        folder.done(&["mkdir", "v", &name]);
        folder.done(&["rmdir", "v", &name]);
    }
    let map = folder.map();
    folder.says(
        &["clean", "v", "south"],
        "free pages: 50 before, 50 after\n",
    );
    folder.says(
        &["clean", "v", "/", "north"],
        "free pages: 50 before, 53 after\n",
    );
    folder.says(&["clean", "v"], "free pages: 53 before, 53 after\n");
    assert_eq!(folder.map(), map);
}

#[test]
fn check_map_and_log() {
    let folder = folder_with("paths-check");
    folder.says(
        &["check", "v"],
        "accepted: 6 names, 3 folders, 53 free pages, journal closed\n",
    );
    let map = String::from_utf8(folder.done(&["map", "v"])).expect("text");
    let table: Vec<&str> = map
        .lines()
        .skip_while(|line| !line.starts_with("inode"))
        .collect();
    let expected = [
        "inode  names            size  log pages  data pages",
        "    0  the root          701  3          -",
        "    1  \"north/\"            1  4          -",
        "    2  \"north/week1/\"      0  5          -",
        "    3  \"south/\"            0  -          -",
        "    4  \"a\"               700  8          6-7",
        "    5  \"north/b\"           1  10         9",
        "    6  \"north/week1/c\"     0  -          -",
        "",
        "64 pages: 3 fixed, 5 log, 3 data, 53 free",
    ];
    assert_eq!(table, expected);
    let log =
        "inode 1, folder \"north/\", 2 names: log of 2 entries on 1 page, head 4, tail 2176\n\
               page 4, entry 1: add \"week1\" for inode 2\n\
               page 4, entry 2: add \"b\" for inode 5\n";
    folder.says(&["log", "v", "north"], log);
    folder.says(&["log", "v", "--inode", "1"], log);
    folder.says(
        &["log", "v", "south/"],
        "inode 3, folder \"south/\", 0 names: empty log\n",
    );
    folder.says(
        &["log", "v", "north/week1/c"],
        "inode 6, file, name \"north/week1/c\", size 0: empty log\n",
    );
    let mut volume = folder.read("v");
    done(&mut volume, &link_in(1, b"b", 3, b"b"));
    done(&mut volume, &unlink_in(2, b"c"));
    let svg = office::show::map_svg(&volume).expect("accepted");
    assert!(
        svg.contains("5: &quot;north/b&quot;, &quot;south/b&quot;, size 1, 1 log, 1 data"),
        "{svg}"
    );
    assert!(svg.contains("1: &quot;north/&quot;, size 1, 1 log, 0 data"));
}

/// A part that a killed put left in a folder is said, not copied, and removed.
#[test]
fn a_part_in_a_folder() {
    let folder = folder_with("paths-part");
    folder.write("x", b"text");
    let cut = ["put", "v", "x", "--to", "north/week1", "--cut", "6"];
    assert_eq!(folder.office(&cut).status, 4);
    let check = String::from_utf8(folder.done(&["check", "v"])).expect("text");
    let line = "north/week1/.office-part: left by a killed put; \
                the next put or 'office recover v' removes it\n";
    assert!(check.ends_with(line), "{check}");
    let got = folder.office(&["get", "v", "north", "all"]);
    let line = "office: north/week1/.office-part: left by a killed put, not copied\n";
    assert_eq!((got.status, got.err.as_str()), (0, line));
    assert_eq!(folder.names("all/week1"), ["c"]);
    let left = folder.read("v");
    folder.says(
        &["recover", "v"],
        "north/week1/.office-part removed: a killed put left it\n",
    );
    assert_eq!(folder.map(), map_of(&with_folders()));
    folder.write("v", &left);
    folder.done(&["put", "v", "x"]);
    assert!(!paths_of(&folder).iter().any(|path| path.ends_with("part")));
}
