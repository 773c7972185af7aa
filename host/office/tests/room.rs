//! Room: volumes filled until the tool refuses, and emptied again; logs that are cleaned to make
//! room; and volumes on which nothing makes room any more, with the way out.

mod tool;

use calls::layout::{LIST_WORDS, ROOT};
use calls::Answer;
use office::commands::PART;
use office::room::{is_stuck, kept};
use reference::random::Random;
use reference::{judge, File, FileMap, Refusal};
use samples::{
    clean, create, done, formatted, give_name, link, made_up, map_of, rename, run, set_size, text,
    unlink, used_volume, write,
};
use tool::{files, with_long_logs, Folder, Ran};

/// What a refusal for want of room says at its end.
const ADVICE: &str = "cleaning logs gives back too little; \
                      remove files with 'office rm v NAME', or take a larger volume";

/// The names in the volume "v".
fn names(folder: &Folder) -> Vec<String> {
    let map = folder.map();
    let names = map.names(ROOT).iter();
    let names = names.map(|(name, _)| String::from_utf8(name.clone()).expect("text"));
    names.collect()
}

/// Runs a command that must be done. All that it may say on standard error is which logs it
/// cleaned.
fn succeeds(folder: &Folder, arguments: &[&str]) {
    let ran = folder.office(arguments);
    let cleaned = ran.err.starts_with("office: room was made by cleaning ");
    assert_eq!(ran.status, 0, "{arguments:?}: {ran:?}");
    assert!(ran.err.is_empty() || cleaned, "{arguments:?}: {ran:?}");
}

/// Runs a command; answers whether it was done. If not, it must have been refused for want of room,
/// an inode or a name.
fn is_done(folder: &Folder, arguments: &[&str]) -> bool {
    let ran = folder.office(arguments);
    if ran.status == 0 {
        return true;
    }
    check_refused(&ran);
    false
}

fn check_refused(ran: &Ran) {
    let numbers = ["10", "11", "12", "15"].map(|number| format!("refused {number} ("));
    let last = ran.err.lines().last().expect("a line");
    let refused = numbers.iter().any(|refused| last.contains(refused));
    assert!(refused || last.contains(": would leave "), "{ran:?}");
    assert_eq!(ran.status, 1, "{ran:?}");
}

/// Empties the full volume "v" in three ways: all names in one command, with the logs cleaned
/// before or not, and one after another.
fn empties(folder: &Folder) {
    let (full, names) = (folder.read("v"), names(folder));
    let rm = ["rm", "v"].into_iter();
    let rm: Vec<&str> = rm.chain(names.iter().map(String::as_str)).collect();
    folder.done(&["clean", "v"]);
    assert_eq!(folder.map(), map_of(&full));
    succeeds(folder, &rm);
    assert_eq!(folder.map(), files(&[]));

    folder.write("v", &full);
    succeeds(folder, &rm);
    assert_eq!(folder.map(), files(&[]));

    folder.write("v", &full);
    for name in &names {
        succeeds(folder, &["rm", "v", name]);
    }
    assert_eq!(folder.map(), files(&[]));
}

/// Fills volumes of these pages and inodes with files, the size of each from its number, and
/// empties them; then the same files, the last ones too, can be put again.
fn fill_and_empty(way: &str, sizes: &[(u64, u64)], size: fn(usize) -> usize) {
    for &(pages, inodes) in sizes {
        let folder = Folder::with_volume(&format!("fill-{way}-{pages}"), pages, inodes);
        for number in 0..130 {
            folder.write(format!("day/f{number:03}"), &text(size(number)));
        }
        assert!(!is_done(&folder, &["put", "v", "day"]));
        folder.write("small", b"!");
        for number in 0.. {
            let name = format!("s{number:03}");
            if !is_done(&folder, &["put", "v", "small", "--as", &name]) {
                break;
            }
        }
        let full = folder.map();
        println!("{way}, {pages} pages: {} files", full.names(ROOT).len());
        assert!(full.names(ROOT).len() > 1);
        folder.done(&["get", "v", "--all", "again"]);
        empties(&folder);
        succeeds(&folder, &["put", "v", "again"]);
        assert_eq!(bytes_by_name(&folder.map()), bytes_by_name(&full));
    }
}

/// The names of a map, sorted, each with its bytes.
fn bytes_by_name(map: &FileMap) -> Vec<(Vec<u8>, Vec<u8>)> {
    let names = map.names(ROOT).iter();
    let mut all: Vec<_> = names
        .map(|(name, inode)| (name.clone(), map.files[inode].clone()))
        .collect();
    all.sort();
    all
}

/// Pages and inodes of the volumes that files fill.
const SIZES: [(u64, u64); 7] = [
    (16, 8),
    (17, 32),
    (24, 64),
    (32, 64),
    (64, 128),
    (128, 128),
    (256, 256),
];

#[test]
fn files_of_one_byte() {
    fill_and_empty("small", &SIZES, |_| 1);
}

#[test]
fn files_of_several_pages() {
    fill_and_empty("mixed", &SIZES, |number| 1 + number * 577 % 2_500);
    fill_and_empty("large", &SIZES, |number| 20_000 >> (7 - number % 8));
}

#[test]
fn empty_files() {
    let sizes = [(16, 64), (17, 64), (24, 128), (37, 256), (40, 256)];
    fill_and_empty("empty", &sizes, |_| 0);
}

#[test]
fn links() {
    for (pages, inodes, size) in [(16, 8, 1), (16, 8, 4_000), (24, 16, 7_000), (40, 256, 512)] {
        let folder = Folder::with_volume(&format!("fill-links-{pages}-{size}"), pages, inodes);
        folder.write("a", &text(size));
        succeeds(&folder, &["put", "v", "a"]);
        let link = |number: u64| is_done(&folder, &["ln", "v", "a", &format!("l{number:03}")]);
        let count = (0..).take_while(|&number| link(number)).count();
        println!("{pages} pages, {size} bytes: {count} links");
        assert!(count > 0);
        empties(&folder);
    }
}

/// Each file that gets a size takes a log page.
#[test]
fn lengthened_files() {
    for (pages, inodes) in [(16, 32), (24, 64), (64, 64)] {
        let folder = Folder::with_volume(&format!("fill-sizes-{pages}"), pages, inodes);
        let count = pages - inodes / 8 - 4;
        for number in 0..count {
            folder.write(format!("day/f{number:02}"), b"");
        }
        succeeds(&folder, &["put", "v", "day"]);
        let longer = |number: &u64| {
            let name = format!("f{number:02}");
            is_done(&folder, &["truncate", "v", &name, "100"])
        };
        let done = (0..count).take_while(longer).count();
        println!("{pages} pages: {done} of {count} files lengthened");
        assert!(done > 0 && done < count as usize);
        empties(&folder);
    }
}

/// Sizes up and down on a full volume: the file's log is cleaned again and again.
#[test]
fn lengthened_and_shortened() {
    let folder = Folder::with_volume("fill-up-down", 24, 16);
    for (number, size) in [3_000, 1_000, 700, 2_000].into_iter().enumerate() {
        folder.write(format!("day/f{number}"), &text(size));
    }
    succeeds(&folder, &["put", "v", "day"]);
    let mut random = Random::new(5);
    let mut done = 0;
    for _ in 0..150 {
        let name = format!("f{}", random.below(4));
        let size = random.below(3_500).to_string();
        done += u64::from(is_done(&folder, &["truncate", "v", &name, &size]));
    }
    println!("{done} of 150 truncates done");
    assert!(done > 100, "{done}");
    empties(&folder);
}

/// There is a way on: the root's log can be cleaned.
fn check_way_on(folder: &Folder) {
    let mut list = vec![0; LIST_WORDS];
    let cleaned = calls::clean(&folder.read("v"), ROOT, &mut list);
    assert!(cleaned.is_ok(), "{cleaned:?}");
}

/// A full volume stays so that names can be changed, however often.
#[test]
fn renamed_for_ever() {
    for (pages, inodes, size) in [(16, 8, 3_000), (37, 256, 0), (38, 256, 0), (40, 256, 1)] {
        let folder = Folder::with_volume(&format!("for-ever-{pages}-{size}"), pages, inodes);
        folder.write("a", &text(size));
        succeeds(&folder, &["put", "v", "a"]);
        let link = |number: u64| is_done(&folder, &["ln", "v", "a", &format!("l{number:03}")]);
        assert!((0..).take_while(|&number| link(number)).count() > 0);
        for (old, new) in [("a", "b"), ("b", "a")].into_iter().cycle().take(40) {
            succeeds(&folder, &["mv", "v", old, new]);
            check_way_on(&folder);
        }
        empties(&folder);
    }
}

/// Where the pages that are kept cannot stay free, as many stay as can be.
#[test]
fn as_many_free_as_can_be() {
    let folder = Folder::new("as-many");
    let mut volume = formatted(16, 8);
    done(&mut volume, &create(b"a"));
    done(&mut volume, &write(1, 0, &text(4_096)));
    for name in b"bcdefghijklm" {
        done(&mut volume, &link(b"a", &[*name]));
    }
    for _ in 0..4 {
        done(&mut volume, &link(b"a", b"t"));
        done(&mut volume, &unlink(b"t"));
    }
    folder.write("v", &volume);
    folder.says(
        &["check", "v"],
        "accepted: 13 names, 2 free pages, journal closed\n",
    );
    let rm = ["rm", "v", "a", "b", "c", "d", "e", "f", "g", "h", "i"];
    folder.says_cleaned(&rm, "", "the root's log");
    folder.says(
        &["check", "v"],
        "accepted: 4 names, 1 free page, journal closed\n",
    );
    check_way_on(&folder);
}

/// Whatever the tool does, there is always a way on.
#[test]
fn commands_at_random() {
    let mut counts = [0, 0];
    for (seed, pages, inodes) in [(1, 16, 8), (2, 16, 64), (3, 24, 64), (4, 37, 256)] {
        let folder = Folder::with_volume(&format!("random-{seed}"), pages, inodes);
        let mut random = Random::new(seed);
        for _ in 0..200 {
            let command = any_command(&folder, &mut random);
            let words: Vec<&str> = command.iter().map(String::as_str).collect();
            counts[usize::from(is_done(&folder, &words))] += 1;
            check_way_on(&folder);
        }
        empties(&folder);
    }
    println!("{counts:?} refused and done");
    assert!(counts.iter().all(|&count| count >= 50), "{counts:?}");
}

/// A random command that puts, links, renames, truncates or, less often, removes.
fn any_command(folder: &Folder, random: &mut Random) -> Vec<String> {
    let standing = names(folder);
    let new = format!("n{}", random.below(24));
    let old = random.choose(&standing).cloned().unwrap_or_default();
    let size = random.below(1_500).to_string();
    let bytes = if random.once_in(2) {
        0
    } else {
        random.below(1_500)
    };
    folder.write("file", &text(bytes as usize));
    let words: Vec<&str> = match random.below(10) {
        0..3 if !old.is_empty() => vec!["mv", "v", &old, &new],
        3 if !old.is_empty() => vec!["truncate", "v", &old, &size],
        4 if !old.is_empty() => {
            let names = standing.iter().map(String::as_str);
            let few = names.take(random.between(1, 9) as usize);
            ["rm", "v"].into_iter().chain(few).collect()
        }
        5..8 if !old.is_empty() && !standing.contains(&new) => vec!["ln", "v", &old, &new],
        _ => vec!["put", "v", "file", "--as", &new],
    };
    words.into_iter().map(str::to_owned).collect()
}

/// The pages that are kept, as the reference counts them: an add for each name of the folder with most, a write for each
/// stretch of the file with most, seven to a page.
#[test]
fn kept_pages_beside_the_reference() {
    let mut random = Random::new(11);
    let mut exact = 0;
    for round in 0..400 {
        let volume = match round % 2 {
            0 => used_volume(&mut random),
            _ => made_up(&mut random),
        };
        let judged = match judge(&volume) {
            Ok(judged) if !judged.journal.is_open() => judged,
            _ => continue,
        };
        let names = judged.folders.values().map(Vec::len);
        let folder = names.fold(0, usize::max).div_ceil(7) as u64;
        let file = judged.files.values().map(log_pages).fold(1, u64::max);
        let free = judged.free_pages();
        let kept = kept(&volume).expect("accepted");
        if free >= folder.max(file) {
            exact += 1;
            assert_eq!(kept, folder + file);
        } else {
            assert!(kept > free && kept <= folder + file);
        }
    }
    assert!(exact >= 100, "{exact}");
}

/// The pages that a file's log takes once it is cleaned.
fn log_pages(file: &File) -> u64 {
    let mapped: Vec<(u64, u64)> = file.mapped().collect();
    let stretches = mapped.chunk_by(|one, next| (one.0 + 1, one.1 + 1) == *next);
    let entries = match stretches.count() {
        0 => usize::from(file.size > 0),
        count => count,
    };
    (entries as u64).div_ceil(7)
}

/// Each command cleans the root's log where that helps, and says so.
#[test]
fn cleaning_the_root_helps() {
    let folder = Folder::new("helps-root");
    folder.write("b", &text(1_000));
    let put = "1 file put, 1,000 bytes; 8 pages free\n";
    let cases: [(&[&str], &str); 5] = [
        (&["put", "v", "b"], put),
        (&["ln", "v", "a", "b"], ""),
        (&["mv", "v", "a", "b"], ""),
        (&["rm", "v", "e"], ""),
        (&["truncate", "v", "e", "1"], ""),
    ];
    for (command, out) in cases {
        folder.write("v", &with_long_logs(10, 1));
        folder.says_cleaned(command, out, "the root's log");
        let volume = folder.read("v");
        let judged = judge(&volume).expect("accepted");
        assert_eq!(judged.logs[&ROOT].pages.len(), 1, "{command:?}");
    }
}

/// Where the root's log gives nothing back, a file's does; where one is not enough, both do.
#[test]
fn cleaning_files_helps() {
    let folder = Folder::new("helps-files");
    folder.write("b", &text(1_000));
    folder.write("c", &text(3_000));
    folder.write("v", &with_long_logs(2, 9));
    let put = "1 file put, 1,000 bytes; 6 pages free\n";
    folder.says_cleaned(&["put", "v", "b"], put, "the log of a");

    let long = with_long_logs(6, 5);
    folder.write("v", &long);
    let both = "the root's log and the log of a";
    let put = "1 file put, 3,000 bytes; 4 pages free\n";
    folder.says_cleaned(&["put", "v", "c"], put, both);
    let mut map = map_of(&long);
    let names = map.folders.get_mut(&ROOT).expect("the root");
    names.push((b"c".to_vec(), 3));
    map.files.insert(3, text(3_000));
    assert_eq!(folder.map(), map);

    // A command of two files says in one line what it did for both.
    folder.write("v", &long);
    folder.write("c", &text(2_000));
    let ran = folder.office(&["put", "v", "b", "c", "--progress"]);
    let lines = "\r0 of 2 files, 1,000 bytes\r1 of 2 files, 1,000 bytes\r1 of 2 files, 3,000 bytes\
                 \r2 of 2 files, 3,000 bytes\n\
                 office: room was made by cleaning the root's log and the log of a\n";
    assert_eq!((ran.status, ran.err.as_str()), (0, lines));
}

/// No page is free, but the log of "e" needs none once it is cleaned; the page that it gives back
/// is the one that the root's log needs.
#[test]
fn cleaning_one_log_for_another() {
    let folder = Folder::new("helps-another");
    let mut volume = with_long_logs(10, 1);
    done(&mut volume, &set_size(2, 1)); // takes a log page
    done(&mut volume, &set_size(2, 0));
    for (old, new) in [(b"a", b"b"), (b"b", b"a"), (b"a", b"b")] {
        done(&mut volume, &rename(old, new)); // the first takes the last page
    }
    done(&mut volume, &link(b"b", b"c"));
    assert_eq!(judge(&volume).expect("accepted").free_pages(), 0);
    check_no_space(|list| calls::unlink(&volume, ROOT, b"c", list));
    check_no_space(|list| calls::clean(&volume, ROOT, list));
    assert!(!is_stuck(&volume));
    folder.write("v", &volume);
    let both = "the log of e and the root's log";
    folder.says_cleaned(&["rm", "v", "c"], "", both);

    folder.write("v", &volume);
    folder.write("x", &text(1_000));
    let put = "1 file put, 1,000 bytes; 8 pages free\n";
    folder.says_cleaned(&["put", "v", "x"], put, both);
}

/// A file's own log is cleaned where its new size finds no slot there.
#[test]
fn cleaning_the_file_that_is_truncated() {
    let folder = Folder::new("helps-truncate");
    let mut volume = with_long_logs(2, 1);
    done(&mut volume, &clean(0));
    done(&mut volume, &write(2, 0, &text(4_096)));
    assert_eq!(judge(&volume).expect("accepted").free_pages(), 2);
    folder.write("v", &volume);
    folder.says_cleaned(&["truncate", "v", "a", "400"], "", "the log of a");
    assert_eq!(folder.map().files[&1], text(400));
}

/// What a killed put left is removed, with the root's log cleaned first.
#[test]
fn cleaning_for_the_part_of_a_killed_put() {
    let folder = Folder::new("helps-part");
    let mut volume = with_long_logs(10, 1);
    done(&mut volume, &rename(b"e", PART));
    for _ in 0..2 {
        done(&mut volume, &link(b"a", b"b"));
        done(&mut volume, &unlink(b"b"));
    }
    done(&mut volume, &link(b"a", b"b"));
    assert_eq!(judge(&volume).expect("accepted").free_pages(), 1);
    folder.write("v", &volume);
    let removed = ".office-part removed: a killed put left it\n";
    folder.says_cleaned(&["recover", "v"], removed, "the root's log");
    assert_eq!(names(&folder), ["a", "b"]);
}

/// Where cleaning does not help, nothing is cleaned and nothing stored.
#[test]
fn refused_in_the_end() {
    let folder = Folder::new("helps-not");
    folder.write("large", &text(7_000));
    let line = format!("office: large: refused 12 (no space); {ADVICE}\n");
    for (root, file) in [(10, 1), (2, 9), (6, 5)] {
        let volume = with_long_logs(root, file);
        folder.write("v", &volume);
        folder.fails(&["put", "v", "large"], 1, &line);
        assert!(folder.read("v") == volume);
    }
}

/// A command that the calls would do is refused where it would leave too few free pages.
#[test]
fn pages_that_are_kept() {
    let folder = Folder::with_volume("kept", 16, 8);
    let before = folder.read("v");
    folder.write("a", &text(5_121));
    let line = format!(
        "office: a: would leave 1 free page, and at least 2 are kept so that logs can be cleaned \
         and files removed; {ADVICE}\n"
    );
    folder.fails(&["put", "v", "a"], 1, &line);
    assert!(folder.read("v") == before);
    folder.write("a", &text(5_120));
    folder.says(
        &["put", "v", "a"],
        "1 file put, 5,120 bytes; 2 pages free\n",
    );
    // Sizes for which the log has slots take no page, and need none.
    folder.says(&["truncate", "v", "a", "5121"], "");
    folder.says(&["truncate", "v", "a", "65536"], "");
    folder.says(&["truncate", "v", "a", "5120"], "");

    // What gives pages back, or changes nothing, is done though fewer are free than are kept.
    let mut volume = folder.read("v");
    done(&mut volume, &write(1, 5_120, &text(512)));
    assert_eq!(judge(&volume).expect("accepted").free_pages(), 1);
    folder.write("v", &volume);
    let line = format!(
        "office: a to b: would leave 1 free page, and at least 2 are kept so that logs can be \
         cleaned and files removed; {ADVICE}\n"
    );
    folder.fails(&["ln", "v", "a", "b"], 1, &line);
    folder.says(&["mv", "v", "a", "a"], "");
    folder.says(&["truncate", "v", "a", "5632"], "");
    assert!(folder.read("v") == volume);
    folder.says(&["truncate", "v", "a", "4608"], "");
    folder.says(&["ls", "v"], "files 1 free 3\n1 4608 a\n");
}

/// The calls refuse to take the last page, and the advice is what to do.
#[test]
fn the_last_page() {
    let folder = Folder::new("last-page");
    let mut volume = formatted(24, 16);
    for name in b"abcdefg" {
        done(&mut volume, &create(&[*name]));
    }
    done(&mut volume, &write(1, 0, &text(4_096)));
    done(&mut volume, &write(1, 4_096, &text(4_096)));
    done(&mut volume, &write(1, 8_192, &text(1_024)));
    assert_eq!(judge(&volume).expect("accepted").free_pages(), 1);
    folder.write("v", &volume);
    folder.write("x", b"");
    let line = format!("office: x: refused 15 (last page); {ADVICE}\n");
    folder.fails(&["put", "v", "x"], 1, &line);
    let line = format!("office: b: refused 15 (last page); {ADVICE}\n");
    folder.fails(&["truncate", "v", "b", "1"], 1, &line);
    assert!(folder.read("v") == volume);

    for mut command in quoted(&line) {
        replace(&mut command, "NAME", "a");
        folder.done(&command[1..]);
    }
    folder.done(&["put", "v", "x"]);
    folder.done(&["truncate", "v", "b", "1"]);
}

/// The commands that a line has in quotes, each as its words.
fn quoted(line: &str) -> Vec<Vec<String>> {
    let parts = line.split('\'').skip(1).step_by(2);
    let words = |part: &str| part.split(' ').map(str::to_owned).collect();
    parts.map(words).collect()
}

/// Writes something real for a word that stands for it.
fn replace(command: &mut [String], word: &str, with: &str) {
    for found in command.iter_mut().filter(|found| *found == word) {
        *found = with.to_owned();
    }
}

/// A volume of 16 pages and 8 inodes on which nothing makes room: no page is free, and the last
/// pages of the root's log and of the log of "a" are full. So many files stand, "a" has this
/// size on 11 pages and a second name, "z", and the others are empty.
fn stuck(count: u8, size: u64) -> Vec<u8> {
    let mut volume = formatted(16, 8);
    for number in 0..count {
        done(&mut volume, &create(&[b'a' + number]));
    }
    for (page, pages) in [(0, 2), (2, 2), (4, 2), (6, 2), (8, 2), (10, 1)] {
        done(&mut volume, &write(1, 512 * page, &text(512 * pages)));
    }
    done(&mut volume, &set_size(1, size));
    assert_eq!(judge(&volume).expect("accepted").free_pages(), 1);
    for (old, new) in [(b"a", b"z"), (b"z", b"a")].into_iter().cycle() {
        if run(&mut volume, &rename(old, new)).is_err() {
            break;
        }
    }
    let old = map_of(&volume)
        .names(ROOT)
        .last()
        .expect("a name")
        .0
        .clone();
    let new = if old == b"a" { b"z" } else { b"a" };
    done(&mut volume, &link(&old, new));
    volume
}

/// Makes a call that must be refused with 12.
fn check_no_space(call: impl FnOnce(&mut [u64]) -> Answer) {
    assert_eq!(call(&mut [0; LIST_WORDS]), Err(Refusal::NoSpace));
}

#[test]
fn a_stuck_volume_and_its_way_out() {
    let folder = Folder::new("stuck");
    folder.write("x", b"");
    for (count, size, put) in [
        (1, 5_633, "refused 12 (no space)"),
        (3, 65_536, "refused 12 (no space)"),
        (7, 6_000, "refused 10 (no inode)"),
    ] {
        let volume = stuck(count, size);
        check_no_space(|list| calls::unlink(&volume, ROOT, b"a", list));
        check_no_space(|list| calls::rename(&volume, ROOT, b"a", ROOT, b"y", list));
        check_no_space(|list| calls::set_size(&volume, 1, 0, list));
        check_no_space(|list| calls::clean(&volume, ROOT, list));
        check_no_space(|list| calls::clean(&volume, 1, list));
        assert!(is_stuck(&volume));
        folder.write("v", &volume);
        let out = says_the_way_out(&folder, put);
        assert!(folder.read("v") == volume, "nothing is stored");

        for mut command in quoted(&out) {
            replace(&mut command, "FOLDER", &format!("all-{count}"));
            replace(&mut command, "NEW", &format!("new-{count}"));
            folder.done(&command[1..]);
        }
        let new = map_of(&folder.read(format!("new-{count}")));
        assert_eq!(bytes_by_name(&new), bytes_by_name(&folder.map()));
        assert_eq!(new.names(ROOT).len(), usize::from(count) + 1);
    }
}

/// The first command of the way out leaves a file named "." out and says how it gets into the folder
/// too; so the new volume has every file.
#[test]
fn the_way_out_of_a_volume_with_a_dot_name() {
    let folder = Folder::new("stuck-dot");
    let mut volume = stuck(3, 6_000);
    give_name(&mut volume, b"b", b".");
    assert!(is_stuck(&volume));
    folder.write("v", &volume);
    let check = String::from_utf8(folder.done(&["check", "v"])).expect("text");
    let mut commands = quoted(&check);
    for command in &mut commands {
        replace(command, "FOLDER", "all");
        replace(command, "NEW", "new");
    }
    let ran = folder.office(&commands[0][1..]);
    assert_eq!(
        (ran.status, ran.out),
        (3, b"3 files copied, 12,000 bytes\n".to_vec())
    );
    for mut command in quoted(&ran.err) {
        replace(&mut command, "all/DEST", "all/dot");
        folder.done(&command[1..]);
    }
    for command in &commands[1..] {
        folder.done(&command[1..]);
    }
    give_name(&mut volume, b".", b"dot");
    let new = map_of(&folder.read("new"));
    assert_eq!(bytes_by_name(&new), bytes_by_name(&map_of(&volume)));
}

/// Every command that wants room on the stuck volume "v" says the way out of it; answers that.
/// `put` is how a put is refused.
fn says_the_way_out(folder: &Folder, put: &str) -> String {
    let check = String::from_utf8(folder.done(&["check", "v"])).expect("text");
    let out = check.lines().last().expect("a line").to_owned();
    let start = "no page is left with which a name could be removed or a log cleaned, but every \
                 file can be read: 'office get v --all FOLDER' copies them all; \
                 'office format NEW --pages ";
    assert!(out.starts_with(start), "{out}");
    let full = "refused 12 (no space)";
    let cases: [(&[&str], &str); 7] = [
        (&["put", "v", "x"], &format!("x: {put}")),
        (&["ln", "v", "a", "y"], &format!("a to y: {full}")),
        (&["ln", "v", "a", "z"], "a to z: refused 7 (taken)"),
        (&["truncate", "v", "a", "0"], &format!("a: {full}")),
        (&["rm", "v", "a"], &format!("a: {full}")),
        (&["rm", "v", "z", "a"], &format!("z: {full}")),
        (&["mv", "v", "a", "y"], &format!("a to y: {full}")),
    ];
    for (command, what) in cases {
        folder.fails(command, 1, &format!("office: {what}; {out}\n"));
    }
    let ran = folder.office(&["clean", "v"]);
    let map = folder.map();
    let first = map.names(ROOT).iter().find(|(_, inode)| *inode == 1);
    let first = String::from_utf8_lossy(&first.expect("it has a name").0);
    let lines = format!(
        "office: /: skipped, no room for its new log: {full}\n\
         office: {first}: skipped, no room for its new log: {full}\n\
         office: v: {out}\n"
    );
    assert_eq!((ran.status, ran.err), (1, lines));
    folder.says(&["recover", "v"], "nothing to do\n");
    out
}

/// The paths of all names, a folder's with a "/" at the end and behind what is in it.
fn paths(folder: &Folder) -> Vec<String> {
    let ls = String::from_utf8(folder.done(&["ls", "v", "-R"])).expect("text");
    let path = |line: &str| line.splitn(3, ' ').nth(2).expect("a path").to_owned();
    let mut paths: Vec<String> = ls.lines().skip(1).map(path).collect();
    paths.reverse();
    paths
}

/// Empties the full volume "v", which has folders, in two ways: whole folders in one command, and one name after
/// another.
fn empties_folders(folder: &Folder) {
    let full = folder.read("v");
    let names = names(folder);
    let rm = ["rm", "v", "-r"].into_iter();
    let rm: Vec<&str> = rm.chain(names.iter().map(String::as_str)).collect();
    succeeds(folder, &rm);
    assert_eq!(folder.map(), files(&[]));

    folder.write("v", &full);
    for path in paths(folder) {
        let command = if path.ends_with('/') { "rmdir" } else { "rm" };
        succeeds(folder, &[command, "v", &path]);
    }
    assert_eq!(folder.map(), files(&[]));
}

/// Every folder's log can be cleaned.
fn check_ways_on(folder: &Folder) {
    let volume = folder.read("v");
    let judged = judge(&volume).expect("accepted");
    for &inode in judged.folders.keys() {
        let cleaned = calls::clean(&volume, inode, &mut [0; LIST_WORDS]);
        assert!(cleaned.is_ok(), "inode {inode}: {cleaned:?}");
    }
}

/// Volumes filled with folders and files in them until the tool refuses, and emptied again.
#[test]
fn folders_filled_and_emptied() {
    for (pages, inodes, size) in [(24, 64, 0), (40, 64, 0), (40, 64, 300), (64, 256, 1)] {
        let folder = Folder::with_volume(&format!("fill-folders-{pages}-{size}"), pages, inodes);
        folder.write("x", &text(size));
        let mut count = 0;
        'full: for number in 0.. {
            let place = format!("f{number}");
            for name in 0..9 {
                let to = format!("{place}/n{name}");
                if !is_done(&folder, &["put", "v", "x", "--as", &to]) {
                    break 'full;
                }
                count += 1;
            }
        }
        println!("{pages} pages, {size} bytes: {count} files in folders");
        assert!(count > 1);
        check_ways_on(&folder);
        empties_folders(&folder);
    }
}

/// Moves from folder to folder take pages for good, so they are refused in time; renames go on for ever.
#[test]
fn moved_between_folders() {
    let folder = Folder::with_volume("fill-moves", 32, 64);
    for number in 0..20 {
        folder.write(format!("day/e{number:02}"), b"");
    }
    succeeds(&folder, &["put", "v", "day"]);
    let mut made = 0;
    while is_done(&folder, &["mkdir", "v", &format!("f{made}")]) && made < 25 {
        made += 1;
    }
    let moved = |number: &usize| {
        let (old, new) = (
            format!("e{:02}", number % 20),
            format!("f{}", number % made),
        );
        is_done(&folder, &["mv", "v", &old, &new])
    };
    let done = (0..20).take_while(moved).count();
    println!("{made} folders, {done} files moved");
    assert!(made > 10 && done > 5 && done < 20);
    check_ways_on(&folder);
    for (old, new) in [("f0/e00", "f0/z"), ("f0/z", "f0/e00")]
        .into_iter()
        .cycle()
        .take(40)
    {
        succeeds(&folder, &["mv", "v", old, new]);
        check_ways_on(&folder);
    }
    empties_folders(&folder);
}

/// A folder's log is cleaned where that makes room, and said by its path.
#[test]
fn cleaning_a_folder_helps() {
    let folder = Folder::new("helps-folder");
    let mut volume = formatted(16, 8);
    done(&mut volume, &samples::create_folder(ROOT, b"f"));
    done(&mut volume, &samples::create_in(1, b"a"));
    while judge(&volume).expect("accepted").free_pages() > 2 {
        done(&mut volume, &samples::create_in(1, b"t"));
        done(&mut volume, &samples::unlink_in(1, b"t"));
    }
    folder.write("v", &volume);
    folder.write("b", &text(1_000));
    let put = "1 file put, 1,000 bytes; 9 pages free\n";
    folder.says_cleaned(&["put", "v", "b"], put, "the log of f/");
    folder.write("v", &volume);
    folder.says_cleaned(&["put", "v", "b", "--to", "f"], put, "the log of f/");
}

/// What changes nothing is done though fewer pages are free than are kept: two names of one file, in two folders.
#[test]
fn a_move_that_changes_nothing() {
    let folder = Folder::new("kept-move");
    let mut volume = formatted(16, 8);
    done(&mut volume, &samples::create_folder(ROOT, b"f"));
    done(&mut volume, &create(b"a"));
    done(&mut volume, &samples::link_in(ROOT, b"a", 1, b"b"));
    done(&mut volume, &write(2, 0, &text(4_096)));
    done(&mut volume, &write(2, 4_096, &text(1_024)));
    assert_eq!(judge(&volume).expect("accepted").free_pages(), 1);
    folder.write("v", &volume);
    folder.says(&["mv", "v", "a", "f/b"], "");
    assert!(folder.read("v") == volume);
    let line = format!(
        "office: a to f/a: would leave 1 free page, and at least 2 are kept so that logs can be cleaned \
         and files removed; {ADVICE}\n"
    );
    folder.fails(&["mv", "v", "a", "f"], 1, &line);
}
