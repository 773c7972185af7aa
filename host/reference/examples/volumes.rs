//! Inputs for the program volume-list, with what it must print for each. `tests/listing` runs it.
//!
//! `volumes FOLDER` writes two files into the folder for each input: NAME.volume, the bytes on
//! standard input, and NAME.text, the listing. It prints the names, one to a line.

use reference::layout::{set_word, tail_word};
use reference::random::Random;
use reference::{cut, format, free_count, land, listing, Call};
use std::path::Path;
use std::process::exit;

/// The longest input that is listed: a volume of 128 pages.
const MOST_BYTES: usize = 65_536;

fn main() {
    let Some(folder) = std::env::args().nth(1) else {
        eprintln!("usage: volumes FOLDER");
        exit(2);
    };
    for (name, volume, first) in inputs() {
        let text = listing(&volume);
        assert!(text.starts_with(first.as_bytes()), "{name}: not {first}");
        if let Err(error) = put(Path::new(&folder), name, &volume, &text) {
            eprintln!("volumes: {folder}: {error}");
            exit(2);
        }
        println!("{name}");
    }
}

fn put(folder: &Path, name: &str, volume: &[u8], text: &[u8]) -> std::io::Result<()> {
    std::fs::write(folder.join(format!("{name}.volume")), volume)?;
    std::fs::write(folder.join(format!("{name}.text")), text)
}

/// Each input by its name, with the bytes and what its listing must begin with.
fn inputs() -> Vec<(&'static str, Vec<u8>, &'static str)> {
    let mut longer = largest();
    longer.push(0);
    vec![
        ("case-c", case_c(), "files 1 free 10\n1 514 A1\n"),
        ("empty", formatted(16, 8), "files 0 free 14\n"),
        ("free-99", formatted(101, 8), "files 0 free 99\n"),
        ("free-100", formatted(102, 8), "files 0 free 100\n"),
        ("full", full(), "files 1 free 0\n"),
        ("links", links(), "files 4 free "),
        (
            "dot-names",
            dot_names(),
            "files 2 free 13\n1 700 .\n2 0 ..\n",
        ),
        (
            "folders",
            folders(),
            "files 4 free 8\n1 65557 east\n2 0 west\n4 20 A1\n6 0 A2\n",
        ),
        ("deep", deep(), "files 1 free "),
        ("totals", totals(), "files 2 free 28\n1 43909120 "),
        ("ring", ring(), "refused 3\n"),
        ("numbers", numbers(), "files 9 free "),
        ("names-224", most_names(), "files 224 free 1\n"),
        ("largest", largest(), "files 1 free 117\n"),
        ("longer", longer, "refused 2\n"),
        ("longest", formatted(4_096, 256), "refused 2\n"),
        ("nothing", Vec::new(), "refused 2\n"),
        ("short", case_c()[..8_191].to_vec(), "refused 2\n"),
        ("noise", Random::new(1).bytes(8_192), "refused 2\n"),
        ("damaged", damaged(), "refused 3\n"),
        ("open", open(), "refused 4\n"),
    ]
}

fn formatted(pages: u64, inodes: u64) -> Vec<u8> {
    let mut volume = vec![0; pages as usize * 512];
    format(&mut volume, pages, inodes).expect("sizes of a volume");
    volume
}

/// What a call fills into a list.
fn filled(volume: &[u8], call: &Call) -> Vec<u64> {
    let mut list = vec![0; 4_096];
    let count = call.fill(volume, &mut list).expect("the call is done");
    list.truncate(count as usize);
    list
}

/// Makes a call that must be done, and lands its list.
fn done(volume: &mut [u8], call: &Call) {
    let list = filled(volume, call);
    land(volume, &list);
}

fn create(name: &[u8]) -> Call {
    samples::create(name)
}

fn write(inode: u64, offset: u64, bytes: Vec<u8>) -> Call {
    Call::Write {
        inode,
        offset,
        bytes,
    }
}

/// Case C of document 01, "Campsite examples".
fn case_c() -> Vec<u8> {
    let mut volume = formatted(16, 8);
    done(&mut volume, &create(b"A1"));
    done(&mut volume, &write(1, 510, b"text".to_vec()));
    volume
}

/// No page is free: create and write keep one page back, and unlink takes it.
fn full() -> Vec<u8> {
    let mut volume = formatted(16, 8);
    done(&mut volume, &create(b"A1"));
    done(&mut volume, &write(1, 0, vec![7; 4_096]));
    done(&mut volume, &write(1, 4_096, vec![7; 1_536]));
    let name = b"B2".to_vec();
    for _ in 0..3 {
        done(&mut volume, &create(&name));
        done(&mut volume, &samples::unlink(&name));
    }
    done(&mut volume, &samples::rename(b"A1", b"A2"));
    volume
}

/// Names in another order than their inodes, two of them of one file; some bytes are no letters.
fn links() -> Vec<u8> {
    let mut volume = case_c();
    for name in [&b"B2"[..], b"C 3\n", b"\xFF\x01"] {
        done(&mut volume, &create(name));
    }
    done(&mut volume, &samples::link(b"C 3\n", b"A link"));
    done(&mut volume, &samples::rename(b"A1", b"last"));
    done(&mut volume, &samples::unlink(b"B2"));
    volume
}

/// The names "." and "..", which no call gives to a file.
fn dot_names() -> Vec<u8> {
    let mut volume = samples::sample();
    samples::give_name(&mut volume, b"A1", b".");
    samples::give_name(&mut volume, b"B2", b"..");
    volume
}

/// Folders in folders, one of them empty; a file has names in two of them and in inode 0.
fn folders() -> Vec<u8> {
    let mut tree = samples::Tree::default();
    tree.folder(0, b"east", 1);
    tree.folder(0, b"west", 2);
    tree.folder(1, b"inner", 3);
    tree.file(0, b"A1", 4, 20);
    tree.name(1, b"B2", 4);
    tree.name(3, b"C3", 4);
    tree.file(3, b"D4", 5, 65_517);
    tree.file(0, b"A2", 6, 0);
    tree.volume(16, 16)
}

/// Three folders, each in the one before, with 224 names each; all the others lead to one file of 65,536 bytes: totals of
/// eight digits, beside a name of 32 bytes.
fn totals() -> Vec<u8> {
    let mut tree = samples::Tree::default();
    tree.folder(0, &[b'f'; 32], 1);
    tree.folder(1, b"inner", 2);
    tree.folder(2, b"inner", 3);
    tree.file(0, b"A1", 4, 65_536);
    for (folder, names) in [(1, 223), (2, 223), (3, 224)] {
        for number in 0..names {
            tree.name(folder, &samples::numbered(number), 4);
        }
    }
    tree.volume(128, 8)
}

/// A chain of folders, each in the one before, as deep as 65,536 bytes allow, with a file at its end.
fn deep() -> Vec<u8> {
    let mut tree = samples::Tree::default();
    for inode in 1..=100 {
        tree.folder(inode - 1, b"folder", inode);
    }
    tree.file(100, b"A1", 101, 65_536);
    tree.volume(128, 104)
}

/// Two folders that hold each other, and are not reached from inode 0.
fn ring() -> Vec<u8> {
    let mut tree = samples::Tree::default();
    tree.folder(1, b"one", 2);
    tree.folder(2, b"other", 1);
    tree.volume(16, 8)
}

/// Sizes on both sides of each count of digits.
fn numbers() -> Vec<u8> {
    let mut volume = formatted(64, 16);
    let sizes = [0, 9, 10, 99, 100, 9_999, 10_000, 65_535, 65_536];
    for (inode, size) in (1..).zip(sizes) {
        done(&mut volume, &create(format!("{size}").as_bytes()));
        done(&mut volume, &Call::SetSize { inode, size });
    }
    volume
}

/// As many names as may stand, on the largest volume, with names and sizes as long as may be.
fn most_names() -> Vec<u8> {
    let mut volume = formatted(128, 256);
    for number in 1..=224 {
        done(
            &mut volume,
            &create(format!("name {number:0>27}").as_bytes()),
        );
    }
    for inode in (1..=224).rev() {
        if free_count(&volume) != Ok(1) {
            let size = 65_536;
            done(&mut volume, &Call::SetSize { inode, size });
        }
    }
    volume
}

/// A volume of 65,536 bytes.
fn largest() -> Vec<u8> {
    let mut volume = formatted(128, 8);
    done(&mut volume, &create(b"A1"));
    done(&mut volume, &write(1, 61_000, vec![7; 3_500]));
    assert_eq!(volume.len(), MOST_BYTES);
    volume
}

/// A tail that is none.
fn damaged() -> Vec<u8> {
    let mut volume = case_c();
    set_word(&mut volume, tail_word(1), 65);
    volume
}

/// A create whose first target landed and whose second did not.
fn open() -> Vec<u8> {
    let mut volume = case_c();
    let list = filled(&volume, &create(b"B2"));
    cut(&mut volume, &list, 2, |index| index == tail_word(0));
    volume
}
