//! Stores, fences and bytes of the changing calls, counted in the store lists that the compiled calls fill.

use crate::table::{shown, whole, Table};
use crate::volumes::{opened, Kind};
use calls::layout::ROOT;
use calls::list::groups;
use calls::{Answer, Refusal};
use reference::Call;
use samples::{create, create_folder, create_in, done, formatted, link, numbered, text, write};
use std::collections::BTreeSet;

/// What a store list stores.
pub struct Counts {
    /// Stores of a word, 8 bytes each.
    stores: u64,
    /// Lines of 64 bytes that are touched, each once for each group: what a flush of lines before each fence takes.
    lines: u64,
    /// Fences, one at the end of each group.
    fences: u64,
    /// Stores in the journal's positions, words 16 to 47.
    journal: u64,
}

impl Counts {
    /// Of the filled part of a list.
    fn of(list: &[u64]) -> Counts {
        let groups = groups(list);
        let indices = || groups.iter().flatten().map(|store| store.0);
        let lines = groups.iter().map(|group| {
            let lines: BTreeSet<u64> = group.iter().map(|store| store.0 / 8).collect();
            lines.len() as u64
        });
        Counts {
            stores: indices().count() as u64,
            lines: lines.sum(),
            fences: groups.len() as u64,
            journal: indices().filter(|index| (16..48).contains(index)).count() as u64,
        }
    }

    /// The words of the list: two for each store and each fence.
    fn words(&self) -> u64 {
        2 * (self.stores + self.fences)
    }
}

/// Asks a call for its store list on a volume.
type Fill = dyn Fn(&[u8], &mut [u64]) -> Answer;

/// A call in one of its typical shapes.
struct Shape {
    name: String,
    volume: Vec<u8>,
    fill: Box<Fill>,
    /// How many bytes the caller handed over as a file's bytes.
    user: Option<u64>,
}

impl Shape {
    fn new(
        name: &str,
        volume: Vec<u8>,
        fill: impl Fn(&[u8], &mut [u64]) -> Answer + 'static,
    ) -> Shape {
        Shape {
            name: name.to_string(),
            volume,
            fill: Box::new(fill),
            user: None,
        }
    }

    /// What the call's list stores on the shape's volume.
    fn counts(&self) -> Result<Counts, Refusal> {
        let mut list = vec![0; 4_096];
        let count = (self.fill)(&self.volume, &mut list)?;
        Ok(Counts::of(&list[..count as usize]))
    }
}

/// The table of every shape.
pub fn counted() -> Table {
    let mut table = Table::new(&[
        &"change",
        &"words of the list",
        &"stores",
        &"bytes stored",
        &"of them in the journal",
        &"lines of 64 bytes",
        &"fences",
        &"user's bytes",
        &"ratio stored / user's",
    ]);
    for shape in shapes() {
        let counts = shape.counts().expect("the call is done");
        let bytes = 8 * counts.stores;
        table.row(&[
            &shape.name,
            &whole(counts.words()),
            &whole(counts.stores),
            &whole(bytes),
            &whole(8 * counts.journal),
            &whole(counts.lines),
            &whole(counts.fences),
            &shape.user.map_or("-".to_string(), whole),
            &shape
                .user
                .map_or("-".to_string(), |user| shown(bytes as f64 / user as f64)),
        ]);
    }
    table
}

/// Every shape, call by call.
fn shapes() -> Vec<Shape> {
    let mut shapes = naming_shapes();
    shapes.extend(folder_shapes());
    shapes.extend(write_shapes());
    shapes.extend(scattered_shapes());
    shapes.extend(size_shapes());
    shapes.extend(upkeep_shapes());
    shapes
}

/// The page and inode counts of the volumes.
const PAGES: u64 = 128;
const INODES: u64 = 32;
/// The first file's inode.
const FILE: u64 = 1;

/// A volume after these calls.
fn after(calls: &[Call]) -> Vec<u8> {
    let mut volume = formatted(PAGES, INODES);
    for call in calls {
        done(&mut volume, call);
    }
    volume
}

/// A volume with so many files, named by number.
fn with_files(count: u64) -> Vec<u8> {
    let creates: Vec<Call> = (0..count).map(|number| create(&numbered(number))).collect();
    after(&creates)
}

/// A volume with one file whose log has so many writes of 4,096 bytes at 0.
fn with_writes(count: usize) -> Vec<u8> {
    let mut calls = vec![create(&numbered(0))];
    calls.extend((0..count).map(|_| write(FILE, 0, &text(4_096))));
    after(&calls)
}

/// Create, link, unlink, rename, all in the root.
fn naming_shapes() -> Vec<Shape> {
    let new_file = |volume: &[u8], list: &mut [u64]| calls::create(volume, ROOT, b"new", list);
    let unlink = |volume: &[u8], list: &mut [u64]| calls::unlink(volume, ROOT, b"n000", list);
    let two_names = after(&[create(b"n000"), link(b"n000", b"other")]);
    vec![
        Shape::new("create, empty log", with_files(0), new_file),
        Shape::new("create, room in the log page", with_files(1), new_file),
        Shape::new("create, new log page", with_files(7), new_file),
        Shape::new(
            "link, room in the log page",
            with_files(1),
            |volume, list| calls::link(volume, ROOT, b"n000", ROOT, b"new", list),
        ),
        Shape::new("unlink, one of two names", two_names, unlink),
        Shape::new("unlink, the last name", with_files(1), unlink),
        Shape::new("rename, to a new name", with_files(1), |volume, list| {
            calls::rename(volume, ROOT, b"n000", ROOT, b"new", list)
        }),
        Shape::new(
            "rename, over another file's last name",
            with_files(2),
            |volume, list| calls::rename(volume, ROOT, b"n000", ROOT, b"n001", list),
        ),
    ]
}

/// The folder of [`with_folder`].
const FOLDER: u64 = 1;

/// A volume with a folder, and so many files in the root and in the folder, named by number.
fn with_folder(in_root: u64, in_folder: u64) -> Vec<u8> {
    let mut calls = vec![create_folder(ROOT, b"folder")];
    calls.extend((0..in_root).map(|number| create(&numbered(number))));
    calls.extend((0..in_folder).map(|number| create_in(FOLDER, &numbered(number))));
    after(&calls)
}

/// Folders made and taken away, and names moved between two.
fn folder_shapes() -> Vec<Shape> {
    let new_folder =
        |volume: &[u8], list: &mut [u64]| calls::create_folder(volume, ROOT, b"new", list);
    let moved_to = |name: &'static [u8]| {
        move |volume: &[u8], list: &mut [u64]| {
            calls::rename(volume, FOLDER, b"n000", ROOT, name, list)
        }
    };
    vec![
        Shape::new("create_folder, empty log", with_files(0), new_folder),
        Shape::new("create_folder, new log page", with_files(7), new_folder),
        Shape::new(
            "unlink, an empty folder",
            with_folder(0, 0),
            |volume, list| calls::unlink(volume, ROOT, b"folder", list),
        ),
        Shape::new(
            "move to another folder, room in both log pages",
            with_folder(1, 1),
            moved_to(b"new"),
        ),
        Shape::new(
            "move over another file's last name, room in both log pages",
            with_folder(1, 1),
            moved_to(b"n000"),
        ),
        Shape::new(
            "move over another file's last name, two new log pages",
            with_folder(6, 7),
            moved_to(b"n000"),
        ),
    ]
}

/// Writes of four lengths at 0, each into an empty log, with room in the log page, and with a new log page.
fn write_shapes() -> Vec<Shape> {
    let mut shapes = Vec::new();
    for (shape, writes) in [
        ("empty log", 0),
        ("room in the log page", 1),
        ("new log page", 7),
    ] {
        for length in [1, 100, 512, 4_096] {
            let fill = move |volume: &[u8], list: &mut [u64]| {
                calls::write(volume, FILE, 0, &text(length), list)
            };
            let bytes = if length == 1 { "byte" } else { "bytes" };
            let name = format!("write, {} {bytes}, {shape}", whole(length as u64));
            let mut shape = Shape::new(&name, with_writes(writes), fill);
            shape.user = Some(length as u64);
            shapes.push(shape);
        }
    }
    shapes
}

/// Writes of 4,096 bytes at 1 where every second page is free: nine data pages in nine pieces, and two log pages.
fn scattered_shapes() -> Vec<Shape> {
    let subject = Kind::EverySecondFree.make()(PAGES);
    let mut with_new = subject.volume.clone();
    done(&mut with_new, &create(b"new"));
    let new = calls::find(&with_new, ROOT, b"new").expect("the name stands");
    let shape = |log: &str, volume: Vec<u8>, file: u64| {
        let name = format!("scattered write, 4,096 bytes in nine pieces, {log}");
        let mut shape = Shape::new(&name, volume, move |volume, list| {
            calls::write(volume, file, 1, &text(4_096), list)
        });
        shape.user = Some(4_096);
        shape
    };
    vec![
        shape("empty log", with_new, new),
        shape("two new log pages", subject.volume, subject.file),
    ]
}

/// Set size of a file of 4,096 bytes.
fn size_shapes() -> Vec<Shape> {
    let shape = |name: &str, size: u64| {
        Shape::new(name, with_writes(1), move |volume, list| {
            calls::set_size(volume, FILE, size, list)
        })
    };
    vec![
        shape("set_size, smaller, inside a page", 100),
        shape("set_size, smaller, at a page's start", 512),
        shape("set_size, larger", 5_000),
    ]
}

/// Clean and recover.
fn upkeep_shapes() -> Vec<Shape> {
    vec![
        Shape::new(
            "clean, a file's log: 8 writes, one stretch left",
            with_writes(8),
            |volume, list| calls::clean(volume, FILE, list),
        ),
        Shape::new(
            "clean, the directory's log: 8 names",
            with_files(8),
            |volume, list| calls::clean(volume, ROOT, list),
        ),
        Shape::new(
            "recover, two entries open",
            opened(&with_files(1)),
            calls::recover,
        ),
    ]
}

/// A figure of a source document beside one of ours.
struct Beside {
    what: &'static str,
    ours: Ours,
    system: &'static str,
    theirs: u64,
    how: &'static str,
}

/// Where our figure comes from.
enum Ours {
    /// Counted in the list of the shape with this name.
    Counted(&'static str, fn(&Counts) -> u64),
    /// Said by document 01.
    Said(u64),
}

impl Ours {
    fn number(&self, shapes: &[Shape]) -> u64 {
        match self {
            Ours::Said(number) => *number,
            Ours::Counted(name, count) => {
                let shape = shapes.iter().find(|shape| shape.name == *name);
                let counts = shape.expect("a shape of the table").counts();
                count(&counts.expect("the call is done"))
            }
        }
    }
}

/// What can be laid beside each other: bytes, flushes and journal bytes.
const BESIDE: &[Beside] = &[
    Beside {
        what: "bytes stored by a write of 1 byte",
        ours: Ours::Counted("write, 1 byte, room in the log page", |counts| {
            8 * counts.stores
        }),
        system: "NOVA",
        theirs: 4_096,
        how: "the data page alone, without log entry and tail; source 000, section 3.2.4",
    },
    Beside {
        what: "bytes stored by a write of 4,096 bytes, durable",
        ours: Ours::Counted("write, 4,096 bytes, room in the log page", |counts| {
            8 * counts.stores
        }),
        system: "ext4, append and fsync",
        theirs: 9 * 4_096,
        how: "one data page and eight journal pages, 4 KB each; source 000, section 5.1.5",
    },
    Beside {
        what: "lines flushed by create",
        ours: Ours::Counted("create, room in the log page", |counts| counts.lines),
        system: "PMFS",
        theirs: 14,
        how: "\"around 14 clflushes\"; source 001, section 2.2",
    },
    Beside {
        what: "lines flushed by create",
        ours: Ours::Counted("create, room in the log page", |counts| counts.lines),
        system: "NOVA",
        theirs: 10,
        how: "divided here: 8 us more where each clflush takes 800 ns more; source 001, \"Sensitivity to NVM Characteristics\"",
    },
    Beside {
        what: "lines flushed by unlink of the last name",
        ours: Ours::Counted("unlink, the last name", |counts| counts.lines),
        system: "NOVA and PMFS",
        theirs: 15,
        how: "divided here: 6 us to 18 us where each clflush takes 800 ns more; source 001, \"Sensitivity to NVM Characteristics\"",
    },
    Beside {
        what: "journal bytes of a rename over a file, across two folders",
        ours: Ours::Counted(
            "move over another file's last name, room in both log pages",
            |counts| 8 * counts.journal,
        ),
        system: "NOVA",
        theirs: 64,
        how: "four inodes, 16 bytes each; source 000, section 3.2.2",
    },
    Beside {
        what: "journal bytes for one word",
        ours: Ours::Said(16),
        system: "NOVA",
        theirs: 16,
        how: "address and value; the struct of Figure 3.4 has 32 with type and checksum; source 000, section 3.2.2",
    },
    Beside {
        what: "bytes of a log's write entry",
        ours: Ours::Said(64),
        system: "NOVA",
        theirs: 48,
        how: "the fields added up here; source 000, Figure 3.10",
    },
    Beside {
        what: "bytes of an inode",
        ours: Ours::Said(64),
        system: "NOVA",
        theirs: 128,
        how: "source 000, section 3.2.1",
    },
    Beside {
        what: "bytes of an inode",
        ours: Ours::Said(64),
        system: "SoupFS",
        theirs: 64,
        how: "source 001, section 3.8",
    },
    Beside {
        what: "bytes of a page",
        ours: Ours::Said(512),
        system: "NOVA",
        theirs: 4_096,
        how: "source 000, Figure 3.1",
    },
];

/// The figures of the source documents that have a counterpart here, with ratios.
pub fn beside_sources() -> Table {
    let mut table = Table::new(&[
        &"what",
        &"here",
        &"there",
        &"ratio here / there",
        &"file system",
        &"where the figure comes from",
    ]);
    let shapes = shapes();
    for beside in BESIDE {
        let ours = beside.ours.number(&shapes);
        table.row(&[
            &beside.what,
            &whole(ours),
            &whole(beside.theirs),
            &shown(ours as f64 / beside.theirs as f64),
            &beside.system,
            &beside.how,
        ]);
    }
    table
}

#[cfg(test)]
mod tests {
    use super::*;

    /// Cases B to E of document 01: words filled are two for each store and each fence.
    #[test]
    fn counts_are_those_of_the_cases() {
        let mut volume = formatted(16, 8);
        let calls = [
            (create(b"A1"), 48),
            (write(1, 510, b"text"), 280),
            (samples::set_size(1, 100), 166),
            (samples::clean(1), 40),
        ];
        for (call, words) in calls {
            let counts = Counts::of(&samples::filled(&volume, &call).expect("done"));
            assert_eq!(counts.words(), words);
            done(&mut volume, &call);
        }
    }

    /// Two groups: three lines and one, the first of them with journal words.
    #[test]
    fn lines_are_counted_for_each_group() {
        let fence = calls::list::FENCE;
        let list = [16, 1, 17, 2, 24, 3, 200, 4, fence, 0, 201, 5, fence, 0];
        let counts = Counts::of(&list);
        assert_eq!((counts.stores, counts.lines, counts.fences), (5, 4, 2));
        assert_eq!(counts.journal, 3);
    }

    /// Two words for each store and each fence. Create: an entry, a head or a link, three words of the new inode, two journal pairs, two
    /// targets and the journal's two positions. A move over a last name: two entries, two links, three pairs, three targets, two positions.
    #[test]
    fn longest_lists_of_create_and_rename() {
        let words = |shape: &Shape| shape.counts().expect("done").words();
        let shapes: Vec<Shape> = naming_shapes().into_iter().chain(folder_shapes()).collect();
        let longest = |call: &str| {
            let named = shapes.iter().filter(|shape| shape.name.starts_with(call));
            named.map(words).max()
        };
        assert_eq!(longest("create"), Some(2 * (8 + 1 + 3 + 4 + 2 + 2 + 4)));
        assert_eq!(longest("move"), Some(2 * (16 + 2 + 6 + 3 + 2 + 4)));
    }

    #[test]
    fn scattered_writes_have_the_longest_lists_of_a_write() {
        for shape in scattered_shapes() {
            let counts = shape.counts().expect("done");
            assert_eq!(counts.words(), 1_306, "{}", shape.name);
        }
    }

    #[test]
    fn every_figure_beside_has_its_shape() {
        assert_eq!(beside_sources().rows.len(), BESIDE.len());
    }
}
