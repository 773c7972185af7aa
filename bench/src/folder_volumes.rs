//! What calls take on volumes with folders: few and many, deep and flat, with short logs and with long ones.

use crate::table::{shown, whole, Table};
use crate::timing::{largest_spread, Effort};
use calls::layout::ROOT;
use calls::Answer;
use reference::Call;
use samples::{create_in, filled, rename_in, Tree};

/// The page and inode counts of the volumes.
const PAGES: u64 = 4_096;
const INODES: u64 = 256;
/// As many folders as leave an inode for a file and one for create.
const MOST: u64 = INODES - 3;
/// How many names a folder may have.
const NAMES: u64 = 224;
/// The log pages that all folders together have, about; with 0 each log has one, or as many as its names take.
const LOG_PAGES: [u64; 3] = [0, 1_000, 4_000];
/// With fewer log pages than this a call's fixed part shows.
const MANY_PAGES: u64 = 500;

/// How the folders lie.
#[derive(Clone, Copy)]
enum Shape {
    /// Each in the one before it.
    Deep,
    /// All in the root, as far as it has room for their names, and the others in the first.
    Flat,
}

/// The volumes: what the table calls them, their folders, and how these lie.
const VOLUMES: [(&str, u64, Shape); 5] = [
    ("1 folder", 1, Shape::Deep),
    ("16 folders, deep", 16, Shape::Deep),
    ("16 folders, flat", 16, Shape::Flat),
    ("253 folders, deep", MOST, Shape::Deep),
    ("253 folders, flat", MOST, Shape::Flat),
];

impl Shape {
    /// The folder that a folder lies in.
    fn above(self, folder: u64) -> u64 {
        match self {
            Shape::Deep => folder - 1,
            Shape::Flat if folder <= NAMES => ROOT,
            Shape::Flat => 1,
        }
    }
}

/// A volume with folders 1 to `last`, and one file, with a name in the last of them.
struct Subject {
    volume: Vec<u8>,
    log_pages: u64,
    /// The last folder, and the folder that the file is moved to.
    last: u64,
    first: u64,
}

/// The file's name; each folder's name has its number.
const FILE_NAME: &[u8] = b"list";

fn folder_name(folder: u64) -> Vec<u8> {
    format!("field {folder}").into_bytes()
}

impl Subject {
    /// A volume whose logs have about so many pages together, shared evenly. Names are added and removed again, each another, until a
    /// log has its pages.
    fn new(last: u64, shape: Shape, log_pages: u64) -> Subject {
        let file = last + 1;
        let mut tree = Tree::default();
        for folder in ROOT..=last {
            let others = (7 * (log_pages / (last + 1)) / 2).max(1);
            let other = |number: u64| format!("other name {number}").into_bytes();
            for number in 0..others {
                tree.name(folder, &other(number), file);
            }
            for inside in (1..=last).filter(|&inside| shape.above(inside) == folder) {
                tree.folder(folder, &folder_name(inside), inside);
            }
            if folder == last {
                tree.file(folder, FILE_NAME, file, 514);
            }
            for number in 0..others {
                tree.remove(folder, &other(number));
            }
        }
        let subject = Subject {
            volume: tree.volume(PAGES, INODES),
            log_pages: tree.log_pages(),
            last,
            first: if last == 1 { ROOT } else { 1 },
        };
        subject.check();
        subject
    }

    /// The compiled calls are done, and answer as the reference does.
    fn check(&self) {
        let volume = &self.volume;
        assert_eq!(calls::find(volume, self.last, FILE_NAME), Ok(self.last + 1));
        assert_eq!(calls::total(volume, ROOT), Ok(514));
        assert_eq!(reference::total(volume, ROOT), Ok(514));
        assert_eq!(calls::free_count(volume), reference::free_count(volume));
        self.check_list(Subject::create, &create_in(self.last, b"new"));
        let moved = rename_in(self.last, FILE_NAME, self.first, b"new");
        self.check_list(Subject::move_file, &moved);
    }

    fn check_list(&self, fill: fn(&Subject, &mut [u64]) -> Answer, call: &Call) {
        let mut list = vec![0; 4_096];
        let count = fill(self, &mut list).expect("the call is done");
        list.truncate(count as usize);
        assert_eq!(filled(&self.volume, call), Ok(list));
    }

    fn create(&self, list: &mut [u64]) -> Answer {
        calls::create(&self.volume, self.last, b"new", list)
    }

    fn move_file(&self, list: &mut [u64]) -> Answer {
        calls::rename(&self.volume, self.last, FILE_NAME, self.first, b"new", list)
    }
}

/// The table: a row for each volume.
pub fn times(effort: Effort) -> Table {
    let mut table = Table::new(&[
        &"volume",
        &"log pages",
        &"find in the root",
        &"find in the last folder",
        &"create in the last folder",
        &"move between two folders",
        &"total of the root",
        &"find in the root, for each log page",
        &"spread",
    ]);
    for (name, last, shape) in VOLUMES {
        for log_pages in LOG_PAGES {
            table.texts(row(name, &Subject::new(last, shape, log_pages), effort));
        }
    }
    table
}

fn row(name: &str, on: &Subject, effort: Effort) -> Vec<String> {
    let mut list = vec![0; 4_096];
    let in_root = folder_name(1);
    let times = [
        effort.time(|| calls::find(&on.volume, ROOT, &in_root)),
        effort.time(|| calls::find(&on.volume, on.last, FILE_NAME)),
        effort.time(|| on.create(&mut list)),
        effort.time(|| on.move_file(&mut list)),
        effort.time(|| calls::total(&on.volume, ROOT)),
    ];
    let mut cells = vec![name.to_string(), whole(on.log_pages)];
    cells.extend(times.map(|time| shown(time.best)));
    cells.push(match on.log_pages {
        ..MANY_PAGES => "-".to_string(),
        _ => shown(times[0].best / on.log_pages as f64),
    });
    cells.push(shown(largest_spread(&times)));
    cells
}

#[cfg(test)]
mod tests {
    use super::*;

    /// Every volume is accepted, and all of its calls are done ([`Subject::check`]); the log pages are about those asked for.
    #[test]
    fn every_volume_has_its_folders_and_log_pages() {
        for (name, last, shape) in VOLUMES {
            for log_pages in LOG_PAGES {
                let subject = Subject::new(last, shape, log_pages);
                let least = log_pages.saturating_sub(last + 1);
                assert!(
                    (least..=log_pages + 2 * last + 2).contains(&subject.log_pages),
                    "{name}"
                );
                let names = reference::judge(&subject.volume).expect("accepted").folders;
                assert_eq!(names.len() as u64, last + 1, "{name}");
            }
        }
    }
}
