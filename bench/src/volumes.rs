//! The volumes that are timed.

use calls::list::FENCE;
use reference::judge;
use reference::layout::{head_word, set_word, tail_word, word, ROOT};
use samples::{
    create, done, entry_add, entry_remove, entry_write, formatted, put_log, write, zero_page,
};

/// What a volume holds.
#[derive(Clone, Copy)]
pub enum Kind {
    /// One small file.
    NearlyEmpty,
    /// The lower half of the pages in use.
    HalfFull,
    /// Nearly every page in use.
    Full,
    /// Every second page in use.
    EverySecondFree,
    /// The directory's log in every page.
    LongDirectory,
}

impl Kind {
    /// Every kind, in the order of the tables.
    pub const ALL: [Kind; 5] = [
        Kind::NearlyEmpty,
        Kind::HalfFull,
        Kind::Full,
        Kind::EverySecondFree,
        Kind::LongDirectory,
    ];

    /// Its name.
    pub fn name(self) -> &'static str {
        match self {
            Kind::NearlyEmpty => "nearly empty",
            Kind::HalfFull => "half full",
            Kind::Full => "full",
            Kind::EverySecondFree => "every second page free",
            Kind::LongDirectory => "long directory",
        }
    }

    /// The kind with this name, with "-" for a space.
    pub fn named(name: &str) -> Option<Kind> {
        let mut all = Kind::ALL.into_iter();
        all.find(|kind| kind.name().replace(' ', "-") == name)
    }

    /// The maker of volumes of this kind, from their page count.
    pub fn make(self) -> fn(u64) -> Subject {
        match self {
            Kind::NearlyEmpty => nearly_empty,
            Kind::HalfFull => half_full,
            Kind::Full => full,
            Kind::EverySecondFree => every_second_free,
            Kind::LongDirectory => long_directory,
        }
    }
}

/// A volume, and the arguments of the calls on it.
#[derive(Clone)]
pub struct Subject {
    pub volume: Vec<u8>,
    /// Its page count and inode count.
    pub pages: u64,
    pub inodes: u64,
    /// How many names stand in the root.
    pub names: u64,
    /// The last name, and the inode that it leads to.
    pub name: Vec<u8>,
    pub inode: u64,
    /// The file with the largest size.
    pub file: u64,
    pub buffer: Vec<u8>,
    /// A store list of 1,176 words that changes nothing.
    pub list: Vec<u64>,
    /// The same volume with two entries of the journal open.
    pub open: Vec<u8>,
    /// A list for the changing calls and gaps to fill.
    pub room: Vec<u64>,
}

impl Subject {
    /// The arguments for an accepted volume, with the compiled calls' answers checked.
    fn new(volume: Vec<u8>) -> Subject {
        let judged = judge(&volume).expect("the volume is accepted");
        let names = &judged.folders[&ROOT];
        let (name, inode) = *names.last().expect("a name stands");
        let largest = judged.files.iter().max_by_key(|(_, file)| file.size);
        let subject = Subject {
            pages: judged.sizes.pages(),
            inodes: judged.sizes.inodes(),
            names: names.len() as u64,
            name: name.to_vec(),
            inode,
            file: largest.map_or(0, |(&file, _)| file),
            buffer: vec![0; 4_096],
            list: stores(&volume),
            open: opened(&volume),
            room: vec![0; 4_096],
            volume: volume.clone(),
        };
        assert_eq!(calls::find(&volume, ROOT, name), Ok(inode));
        assert_eq!(calls::free_count(&volume), reference::free_count(&volume));
        assert_eq!(in_gaps(&volume), calls::free_count(&volume));
        subject
    }
}

/// The lengths of the stretches of free pages, added up.
fn in_gaps(volume: &[u8]) -> calls::Answer {
    let mut pairs = vec![0; 4_096];
    calls::gaps(volume, &mut pairs)?;
    Ok(pairs.chunks(2).map(|pair| pair[1]).sum())
}

/// A volume with the directory's head and tail in the journal, and other values in their words.
pub fn opened(volume: &[u8]) -> Vec<u8> {
    let mut open = volume.to_vec();
    for (target, place) in [(head_word(ROOT), 0), (tail_word(ROOT), 1)] {
        set_word(&mut open, 16 + 2 * place, target);
        set_word(&mut open, 17 + 2 * place, word(volume, target));
        set_word(&mut open, target, 0);
    }
    set_word(&mut open, 8, 0);
    set_word(&mut open, 9, 2);
    open
}

/// A list of two groups that stores in words of the last pages what they hold.
fn stores(volume: &[u8]) -> Vec<u64> {
    let end = volume.len() as u64 / 8;
    let group = |first: u64| (first..first + 293).flat_map(|index| [index, word(volume, index)]);
    let fence = [FENCE, 0];
    let first = group(end - 600).chain(fence);
    first.chain(group(end - 300)).chain(fence).collect()
}

/// One file of 514 bytes.
fn nearly_empty(pages: u64) -> Subject {
    let mut volume = formatted(pages, 8);
    done(&mut volume, &create(b"A1"));
    done(&mut volume, &write(1, 510, b"text"));
    Subject::new(volume)
}

/// The inode count of the larger volumes: as many as a volume of so many pages may have and hold.
fn inodes_for(pages: u64) -> u64 {
    (pages / 2).clamp(8, 256)
}

/// A name of its own for each number, of different lengths.
fn name(number: u64) -> Vec<u8> {
    format!(
        "{number} {}",
        &"name of a file in a folder"[..number as usize % 24]
    )
    .into_bytes()
}

/// Nearly every page in use, twenty at most left: an eighth for the directory's log, the others for files, a third of them log pages.
fn full(pages: u64) -> Subject {
    used_in(pages, pages / 8, |_| true)
}

/// As [`full`], but the upper half of the pages is free.
fn half_full(pages: u64) -> Subject {
    used_in(pages, pages / 16, |page| page < pages / 2)
}

/// As [`full`], but every second page is free, so that each free page is a stretch of its own.
fn every_second_free(pages: u64) -> Subject {
    used_in(pages, pages / 8, |page| page % 2 == 1)
}

/// These pages in use, as [`full`] says; so many of them, at least two, for the directory's log.
fn used_in(pages: u64, log: u64, is_used: impl Fn(u64) -> bool) -> Subject {
    let inodes = inodes_for(pages);
    let mut volume = formatted(pages, inodes);
    let used: Vec<u64> = (inodes / 8 + 1..pages)
        .filter(|&page| is_used(page))
        .collect();
    let (log, own) = used.split_at(log.max(2) as usize);
    let left = own.len();
    let files = (inodes as usize - 1).min(223).min(left / 2);
    let entries = directory(7 * log.len() as u64, files as u64, files as u64);
    put_log(&mut volume, ROOT, log, &entries);
    let (firsts, last) = own.split_at(left / files * (files - 1));
    let parts = firsts.chunks(left / files).chain([last]);
    for (file, part) in (1..).zip(parts) {
        put_file(&mut volume, file, part);
    }
    Subject::new(volume)
}

/// So many entries of a directory in which so many names stand in the end, the first of them for files 1
/// and on: each other name is added and then removed.
fn directory(entries: u64, standing: u64, files: u64) -> Vec<[u64; 8]> {
    let others = (entries - standing) / 2;
    let add = |number: u64| entry_add(number % files + 1, &name(number));
    let mut log: Vec<[u64; 8]> = (0..others).map(|number| add(number + standing)).collect();
    log.extend((0..standing).map(add));
    log.extend((0..others).map(|number| entry_remove(&name(number + standing))));
    while (log.len() as u64) < entries {
        log.push(entry_remove(b"never"));
    }
    log
}

/// A file in these pages: a log in a third of them, and data in the others, file page by file page.
fn put_file(volume: &mut [u8], inode: u64, own: &[u64]) {
    let (log, data) = own.split_at((own.len() / 3).max(1));
    let data = &data[..data.len().min(128)];
    let size = 512 * data.len() as u64;
    let mut entries: Vec<[u64; 8]> = Vec::new();
    for place in 0..7 * log.len() {
        let page = place % data.len();
        entries.push(entry_write(page as u64, data[page], 1, size));
    }
    entries[0] = entry_write(0, data[0], data.len() as u64, size);
    for &page in data {
        zero_page(volume, page);
    }
    put_log(volume, inode, log, &entries);
}

/// The directory's log in every page; at most 224 names stand in the end.
fn long_directory(pages: u64) -> Subject {
    let mut volume = formatted(pages, 8);
    let log: Vec<u64> = (2..pages).collect();
    let entries = 7 * log.len() as u64;
    let standing = 224.min(entries / 4);
    put_log(&mut volume, ROOT, &log, &directory(entries, standing, 7));
    for inode in 1..8 {
        put_log(&mut volume, inode, &[], &[]);
    }
    Subject::new(volume)
}
