//! Why a volume is refused, in words: a sentence for each thing that the reference model can find
//! wrong.

use super::damaged::path_of;
use super::pages::use_text;
use super::words::{inode_word, open_entries, quoted};
use calls::layout::ROOT;
use reference::layout::{
    type_word, word, DEQUEUE_WORD, ENQUEUE_WORD, FILE_PAGES, FOLDER_TYPE, NAME_BYTES, NAME_LIMIT,
    OPEN_LIMIT, PAGE_BYTES, SIZE_LIMIT,
};
use reference::{examine, BadEntry, BadJournal, BadLog, BadNames, Damage, Fault, NoVolume};
use refusal::Refusal;

/// What the reference model finds on a volume: its refusal, and why, in words; none if it is
/// accepted and its journal is closed.
pub(super) fn found(volume: &[u8]) -> Option<(Refusal, String)> {
    match examine(volume) {
        Ok(volume) => {
            let open = &volume.journal.open;
            (!open.is_empty()).then(|| (Refusal::JournalOpen, open_entries(open)))
        }
        Err(fault) => {
            let words = fault_text(volume, &fault);
            Some((fault.into(), words))
        }
    }
}

fn fault_text(volume: &[u8], fault: &Fault) -> String {
    match fault {
        Fault::NoVolume(why) => no_volume(why),
        Fault::Damaged { damage, put_back } => {
            damage_text(volume, damage) + &read_put_back(*put_back)
        }
    }
}

/// What is said behind a wrong thing that was read with so many open entries put back.
fn read_put_back(open: usize) -> String {
    match open {
        0 => String::new(),
        1 => " (read with the journal's open entry put back)".to_string(),
        _ => format!(" (read with the journal's {open} open entries put back)"),
    }
}

fn no_volume(why: &NoVolume) -> String {
    match why {
        NoVolume::Short { length } => {
            format!("the file has {length} bytes, too few for words 0 to 2")
        }
        NoVolume::PageCount { pages } => {
            format!("word 0 is {pages}, not a page count from 16 to 4096")
        }
        NoVolume::InodeCount { inodes } => {
            format!("word 1 is {inodes}, not an inode count, a multiple of 8 from 8 to 256")
        }
        NoVolume::FewPages {
            pages,
            inodes,
            least,
        } => {
            format!("word 0 says {pages} pages, but {inodes} inodes (word 1) need at least {least}")
        }
        NoVolume::Length { length, pages } => {
            let bytes = pages * PAGE_BYTES;
            format!("the file has {length} bytes, but word 0 says {pages} pages, {bytes} bytes")
        }
        NoVolume::FormatWord { value } => format!("word 2 is {value}, not 1"),
    }
}

fn damage_text(volume: &[u8], damage: &Damage) -> String {
    match damage {
        Damage::Journal(wrong) => journal(wrong),
        Damage::NoDirectory => "inode 0, the root, is not valid".to_string(),
        Damage::ValidWord { inode, value } => {
            format!("inode {inode}: its valid word is {value}, not 0 or 1")
        }
        Damage::Type { inode, value } => {
            format!("inode {inode}: its type is {value}, not 0 (a file) or 1 (a folder)")
        }
        Damage::Log { inode, wrong } => format!("inode {inode}: its {}", log(wrong)),
        Damage::Entry {
            inode,
            page,
            number,
            wrong,
        } => {
            let wrong = entry(wrong, has_names(volume, *inode));
            format!("inode {inode}, log page {page}, entry {number}: {wrong}")
        }
        Damage::Names(wrong) => names(volume, wrong),
        Damage::ServesTwice { page, uses } => {
            let [one, other] = uses.map(use_text);
            format!("page {page} serves twice: {one} and {other}")
        }
        Damage::PastSize {
            inode,
            file_page,
            size,
        } => {
            let mapped = format!("file page {file_page} is mapped");
            format!("inode {inode}: {mapped} and starts at or after the size {size}")
        }
        Damage::NotZero {
            inode,
            byte,
            file_page,
            data_page,
            size,
        } => {
            let place = format!("byte {byte} (file page {file_page}, data page {data_page})");
            format!("inode {inode}: {place} is not 0, but the size is {size}")
        }
    }
}

fn journal(wrong: &BadJournal) -> String {
    let out = |which, number| format!("the journal's {which} position is {number}, not below 16");
    match wrong {
        BadJournal::Dequeue { position } => out("dequeue", position),
        BadJournal::Enqueue { position } => out("enqueue", position),
        BadJournal::ManyOpen { count } => {
            format!("{count} journal entries are open, more than {OPEN_LIMIT}")
        }
        BadJournal::Target { position, target } => {
            let entry = format!("the open journal entry at position {position}");
            format!("{entry} has target word {target}, no valid, head or tail word of an inode")
        }
        BadJournal::OneTarget { positions, target } => {
            let ([one, other], use_of) = (positions, inode_word(*target));
            let entries = format!("the open journal entries at positions {one} and {other}");
            format!("{entries} have one target, word {target} ({use_of})")
        }
    }
}

/// What is wrong with a log, behind "its".
fn log(wrong: &BadLog) -> String {
    match wrong {
        BadLog::Tail { tail } => {
            let within = tail % PAGE_BYTES;
            format!("tail {tail} is {within} modulo 512, none of 64, 128, .. 448")
        }
        BadLog::Head { head } => {
            format!("log starts outside the log and data pages (head {head})")
        }
        BadLog::Footer { page, next } => {
            format!("log leaves the log and data pages at page {page} (footer {next})")
        }
        BadLog::Endless { page, next, last } => {
            let goes_back = format!("log goes back to page {next} at page {page}");
            format!("{goes_back} and never reaches its tail's page {last}")
        }
    }
}

/// Whether an inode's log is one of names: the root's, or a folder's by its type.
fn has_names(volume: &[u8], inode: u64) -> bool {
    inode == ROOT || word(volume, type_word(inode)) == FOLDER_TYPE
}

/// What is wrong with an entry of an inode's log, of names or not.
fn entry(wrong: &BadEntry, has_names: bool) -> String {
    match wrong {
        BadEntry::Kind { kind } => {
            let whose = if has_names { "folder" } else { "file" };
            format!("kind {kind} is none of a {whose}'s")
        }
        BadEntry::Size { size } => format!("size {size} is over {SIZE_LIMIT}"),
        BadEntry::Count { count } => format!("page count {count} is not 1 to {FILE_PAGES}"),
        BadEntry::FilePages { first, count } => {
            format!("the file pages from {first} on, {count} of them, end above {FILE_PAGES}")
        }
        BadEntry::DataPages {
            first,
            count,
            allowed: [lowest, highest],
        } => {
            let pages = format!("the data pages from {first} on, {count} of them,");
            format!("{pages} do not all lie in pages {lowest} to {highest}")
        }
        BadEntry::AddedInode { inode, last } => {
            format!("the added inode {inode} is not 1 to {last}")
        }
        BadEntry::NameLength { length } => {
            format!("name length {length} is not 1 to {NAME_BYTES}")
        }
        BadEntry::NameByte { name, byte } => format!("the name {} has byte {byte}", quoted(name)),
        BadEntry::AfterName { name } => {
            format!("the bytes after the name {} are not all 0", quoted(name))
        }
    }
}

fn names(volume: &[u8], wrong: &BadNames) -> String {
    match wrong {
        BadNames::Many { folder, count } => {
            let folder = folder_text(volume, *folder);
            format!("{count} names stand in {folder}, more than {NAME_LIMIT}")
        }
        BadNames::NoFile {
            folder,
            name,
            inode,
        } => {
            let (name, folder) = (quoted(name), folder_text(volume, *folder));
            format!("the name {name} in {folder} leads to inode {inode}, which is not valid")
        }
        BadNames::NoName { inode } => format!("inode {inode} is valid and has no name"),
        BadNames::NotOneName { inode, count: 0 } => {
            format!("inode {inode} is a valid folder and has no name")
        }
        BadNames::NotOneName { inode, count } => {
            format!("inode {inode} is a folder and has {count} names, not one")
        }
        BadNames::NotReached { inode } => {
            format!("inode {inode} is a folder that no path from the root leads to")
        }
    }
}

/// A folder in words, with its path where that can be read.
fn folder_text(volume: &[u8], folder: u64) -> String {
    if folder == ROOT {
        return "the root".to_string();
    }
    // An open entry of the journal may change what a path is read from.
    let closed = word(volume, DEQUEUE_WORD) == word(volume, ENQUEUE_WORD);
    match path_of(volume, folder).filter(|_| closed) {
        Some(path) => {
            let path = [path.bytes(), b"/".to_vec()].concat();
            format!("the folder {} (inode {folder})", quoted(&path))
        }
        None => format!("the folder inode {folder}"),
    }
}

#[cfg(test)]
mod tests {
    use super::found;
    use samples::{change_live_word, flip_live_bit, live_words, made_up, used_volume, Random};

    /// Holds the reference model's refusal, without the verdict, against the compiled call.
    fn same_verdict(volume: &[u8]) {
        let refusal = found(volume).map(|(refusal, _)| refusal);
        assert_eq!(refusal, calls::free_count(volume).err());
    }

    #[test]
    fn the_reading_alone_judges_as_the_calls_do() {
        let mut random = Random::new(41);
        for number in 0..1_500 {
            let volume = match number % 3 {
                0 => used_volume(&mut random),
                _ => made_up(&mut random),
            };
            same_verdict(&volume);
            let live = live_words(&volume);
            for _ in 0..6 {
                let mut changed = volume.clone();
                change_live_word(&mut random, &mut changed, &live);
                same_verdict(&changed);
                flip_live_bit(&mut random, &mut changed, &live);
                same_verdict(&changed);
            }
        }
    }
}
