//! An inode's log in words, its entries with their places.

use super::paths::Paths;
use super::words::{counted, put_back, quoted, quoted_names, range};
use calls::layout::ROOT;
use reference::{Entry, Log, Placed, Volume};

/// The log of an inode in words; none if the inode is not valid.
pub(super) fn text(volume: &Volume<'_>, inode: u64) -> Option<String> {
    let log = volume.logs.get(&inode)?;
    let entries: Vec<Placed<'_>> = log.placed(volume.bytes).collect();
    let mut lines = vec![head_line(volume, inode, log, entries.len())];
    lines.extend(put_back(&volume.journal.open));
    lines.extend(entries.iter().map(|entry| entry_line(volume, entry)));
    lines.push(String::new());
    Some(lines.join("\n"))
}

/// The line about the inode and the whole log.
fn head_line(volume: &Volume<'_>, inode: u64, log: &Log, count: usize) -> String {
    let inode = inode_text(volume, inode);
    let Some(head) = log.head() else {
        return format!("{inode}: empty log");
    };
    let entries = counted(count, "entry", "entries");
    let pages = counted(log.pages.len(), "page", "pages");
    let tail = log.tail;
    format!("{inode}: log of {entries} on {pages}, head {head}, tail {tail}")
}

fn inode_text(volume: &Volume<'_>, inode: u64) -> String {
    let count = volume
        .folders
        .get(&inode)
        .map(|names| counted(names.len(), "name", "names"));
    let paths = Paths::of(volume).to(inode);
    let quoted = quoted_names(&paths);
    match (count, volume.files.get(&inode)) {
        (Some(count), _) if inode == ROOT => format!("inode {inode}, root, {count}"),
        (Some(count), _) => format!("inode {inode}, folder {quoted}, {count}"),
        (None, file) => {
            let plural = if paths.len() == 1 { "name" } else { "names" };
            let size = file.map_or(0, |file| file.size);
            format!("inode {inode}, file, {plural} {quoted}, size {size}")
        }
    }
}

fn entry_line(volume: &Volume<'_>, entry: &Placed<'_>) -> String {
    let text = match Entry::read(entry.bytes, volume.sizes) {
        Ok(read) => entry_text(&read),
        Err(_) => "no entry".to_string(),
    };
    format!("page {}, entry {}: {text}", entry.page, entry.number)
}

/// An entry in words: `write: file pages 0-1 on data pages 3-4, size 514`.
fn entry_text(entry: &Entry<'_>) -> String {
    match *entry {
        Entry::Write {
            file_page,
            data_page,
            count,
            size,
        } => {
            let pages = if count == 1 { "page" } else { "pages" };
            let (file, data) = (range(file_page, count), range(data_page, count));
            format!("write: file {pages} {file} on data {pages} {data}, size {size}")
        }
        Entry::SetSize { size } => format!("set size: {size}"),
        Entry::Add { inode, name } => format!("add {} for inode {inode}", quoted(name)),
        Entry::Remove { name } => format!("remove {}", quoted(name)),
    }
}
