//! How many pages a call needs, worked out beside the library from counts alone, and the refusals
//! that follow from it.

use reference::{Call, FileMap, Refusal, Use, Volume};

/// What a call that changes something needs: data pages, and log pages.
pub struct Need {
    /// How many data pages.
    pub data_pages: u64,
    /// How many log pages.
    pub log_pages: u64,
}

impl Need {
    /// The data and log pages together.
    pub fn pages(&self) -> u64 {
        self.data_pages + self.log_pages
    }
}

/// What a call needs, worked out from counts alone; none if it changes nothing.
pub fn need(volume: &Volume<'_>, map: &FileMap, call: &Call) -> Option<Need> {
    let appended = |inode: u64, data_pages: u64, more: u64| {
        let entries = log_entries(volume, inode);
        let log_pages = (entries + more).div_ceil(7) - entries.div_ceil(7);
        Some(Need {
            data_pages,
            log_pages,
        })
    };
    match call {
        Call::Create { folder, .. }
        | Call::CreateFolder { folder, .. }
        | Call::Unlink { folder, .. }
        | Call::Link {
            new_folder: folder, ..
        } => appended(*folder, 0, 1),
        Call::Rename {
            old_folder,
            old,
            new_folder,
            new,
        } => {
            let places = [(*old_folder, old), (*new_folder, new)];
            let [moved, standing] = places.map(|(folder, name)| map.inode_of(folder, name));
            if moved == standing {
                None
            } else if old_folder == new_folder {
                appended(*old_folder, 0, 2)
            } else {
                let [source, target] = places.map(|(folder, _)| appended(folder, 0, 1));
                let log_pages = source?.log_pages + target?.log_pages;
                Some(Need {
                    data_pages: 0,
                    log_pages,
                })
            }
        }
        Call::Write { bytes, .. } if bytes.is_empty() => None,
        Call::Write { inode, .. } => {
            let data_pages = covered_pages(call);
            appended(*inode, data_pages, write_entries(volume, data_pages))
        }
        Call::SetSize { inode, size } => {
            let file = &volume.files[inode];
            let inside = *size < file.size && size % 512 != 0;
            if *size == file.size {
                None
            } else if inside && file.data_page(size / 512).is_some() {
                appended(*inode, 1, 2)
            } else {
                appended(*inode, 0, 1)
            }
        }
        Call::Clean { inode } => {
            let log_pages = clean_entries(volume, *inode).div_ceil(7);
            (log_entries(volume, *inode) > 0).then_some(Need {
                data_pages: 0,
                log_pages,
            })
        }
        Call::Recover => None,
    }
}

/// The count of file pages that a write of at least one byte covers; 0 for other calls.
pub fn covered_pages(call: &Call) -> u64 {
    match call {
        Call::Write { offset, bytes, .. } if !bytes.is_empty() => {
            (offset + bytes.len() as u64 - 1) / 512 - offset / 512 + 1
        }
        _ => 0,
    }
}

/// The count of entries of a write that covers so many pages: the places where its data pages,
/// ascending, do not go on from the page before.
pub fn write_entries(volume: &Volume<'_>, covered: u64) -> u64 {
    let pages = data_places(&free_pages(volume), covered);
    let begins = |page: &&u64| !pages.contains(&(**page - 1));
    pages.iter().filter(begins).count() as u64
}

/// The count of entries in a log.
fn log_entries(volume: &Volume<'_>, inode: u64) -> u64 {
    match volume.logs[&inode].pages.len() as u64 {
        0 => 0,
        pages => 7 * (pages - 1) + volume.logs[&inode].tail % 512 / 64,
    }
}

/// The count of entries that a log has once it is clean.
fn clean_entries(volume: &Volume<'_>, inode: u64) -> u64 {
    if let Some(names) = volume.folders.get(&inode) {
        return names.len() as u64;
    }
    let file = &volume.files[&inode];
    let starts = (0..128).filter(|&page| match file.data_page(page) {
        None => false,
        Some(data) => page == 0 || file.data_page(page - 1) != Some(data - 1),
    });
    match starts.count() as u64 {
        0 => u64::from(file.size != 0),
        count => count,
    }
}

/// The free pages, ascending.
pub fn free_pages(volume: &Volume<'_>) -> Vec<u64> {
    let pages = 0..volume.sizes.pages();
    pages
        .filter(|&page| volume.uses[page as usize] == Use::Free)
        .collect()
}

/// The lowest run of so many free pages; where there is none, the lowest free pages, fewer if fewer
/// are free.
pub fn data_places(free: &[u64], count: u64) -> Vec<u64> {
    let is_run = |&first: &u64| (first..first + count).all(|page| free.contains(&page));
    match free.iter().copied().find(is_run) {
        Some(first) => (first..first + count).collect(),
        None => free.iter().take(count as usize).copied().collect(),
    }
}

/// The refusal that a call gets for want of pages, where none of 1 to 11 applies.
///
/// Order 3: "12 now means that the free pages are fewer than the data and log pages together"; of
/// set size, whose data is one page, and of the calls without data it means the same. Order 4:
/// "Create, link, write and set size shall not take the last free page. The rule concerns only
/// calls that take at least one page"; such a call gets 15, "checked directly after 12".
pub fn refused_for_pages(volume: &Volume<'_>, map: &FileMap, call: &Call) -> Option<Refusal> {
    let free = free_pages(volume).len() as u64;
    let needed = need(volume, map, call)?.pages();
    if needed > free {
        return Some(Refusal::NoSpace);
    }
    let takes_last = needed > 0 && needed == free;
    (takes_last && keeps_one_back(call)).then_some(Refusal::LastPage)
}

/// Whether a call is one of the four that shall not take the last free page.
pub fn keeps_one_back(call: &Call) -> bool {
    match call {
        Call::Create { .. }
        | Call::CreateFolder { .. }
        | Call::Link { .. }
        | Call::Write { .. }
        | Call::SetSize { .. } => true,
        Call::Unlink { .. } | Call::Rename { .. } | Call::Clean { .. } | Call::Recover => false,
    }
}
