//! Logs: the four kinds of log entry, the walk from head to tail, and what a log means.

use crate::damage::{BadEntry, BadLog, Damage};
use crate::layout::{
    allowed_byte, word, Sizes, FILE_PAGES, NAME_BYTES, PAGE_BYTES, PAGE_WORDS, ROOT, SIZE_LIMIT,
};
use crate::uses::{take, Use};
use std::collections::HashMap;

/// A log entry has 64 bytes.
pub(crate) const ENTRY_BYTES: u64 = 64;
/// A log page has seven entries; the footer starts after these bytes.
pub(crate) const FOOTER_OFFSET: u64 = 7 * ENTRY_BYTES;

/// The bytes of an entry.
pub type EntryBytes = [u8; ENTRY_BYTES as usize];

/// Where the name starts in an entry of kind 3 or 4.
const NAME_OFFSET: usize = 24;

/// The footer word of a log page, which holds the next log page.
pub(crate) fn footer_word(page: u64) -> u64 {
    page * PAGE_WORDS + FOOTER_OFFSET / 8
}

/// A log entry.
#[derive(Clone, Copy, Debug, PartialEq, Eq)]
pub enum Entry<'v> {
    /// Kind 1: maps file pages to data pages and sets the size.
    Write {
        /// The first file page.
        file_page: u64,
        /// The first data page.
        data_page: u64,
        /// The page count.
        count: u64,
        /// The file size.
        size: u64,
    },
    /// Kind 2: unmaps the file pages starting at or after the size, and sets it.
    SetSize {
        /// The file size.
        size: u64,
    },
    /// Kind 3: takes out any earlier pair of the name, then puts the pair at the list's end.
    Add {
        /// The inode that the name leads to.
        inode: u64,
        /// The name.
        name: &'v [u8],
    },
    /// Kind 4: takes the name out if it is there.
    Remove {
        /// The name.
        name: &'v [u8],
    },
}

impl<'v> Entry<'v> {
    /// Reads the entry that these 64 bytes hold, or what is wrong with it.
    // Inlined with the two below: docs/FIGURES.md times this model, and a wide answer takes time.
    #[inline]
    pub fn read(bytes: &'v EntryBytes, sizes: Sizes) -> Result<Entry<'v>, BadEntry> {
        match word(bytes, 0) {
            1 => read_write(bytes, sizes),
            2 => read_size(bytes, 1).map(|size| Entry::SetSize { size }),
            3 => read_add(bytes, sizes),
            4 => read_name(bytes).map(|name| Entry::Remove { name }),
            kind => Err(BadEntry::Kind { kind }),
        }
    }

    /// The eight words of the entry; unused ones are 0.
    pub fn words(&self) -> [u64; 8] {
        match *self {
            Entry::Write {
                file_page,
                data_page,
                count,
                size,
            } => [1, file_page, data_page, count, size, 0, 0, 0],
            Entry::SetSize { size } => [2, size, 0, 0, 0, 0, 0, 0],
            Entry::Add { inode, name } => named_words(3, inode, name),
            Entry::Remove { name } => named_words(4, 0, name),
        }
    }
}

fn read_write(bytes: &EntryBytes, sizes: Sizes) -> Result<Entry<'_>, BadEntry> {
    let [file_page, data_page, count] = [1, 2, 3].map(|index| word(bytes, index));
    let size = read_size(bytes, 4)?;
    if !(1..=FILE_PAGES).contains(&count) {
        return Err(BadEntry::Count { count });
    }
    if file_page > FILE_PAGES - count {
        let first = file_page;
        return Err(BadEntry::FilePages { first, count });
    }
    if !holds_pages(sizes, data_page, count) {
        return Err(BadEntry::DataPages {
            first: data_page,
            count,
            allowed: [sizes.first_page(), sizes.pages() - 1],
        });
    }
    Ok(Entry::Write {
        file_page,
        data_page,
        count,
        size,
    })
}

/// Whether so many pages from a first one on all lie in T+1 to P−1.
fn holds_pages(sizes: Sizes, first: u64, count: u64) -> bool {
    let end = first.checked_add(count);
    first >= sizes.first_page() && end.is_some_and(|end| end <= sizes.pages())
}

fn read_size(bytes: &EntryBytes, index: u64) -> Result<u64, BadEntry> {
    let size = word(bytes, index);
    if size > SIZE_LIMIT {
        return Err(BadEntry::Size { size });
    }
    Ok(size)
}

#[inline]
fn read_add(bytes: &EntryBytes, sizes: Sizes) -> Result<Entry<'_>, BadEntry> {
    let name = read_name(bytes)?;
    let inode = word(bytes, 1);
    let last = sizes.inodes() - 1;
    if !(ROOT + 1..=last).contains(&inode) {
        return Err(BadEntry::AddedInode { inode, last });
    }
    Ok(Entry::Add { inode, name })
}

/// The name of an entry of kind 3 or 4: an allowed name, the bytes after it 0.
#[inline]
fn read_name(bytes: &EntryBytes) -> Result<&[u8], BadEntry> {
    let length = word(bytes, 2);
    if !(1..=NAME_BYTES as u64).contains(&length) {
        return Err(BadEntry::NameLength { length });
    }
    let field = &bytes[NAME_OFFSET..NAME_OFFSET + NAME_BYTES];
    let (name, rest) = field.split_at(length as usize);
    if let Some(&byte) = name.iter().find(|&&byte| !allowed_byte(byte)) {
        let name = name.to_vec();
        return Err(BadEntry::NameByte { name, byte });
    }
    if rest.iter().any(|&byte| byte != 0) {
        let name = name.to_vec();
        return Err(BadEntry::AfterName { name });
    }
    Ok(name)
}

fn named_words(kind: u64, inode: u64, name: &[u8]) -> [u64; 8] {
    let mut field = [0; NAME_BYTES];
    for (place, byte) in field.iter_mut().zip(name) {
        *place = *byte;
    }
    let [a, b, c, d] = [0, 1, 2, 3].map(|index| word(&field, index));
    [kind, inode, name.len() as u64, a, b, c, d, 0]
}

/// The log of a valid inode: its tail, and its log pages in the order of the walk.
#[derive(Clone, Debug, PartialEq, Eq)]
pub struct Log {
    /// The tail, the byte offset just after the last entry; 0 if the log is empty.
    pub tail: u64,
    /// The log pages, from the head to the tail's page.
    pub pages: Vec<u64>,
}

impl Log {
    /// The head, the first log page; none if the log is empty.
    pub fn head(&self) -> Option<u64> {
        self.pages.first().copied()
    }

    /// Walks from the head through the footers to the tail's page, the first time it is met.
    ///
    /// Each page is given its use on the way. So the walk always ends: one that comes back to a
    /// page of its own would go round for ever, and is judged there.
    pub(crate) fn walk(
        volume: &[u8],
        sizes: Sizes,
        inode: u64,
        [head, tail]: [u64; 2],
        uses: &mut [Use],
    ) -> Result<Log, Damage> {
        let mut pages = Vec::new();
        if tail == 0 {
            return Ok(Log { tail, pages });
        }
        let damage = |wrong| Damage::Log { inode, wrong };
        check_ends(sizes, head, tail).map_err(damage)?;
        let last = tail / PAGE_BYTES;
        let log = Use::Log { inode };
        let mut page = head;
        loop {
            take(uses, page, log)?;
            pages.push(page);
            if page == last {
                return Ok(Log { tail, pages });
            }
            let next = word(volume, footer_word(page));
            if !sizes.holds_page(next) {
                return Err(damage(BadLog::Footer { page, next }));
            }
            if uses[next as usize] == log {
                return Err(damage(BadLog::Endless { page, next, last }));
            }
            page = next;
        }
    }

    /// The entries of the log in order, with their places. The volume is the one that was walked.
    pub fn placed<'a, 'v: 'a>(&'a self, volume: &'v [u8]) -> impl Iterator<Item = Placed<'v>> + 'a {
        self.pages.iter().flat_map(move |&page| {
            let start = page * PAGE_BYTES;
            let end = if page == self.tail / PAGE_BYTES {
                self.tail
            } else {
                start + FOOTER_OFFSET
            };
            let (entries, _) = volume[start as usize..end as usize].as_chunks();
            (1..).zip(entries).map(move |(number, bytes)| Placed {
                page,
                number,
                bytes,
            })
        })
    }

    /// Reads the entries of the log of an inode in order; the first wrong one ends the reading.
    /// Whether it is a folder decides which kinds it may hold.
    ///
    /// An entry is judged from its own 64 bytes and the volume's two sizes; its log decides only
    /// which kinds it may hold.
    pub(crate) fn read<'a, 'v: 'a>(
        &'a self,
        volume: &'v [u8],
        sizes: Sizes,
        inode: u64,
        is_folder: bool,
    ) -> impl Iterator<Item = Result<Entry<'v>, Damage>> + 'a {
        self.placed(volume).map(move |placed| {
            let damage = |wrong| Damage::Entry {
                inode,
                page: placed.page,
                number: placed.number,
                wrong,
            };
            check_kind(placed.bytes, is_folder).map_err(damage)?;
            Entry::read(placed.bytes, sizes).map_err(damage)
        })
    }
}

/// An entry of a log with its place.
#[derive(Clone, Copy, Debug, PartialEq, Eq)]
pub struct Placed<'v> {
    /// The log page.
    pub page: u64,
    /// The entry's number in the page, from 1 to 7.
    pub number: usize,
    /// The entry's 64 bytes.
    pub bytes: &'v EntryBytes,
}

/// The tail modulo 512 is one of 64, 128, .. 448, and the head lies in T+1 to P−1.
fn check_ends(sizes: Sizes, head: u64, tail: u64) -> Result<(), BadLog> {
    let within_page = tail % PAGE_BYTES;
    if within_page == 0 || !within_page.is_multiple_of(ENTRY_BYTES) {
        return Err(BadLog::Tail { tail });
    }
    if !sizes.holds_page(head) {
        return Err(BadLog::Head { head });
    }
    Ok(())
}

/// The directory and every other folder have kinds 3 and 4, files 1 and 2.
fn check_kind(bytes: &EntryBytes, is_folder: bool) -> Result<(), BadEntry> {
    let kinds = if is_folder { [3, 4] } else { [1, 2] };
    let kind = word(bytes, 0);
    if !kinds.contains(&kind) {
        return Err(BadEntry::Kind { kind });
    }
    Ok(())
}

/// What a file's log means in the end: its size, and the data page of each mapped file page.
#[derive(Clone, Debug, Default, PartialEq, Eq)]
pub struct File {
    /// The size in bytes.
    pub size: u64,
    /// The data page of each file page, up to the last one that an entry mapped.
    pages: Vec<Option<u64>>,
}

impl File {
    /// The data page of a file page; none if it is unmapped.
    pub fn data_page(&self, file_page: u64) -> Option<u64> {
        let index = usize::try_from(file_page).ok()?;
        self.pages.get(index).copied().flatten()
    }

    /// The mapped file pages, ascending, each with its data page.
    pub fn mapped(&self) -> impl Iterator<Item = (u64, u64)> + '_ {
        (0..)
            .zip(&self.pages)
            .filter_map(|(file_page, data_page)| Some((file_page, (*data_page)?)))
    }

    /// Replays a file's log from its entries.
    pub(crate) fn replay<'v>(
        entries: impl Iterator<Item = Result<Entry<'v>, Damage>>,
    ) -> Result<File, Damage> {
        let mut file = File::default();
        for entry in entries {
            match entry? {
                Entry::Write {
                    file_page,
                    data_page,
                    count,
                    size,
                } => {
                    file.map_pages(file_page as usize, data_page, count as usize);
                    file.size = size;
                }
                Entry::SetSize { size } => {
                    file.pages.truncate(size.div_ceil(PAGE_BYTES) as usize);
                    file.size = size;
                }
                // No kind of a file's log.
                Entry::Add { .. } | Entry::Remove { .. } => {}
            }
        }
        Ok(file)
    }

    fn map_pages(&mut self, file_page: usize, data_page: u64, count: usize) {
        let end = file_page + count;
        if self.pages.len() < end {
            self.pages.resize(end, None);
        }
        for (place, page) in self.pages[file_page..end].iter_mut().zip(data_page..) {
            *place = Some(page);
        }
    }
}

/// The names that stand in a folder, in list order, each with its inode.
pub type Names<'v> = Vec<(&'v [u8], u64)>;

/// Replays a folder's log: the list of names with inodes that stand in the end, in order.
///
/// In the middle of the log any count of names may stand.
pub(crate) fn replay_names<'v>(
    entries: impl Iterator<Item = Result<Entry<'v>, Damage>>,
) -> Result<Names<'v>, Damage> {
    let mut list = Vec::new();
    let mut places: HashMap<&[u8], usize> = HashMap::new();
    for entry in entries {
        let earlier = match entry? {
            Entry::Add { inode, name } => {
                list.push(Some((name, inode)));
                places.insert(name, list.len() - 1)
            }
            Entry::Remove { name } => places.remove(name),
            // No kind of a folder's log.
            Entry::Write { .. } | Entry::SetSize { .. } => None,
        };
        if let Some(place) = earlier {
            list[place] = None;
        }
    }
    Ok(list.into_iter().flatten().collect())
}
