//! Page numbers past 16 bits: heads, footers and tails of accepted volumes, changed to name 65,536, 2^32 or 2^48 more than
//! a page of the volume: one word at a time, and both words that name the last page of a log.
//!
//! No volume has so many pages: document 02 says that "a head of 65,541 that is read is still 3, and not page 5". A program that
//! narrows such a number before it judges it sees a page of the volume, in some samples the very page that stood there, and accepts
//! the volume. One that compares a page with the tail's before it judges it may accept a volume where both words name the same.
//!
//! Where document 01 does not read the word (the head of an empty log, both ends of an inode that is not valid, the footer of the
//! tail's page or of a page in no log, a word that the journal puts back), every answer is as before the change.

use crate::by_hand::{
    entry_add, entry_remove, entry_size, entry_write, footer_word, formatted, open_journal, put_log,
};
use crate::calls::{clean, create, create_folder, filled, link, rename, set_size, unlink, write};
use crate::damage::link_words;
use crate::directory_logs::NOWHERE;
use reference::layout::{head_word, set_word, tail_word, valid_word, word, Sizes, ROOT};
use reference::{cut, judge, Call, Use, Volume};
use std::collections::BTreeSet;
use std::iter::successors;

/// How much more than a page of the volume the changed words name. A number narrowed to 16 bits loses each of these, and one narrowed
/// to 32 bits the last two.
const MORE: [u64; 3] = [1 << 16, 1 << 32, 1 << 48];

/// Volumes of at most this many pages have each word changed for every page p: to name 65,536 + p, 2^32 + p and 2^48 + p.
const EVERY_PAGE: u64 = 64;

/// How many free pages, from the first log and data page on, have their footers changed; the last page's is changed too.
const FREE_PAGES: u64 = 16;

/// How many inodes, from inode 0 on, have their heads and tails changed; those of the last inode are changed too.
const INODES: u64 = 8;

/// What a word is that names a page of a log.
#[derive(Clone, Copy, Debug, PartialEq, Eq, PartialOrd, Ord)]
pub enum PageWord {
    /// An inode's head, the first page.
    Head,
    /// The first word of a footer, the next page.
    Footer,
    /// An inode's tail, a byte offset in the last page.
    Tail,
}

impl PageWord {
    /// The page that such a word names.
    pub fn page(self, value: u64) -> u64 {
        match self {
            PageWord::Head | PageWord::Footer => value,
            PageWord::Tail => value / 512,
        }
    }

    /// The word that names another page; a tail stays where it is in its page.
    fn with_page(self, value: u64, page: u64) -> u64 {
        match self {
            PageWord::Head | PageWord::Footer => page,
            PageWord::Tail => page * 512 + value % 512,
        }
    }
}

/// A head, footer or tail that is changed.
#[derive(Clone, Copy, Debug, PartialEq, Eq)]
pub struct WideWord {
    /// Which of them it is.
    pub kind: PageWord,
    /// The head, footer or tail word.
    pub word: u64,
    /// The word that is changed: that word itself, or the journal's word that holds its old value.
    pub index: u64,
    /// What it is changed to.
    pub value: u64,
}

impl WideWord {
    /// The page that the changed word names.
    pub fn page(&self) -> u64 {
        self.kind.page(self.value)
    }
}

/// A change to a volume: to one word, or to both words that name the last page of a log.
#[derive(Clone, Debug, PartialEq, Eq)]
pub struct WideChange {
    /// The changed words. Where there are two, they name the same page.
    pub words: Vec<WideWord>,
    /// Whether the changed words are read. Then the volume is damaged, and else every answer is as before.
    pub read: bool,
}

impl WideChange {
    /// The volume with the change.
    pub fn on(&self, before: &[u8]) -> Vec<u8> {
        let mut volume = before.to_vec();
        for word in &self.words {
            set_word(&mut volume, word.index, word.value);
        }
        volume
    }
}

/// An accepted volume, and the changes that make samples of it.
#[derive(Clone, Debug)]
pub struct WidePages {
    /// What the volume is.
    pub title: &'static str,
    /// The volume before a change.
    pub before: Vec<u8>,
    /// The changes, one to a sample.
    pub changes: Vec<WideChange>,
}

/// Volumes of 16, 64 and 4,096 pages with closed journals, and some of 16 pages whose journal is open, with the changes of each.
///
/// Each word is changed to name 65,536 + p, 2^32 + p and 2^48 + p: with 16 and 64 pages for every page p of the volume; with 4,096 pages
/// for the page that stood there, page 0, the first log and data page, and the last page. The two words that name the last page of a log
/// are changed in the same way together.
///
/// ```
/// use reference::Refusal;
/// use samples::wide_pages;
///
/// let sample = &wide_pages()[0];
/// assert_eq!(reference::find(&sample.before, 0, b"a"), Ok(1));
/// for change in &sample.changes {
///     assert!(change.words.iter().all(|word| word.page() >= 65_536));
///     let found = reference::find(&change.on(&sample.before), 0, b"a");
///     assert_eq!(found, if change.read { Err(Refusal::Damaged) } else { Ok(1) });
/// }
/// ```
pub fn wide_pages() -> Vec<WidePages> {
    let small = with_logs(
        [16, 8],
        &Pages {
            directory: &[5, 2, 15],
            long: &[12, 3],
            data: 6,
            short: 8,
            gone: &[10, 4],
        },
    );
    let middle = with_logs(
        [64, 16],
        &Pages {
            directory: &[40, 3, 63, 17],
            long: &[62, 5, 6],
            data: 20,
            short: 4,
            gone: &[7, 30],
        },
    );
    let large = with_logs(
        [4_096, 256],
        &Pages {
            directory: &[4_095, 33, 2_048, 300],
            long: &[256, 4_094, 40],
            data: 1_000,
            short: 35,
            gone: &[36, 512],
        },
    );
    let open = open_volumes(&small);
    let closed = [
        ("16 pages", small),
        ("64 pages", middle),
        ("4,096 pages", large),
    ];
    let all = closed.into_iter().chain(open);
    all.map(|(title, volume)| changed(title, volume)).collect()
}

/// Changing calls, each kind at least once, that are done on each volume of [`wide_pages`] whose journal is closed. Recover alone
/// is done where it is open.
pub fn calls_on_wide_pages() -> Vec<Call> {
    vec![
        create(b"new"),
        create_folder(ROOT, b"new"),
        link(b"c", b"new"),
        unlink(b"a"),
        rename(b"a", b"b"),
        write(1, 510, b"text"),
        write(2, 0, b"text"),
        set_size(1, 100),
        clean(0),
        clean(1),
        Call::Recover,
    ]
}

/// Pages of a volume of [`with_logs`].
struct Pages<'p> {
    /// The pages of the directory's log.
    directory: &'p [u64],
    /// The pages of the log of file 1.
    long: &'p [u64],
    /// The first of the two data pages of file 1.
    data: u64,
    /// The one page of the log of file 3.
    short: u64,
    /// The pages of the log of inode 4, which are free.
    gone: &'p [u64],
}

/// A volume of these sizes (pages, inodes) with logs of several pages, of one page and of none, and a log of an inode that is not valid
/// any more. The files 1, 2 and 3 have the names "a", "b" and "c"; file 2 has the empty log.
fn with_logs([pages, inodes]: [u64; 2], at: &Pages<'_>) -> Vec<u8> {
    let mut volume = formatted(pages, inodes);
    let last = 7 * at.directory.len() - 5;
    let mut names = vec![entry_remove(NOWHERE); last + 1];
    for (index, inode, name) in [(0, 1, b"a"), (last / 2, 2, b"b"), (last, 3, b"c")] {
        names[index] = entry_add(inode, name);
    }
    put_log(&mut volume, 0, at.directory, &names);
    let mut entries = vec![entry_size(0); 7 * at.long.len() - 6];
    entries.push(entry_write(0, at.data, 2, 1_024));
    put_log(&mut volume, 1, at.long, &entries);
    put_log(&mut volume, 2, &[], &[]);
    put_log(&mut volume, 3, &[at.short], &[entry_size(700); 7]);
    put_log(&mut volume, 4, at.gone, &[entry_size(9); 9]);
    set_word(&mut volume, valid_word(4), 0);
    volume
}

/// Volumes made from a closed one of [`with_logs`] by opening its journal, so that heads, tails and valid words are put back.
fn open_volumes(closed: &[u8]) -> [(&'static str, Vec<u8>); 4] {
    let cleaned = |inode: u64| {
        let list = filled(closed, &clean(inode)).expect("the call is done");
        let mut volume = closed.to_vec();
        cut(&mut volume, &list, 2, |_| true);
        volume
    };
    let stored = |dequeue: u64, stores: &[(u64, u64)]| {
        let mut volume = closed.to_vec();
        let olds = stores.iter().map(|store| (store.0, word(closed, store.0)));
        open_journal(&mut volume, dequeue, &olds.collect::<Vec<_>>());
        for &(index, value) in stores {
            set_word(&mut volume, index, value);
        }
        volume
    };
    // put back, file 1 is valid and inode 4 is not, and file 2's log is empty and file 3's is not; as they stand it is the other way round
    let turned = stored(
        14,
        &[
            (valid_word(1), 0),
            (valid_word(4), 1),
            (tail_word(2), word(closed, tail_word(4))),
            (tail_word(3), 0),
        ],
    );
    let ends = stored(
        0,
        &[
            (head_word(0), 0),
            (head_word(2), 0),
            (head_word(4), 0),
            (tail_word(4), 0),
        ],
    );
    [
        ("a clean of file 1 that was cut", cleaned(1)),
        ("a clean of file 3 that was cut", cleaned(3)),
        ("valid words and tails put back", turned),
        ("heads and tails put back", ends),
    ]
}

/// A volume with its changes.
fn changed(title: &'static str, before: Vec<u8>) -> WidePages {
    let volume = judge(&before).expect("the volume is accepted");
    let sites = sites(&volume);
    let mut changes = Vec::new();
    for site in &sites {
        changes.extend(widened(volume.sizes, &[*site]));
    }
    for both in last_pages(&volume, &sites) {
        changes.extend(widened(volume.sizes, &both));
    }
    WidePages {
        title,
        before,
        changes,
    }
}

/// The changes at one site, or at sites that name the same page and are changed together.
fn widened(sizes: Sizes, sites: &[Site]) -> Vec<WideChange> {
    let pages = sizes.pages();
    let few = [sites[0].page(), 0, sizes.first_page(), pages - 1];
    let named: BTreeSet<u64> = match pages <= EVERY_PAGE {
        true => (0..pages).collect(),
        false => few.into_iter().filter(|&page| page < pages).collect(),
    };
    let wide = named.iter().flat_map(|page| MORE.map(|more| more + page));
    let change = |page: u64| WideChange {
        words: sites.iter().map(|site| site.naming(page)).collect(),
        read: sites.iter().all(|site| site.read),
    };
    wide.map(change).collect()
}

/// A head, footer or tail of an accepted volume, and where a change to it is made.
#[derive(Clone, Copy)]
struct Site {
    /// Which of them it is.
    kind: PageWord,
    /// The head, footer or tail word.
    word: u64,
    /// The word to change: that word itself, or the journal's word that holds its old value.
    index: u64,
    /// The value once the journal's old values are put back.
    value: u64,
    /// Whether the word to change is read.
    read: bool,
}

impl Site {
    /// The site where the head, footer or tail word itself is changed.
    fn own(volume: &Volume<'_>, kind: PageWord, word: u64, read: bool) -> Site {
        Site {
            kind,
            word,
            index: word,
            value: volume.word(word),
            read,
        }
    }

    /// The page that stands there.
    fn page(&self) -> u64 {
        self.kind.page(self.value)
    }

    /// The change that makes it name a page.
    fn naming(&self, page: u64) -> WideWord {
        WideWord {
            kind: self.kind,
            word: self.word,
            index: self.index,
            value: self.kind.with_page(self.value, page),
        }
    }
}

/// The sites of a volume: heads and tails of some inodes, and footers of some pages.
fn sites(volume: &Volume<'_>) -> Vec<Site> {
    let last_inode = volume.sizes.inodes() - 1;
    let mut sites = Vec::new();
    for inode in (0..INODES.min(last_inode)).chain([last_inode]) {
        let log = volume.logs.get(&inode);
        let has_pages = log.is_some_and(|log| log.tail != 0);
        let valid = log.is_some();
        let [head, tail] = [head_word(inode), tail_word(inode)];
        sites.extend(end_sites(volume, PageWord::Head, head, has_pages));
        sites.extend(end_sites(volume, PageWord::Tail, tail, valid));
    }
    sites.extend(footer_sites(volume));
    sites
}

/// The sites of a head or tail that is read or not: its own word, or where the journal puts it back, the journal's word and then its own,
/// which is not read.
fn end_sites(volume: &Volume<'_>, kind: PageWord, word: u64, read: bool) -> Vec<Site> {
    let own = Site::own(volume, kind, word, read);
    let positions = successors(Some(volume.journal.dequeue), |at| Some(at.next()));
    let mut open = positions.zip(&volume.journal.open);
    match open.find(|(_, entry)| entry.target == word) {
        None => vec![own],
        Some((at, _)) => {
            let index = at.old_word();
            vec![Site { index, ..own }, Site { read: false, ..own }]
        }
    }
}

/// The sites of the footers of log pages and of free pages. In a data page the word is a part of a file.
fn footer_sites(volume: &Volume<'_>) -> Vec<Site> {
    let links = link_words(volume);
    let (first, last) = (volume.sizes.first_page(), volume.sizes.pages() - 1);
    let chosen = |page: u64| match volume.uses[page as usize] {
        Use::Log { .. } => true,
        Use::Free => page < first + FREE_PAGES || page == last,
        Use::Fixed | Use::Data { .. } => false,
    };
    let words = (first..=last).filter(|&page| chosen(page)).map(footer_word);
    let site = |word: u64| Site::own(volume, PageWord::Footer, word, links.contains(&word));
    words.map(site).collect()
}

/// Of each log that has pages, the two sites that name its last page: the last link, or the head where there is no link, and the tail.
fn last_pages(volume: &Volume<'_>, sites: &[Site]) -> Vec<[Site; 2]> {
    let read = |word: u64| {
        let site = sites.iter().find(|site| site.read && site.word == word);
        *site.expect("the word is read")
    };
    let logs = volume.logs.iter().filter(|(_, log)| log.tail != 0);
    let words = logs.map(|(&inode, log)| match log.pages[..] {
        [.., left_behind, _] => [footer_word(left_behind), tail_word(inode)],
        _ => [head_word(inode), tail_word(inode)],
    });
    words.map(|words| words.map(read)).collect()
}
