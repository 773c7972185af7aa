//! What the pages of an accepted volume serve for, by page and by inode.

use super::paths::Paths;
use super::stretch::Stretch;
use calls::layout::ROOT;
use reference::{Use, Volume};

/// A page of a volume.
pub(super) struct Page {
    /// The page's number.
    pub(super) number: u64,
    /// What it serves for.
    pub(super) serves: Use,
    /// Whether it lies in the longest stretch of free pages.
    pub(super) in_longest: bool,
}

/// The pages of a volume whose longest stretch of free pages is this one.
pub(super) fn pages(volume: &Volume<'_>, longest: Option<Stretch>) -> Vec<Page> {
    let uses = (0..).zip(&volume.uses);
    let pages = uses.map(|(number, &serves)| Page {
        number,
        serves,
        in_longest: longest.is_some_and(|stretch| stretch.has(number)),
    });
    pages.collect()
}

/// A valid inode and its pages.
pub(super) struct Inode {
    /// The inode's number.
    pub(super) number: u64,
    /// The paths that lead to it, in list order, a folder's with a "/" at the end; none for the root.
    pub(super) paths: Vec<Vec<u8>>,
    /// The file's size, or the folder's total.
    pub(super) size: u64,
    /// The pages of its log, ascending.
    pub(super) log: Vec<u64>,
    /// Its mapped data pages, ascending.
    pub(super) data: Vec<u64>,
}

impl Inode {
    /// Whether this is the root.
    pub(super) fn is_root(&self) -> bool {
        self.number == ROOT
    }
}

/// The valid inodes of a volume, ascending.
pub(super) fn inodes(volume: &Volume<'_>) -> Vec<Inode> {
    let (paths, numbers) = (Paths::of(volume), volume.logs.keys());
    numbers
        .map(|&number| inode(volume, &paths, number))
        .collect()
}

fn inode(volume: &Volume<'_>, paths: &Paths, number: u64) -> Inode {
    let pages_that = |serves: &dyn Fn(&Use) -> bool| -> Vec<u64> {
        let pages = (0..).zip(&volume.uses);
        let serving = pages.filter(|(_, page)| serves(page));
        serving.map(|(page, _)| page).collect()
    };
    Inode {
        number,
        paths: paths.to(number),
        size: volume.name_total(number),
        log: pages_that(&|page| matches!(page, Use::Log { inode } if *inode == number)),
        data: pages_that(&|page| matches!(page, Use::Data { inode, .. } if *inode == number)),
    }
}

/// The inode that a page serves; none for fixed and free pages.
pub(super) fn inode_of(page: Use) -> Option<u64> {
    match page {
        Use::Fixed | Use::Free => None,
        Use::Log { inode } | Use::Data { inode, .. } => Some(inode),
    }
}

/// What a page serves for, in words: `data of inode 4 (file page 0)`.
pub(super) fn use_text(page: Use) -> String {
    match page {
        Use::Fixed => "fixed".to_string(),
        Use::Free => "free".to_string(),
        Use::Log { inode } => format!("log of inode {inode}"),
        Use::Data { inode, file_page } => format!("data of inode {inode} (file page {file_page})"),
    }
}

/// The totals: `256 pages: 9 fixed, 3 log, 12 data, 232 free`.
pub(super) fn totals(volume: &Volume<'_>) -> String {
    let count = |serves: fn(&&Use) -> bool| volume.uses.iter().filter(serves).count();
    format!(
        "{} pages: {} fixed, {} log, {} data, {} free",
        volume.uses.len(),
        count(|page| matches!(page, Use::Fixed)),
        count(|page| matches!(page, Use::Log { .. })),
        count(|page| matches!(page, Use::Data { .. })),
        volume.free_pages(),
    )
}
