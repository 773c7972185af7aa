//! What a volume looks like: why it is refused, a map of its pages, its gaps, the entries of a log.
//!
//! Every function here takes the bytes of a volume, of any length and content, and answers a text.
//! Nothing is stored. Whether a volume is accepted is always asked of the compiled calls, and so are
//! the gaps; what the other texts say is read by the reference model, with the journal's open entries
//! put back, and a text that does so says it.
//!
//! ```
//! use calls::{carry_out, create, format, Refusal};
//! use office::show::{log_text, map_text, reason};
//!
//! let mut volume = vec![0; 16 * 512];
//! assert_eq!(
//!     reason(&volume),
//!     Some("word 0 is 0, not a page count from 16 to 4096".to_string())
//! );
//! format(&mut volume, 16, 8)?;
//! assert_eq!(reason(&volume), None);
//!
//! let mut list = vec![0; 4_096];
//! let count = create(&volume, 0, b"A1", &mut list)?;
//! carry_out(&mut volume, &list, count)?;
//! assert!(map_text(&volume, 80, false)?.contains("16 pages: 2 fixed, 1 log, 0 data, 13 free"));
//! assert!(log_text(&volume, 0)?.contains("page 2, entry 1: add \"A1\" for inode 1"));
//! # Ok::<(), Refusal>(())
//! ```

mod colour;
mod damaged;
mod gaps;
mod log;
mod map;
mod pages;
mod paths;
mod picture;
mod reason;
mod stretch;
mod table;
mod words;

use reference::Volume;
use refusal::Refusal;

/// Why a volume is refused, in words; none if it is accepted and its journal is closed.
///
/// The verdict is that of `calls::free_count`. The words say what the reference model finds wrong,
/// one thing with its place; for an open journal, the open entries. Where the model does not come
/// to the same refusal, they say that the reason is not known.
///
/// ```
/// let mut volume = vec![0; 16 * 512];
/// calls::format(&mut volume, 16, 8).unwrap();
/// volume[64] = 16;
/// assert_eq!(
///     office::show::reason(&volume),
///     Some("the journal's dequeue position is 16, not below 16".to_string())
/// );
/// ```
pub fn reason(volume: &[u8]) -> Option<String> {
    let verdict = calls::free_count(volume).err()?;
    let found = reason::found(volume).filter(|(refusal, _)| *refusal == verdict);
    let unknown = || "for a reason that this tool does not know".to_string();
    Some(found.map_or_else(unknown, |(_, words)| words))
}

/// Draws the pages of a volume as text: a grid with one cell per page, a table of the valid inodes with
/// their pages, and the totals.
///
/// The longest stretch of free pages, the first if there are several, has a letter of its own, and the
/// legend says how long it is and where; neither is there where no page is free.
///
/// The lines are at most `width` characters wide where names and page numbers allow; a row of the grid has
/// 64 pages, or half as many until it fits, but at least 8. With `colour`, the cells of each inode and its
/// number in the table have a background colour of their own (24-bit ANSI sequences). The refusals are 2
/// ([`Refusal::NoVolume`]) and 3 ([`Refusal::Damaged`]); an open journal is put back, and the text says so.
///
/// ```
/// let mut volume = vec![0; 16 * 512];
/// calls::format(&mut volume, 16, 8).unwrap();
/// assert_eq!(
///     office::show::map_text(&volume, 80, false).unwrap(),
///     "\
/// pages: # fixed, L log, D data, . free
///        _ longest free stretch: 14 pages, 2-15
///  0  ##______ ________
///
/// inode  names     size  log pages  data pages
///     0  the root     0  -          -
///
/// 16 pages: 2 fixed, 0 log, 0 data, 14 free
/// "
/// );
/// ```
pub fn map_text(volume: &[u8], width: usize, colour: bool) -> Result<String, Refusal> {
    Ok(map::text(&accepted(volume)?, width, colour))
}

/// Draws the pages of a volume as a standalone SVG picture: a grid with one cell per page, coloured by
/// inode, and a legend with the names.
///
/// Each cell has a title that says its page and its use, which a browser shows under the pointer. A dark
/// outline marks the longest stretch of free pages (see [`map_text`]). The refusals are 2
/// ([`Refusal::NoVolume`]) and 3 ([`Refusal::Damaged`]); an open journal is put back, and the picture says so.
///
/// ```
/// let mut volume = vec![0; 16 * 512];
/// calls::format(&mut volume, 16, 8).unwrap();
/// let picture = office::show::map_svg(&volume).unwrap();
/// assert!(picture.contains("<title>page 0: fixed</title>"));
/// assert!(picture.contains("<title>page 2: free (longest stretch)</title>"));
/// assert!(picture.contains("longest free stretch: 14 pages, 2-15"));
/// ```
pub fn map_svg(volume: &[u8]) -> Result<String, Refusal> {
    Ok(picture::svg(&accepted(volume)?))
}

/// The stretches of free pages of a volume, a line for each by first page, then the longest, the first if there
/// are several, and the total; or that no page is free.
///
/// The stretches are those of `calls::gaps`. The refusals are 2 ([`Refusal::NoVolume`]), 3
/// ([`Refusal::Damaged`]) and 4 ([`Refusal::JournalOpen`]).
///
/// ```
/// let mut volume = vec![0; 16 * 512];
/// calls::format(&mut volume, 16, 8).unwrap();
/// assert_eq!(
///     office::show::gaps_text(&volume).unwrap(),
///     "\
/// free pages  length
/// 2-15            14
///
/// longest: 14 pages, 2-15
/// total: 14 free pages in 1 stretch
/// "
/// );
/// ```
pub fn gaps_text(volume: &[u8]) -> Result<String, Refusal> {
    Ok(gaps::text(&stretch::stretches(volume)?))
}

/// The log of a valid inode in words: a line about the inode, then one line per entry.
///
/// Inode 0 is the root. The refusals are 2 ([`Refusal::NoVolume`]), 3 ([`Refusal::Damaged`]) and 6
/// ([`Refusal::NotThere`], an inode that is invalid or out of range); an open journal is put back, and the
/// text says so.
///
/// ```
/// use office::show::log_text;
/// use refusal::Refusal;
///
/// let mut volume = vec![0; 16 * 512];
/// calls::format(&mut volume, 16, 8).unwrap();
/// assert_eq!(log_text(&volume, 0), Ok("inode 0, root, 0 names: empty log\n".to_string()));
/// assert_eq!(log_text(&volume, 1), Err(Refusal::NotThere));
/// ```
pub fn log_text(volume: &[u8], inode: u64) -> Result<String, Refusal> {
    log::text(&accepted(volume)?, inode).ok_or(Refusal::NotThere)
}

/// Reads a volume that the compiled calls accept, its journal closed or open. The refusals are 2 and 3.
fn accepted(volume: &[u8]) -> Result<Volume<'_>, Refusal> {
    match calls::free_count(volume) {
        Ok(_) | Err(Refusal::JournalOpen) => reference::judge(volume),
        Err(refusal) => Err(refusal),
    }
}
