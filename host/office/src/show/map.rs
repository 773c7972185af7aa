//! The map of the pages as text: a grid of cells, a table of the inodes, the totals.

use super::colour;
use super::pages::{inode_of, inodes, pages, totals, Inode, Page};
use super::stretch::{longest_of, Stretch};
use super::table;
use super::words::{put_back, quoted, ranges};
use reference::{Use, Volume};

/// The most pages in a row of the grid, and the least.
const ROW_PAGES: usize = 64;
const LEAST_ROW_PAGES: usize = 8;
/// So many cells stand together in a row.
const TOGETHER: usize = 8;
/// What stands between a row's number and its cells.
const GAP: &str = "  ";

/// The whole text.
pub(super) fn text(volume: &Volume<'_>, width: usize, colour: bool) -> String {
    let longest = longest_of(volume);
    let mut lines = legend(longest);
    lines.extend(grid(&pages(volume, longest), width, colour));
    lines.push(String::new());
    lines.extend(table(&inodes(volume), width, colour));
    lines.push(String::new());
    lines.extend(put_back(&volume.journal.open));
    lines.push(totals(volume));
    lines.push(String::new());
    lines.join("\n")
}

/// What the letters mean. The longest stretch of free pages, if there is one, has a line of its own, which says how
/// long it is and where.
fn legend(longest: Option<Stretch>) -> Vec<String> {
    let mut lines = vec!["pages: # fixed, L log, D data, . free".to_string()];
    lines.extend(longest.map(|stretch| format!("       _ {}", stretch.legend())));
    lines
}

/// The rows of the grid, each starting with the number of its first page.
fn grid(pages: &[Page], width: usize, colour: bool) -> Vec<String> {
    let number_width = (pages.len() - 1).to_string().len();
    let rows = pages.chunks(row_pages(width, number_width));
    rows.map(|row| {
        let first = row[0].number;
        format!("{first:>number_width$}{GAP}{}", cells(row, colour))
    })
    .collect()
}

/// How many pages a row has: 64, or half as many until it fits the width.
fn row_pages(width: usize, number_width: usize) -> usize {
    let wide = |count: usize| number_width + GAP.len() + count + count / TOGETHER - 1;
    let mut count = ROW_PAGES;
    while count > LEAST_ROW_PAGES && wide(count) > width {
        count /= 2;
    }
    count
}

/// The cells of a row, eight together; with colour, neighbours of one inode in one go.
fn cells(row: &[Page], colour: bool) -> String {
    let together = row.chunks(TOGETHER).map(|part| {
        let runs = part.chunk_by(|one, other| inode_of(one.serves) == inode_of(other.serves));
        let painted = runs.map(|run| {
            let letters: String = run.iter().map(letter).collect();
            match inode_of(run[0].serves) {
                Some(inode) if colour => paint(inode, &letters),
                _ => letters,
            }
        });
        painted.collect::<String>()
    });
    together.collect::<Vec<String>>().join(" ")
}

fn letter(page: &Page) -> char {
    match page.serves {
        Use::Fixed => '#',
        Use::Free if page.in_longest => '_',
        Use::Free => '.',
        Use::Log { .. } => 'L',
        Use::Data { .. } => 'D',
    }
}

/// Black letters on an inode's colour.
fn paint(inode: u64, letters: &str) -> String {
    let [red, green, blue] = colour::of_inode(inode);
    format!("\x1b[30;48;2;{red};{green};{blue}m{letters}\x1b[0m")
}

/// The table of the inodes, with a head line.
fn table(inodes: &[Inode], width: usize, colour: bool) -> Vec<String> {
    let head = ["inode", "names", "size", "log pages", "data pages"];
    let mut rows = vec![head.map(|text| vec![text.to_string()])];
    rows.extend(inodes.iter().map(row));
    let paint_number = |row: usize, number: String| match row {
        1.. if colour => paint(inodes[row - 1].number, &number),
        _ => number,
    };
    table::lines(&rows, width, paint_number)
}

fn row(inode: &Inode) -> table::Row {
    let names = match inode.is_root() {
        true => vec!["the root".to_string()],
        false => inode.paths.iter().map(|path| quoted(path)).collect(),
    };
    [
        vec![inode.number.to_string()],
        names,
        vec![inode.size.to_string()],
        or_dash(ranges(&inode.log)),
        or_dash(ranges(&inode.data)),
    ]
}

fn or_dash(items: Vec<String>) -> Vec<String> {
    match items.is_empty() {
        true => vec!["-".to_string()],
        false => items,
    }
}
