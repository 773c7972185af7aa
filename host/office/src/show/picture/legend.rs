//! The legend of the picture: what the looks of cells mean, and the inodes with their colours and names.

use super::drawing::{Drawing, LETTER, LINE, MARGIN};
use crate::show::pages::Inode;
use crate::show::stretch::Stretch;
use crate::show::words::quoted_names;

/// The side of a swatch, and the distance from its left edge to the text behind it.
const SWATCH: usize = 14;
const BEHIND_SWATCH: usize = 22;
/// The distance from a swatch to the outline around it.
const OUTLINE: usize = 1;
/// The inodes stand in so many columns.
const COLUMNS: usize = 2;

/// What the four looks of a cell mean, in one line; in a second one, if a page is free, what the outline means, that is,
/// how long the longest stretch is and where.
pub(super) fn looks(drawing: &mut Drawing, longest: Option<Stretch>, mut top: usize) -> usize {
    let looks = [
        ("fixed", "fixed"),
        ("free", "free"),
        ("log0", "log, hatched in its inode's colour"),
        ("data0", "data in its inode's colour"),
    ];
    let mut x = MARGIN;
    for (look, meaning) in looks {
        swatch(drawing, look, (x, top), meaning);
        x += BEHIND_SWATCH + meaning.len() * LETTER + SWATCH;
    }
    if let Some(stretch) = longest {
        top += LINE;
        swatch(drawing, "free", (MARGIN, top), &stretch.legend());
        let [left, upper] = [MARGIN, top].map(|edge| edge - OUTLINE);
        let [right, lower] = [MARGIN, top].map(|edge| edge + SWATCH + OUTLINE);
        drawing.outline(&[(left, upper), (right, upper), (right, lower), (left, lower)]);
    }
    top + LINE + 10
}

/// The inodes in columns that share a width: colour, number, names, size, counts of pages.
pub(super) fn inodes(drawing: &mut Drawing, inodes: &[Inode], width: usize, top: usize) -> usize {
    let width = width / COLUMNS;
    let letters = (width - BEHIND_SWATCH) / LETTER - 2;
    let rows = inodes.len().div_ceil(COLUMNS);
    for (number, inode) in inodes.iter().enumerate() {
        let place = (MARGIN + number / rows * width, top + number % rows * LINE);
        let look = format!("data{}", inode.number);
        drawing.group("inode", &line(inode, usize::MAX), |drawing| {
            swatch(drawing, &look, place, &line(inode, letters));
        });
    }
    top + rows * LINE
}

/// A small square of a look, and what it stands for.
fn swatch(drawing: &mut Drawing, look: &str, (x, y): (usize, usize), meaning: &str) {
    drawing.square(look, (x, y), SWATCH);
    drawing.text("line", (x + BEHIND_SWATCH, y), meaning);
}

/// An inode's line; the names are cut where it would have more than so many letters.
fn line(inode: &Inode, letters: usize) -> String {
    let (number, log, data) = (inode.number, inode.log.len(), inode.data.len());
    let size = inode.size;
    if inode.is_root() {
        return format!("{number}: the root, size {size}, {log} log");
    }
    let rest = format!(", size {size}, {log} log, {data} data");
    let left = letters.saturating_sub(number.to_string().len() + 2 + rest.len());
    let names = shortened(&quoted_names(&inode.paths), left);
    format!("{number}: {names}{rest}")
}

/// A text cut to so many letters, the last then a mark that it goes on.
fn shortened(text: &str, letters: usize) -> String {
    if text.chars().count() <= letters {
        return text.to_string();
    }
    let mut short: String = text.chars().take(letters.saturating_sub(1)).collect();
    short.push('\u{2026}');
    short
}
