//! The map of the pages as an SVG picture: a grid of cells coloured by inode, an outline around the longest stretch of
//! free pages, and a legend.

mod drawing;
mod legend;
mod outline;

use super::pages::{inode_of, inodes, pages, totals, use_text, Page};
use super::stretch::longest_of;
use super::words::put_back;
use drawing::{Drawing, LETTER, LINE, MARGIN};
use outline::outline;
use reference::{Use, Volume};

/// The space for the page numbers before the rows.
const NUMBERS: usize = 36;
/// The space between two cells.
const GAP: usize = 2;

/// How the grid is laid out, by the count of pages.
struct Grid {
    /// The pages in a row.
    columns: usize,
    /// The distance from one cell to the next.
    step: usize,
    /// Whether the cells have room for the inode's number.
    numbered: bool,
}

impl Grid {
    fn new(pages: usize) -> Grid {
        let (columns, step, numbered) = match pages {
            0..=64 => (16, 42, true),
            65..=512 => (32, 28, true),
            _ => (64, 14, false),
        };
        Grid {
            columns,
            step,
            numbered,
        }
    }

    fn width(&self) -> usize {
        NUMBERS + self.columns * self.step
    }

    /// The side of a cell.
    fn side(&self) -> usize {
        self.step - GAP
    }

    /// The left and upper edge of a page's cell in a grid with this upper edge.
    fn place(&self, page: usize, top: usize) -> (usize, usize) {
        let x = MARGIN + NUMBERS + page % self.columns * self.step;
        (x, top + page / self.columns * self.step)
    }
}

/// The whole picture.
pub(super) fn svg(volume: &Volume<'_>) -> String {
    let grid = Grid::new(volume.uses.len());
    let inodes = inodes(volume);
    let longest = longest_of(volume);
    let mut drawing = Drawing::default();
    let top = heading(&mut drawing, volume, &grid);
    let top = legend::looks(&mut drawing, longest, top);
    let below = cells(&mut drawing, &pages(volume, longest), &grid, top);
    if let Some(stretch) = longest {
        outline(&mut drawing, &grid, stretch, top);
    }
    let bottom = legend::inodes(&mut drawing, &inodes, grid.width(), below);
    let colours = inodes.iter().map(|inode| inode.number);
    drawing.document(&totals(volume), colours, grid.width(), bottom)
}

/// The totals, and lines about an open journal. Answers the upper edge of what follows, as the other
/// parts do.
fn heading(drawing: &mut Drawing, volume: &Volume<'_>, grid: &Grid) -> usize {
    drawing.text("head", (MARGIN, MARGIN), &totals(volume));
    let mut top = MARGIN + LINE + 6;
    let put_back = put_back(&volume.journal.open).unwrap_or_default();
    for line in wrapped(&put_back, grid.width() / LETTER) {
        drawing.text("line", (MARGIN, top), &line);
        top += LINE;
    }
    top
}

/// A text in lines of at most so many letters, split at spaces.
fn wrapped(text: &str, letters: usize) -> Vec<String> {
    let mut lines: Vec<String> = Vec::new();
    for word in text.split_whitespace() {
        match lines.last_mut() {
            Some(line) if line.len() + 1 + word.len() <= letters => {
                line.push(' ');
                line.push_str(word);
            }
            _ => lines.push(word.to_string()),
        }
    }
    lines
}

/// The cells of all pages, with the number of each row's first page.
fn cells(drawing: &mut Drawing, pages: &[Page], grid: &Grid, top: usize) -> usize {
    for (number, page) in pages.iter().enumerate() {
        let (x, y) = grid.place(number, top);
        if number % grid.columns == 0 {
            drawing.row_number((x - 6, y + grid.step / 2), number);
        }
        cell(drawing, grid, page, (x, y));
    }
    grid.place(pages.len() - 1, top).1 + grid.step + 14
}

/// A page's cell: a square of the page's look, and the inode's number where there is room.
fn cell(drawing: &mut Drawing, grid: &Grid, page: &Page, place: (usize, usize)) {
    drawing.group("cell", &title(page), |drawing| {
        drawing.square(&look(page.serves), place, grid.side());
        if let (true, Some(inode)) = (grid.numbered, inode_of(page.serves)) {
            drawing.number(place, grid.side(), inode);
        }
    });
}

fn title(page: &Page) -> String {
    let mark = if page.in_longest {
        " (longest stretch)"
    } else {
        ""
    };
    format!("page {}: {}{mark}", page.number, use_text(page.serves))
}

/// The class of a page's square.
fn look(serves: Use) -> String {
    match serves {
        Use::Fixed => "fixed".to_string(),
        Use::Free => "free".to_string(),
        Use::Log { inode } => format!("log{inode}"),
        Use::Data { inode, .. } => format!("data{inode}"),
    }
}
