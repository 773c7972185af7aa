//! A table of the inodes as lines of text, in columns that fit a width.

/// A cell: its items, which stand with commas between them.
pub(super) type Cell = Vec<String>;
/// A row: the inode, its names, its size, its log pages and its data pages.
pub(super) type Row = [Cell; 5];

/// The columns of numbers stand to the right and in one line each.
const NUMBERS: [usize; 2] = [0, 2];
/// What stands between two columns.
const GAP: &str = "  ";

/// The lines of a table. Items that do not fit go on in further lines of their column, so that a line has
/// at most `width` characters where the items allow. `paint` may colour the first cell of a row.
pub(super) fn lines(
    rows: &[Row],
    width: usize,
    paint: impl Fn(usize, String) -> String,
) -> Vec<String> {
    let limits = limits(rows, width);
    let wrapped: Vec<Row> = rows.iter().map(|row| wrapped_row(row, limits)).collect();
    let widths = widths(&wrapped);
    let mut lines = Vec::new();
    for (number, row) in wrapped.iter().enumerate() {
        let height = row.iter().map(Vec::len).max().unwrap_or(0);
        lines.extend((0..height).map(|line| {
            let mut cells = padded(row, line, widths);
            if line == 0 {
                cells[0] = paint(number, std::mem::take(&mut cells[0]));
            }
            cells.join(GAP).trim_end().to_string()
        }));
    }
    lines
}

/// How wide each column may be. A column is at least as wide as its widest item. What the columns of
/// numbers leave of the width is shared among the others, the narrowest first.
fn limits(rows: &[Row], width: usize) -> [usize; 5] {
    let least = widths(rows);
    let whole: Vec<Row> = rows
        .iter()
        .map(|row| wrapped_row(row, [usize::MAX; 5]))
        .collect();
    let mut limits = widths(&whole);
    let mut others = [1, 3, 4];
    others.sort_by_key(|&column| limits[column]);
    let numbers: usize = NUMBERS.iter().map(|&column| limits[column]).sum();
    let mut left = width.saturating_sub(numbers + 4 * GAP.len());
    for (column, sharing) in others.into_iter().zip([3, 2, 1]) {
        limits[column] = limits[column].min(left / sharing).max(least[column]);
        left = left.saturating_sub(limits[column]);
    }
    limits
}

fn wrapped_row(row: &Row, limits: [usize; 5]) -> Row {
    std::array::from_fn(|column| wrapped(&row[column], limits[column]))
}

/// The items of a cell in lines of at most `limit` characters, or of one item.
fn wrapped(items: &[String], limit: usize) -> Cell {
    let mut lines: Cell = Vec::new();
    for (number, item) in items.iter().enumerate() {
        let comma = if number + 1 < items.len() { "," } else { "" };
        match lines.last_mut() {
            Some(line) if letters(line) + 1 + letters(item) + comma.len() <= limit => {
                *line += &format!(" {item}{comma}");
            }
            _ => lines.push(format!("{item}{comma}")),
        }
    }
    lines
}

/// The width of each column: that of its widest line.
fn widths(rows: &[Row]) -> [usize; 5] {
    std::array::from_fn(|column| {
        let lines = rows.iter().flat_map(|row| &row[column]);
        lines.map(|line| letters(line)).max().unwrap_or(0)
    })
}

/// The cells of one line of a row, filled up with spaces.
fn padded(row: &Row, line: usize, widths: [usize; 5]) -> [String; 5] {
    std::array::from_fn(|column| {
        let text = row[column].get(line).map_or("", |text| text.as_str());
        let width = widths[column];
        match NUMBERS.contains(&column) {
            true => format!("{text:>width$}"),
            false => format!("{text:<width$}"),
        }
    })
}

fn letters(text: &str) -> usize {
    text.chars().count()
}
