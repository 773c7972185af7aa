//! The outline around a stretch of pages, which may run over several rows of the grid.

use super::drawing::{Drawing, MARGIN};
use super::{Grid, GAP, NUMBERS};
use crate::show::stretch::Stretch;

/// Outlines a stretch in a grid with this upper edge.
pub(super) fn outline(drawing: &mut Drawing, grid: &Grid, stretch: Stretch, top: usize) {
    let ends = [stretch.first, stretch.first + stretch.length - 1];
    for part in parts(grid.columns, ends.map(|page| page as usize)) {
        let corners = corners(grid.columns, part).into_iter();
        let places: Vec<(usize, usize)> = corners.map(|corner| place(grid, corner, top)).collect();
        drawing.outline(&places);
    }
}

/// The first and the last page of each part that hangs together. There are two parts where the end of a row goes on at
/// the start of the next one and no page stands below another.
fn parts(columns: usize, [first, last]: [usize; 2]) -> Vec<[usize; 2]> {
    let next_row = (first / columns + 1) * columns;
    if (next_row..first + columns).contains(&last) {
        vec![[first, next_row - 1], [next_row, last]]
    } else {
        vec![[first, last]]
    }
}

/// The corners around the pages of a part, each by the column that it stands before and the row that it stands above.
fn corners(columns: usize, [first, last]: [usize; 2]) -> Vec<(usize, usize)> {
    let (left, upper) = (first % columns, first / columns);
    let (right, lower) = (last % columns + 1, last / columns + 1);
    if lower == upper + 1 {
        return vec![(left, upper), (right, upper), (right, lower), (left, lower)];
    }
    vec![
        (left, upper),
        (columns, upper),
        (columns, lower - 1),
        (right, lower - 1),
        (right, lower),
        (0, lower),
        (0, upper + 1),
        (left, upper + 1),
    ]
}

/// The place of a corner, in the middle of the space between cells.
fn place(grid: &Grid, (column, row): (usize, usize), top: usize) -> (usize, usize) {
    let x = MARGIN + NUMBERS + column * grid.step - GAP / 2;
    (x, top + row * grid.step - GAP / 2)
}
