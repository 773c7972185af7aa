//! Full handhelds on the reference model (order 4 of document 02): "On a full handheld unlink fails
//! when the remove entry wants a log page."

mod library;

use library::REFERENCE;
use samples::{check_row, full_handheld, rows_without_a_page, Emptied, HANDHELDS};

/// Volumes filled with files of at least one byte: every unlink is done until no name stands.
#[test]
fn filled_and_emptied() {
    let mut counts = Emptied::default();
    for (&sizes, seed) in HANDHELDS.iter().cycle().zip(0..80) {
        full_handheld(&REFERENCE, seed, sizes, &mut counts);
    }
    println!("{counts:?}");
    assert!(counts.names > 800 && counts.took_last > 20, "{counts:?}");
    assert!(counts.create_refused > 10, "{counts:?}");
    for number in [10, 12, 15] {
        assert!(counts.refused[number] > 100, "{number}: {counts:?}");
    }
}

/// What the order does not promise.
#[test]
fn the_page_used_up() {
    for row in &rows_without_a_page() {
        check_row(&REFERENCE, row);
    }
}
