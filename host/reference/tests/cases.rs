//! Cases A to M of document 01 on the reference model, and what only the model shows of them.

mod library;

use library::REFERENCE;
use reference::{judge, listing, Use};
use samples::{cases, check_case, clean, create, done, formatted, set_size, write};

#[test]
fn every_case() {
    let rows = cases();
    assert_eq!(rows.len(), 21);
    for case in &rows {
        check_case(&REFERENCE, case);
    }
}

/// The uses of pages 2 to 6 after cases B to E.
#[test]
fn uses_of_pages() {
    let log = |inode| Use::Log { inode };
    let data = |file_page| Use::Data {
        inode: 1,
        file_page,
    };
    let free = Use::Free;
    let mut volume = formatted(16, 8);
    for (call, uses) in [
        (create(b"A1"), [log(0), free, free, free, free]),
        (
            write(1, 510, b"abcd"),
            [log(0), data(0), data(1), log(1), free],
        ),
        (set_size(1, 100), [log(0), free, free, log(1), data(0)]),
        (clean(1), [log(0), log(1), free, free, data(0)]),
    ] {
        done(&mut volume, &call);
        let judged = judge(&volume).expect("the volume is accepted");
        assert_eq!(judged.uses[2..7], uses, "{call:?}");
    }
}

/// What volume-list prints for case C.
#[test]
fn the_listing() {
    let mut volume = formatted(16, 8);
    done(&mut volume, &create(b"A1"));
    done(&mut volume, &write(1, 510, b"abcd"));
    assert_eq!(listing(&volume), b"files 1 free 10\n1 514 A1\n");
}
