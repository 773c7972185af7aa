//! What a volume looks like: the texts of document 01's cases, a reason for everything that can be wrong,
//! and thousands of samples.

#[path = "show/layout.rs"]
mod layout;
#[path = "show/many.rs"]
mod many;
#[path = "show/pictures.rs"]
mod pictures;
#[path = "show/reasons.rs"]
mod reasons;
#[path = "show/texts.rs"]
mod texts;

use reference::{cut, Use};
use samples::{clean, create, done, filled, formatted, set_size, write};
use std::ops::Range;

/// The volumes of cases B, C, D and E.
fn cases() -> [Vec<u8>; 4] {
    let mut volume = formatted(16, 8);
    let calls = [
        create(b"A1"),
        write(1, 510, b"text"),
        set_size(1, 100),
        clean(1),
    ];
    calls.map(|call| {
        done(&mut volume, &call);
        volume.clone()
    })
}

/// Case J: B's create cut with word 66 landed and word 72 not.
fn case_j() -> Vec<u8> {
    let mut volume = formatted(16, 8);
    let list = filled(&volume, &create(b"A1")).expect("the call is done");
    cut(&mut volume, &list, 2, |index| index == 66);
    volume
}

/// The stretches of free pages by the pages' uses: the first page and the length of each.
fn stretches(uses: &[Use]) -> Vec<(u64, u64)> {
    let mut stretches = Vec::new();
    let mut first = 0;
    for run in uses.chunk_by(|one, other| (*one == Use::Free) == (*other == Use::Free)) {
        let length = run.len() as u64;
        if run[0] == Use::Free {
            stretches.push((first, length));
        }
        first += length;
    }
    stretches
}

/// The pages of the longest stretch, the first of several; none if no page is free.
fn longest_stretch(uses: &[Use]) -> Range<u64> {
    let stretches = stretches(uses).into_iter();
    let longer = |one: (u64, u64), next: (u64, u64)| if next.1 > one.1 { next } else { one };
    let (first, length) = stretches.reduce(longer).unwrap_or((0, 0));
    first..first + length
}

/// How a longest stretch is said: its length and its pages.
fn said(pages: &Range<u64>) -> String {
    let (first, last) = (pages.start, pages.end - 1);
    match pages.end - pages.start {
        1 => format!("1 page, {first}"),
        length => format!("{length} pages, {first}-{last}"),
    }
}
