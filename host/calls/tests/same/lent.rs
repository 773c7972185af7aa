//! Lent memory with marks around it.

use std::fmt::Debug;
use std::ops::Range;

/// How many elements stand on each side of what is lent, at least.
const MARGIN: usize = 64;

/// Memory to lend: a slice with marked elements before and after it.
pub struct Lent<T> {
    room: Vec<T>,
    place: Range<usize>,
}

impl<T: Copy + Debug + PartialEq + From<u8>> Lent<T> {
    /// Memory with this content. It starts `shift` elements later, so that a slice of bytes can start
    /// anywhere in a word.
    pub fn new(content: &[T], shift: usize) -> Lent<T> {
        let start = MARGIN + shift;
        let mut room: Vec<T> = (0..start + content.len() + MARGIN).map(mark).collect();
        room[start..start + content.len()].copy_from_slice(content);
        Lent {
            room,
            place: start..start + content.len(),
        }
    }

    /// The slice to lend for reading.
    pub fn slice(&self) -> &[T] {
        &self.room[self.place.clone()]
    }

    /// The slice to lend for writing.
    pub fn slice_mut(&mut self) -> &mut [T] {
        &mut self.room[self.place.clone()]
    }

    /// Whether the lent slice holds this, and the marks around it stand.
    pub fn holds(&self, content: &[T]) -> bool {
        let marked = |range: Range<usize>| {
            self.room[range.clone()]
                .iter()
                .zip(range)
                .all(|(&element, index)| element == mark(index))
        };
        self.slice() == content
            && marked(0..self.place.start)
            && marked(self.place.end..self.room.len())
    }
}

/// The mark at an index of the room; no two neighbours have the same.
fn mark<T: From<u8>>(index: usize) -> T {
    T::from(0xA1_u8.wrapping_add(7_u8.wrapping_mul(index as u8)))
}

#[test]
fn a_changed_element_shows() {
    let content = [1_u8, 2, 3];
    for index in 0..MARGIN + 5 + 3 + MARGIN {
        let mut lent = Lent::new(&content, 5);
        assert!(lent.holds(&content));
        lent.room[index] ^= 1;
        assert!(!lent.holds(&content), "{index}");
    }
}
