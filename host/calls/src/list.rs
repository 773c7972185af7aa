//! Store lists, as a program reads them that carries one out group by group.
//!
//! ```
//! use calls::layout::LIST_WORDS;
//! use calls::list::groups;
//!
//! let mut volume = vec![0; 16 * 512];
//! let mut list = vec![0; LIST_WORDS];
//! calls::format(&mut volume, 16, 8)?;
//! let count = calls::create(&volume, 0, b"A1", &mut list)?;
//!
//! // The preparation; the enqueue position; the two targets; the dequeue position.
//! let groups = groups(&list[..count as usize]);
//! assert_eq!(groups.iter().map(Vec::len).collect::<Vec<_>>(), [16, 1, 2, 1]);
//! assert_eq!(groups[2], [(66, 1_088), (72, 1)]);
//! # Ok::<(), calls::Refusal>(())
//! ```

/// One store: a word's index and the value that the word gets.
pub type Store = (u64, u64);

/// The index that makes a pair of a store list a fence; a fence's value is 0.
pub const FENCE: u64 = u64::MAX;

/// Splits the filled part of a store list at its fences: the stores of each group, in list order.
///
/// Stores after the last fence, which no filled list has, form a last group of their own.
///
/// ```
/// use calls::list::{groups, FENCE};
///
/// let list = [66, 0, 72, 0, FENCE, 0, 8, 2, FENCE, 0];
/// assert_eq!(groups(&list), [vec![(66, 0), (72, 0)], vec![(8, 2)]]);
/// assert!(groups(&[]).is_empty());
/// ```
pub fn groups(list: &[u64]) -> Vec<Vec<Store>> {
    let (pairs, _) = list.as_chunks();
    let ended = pairs.split_inclusive(|&[index, _]| index == FENCE);
    ended.map(stores).collect()
}

/// The stores of a group, without the fence that ends it.
fn stores(group: &[[u64; 2]]) -> Vec<Store> {
    let stores = group.iter().filter(|&&[index, _]| index != FENCE);
    stores.map(|&[index, value]| (index, value)).collect()
}
