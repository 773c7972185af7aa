//! Store lists: filling them, their groups and fences, carrying them out, and power cuts.

use crate::layout::{set_word, Sizes, PAGE_WORDS};
use crate::Refusal;

/// One store: a word index and the value that the word gets.
pub type Store = (u64, u64);

/// The word index that makes a pair a fence; a fence's value is 0.
pub const FENCE: u64 = u64::MAX;

/// Fills a store list with groups, each in ascending index and ended by a fence.
///
/// Answers the count of words filled. The list has been judged long enough.
pub(crate) fn fill(list: &mut [u64], groups: Vec<Vec<Store>>) -> u64 {
    let mut places = list.iter_mut();
    let mut count = 0;
    for mut group in groups {
        group.sort_unstable();
        group.push((FENCE, 0));
        for word in group.into_iter().flat_map(|(index, value)| [index, value]) {
            if let Some(place) = places.next() {
                *place = word;
                count += 1;
            }
        }
    }
    count
}

/// Carries out the first `count` words of a store list on the volume, in list order.
///
/// The refusals are 2 and 13, judged before the first store. A count of 0 stores nothing.
pub fn carry_out(volume: &mut [u8], list: &[u64], count: u64) -> Result<(), Refusal> {
    let sizes = Sizes::of(volume)?;
    let list = usize::try_from(count)
        .ok()
        .and_then(|count| list.get(..count))
        .filter(|list| is_store_list(list, sizes))
        .ok_or(Refusal::BadList)?;
    for (index, value) in pairs(list) {
        set_word(volume, index, value);
    }
    Ok(())
}

/// Whether these words are pairs, each a store inside the volume or a fence, the last a fence.
fn is_store_list(list: &[u64], sizes: Sizes) -> bool {
    let words = sizes.pages() * PAGE_WORDS;
    list.len().is_multiple_of(2)
        && pairs(list).all(|(index, value)| match index {
            FENCE => value == 0,
            _ => index < words,
        })
        && pairs(list).last().is_none_or(|(index, _)| index == FENCE)
}

fn pairs(list: &[u64]) -> impl Iterator<Item = Store> + '_ {
    list.chunks_exact(2).map(|pair| (pair[0], pair[1]))
}

/// Splits the filled part of a store list at its fences: the stores of each group, in list order.
///
/// Stores after the last fence, which no filled list has, form a last group of their own.
pub fn groups(list: &[u64]) -> Vec<Vec<Store>> {
    let mut groups = Vec::new();
    let mut group = Vec::new();
    for (index, value) in pairs(list) {
        if index == FENCE {
            groups.push(std::mem::take(&mut group));
        } else {
            group.push((index, value));
        }
    }
    if !group.is_empty() {
        groups.push(group);
    }
    groups
}

/// A power cut in group number `group` (from 0) of the filled part of a store list.
///
/// All groups before it have landed; of its own words those for which `kept` answers true (it is
/// asked with the word index) hold the new value, the others the old; nothing after is stored.
pub fn cut(volume: &mut [u8], list: &[u64], group: usize, mut kept: impl FnMut(u64) -> bool) {
    for (number, stores) in groups(list)
        .into_iter()
        .enumerate()
        .take(group.saturating_add(1))
    {
        for (index, value) in stores {
            if number < group || kept(index) {
                set_word(volume, index, value);
            }
        }
    }
}

/// Lands the filled part of a store list whole, group after group.
pub fn land(volume: &mut [u8], list: &[u64]) {
    cut(volume, list, usize::MAX, |_| true);
}
