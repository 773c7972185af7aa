//! Stretches of free pages: those of a volume, and which of them is the longest.

use super::words::{counted, range};
use calls::layout::PAGE_LIMIT;
use reference::Volume;
use refusal::Refusal;

/// Free pages side by side, with no free page before or behind them.
#[derive(Clone, Copy, Debug, PartialEq, Eq)]
pub(super) struct Stretch {
    /// The first page.
    pub(super) first: u64,
    /// How many pages there are.
    pub(super) length: u64,
}

impl Stretch {
    /// Whether a page lies in it.
    pub(super) fn has(&self, page: u64) -> bool {
        (self.first..self.first + self.length).contains(&page)
    }

    /// Its pages as a range: `5`, `5-7`.
    pub(super) fn range(&self) -> String {
        range(self.first, self.length)
    }

    /// How long it is and where: `3 pages, 5-7`.
    pub(super) fn text(&self) -> String {
        let pages = counted(self.length as usize, "page", "pages");
        format!("{pages}, {}", self.range())
    }

    /// What a legend says of it where it is the longest.
    pub(super) fn legend(&self) -> String {
        format!("longest free stretch: {}", self.text())
    }
}

/// The stretches of a volume by first page, as the compiled call gives them. The refusals are 2, 3 and 4.
pub(super) fn stretches(volume: &[u8]) -> Result<Vec<Stretch>, Refusal> {
    // Two stretches have a page between them, so that no volume has more of them than this list has pairs.
    let mut words = vec![0; PAGE_LIMIT as usize];
    let count = calls::gaps(volume, &mut words)?;
    let pairs = words.chunks_exact(2).take(count as usize);
    Ok(pairs.map(|pair| stretch((pair[0], pair[1]))).collect())
}

/// The longest stretch of a volume, read with an open journal put back; none if no page is free.
pub(super) fn longest_of(volume: &Volume<'_>) -> Option<Stretch> {
    let stretches = volume.free_stretches().into_iter().map(stretch);
    longest(&stretches.collect::<Vec<Stretch>>())
}

/// The longest of these stretches; of several, the first.
pub(super) fn longest(stretches: &[Stretch]) -> Option<Stretch> {
    // Of equals max_by_key takes the last, so it is asked from behind.
    let from_behind = stretches.iter().rev();
    from_behind.max_by_key(|stretch| stretch.length).copied()
}

fn stretch((first, length): (u64, u64)) -> Stretch {
    Stretch { first, length }
}

#[cfg(test)]
mod tests {
    use super::{longest, stretch, Stretch};

    #[test]
    fn the_first_of_the_longest() {
        let longest_of = |pairs: &[(u64, u64)]| {
            let stretches: Vec<Stretch> = pairs.iter().copied().map(stretch).collect();
            longest(&stretches).map(|stretch| stretch.first)
        };
        assert_eq!(longest_of(&[]), None);
        assert_eq!(longest_of(&[(2, 1)]), Some(2));
        assert_eq!(longest_of(&[(2, 1), (4, 3), (8, 2), (11, 3)]), Some(4));
        assert_eq!(longest_of(&[(2, 1), (4, 1), (6, 1)]), Some(2));
        assert_eq!(longest_of(&[(2, 1), (4, 1), (6, 2)]), Some(6));
    }

    #[test]
    fn texts() {
        let [one, many] = [(5, 1), (5, 3)].map(stretch);
        assert_eq!(one.text(), "1 page, 5");
        assert_eq!(many.text(), "3 pages, 5-7");
        assert_eq!(
            (4..9).map(|page| many.has(page)).collect::<Vec<bool>>(),
            [false, true, true, true, false]
        );
    }
}
