//! The free pages that a call may take.

use crate::accept::Volume;
use crate::uses::Use;
use crate::Refusal;

/// The pages still free to a call. Pages that the call lets go are not among them.
pub(crate) struct Space {
    free: Vec<bool>,
    /// Whether the call has taken a page.
    taken: bool,
    /// Whether the call keeps one page back.
    keeps_one: bool,
}

impl Space {
    /// The free pages of a volume, for a call that may take the last one: order 4, "Unlink, rename
    /// and clean may take the last page."
    pub(crate) fn of(volume: &Volume<'_>) -> Space {
        Space {
            free: volume.uses.iter().map(|&page| page == Use::Free).collect(),
            taken: false,
            keeps_one: false,
        }
    }

    /// The free pages of a volume, for a call that may not: order 4, "Create, link, write and set
    /// size shall not take the last free page."
    pub(crate) fn keeping_one(volume: &Volume<'_>) -> Space {
        Space {
            keeps_one: true,
            ..Space::of(volume)
        }
    }

    /// Takes the data pages of a write, in file order: the lowest run of `count` free pages, or the
    /// lowest free pages where there is no such run. The refusal is 12.
    ///
    /// Order 3: "A write that finds no single run shall take the lowest free pages one by one, as
    /// many as it needs." Whether pages are left for the log is not asked here.
    pub(crate) fn take_data_pages(&mut self, count: usize) -> Result<Vec<u64>, Refusal> {
        match self.take_run(count) {
            Ok(first) => Ok((first..).take(count).collect()),
            Err(_) => (0..count).map(|_| self.take_page()).collect(),
        }
    }

    /// Takes the lowest run of `count` free pages; answers its first page. The refusal is 12.
    pub(crate) fn take_run(&mut self, count: usize) -> Result<u64, Refusal> {
        let mut length = 0;
        for page in 0..self.free.len() {
            length = if self.free[page] { length + 1 } else { 0 };
            if length == count {
                let first = page + 1 - count;
                self.free[first..=page].fill(false);
                self.taken = true;
                return Ok(first as u64);
            }
        }
        Err(Refusal::NoSpace)
    }

    /// Takes the lowest free page. The refusal is 12.
    pub(crate) fn take_page(&mut self) -> Result<u64, Refusal> {
        self.take_run(1)
    }

    /// Checks that a call which keeps one page back has left one, once it has taken all its pages.
    /// The refusal is 15, "checked directly after 12".
    ///
    /// "The rule concerns only calls that take at least one page".
    pub(crate) fn check_one_left(&self) -> Result<(), Refusal> {
        if self.keeps_one && self.taken && !self.free.contains(&true) {
            return Err(Refusal::LastPage);
        }
        Ok(())
    }
}
