//! What the pages of a volume serve for.

use crate::damage::Damage;
use crate::layout::Sizes;

/// What a page serves for.
#[derive(Clone, Copy, Debug, PartialEq, Eq)]
pub enum Use {
    /// One of pages 0 to T: words 0 to 63 or the inode table.
    Fixed,
    /// A free page.
    Free,
    /// A log page of a valid inode.
    Log {
        /// The inode.
        inode: u64,
    },
    /// A mapped page of a valid file.
    Data {
        /// The file's inode.
        inode: u64,
        /// The file page that it is mapped to.
        file_page: u64,
    },
}

/// The uses of all pages before the first log is walked.
pub(crate) fn unused(sizes: Sizes) -> Vec<Use> {
    let mut uses = vec![Use::Free; sizes.pages() as usize];
    uses[..sizes.first_page() as usize].fill(Use::Fixed);
    uses
}

/// Gives a page its use; no page may serve twice.
pub(crate) fn take(uses: &mut [Use], page: u64, new: Use) -> Result<(), Damage> {
    let place = &mut uses[page as usize];
    if *place != Use::Free {
        let uses = [*place, new];
        return Err(Damage::ServesTwice { page, uses });
    }
    *place = new;
    Ok(())
}
