//! How changes are prepared and committed: entries laid out behind a tail, then one word that
//! commits them, or several words that change together through the journal.

use crate::accept::Volume;
use crate::layout::{head_word, tail_word, DEQUEUE_WORD, ENQUEUE_WORD, PAGE_BYTES, PAGE_WORDS};
use crate::log::{footer_word, Entry, ENTRY_BYTES, FOOTER_OFFSET};
use crate::space::Space;
use crate::stores::{fill, Store};
use crate::{Answer, Refusal};

/// Entries laid out in log pages: the stores that prepare them, and what they lead to.
pub(crate) struct Laid {
    /// The stores: the entries, and a link for each log page left behind.
    pub(crate) stores: Vec<Store>,
    /// The first log page taken, if the tail was 0.
    pub(crate) head: Option<u64>,
    /// The tail after the last entry.
    pub(crate) tail: u64,
}

/// Lays entries out from a tail on, taking the lowest free page where the log needs one.
///
/// Tail 0 starts a new log. The refusal is 12.
pub(crate) fn lay(space: &mut Space, tail: u64, entries: &[Entry<'_>]) -> Result<Laid, Refusal> {
    let mut laid = Laid {
        stores: Vec::new(),
        head: None,
        tail,
    };
    for entry in entries {
        if laid.tail == 0 || laid.tail % PAGE_BYTES == FOOTER_OFFSET {
            laid.take_page(space.take_page()?);
        }
        laid.stores.extend((laid.tail / 8..).zip(entry.words()));
        laid.tail += ENTRY_BYTES;
    }
    Ok(laid)
}

impl Laid {
    /// Goes on in a new log page: it becomes the head, or is linked from the page left behind.
    fn take_page(&mut self, page: u64) {
        if self.tail == 0 {
            self.head = Some(page);
        } else {
            let left_behind = self.tail / PAGE_BYTES;
            self.stores.push((footer_word(left_behind), page));
        }
        self.tail = page * PAGE_BYTES;
    }
}

/// Entries appended to an inode's log: the first group's stores, and the tail that commits them.
pub(crate) struct Appended {
    pub(crate) stores: Vec<Store>,
    pub(crate) tail: Store,
}

/// Appends entries to the log of a valid inode; the head is stored too if the tail was 0.
///
/// The refusals are 12 and 15. A call that keeps one page back takes none after this; a move, which
/// does not, appends to two logs.
pub(crate) fn append(
    volume: &Volume<'_>,
    space: &mut Space,
    inode: u64,
    entries: &[Entry<'_>],
) -> Result<Appended, Refusal> {
    let mut laid = lay(space, volume.word(tail_word(inode)), entries)?;
    space.check_one_left()?;
    if let Some(head) = laid.head {
        laid.stores.push((head_word(inode), head));
    }
    Ok(Appended {
        stores: laid.stores,
        tail: (tail_word(inode), laid.tail),
    })
}

/// The stores of fresh data pages: all 64 words of each, the bytes in the order of the pages.
pub(crate) fn data_stores<'a>(
    pages: &'a [u64],
    bytes: &'a [u8],
) -> impl Iterator<Item = Store> + 'a {
    let words = bytes
        .chunks_exact(8)
        .map(|chunk| u64::from_le_bytes(chunk.try_into().unwrap_or_default()));
    let indices = pages
        .iter()
        .flat_map(|page| (page * PAGE_WORDS..).take(PAGE_WORDS as usize));
    indices.zip(words)
}

/// Commits with one word: first group the preparation, second group the word.
pub(crate) fn commit(list: &mut [u64], preparation: Vec<Store>, target: Store) -> Answer {
    Ok(fill(list, vec![preparation, vec![target]]))
}

/// Commits words that must change together, through the journal, which is closed.
///
/// First group the preparation and the journal pairs at enqueue; then enqueue; then the targets;
/// then dequeue, set equal to enqueue.
pub(crate) fn commit_journalled(
    volume: &Volume<'_>,
    list: &mut [u64],
    mut preparation: Vec<Store>,
    targets: &[Store],
) -> Answer {
    let mut position = volume.journal.enqueue;
    for &(target, _) in targets {
        preparation.push((position.target_word(), target));
        preparation.push((position.old_word(), volume.word(target)));
        position = position.next();
    }
    let end = position.number();
    Ok(fill(
        list,
        vec![
            preparation,
            vec![(ENQUEUE_WORD, end)],
            targets.to_vec(),
            vec![(DEQUEUE_WORD, end)],
        ],
    ))
}
