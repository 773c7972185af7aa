//! The journal: sixteen positions, of which those from dequeue up to enqueue are open.

use crate::damage::BadJournal;
use crate::layout::{word, Sizes, DEQUEUE_WORD, ENQUEUE_WORD, OPEN_LIMIT};

/// A journal position: below 16, and the one after 15 is 0.
#[derive(Clone, Copy, Debug, PartialEq, Eq)]
pub struct Position(u64);

impl Position {
    /// The count of positions.
    pub const COUNT: u64 = 16;

    /// The position of this number, if it is below 16.
    pub fn new(number: u64) -> Option<Position> {
        (number < Position::COUNT).then_some(Position(number))
    }

    /// The position's number.
    pub fn number(self) -> u64 {
        self.0
    }

    /// The position after this one.
    pub fn next(self) -> Position {
        self.after(1)
    }

    /// The position so many steps after this one, at most 16.
    fn after(self, steps: u64) -> Position {
        Position((self.0 + steps) % Position::COUNT)
    }

    /// How many steps lead from this position to the other.
    pub fn distance(self, other: Position) -> u64 {
        (other.0 + Position::COUNT - self.0) % Position::COUNT
    }

    /// The word that holds the target word's index.
    pub fn target_word(self) -> u64 {
        16 + 2 * self.0
    }

    /// The word that holds the target word's old value.
    pub fn old_word(self) -> u64 {
        17 + 2 * self.0
    }
}

/// An open journal entry: a target word and its old value.
#[derive(Clone, Copy, Debug, PartialEq, Eq)]
pub struct OpenEntry {
    /// The index of the target word.
    pub target: u64,
    /// The value to put back.
    pub old: u64,
}

/// The journal of an accepted volume.
#[derive(Clone, Debug, PartialEq, Eq)]
pub struct Journal {
    /// The first open position.
    pub dequeue: Position,
    /// The position after the last open one.
    pub enqueue: Position,
    /// The open entries, from dequeue up to enqueue.
    pub open: Vec<OpenEntry>,
}

impl Journal {
    /// Reads the journal, or what is wrong with it.
    pub(crate) fn read(volume: &[u8], sizes: Sizes) -> Result<Journal, BadJournal> {
        let position = word(volume, DEQUEUE_WORD);
        let dequeue = Position::new(position).ok_or(BadJournal::Dequeue { position })?;
        let position = word(volume, ENQUEUE_WORD);
        let enqueue = Position::new(position).ok_or(BadJournal::Enqueue { position })?;
        let count = dequeue.distance(enqueue);
        if count > OPEN_LIMIT {
            return Err(BadJournal::ManyOpen { count });
        }
        let mut journal = Journal {
            dequeue,
            enqueue,
            open: Vec::new(),
        };
        let mut position = dequeue;
        while position != enqueue {
            journal.open_entry(volume, sizes, position)?;
            position = position.next();
        }
        Ok(journal)
    }

    /// Reads the open entry at a position, the one after those that are read.
    fn open_entry(&mut self, volume: &[u8], sizes: Sizes, at: Position) -> Result<(), BadJournal> {
        let [target, old] = [at.target_word(), at.old_word()].map(|index| word(volume, index));
        let position = at.number();
        if !sizes.is_inode_word(target) {
            return Err(BadJournal::Target { position, target });
        }
        let earlier = self.open.iter().position(|entry| entry.target == target);
        if let Some(steps) = earlier {
            let positions = [self.dequeue.after(steps as u64).number(), position];
            return Err(BadJournal::OneTarget { positions, target });
        }
        self.open.push(OpenEntry { target, old });
        Ok(())
    }

    /// Whether entries are open.
    pub fn is_open(&self) -> bool {
        !self.open.is_empty()
    }

    /// A word of the volume, read with the open entries put back.
    pub(crate) fn word(&self, volume: &[u8], index: u64) -> u64 {
        self.open
            .iter()
            .find(|entry| entry.target == index)
            .map_or_else(|| word(volume, index), |entry| entry.old)
    }
}
