//! What a call comes to.

use reference::{Answer, Refusal};
use std::fmt;

/// What a call comes to, as far as strata tell it apart.
#[derive(Clone, Copy, Debug, PartialEq, Eq, PartialOrd, Ord)]
pub enum Outcome {
    /// Done; of a call that fills a list, with words filled.
    Done,
    /// Done with nothing to change: 0 words.
    Unchanged,
    /// Refused with this number.
    Refused(u64),
}

impl Outcome {
    /// The outcome of a call that fills a list, or of carry out by its count.
    pub fn of_filling(answer: Answer) -> Outcome {
        match answer {
            Ok(0) => Outcome::Unchanged,
            other => Outcome::of(other),
        }
    }

    /// The outcome of any other call.
    pub fn of<T>(answer: Result<T, Refusal>) -> Outcome {
        match answer {
            Ok(_) => Outcome::Done,
            Err(refusal) => Outcome::Refused(refusal.number()),
        }
    }
}

impl fmt::Display for Outcome {
    fn fmt(&self, to: &mut fmt::Formatter<'_>) -> fmt::Result {
        match self {
            Outcome::Done => to.pad("done"),
            Outcome::Unchanged => to.pad("0 words"),
            Outcome::Refused(number) => to.pad(&number.to_string()),
        }
    }
}
