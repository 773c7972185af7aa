//! `recover`: the journal closed, and what a killed put left removed.

use super::{open_to_change, remove_part};
use crate::arguments::Arguments;
use crate::failure::Outcome;
use crate::text::{counted, say};
use calls::list::groups;

/// Recovers the volume and says what was done.
pub fn run(arguments: &Arguments) -> Outcome {
    let mut store = open_to_change(arguments)?;
    let list = store.change("recover", calls::recover)?;
    let part = remove_part(&mut store);
    if let Some(old_values) = groups(&list).first() {
        let words = counted(old_values.len() as u64, "word");
        say(&format!("journal closed: {words} put back"))?;
    }
    let part = part?;
    if let Some(path) = &part {
        say(&format!("{path} removed: a killed put left it"))?;
    }
    if list.is_empty() && part.is_none() {
        say("nothing to do")?;
    }
    store.say_if_uncut();
    Ok(())
}
