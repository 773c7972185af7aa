//! `check`: whether the volume is accepted, and if not, why.

use super::{is_part, names, open};
use crate::arguments::Arguments;
use crate::failure::{refused, Failure, Outcome};
use crate::room::{is_stuck, way_out};
use crate::show;
use crate::store::Store;
use crate::text::{counted, say};
use calls::layout::VOLUME_LIMIT;
use refusal::Refusal;

/// Says the verdict of the compiled call.
pub fn run(arguments: &Arguments) -> Outcome {
    let store = open(arguments)?;
    match calls::free_count(store.volume()) {
        Ok(free) => accepted(&store, free),
        Err(refusal) => {
            say(&verdict(&store, refusal))?;
            Err(Failure::Said(1))
        }
    }
}

fn accepted(store: &Store, free: u64) -> Outcome {
    let names = names(store)?;
    let count = counted(names.len() as u64, "name");
    let folders = match names.iter().filter(|name| name.is_folder).count() {
        0 => String::new(),
        count => format!(", {}", counted(count as u64, "folder")),
    };
    let free = counted(free, "free page");
    say(&format!(
        "accepted: {count}{folders}, {free}, journal closed"
    ))?;
    if is_stuck(store.volume()) {
        say(&way_out(store.volume(), &store.typed()))?;
    }
    for part in names.iter().filter(|name| is_part(name)) {
        let (path, volume) = (part.path.shown(), store.typed());
        say(&format!(
            "{path}: left by a killed put; the next put or 'office recover {volume}' removes it"
        ))?;
    }
    Ok(())
}

/// The line for a volume that is refused.
fn verdict(store: &Store, refusal: Refusal) -> String {
    let (refused, reason) = (refused(refusal), reason(store));
    match refusal {
        Refusal::JournalOpen => {
            let volume = store.typed();
            format!("{refused}: {reason}; run 'office recover {volume}'")
        }
        _ => format!("{refused}: {reason}"),
    }
}

fn reason(store: &Store) -> String {
    if store.length() > VOLUME_LIMIT {
        let (length, limit) = (store.length(), VOLUME_LIMIT);
        return format!("the file has {length} bytes, a volume at most {limit}");
    }
    show::reason(store.volume()).unwrap_or_default()
}
