//! `clean`: logs written anew, with only the entries that they need.

use super::{free, inode, names, open_to_change, paths};
use crate::arguments::Arguments;
use crate::failure::{refused, Failure, Outcome};
use crate::path::VolumePath;
use crate::room::{is_stuck, way_out};
use crate::store::Store;
use crate::text::{complain, say, thousands};
use calls::layout::ROOT;
use refusal::Refusal;
use std::collections::BTreeMap;

/// Cleans the logs that the arguments name, or all.
pub fn run(arguments: &Arguments) -> Outcome {
    let mut store = open_to_change(arguments)?;
    let inodes = inodes(&store, arguments)?;
    let before = thousands(free(&store)?);
    let skipped = clean_all(&mut store, inodes)?;
    let after = thousands(free(&store)?);
    store.say_if_uncut();
    say(&format!("free pages: {before} before, {after} after"))?;
    if skipped == 0 {
        return Ok(());
    }
    if is_stuck(store.volume()) {
        let out = way_out(store.volume(), &store.typed());
        complain(&format!("{}: {out}", store.shown()));
    }
    Err(Failure::Said(1))
}

/// The inodes to clean, ascending, so the root first, each with the path by which it is named.
fn inodes(store: &Store, arguments: &Arguments) -> Result<BTreeMap<u64, String>, Failure> {
    let mut inodes = BTreeMap::new();
    for path in paths(arguments) {
        inodes.insert(inode(store, &path)?, path.shown());
    }
    if arguments.plain().is_empty() {
        inodes.insert(ROOT, VolumePath::root().shown());
        for name in names(store)? {
            inodes.entry(name.inode).or_insert(name.path.shown());
        }
    }
    Ok(inodes)
}

/// Cleans logs one after another; answers how many had no room for their new log and were skipped.
fn clean_all(store: &mut Store, inodes: BTreeMap<u64, String>) -> Result<u64, Failure> {
    let mut skipped = 0;
    for (inode, what) in inodes {
        match store.change(&what, |volume, list| calls::clean(volume, inode, list)) {
            Ok(_) => {}
            Err(Failure::Refused {
                refusal: refusal @ Refusal::NoSpace,
                ..
            }) => {
                let why = refused(refusal);
                complain(&format!("{what}: skipped, no room for its new log: {why}"));
                skipped += 1;
            }
            Err(failure) => return Err(failure),
        }
    }
    Ok(skipped)
}
