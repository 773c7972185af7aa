//! Room for the calls of a command: how many free pages a volume keeps, logs cleaned where that
//! makes room, and the way out of a volume on which nothing makes room any more.
//!
//! All of it is asked of the compiled calls, on copies of the volume: a log is as long as `clean`
//! would write it.

use crate::failure::{Failure, Outcome};
use crate::path::{all_names, is_folder, Standing};
use crate::store::{Plan, Store};
use crate::text::{complain, shown_name};
use calls::layout::{LIST_WORDS, PAGE_BYTES, PAGE_LIMIT, ROOT, WORD_BYTES};
use calls::list::groups;
use refusal::{Answer, Refusal};
use std::cmp::Reverse;
use std::collections::BTreeSet;
use std::iter;

/// A volume has at most 256 inodes; the calls refuse those that it does not have.
pub const INODES: u64 = 256;
/// The most pages that are ever kept: 32 for the adds of a folder's 224 names, 19 for the writes of
/// 128 pieces.
const MOST_KEPT: u64 = 32 + 19;

/// A change that needs room.
#[derive(Clone, Copy, Debug)]
pub struct Change<'c> {
    /// What it is about, as a refusal says it.
    pub what: &'c str,
    /// The folders whose logs it lengthens; the root where it lengthens none.
    pub folders: &'c [u64],
    /// The file whose log it lengthens, if it does that.
    pub file: Option<u64>,
    /// What it does about the pages that are kept.
    pub keeping: Keeping,
}

/// What a change does about the pages that a volume keeps free (see [`kept`]).
#[derive(Clone, Copy, Debug, PartialEq, Eq)]
pub enum Keeping {
    /// It adds a name, for which more pages may have to be kept. It leaves them, or is refused.
    Always,
    /// If it takes pages it leaves them, or is refused.
    IfTaking,
    /// If it takes pages it leaves them, or where that cannot be, as many as cleaning can bring
    /// about.
    IfPossible,
}

/// A change that is planned: the logs that are cleaned first, and the lists of all calls.
#[derive(Clone, Debug)]
pub struct Planned {
    plan: Plan,
    cleaned: Vec<u64>,
}

impl Planned {
    /// A plan that cleans these logs first.
    fn cleaning(store: &Store, logs: &[u64]) -> Planned {
        let (plan, cleaned) = (store.plan(), Vec::new());
        let mut planned = Planned { plan, cleaned };
        planned.clean(logs);
        planned
    }

    /// Cleans these logs too, those of them for which there is room.
    fn clean(&mut self, logs: &[u64]) {
        for &inode in logs {
            if !self.cleaned.contains(&inode) && clean(&mut self.plan, inode) {
                self.cleaned.push(inode);
            }
        }
    }

    /// Stores the lists; `after` is told the number of each that is not of a clean (from 0) once it
    /// has landed. Answers the logs that were cleaned, in words.
    pub fn carry_out(
        self,
        store: &mut Store,
        mut after: impl FnMut(usize),
    ) -> Result<Vec<String>, Failure> {
        let logs = self.cleaned.iter();
        let logs: Vec<String> = logs.map(|&log| in_words(store.volume(), log)).collect();
        store.carry_out(self.plan, |list| {
            if let Some(number) = list.checked_sub(logs.len()) {
                after(number);
            }
        })?;
        Ok(logs)
    }

    /// Stores the lists and says which logs were cleaned.
    pub fn finish(self, store: &mut Store) -> Outcome {
        let logs = self.carry_out(store, |_| {})?;
        say_cleaned(&logs);
        Ok(())
    }
}

/// Cleans a log in a plan; answers whether that changed anything.
fn clean(plan: &mut Plan, inode: u64) -> bool {
    let words = plan.call(|volume, list| calls::clean(volume, inode, list));
    words.is_ok_and(|words| words > 0)
}

/// A log in words: the root's, or that of a file or a folder, by its first path.
fn in_words(volume: &[u8], inode: u64) -> String {
    let names = all_names(volume).unwrap_or_default();
    match names.iter().find(|name| name.inode == inode) {
        Some(name) => format!("the log of {}", shown_name(&name.marked())),
        None => "the root's log".into(),
    }
}

/// Says which logs were cleaned to make room, if any were.
pub fn say_cleaned(logs: &[String]) {
    if let [first @ .., last] = logs {
        let first = first.join(", ");
        let and = if first.is_empty() { "" } else { " and " };
        complain(&format!("room was made by cleaning {first}{and}{last}"));
    }
}

/// Asks for a change on copies of the volume: as it is, and then with logs cleaned first, until it
/// is granted.
///
/// Whatever else a call is refused for, cleaning does not help, and the refusal is answered at
/// once. If nothing helps, the answer is why the change is not done on the volume as it is.
pub fn planned(
    store: &Store,
    change: &Change,
    ask: impl Fn(&mut Plan) -> Outcome,
) -> Result<Planned, Failure> {
    let tried = |mut planned: Planned, keeping: bool| -> Result<Planned, Failure> {
        let (before, changes) = (free(&planned.plan), planned.plan.changes());
        ask(&mut planned.plan)?;
        if keeping && planned.plan.changes() > changes {
            check_kept(store, change, before, &planned.plan)?;
        }
        Ok(planned)
    };
    let plain = || Planned::cleaning(store, &[]);
    let failure = match tried(plain(), true) {
        Err(failure) if failure.is_for_room() => failure,
        ended => return ended,
    };
    let others = others_to_clean(store, change);
    let mut granted = cleaned(store, change, &others).find_map(|start| tried(start, true).ok());
    if granted.is_none() && change.keeping == Keeping::IfPossible {
        let starts = iter::once(plain()).chain(cleaned(store, change, &others));
        let done = starts.filter_map(|start| tried(start, false).ok());
        // Of those that leave most the first, which cleans least.
        granted = done.min_by_key(|planned| Reverse(free(&planned.plan)));
    }
    granted.ok_or(failure)
}

/// Plans that clean logs, in the order in which they are tried: those of the change's folders; one
/// other; the folders' and more and more others.
fn cleaned<'f>(
    store: &Store,
    change: &'f Change,
    others: &'f [u64],
) -> impl Iterator<Item = Planned> + 'f {
    let folders = Planned::cleaning(store, change.folders);
    let other = others.first();
    let other = other.map(|&inode| Planned::cleaning(store, &[inode]));
    let mut grown = folders.clone();
    let more = others.iter().map(move |&inode| {
        // What this log gives back may be what the folders' need.
        grown.clean(&[inode]);
        grown.clean(change.folders);
        grown.clone()
    });
    iter::once(folders).chain(other).chain(more)
}

/// The logs besides those of the change's folders that may make room: the one of the file that it
/// lengthens, and those that give pages back.
fn others_to_clean(store: &Store, change: &Change) -> Vec<u64> {
    let others = giving_back(store, change.folders);
    let others = others.filter(|&inode| Some(inode) != change.file);
    change.file.into_iter().chain(others).collect()
}

/// The inodes whose logs give pages back, once those of these folders are cleaned, those that give
/// most first.
fn giving_back(store: &Store, folders: &[u64]) -> impl Iterator<Item = u64> {
    let plan = Planned::cleaning(store, folders).plan;
    let mut logs = Vec::new();
    for inode in (ROOT..INODES).filter(|inode| !folders.contains(inode)) {
        let mut cleaned = plan.clone();
        clean(&mut cleaned, inode);
        let gain = free(&cleaned).saturating_sub(free(&plan));
        if gain > 0 {
            logs.push((Reverse(gain), inode));
        }
    }
    logs.sort();
    logs.into_iter().map(|(_, inode)| inode)
}

/// The free pages that a plan leaves.
fn free(plan: &Plan) -> u64 {
    calls::free_count(plan.volume()).unwrap_or(0)
}

/// Checks that a change may leave what a plan leaves; `before` are the free pages before its calls,
/// with the logs cleaned, since what these give back is not for the change alone.
fn check_kept(store: &Store, change: &Change, before: u64, plan: &Plan) -> Outcome {
    let refused = |refusal| store.refused_whole(refusal);
    let free = calls::free_count(plan.volume()).map_err(refused)?;
    let counts = change.keeping == Keeping::Always || free < before;
    if !counts || free >= MOST_KEPT {
        return Ok(());
    }
    let kept = kept(plan.volume()).map_err(refused)?;
    if free >= kept {
        return Ok(());
    }
    Err(Failure::Kept {
        what: change.what.to_owned(),
        free,
        kept,
        volume: store.typed(),
    })
}

/// The free pages that a volume keeps: as many as the longest of the folders' logs takes once it is
/// cleaned, and as many as the longest of the files' logs, at least one. Where they are not free,
/// the answer may be too low, but is more than are free.
///
/// The two are added, since a cleaned file's log may be longer than the old one. With one page more
/// than a folder's log takes, names in it can be removed and renamed for ever: the log can always
/// be cleaned.
///
/// ```
/// let mut volume = vec![0; 16 * 512];
/// calls::format(&mut volume, 16, 8)?;
/// assert_eq!(office::room::kept(&volume), Ok(1));
///
/// let mut list = vec![0; 4_096];
/// let count = calls::create(&volume, 0, b"A1", &mut list)?;
/// calls::carry_out(&mut volume, &list, count)?;
/// assert_eq!(office::room::kept(&volume), Ok(2));
/// # Ok::<(), calls::Refusal>(())
/// ```
pub fn kept(volume: &[u8]) -> Answer {
    let [mut folder, mut file] = [0, 1];
    for inode in ROOT..INODES {
        let longest = match is_folder(volume, inode) {
            true => &mut folder,
            false => &mut file,
        };
        *longest = cleaned_pages(volume, inode)?.max(*longest);
    }
    Ok(folder + file)
}

/// The pages that a log takes once it is cleaned; where they are not free, one more than are.
fn cleaned_pages(volume: &[u8], inode: u64) -> Answer {
    let mut list = vec![0; LIST_WORDS];
    let words = match calls::clean(volume, inode, &mut list) {
        Err(Refusal::NotThere) => 0,
        Err(Refusal::NoSpace) => return Ok(calls::free_count(volume)? + 1),
        words => words?,
    };
    // The first group has the new log, and in page 0 the journal's pairs.
    let groups = groups(&list[..words as usize]);
    let stores = groups.first().into_iter().flatten();
    let pages: BTreeSet<u64> = stores
        .map(|(index, _)| index * WORD_BYTES / PAGE_BYTES)
        .filter(|&page| page != 0)
        .collect();
    Ok(pages.len() as u64)
}

/// Whether nothing makes room any more: names stand, and no name can be removed and no log cleaned
/// for want of a page.
pub fn is_stuck(volume: &[u8]) -> bool {
    if calls::free_count(volume) != Ok(0) {
        return false;
    }
    let mut list = vec![0; LIST_WORDS];
    let names = all_names(volume).unwrap_or_default();
    let mut stays = |name: &Standing| {
        let unlinked = calls::unlink(volume, name.folder, name.path.last(), &mut list);
        matches!(unlinked, Err(Refusal::NoSpace | Refusal::NotEmpty))
    };
    if names.is_empty() || !names.iter().all(&mut stays) {
        return false;
    }
    (ROOT..INODES).all(|inode| {
        let cleaned = calls::clean(volume, inode, &mut list);
        matches!(cleaned, Ok(0) | Err(Refusal::NoSpace | Refusal::NotThere))
    })
}

/// What to do about a volume on which nothing makes room; `typed` is its path as typed.
pub fn way_out(volume: &[u8], typed: &str) -> String {
    let (pages, inodes) = sizes_for_all(volume);
    format!(
        "no page is left with which a name could be removed or a log cleaned, but every file \
         can be read: 'office get {typed} --all FOLDER' copies them all; \
         'office format NEW --pages {pages} --inodes {inodes}' makes a new volume, and \
         'office put NEW FOLDER' puts them there"
    )
}

/// The pages and inodes of a volume into which the files of all names and the folders can be put, if
/// there is one.
fn sizes_for_all(volume: &[u8]) -> (u64, u64) {
    let names = all_names(volume).unwrap_or_default();
    // A put takes at most three log pages for a file, one for a folder, and for each of them less
    // than one of the log in which it has its name.
    let taken = names.iter().map(|name| match name.is_folder {
        true => 2,
        false => calls::size(volume, name.inode).map_or(0, |size| size.div_ceil(PAGE_BYTES)) + 4,
    });
    let inodes = (names.len() as u64 + 2).next_multiple_of(8).min(INODES);
    let twice = 2 * volume.len() as u64 / PAGE_BYTES;
    let pages = (inodes / 8 + taken.sum::<u64>() + 8).next_multiple_of(16);
    (pages.max(twice).min(PAGE_LIMIT), inodes)
}
