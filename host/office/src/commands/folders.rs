//! `mkdir` and `rmdir`: folders made and removed.

use super::{check_not_part, open_to_change, paths, Place};
use crate::arguments::Arguments;
use crate::failure::{Failure, Outcome};
use crate::path::{find, names_beneath, names_in, Lost, Standing, VolumePath};
use crate::room::{planned, Change, Keeping};
use crate::store::{Plan, Store};
use crate::text::shown_name;
use calls::layout::ROOT;
use refusal::Refusal;
use std::collections::BTreeSet;

/// So many of the names that stand in a folder are said.
const SAID: usize = 3;

/// Makes folders; all are asked for first, so that a refusal makes none.
pub fn mkdir(arguments: &Arguments) -> Outcome {
    let missing = arguments.has("-p");
    for path in paths(arguments) {
        path.names()
            .iter()
            .try_for_each(|name| check_not_part(name))?;
    }
    each_path(
        arguments,
        Keeping::Always,
        |store, plan, path| match missing {
            true => make_missing(store, plan, path),
            false => make(store, plan, path),
        },
    )
}

/// Removes folders in which no name stands; all are asked for first, so that a refusal removes none.
pub fn rmdir(arguments: &Arguments) -> Outcome {
    each_path(arguments, Keeping::IfPossible, remove)
}

/// Makes calls for each path in one plan, and carries it out.
pub(super) fn each_path(
    arguments: &Arguments,
    keeping: Keeping,
    ask: impl Fn(&Store, &mut Plan, &VolumePath) -> Outcome,
) -> Outcome {
    let paths = paths(arguments);
    let mut store = open_to_change(arguments)?;
    let shown: Vec<String> = paths.iter().map(VolumePath::shown).collect();
    let change = Change {
        what: &shown.join(", "),
        folders: &folders_of(store.volume(), &paths),
        file: None,
        keeping,
    };
    let planned = planned(&store, &change, |plan| {
        paths.iter().try_for_each(|path| ask(&store, plan, path))
    })?;
    planned.finish(&mut store)?;
    store.say_if_uncut();
    Ok(())
}

/// The folders whose names change where these paths are made, or removed with all beneath them.
fn folders_of(volume: &[u8], paths: &[VolumePath]) -> Vec<u64> {
    let mut folders = BTreeSet::new();
    for path in paths {
        folders.insert(standing_parent(volume, path));
        folders.extend(beneath(volume, path).iter().map(|name| name.folder));
    }
    folders.into_iter().collect()
}

/// The folder in which the last name of a path stands or is to stand; if it is not there yet, the nearest above.
pub(super) fn standing_parent(volume: &[u8], path: &VolumePath) -> u64 {
    let starts = (0..path.names().len()).rev();
    let mut found = starts.filter_map(|count| find(volume, &path.start(count)).ok());
    found.next().unwrap_or(ROOT)
}

/// The names beneath the folder that a path leads to; none if it leads to none.
pub(super) fn beneath(volume: &[u8], path: &VolumePath) -> Vec<Standing> {
    let folder = find(volume, &path.as_folder());
    let names = folder.map(|folder| names_beneath(volume, folder, path).unwrap_or_default());
    names.unwrap_or_default()
}

/// Makes the folder of a path, in a folder that stands.
fn make(store: &Store, plan: &mut Plan, path: &VolumePath) -> Outcome {
    if let Err(Lost {
        refusal: refusal @ Refusal::NotThere,
        found,
    }) = find(plan.volume(), &path.parent())
    {
        let (missing, volume, typed) = (path.start(found + 1), store.typed(), path.typed());
        let advice = format!(
            "no folder {}; 'office mkdir -p {volume} {typed}' makes it too",
            missing.shown()
        );
        return Err(Failure::refused(&path.shown(), refusal, advice));
    }
    let place = Place::of(store, plan.volume(), path)?;
    let made =
        plan.call(|volume, list| calls::create_folder(volume, place.folder, place.name(), list));
    made.map_err(|refusal| store.refused_new(&path.shown(), place.name(), refusal))?;
    Ok(())
}

/// Makes those folders of a path that are missing.
pub(super) fn make_missing(store: &Store, plan: &mut Plan, path: &VolumePath) -> Outcome {
    for count in 1..=path.names().len() {
        let start = path.start(count);
        match find(plan.volume(), &start.as_folder()) {
            Ok(_) => {}
            Err(lost) if lost.refusal == Refusal::NotThere => make(store, plan, &start)?,
            Err(lost) => return Err(store.lost(path, lost)),
        }
    }
    Ok(())
}

/// Removes the folder of a path.
fn remove(store: &Store, plan: &mut Plan, path: &VolumePath) -> Outcome {
    let place = Place::of(store, plan.volume(), path)?;
    let folder = find(plan.volume(), &path.as_folder());
    let folder = folder.map_err(|lost| store.lost(path, lost))?;
    let removed = plan.call(|volume, list| calls::unlink(volume, place.folder, place.name(), list));
    removed.map_err(|refusal| match refusal {
        Refusal::NotEmpty => not_empty(store, plan.volume(), folder, path),
        _ => store.refused(&path.shown(), refusal),
    })?;
    Ok(())
}

/// The failure of a removal of a folder in which names stand: it says which.
fn not_empty(store: &Store, volume: &[u8], folder: u64, path: &VolumePath) -> Failure {
    let names = names_in(volume, folder, &VolumePath::root()).unwrap_or_default();
    let said = names.iter().take(SAID);
    let said: Vec<String> = said.map(|name| shown_name(&name.marked())).collect();
    let more = match names.len().saturating_sub(SAID) {
        0 => String::new(),
        more => format!(" and {more} more"),
    };
    let advice = format!(
        "it has {}{more}; 'office rm -r {} {}' removes it with all that is in it",
        said.join(", "),
        store.typed(),
        path.typed()
    );
    Failure::refused(&path.shown(), Refusal::NotEmpty, advice)
}
