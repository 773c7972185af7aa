//! `mv`, `ln`, `rm` and `truncate`: names and sizes of files that stand.

use super::folders::{beneath, each_path};
use super::{check_not_part, file, open_to_change, paths, Place};
use crate::arguments::{number, Arguments};
use crate::failure::{Failure, Outcome};
use crate::path::{find, is_folder, Lost, VolumePath};
use crate::room::{planned, Change, Keeping};
use crate::store::{Plan, Store};
use calls::layout::ROOT;
use refusal::{Answer, Refusal};

/// Renames a file or a folder, over a file that has the new name, or moves it into a folder.
pub fn mv(arguments: &Arguments) -> Outcome {
    let types = "no folder is replaced, and a folder replaces nothing";
    let keeping = |old: &Place, new: &Place| match old.folder == new.folder {
        true => Keeping::IfPossible,
        false => Keeping::Always,
    };
    two_names(arguments, types, keeping, calls::rename)
}

/// Gives a file one more name.
pub fn ln(arguments: &Arguments) -> Outcome {
    let types = "a folder has one name only";
    two_names(arguments, types, |_, _| Keeping::Always, calls::link)
}

/// Makes a call with an old and a new name; `types` is what to say where it is refused with 16.
fn two_names(
    arguments: &Arguments,
    types: &str,
    keeping: impl Fn(&Place, &Place) -> Keeping,
    call: impl Fn(&[u8], u64, &[u8], u64, &[u8], &mut [u64]) -> Answer,
) -> Outcome {
    let paths = paths(arguments);
    check_not_part(paths[1].last())?;
    let mut store = open_to_change(arguments)?;
    let old = Place::of(&store, store.volume(), &paths[0])?;
    let new = destination(&store, &old.path, &paths[1])?;
    check_not_part(new.name())?;
    let what = format!("{} to {}", old.path.shown(), new.path.shown());
    let change = Change {
        what: &what,
        folders: &[old.folder, new.folder],
        file: None,
        keeping: keeping(&old, &new),
    };
    let planned = planned(&store, &change, |plan| {
        let asked = plan.call(|volume, list| {
            call(volume, old.folder, old.name(), new.folder, new.name(), list)
        });
        let failure = |refusal| match refusal {
            Refusal::WrongType => Failure::refused(&what, refusal, types.into()),
            Refusal::NotThere => Failure::refused(&what, refusal, store.lists(&old.path.parent())),
            _ => store.refused_new(&what, new.name(), refusal),
        };
        asked.map_err(failure)?;
        Ok(())
    })?;
    planned.finish(&mut store)?;
    store.say_if_uncut();
    Ok(())
}

/// Where a name goes: into the folder that the new path leads to, under its own name, or to the new path itself.
///
/// A new path that ends in "/" must lead to a folder, unless a folder is to get that name.
fn destination(store: &Store, old: &VolumePath, new: &VolumePath) -> Result<Place, Failure> {
    let volume = store.volume();
    match find(volume, new) {
        Ok(folder) if is_folder(volume, folder) => Ok(Place {
            folder,
            path: new.join(old.last()),
        }),
        Err(lost) if new.wants_folder() && !gets_name(volume, old, new, lost) => {
            Err(store.lost(new, lost))
        }
        _ => Place::of(store, volume, new),
    }
}

/// Whether the old path leads to a folder, and only the last name of the new one is missing.
fn gets_name(volume: &[u8], old: &VolumePath, new: &VolumePath, lost: Lost) -> bool {
    let missing = lost.refusal == Refusal::NotThere && lost.found + 1 == new.names().len();
    missing && find(volume, &old.as_folder()).is_ok()
}

/// Removes names; all are asked for first, so that a refusal removes none.
pub fn rm(arguments: &Arguments) -> Outcome {
    let whole = arguments.has("-r");
    each_path(arguments, Keeping::IfPossible, |store, plan, path| {
        remove(store, plan, path, whole)
    })
}

/// Removes a name, and if it leads to a folder and `whole` is asked for, all beneath it first, from the leaves up.
fn remove(store: &Store, plan: &mut Plan, path: &VolumePath, whole: bool) -> Outcome {
    let place = Place::of(store, plan.volume(), path)?;
    let inode = find(plan.volume(), path).map_err(|lost| store.lost(path, lost))?;
    if is_folder(plan.volume(), inode) && !whole {
        let (volume, typed) = (store.typed(), path.typed());
        let advice = format!(
            "a folder; 'office rmdir {volume} {typed}' removes it if no name stands in it, \
             'office rm -r {volume} {typed}' with all that is in it"
        );
        return Err(Failure::refused(&path.shown(), Refusal::WrongType, advice));
    }
    for name in beneath(plan.volume(), path).iter().rev() {
        unlink(store, plan, name.folder, &name.path)?;
    }
    unlink(store, plan, place.folder, path)
}

fn unlink(store: &Store, plan: &mut Plan, folder: u64, path: &VolumePath) -> Outcome {
    store.ask(plan, &path.shown(), |volume, list| {
        calls::unlink(volume, folder, path.last(), list)
    })
}

/// Cuts or lengthens a file to a size.
pub fn truncate(arguments: &Arguments) -> Outcome {
    let path = &paths(arguments)[0];
    let size = number("SIZE", arguments.plain()[1].as_os_str())?;
    let mut store = open_to_change(arguments)?;
    let (inode, what) = (file(&store, path)?, path.shown());
    let change = Change {
        what: &what,
        folders: &[ROOT],
        file: Some(inode),
        keeping: Keeping::IfTaking,
    };
    let planned = planned(&store, &change, |plan| {
        store.ask(plan, &what, |volume, list| {
            calls::set_size(volume, inode, size, list)
        })
    })?;
    planned.finish(&mut store)?;
    store.say_if_uncut();
    Ok(())
}
