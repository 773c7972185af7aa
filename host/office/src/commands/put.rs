//! `put`: files of the host into the volume, each whole or not at all, and folders as trees.

use super::folders::{make_missing, standing_parent};
use super::{check_not_part, free, open_to_change, remove_part, Place, PART};
use crate::arguments::Arguments;
use crate::failure::{Failure, Outcome};
use crate::files::{Source, Sources};
use crate::path::{find, is_folder, VolumePath};
use crate::progress::Progress;
use crate::room::{planned, say_cleaned, Change, Keeping};
use crate::store::{Plan, Store};
use crate::text::{complain, counted, say};
use calls::layout::{LIST_WORDS, ROOT, WRITE_LIMIT};
use refusal::Refusal;
use std::ffi::{OsStr, OsString};
use std::os::unix::ffi::OsStrExt;
use std::path::Path;

/// Puts the files and folders that the arguments name.
pub fn run(arguments: &Arguments) -> Outcome {
    check_use(arguments)?;
    let to = VolumePath::of(arguments.value("--to").unwrap_or_default().as_bytes());
    let mut sources = gather(arguments);
    let mut store = open_to_change(arguments)?;
    check_names(&store, &to, &mut sources, arguments.has("--as"))?;
    check_in_the_way(&store, &to, &mut sources);
    check_sources(&sources)?;
    remove_part(&mut store)?;
    let putting = Putting::new(&mut store, &sources.all, arguments.has("--progress"));
    let said = putting.put_all(&to, &sources.all)?;
    store.say_if_uncut();
    let free = counted(free(&store)?, "page");
    say(&format!("{said}; {free} free"))
}

/// Refuses a command line whose paths, `--as` and `--to` do not go together.
fn check_use(arguments: &Arguments) -> Outcome {
    let wrong = |what: &str| Err(Failure::Use(format!("put: {what}")));
    for path in ["--as", "--to"].map(|option| arguments.value(option)) {
        let path = VolumePath::of(path.unwrap_or_default().as_bytes());
        path.names()
            .iter()
            .try_for_each(|name| check_not_part(name))?;
    }
    match (arguments.value("--as"), arguments.plain()) {
        (None, paths) if paths.iter().any(|path| path == "-") => {
            wrong("standard input needs a name, --as NAME")
        }
        (Some(new), [path]) if is_folder_path(new) || Path::new(path).is_dir() => {
            wrong("--as names one file, no folder")
        }
        (Some(_), [_]) | (None, _) => Ok(()),
        (Some(_), _) => wrong("--as names one file"),
    }
}

/// Whether a path inside the volume can only be a folder's: the root's, or one that ends in "/".
fn is_folder_path(path: &OsStr) -> bool {
    let path = VolumePath::of(path.as_bytes());
    path.is_root() || path.wants_folder()
}

fn gather(arguments: &Arguments) -> Sources {
    match (arguments.value("--as"), arguments.plain()) {
        (Some(new), [path]) => Sources::of_one(path, VolumePath::of(new.as_bytes())),
        (_, paths) => Sources::of_paths(paths.iter().map(OsString::as_os_str)),
    }
}

/// Notes the sources whose names nothing in the volume can get. A name given on the command line is refused at once,
/// and so is a volume that no call would change.
fn check_names(store: &Store, to: &VolumePath, sources: &mut Sources, given: bool) -> Outcome {
    free(store)?;
    check_new(store, to)?;
    let mut problems = Vec::new();
    for source in &sources.all {
        let name = source.path.last();
        let bad = is_bad(store, name);
        if given {
            let path = to.join_all(&source.path);
            check_new(store, &path)?;
            if bad {
                return Err(store.refused_new(&path.shown(), name, Refusal::BadName));
            }
        }
        if bad {
            let length = name.len();
            let what = format!("the name has {length} bytes, 32 at most; --as gives another");
            problems.push((source.shown(), what));
        } else if name == PART {
            problems.push((source.shown(), "put keeps this name for itself".into()));
        }
    }
    for (source, what) in problems {
        sources.problem(source, &what);
    }
    Ok(())
}

/// Refuses a path that nothing in the volume can get: one of its names that does not stand is bad, or one leads to a
/// file and others follow it.
fn check_new(store: &Store, path: &VolumePath) -> Outcome {
    let Err(lost) = find(store.volume(), path) else {
        return Ok(());
    };
    let mut missing = path.names()[lost.found..].iter();
    if let Some(name) = missing.find(|name| is_bad(store, name)) {
        return Err(store.refused_new(&path.shown(), name, Refusal::BadName));
    }
    match lost.refusal {
        Refusal::NotThere => Ok(()),
        _ => Err(store.lost(path, lost)),
    }
}

/// Whether nothing can get this name. Find takes any name that can stand; create judges whether a file can get it,
/// before all else.
fn is_bad(store: &Store, name: &[u8]) -> bool {
    let mut list = vec![0; LIST_WORDS];
    calls::create(store.volume(), ROOT, name, &mut list) == Err(Refusal::BadName)
}

/// Notes the files that a folder of the volume is in the way of, and the folders that a file is.
fn check_in_the_way(store: &Store, to: &VolumePath, sources: &mut Sources) {
    let mut problems = Vec::new();
    for source in &sources.all {
        let path = to.join_all(&source.path);
        let standing = find(store.volume(), &path);
        let folder = standing.map(|inode| is_folder(store.volume(), inode));
        let what = match (folder, source.is_folder()) {
            (Ok(true), false) => "a folder of the volume",
            (Ok(false), true) => "a file of the volume",
            _ => continue,
        };
        problems.push((source.shown(), format!("{} is {what}", path.shown())));
    }
    for (source, what) in problems {
        sources.problem(source, &what);
    }
}

/// Says which sources cannot be put. One is enough that nothing is.
fn check_sources(sources: &Sources) -> Outcome {
    if sources.problems.is_empty() {
        return Ok(());
    }
    for problem in &sources.problems {
        complain(problem);
    }
    Err(Failure::Host("put: nothing was put".into()))
}

/// A put at work.
struct Putting<'s> {
    store: &'s mut Store,
    progress: Progress,
    /// How many folders were made.
    folders: u64,
    /// The logs that were cleaned to make room, in words.
    cleaned: Vec<String>,
}

impl<'s> Putting<'s> {
    /// The put of these sources; its progress is shown also where standard error is no terminal, if that is asked for.
    fn new(store: &'s mut Store, sources: &[Source], asked: bool) -> Putting<'s> {
        let files = sources.iter().filter(|source| !source.is_folder());
        let bytes = sources.iter().map(|source| source.size).sum();
        Putting {
            store,
            progress: Progress::new(files.count() as u64, bytes, asked),
            folders: 0,
            cleaned: Vec::new(),
        }
    }

    /// Puts sources one after another into a folder. At the first that fails it says how far it got.
    fn put_all(mut self, to: &VolumePath, sources: &[Source]) -> Result<String, Failure> {
        let mut ended = self.make_folder(to);
        let mut count = 0;
        while ended.is_ok() && count < sources.len() {
            ended = self.put(to, &sources[count]);
            count += usize::from(ended.is_ok());
        }
        let said = self.said();
        drop(self.progress);
        say_cleaned(&self.cleaned);
        if ended.is_err() && sources.len() > 1 && !matches!(ended, Err(Failure::Cut { .. })) {
            let (done, left) = sources.split_at(count);
            say_how_far(to, done, left);
        }
        ended.map(|()| said)
    }

    /// What was put: files, folders and bytes.
    fn said(&self) -> String {
        let [files, bytes] = [self.progress.files(), self.progress.bytes()];
        let folders = match self.folders {
            0 => String::new(),
            count => format!(", {} made", counted(count, "folder")),
        };
        format!(
            "{} put{folders}, {}",
            counted(files, "file"),
            counted(bytes, "byte")
        )
    }

    /// Puts one source into a folder.
    fn put(&mut self, to: &VolumePath, source: &Source) -> Outcome {
        let path = to.join_all(&source.path);
        if source.is_folder() {
            return self.make_folder(&path);
        }
        self.make_folder(&path.parent())?;
        self.put_file(source, &path)?;
        self.progress.add_file();
        Ok(())
    }

    /// Makes the folders of a path that are missing.
    fn make_folder(&mut self, path: &VolumePath) -> Outcome {
        for count in 1..=path.names().len() {
            let start = path.start(count);
            if find(self.store.volume(), &start.as_folder()).is_ok() {
                continue;
            }
            let store = &*self.store;
            let change = Change {
                what: &start.shown(),
                folders: &[standing_parent(store.volume(), &start)],
                file: None,
                keeping: Keeping::Always,
            };
            let planned = planned(store, &change, |plan| make_missing(store, plan, &start))?;
            let logs = planned.carry_out(self.store, |_| {})?;
            self.note_cleaned(logs);
            self.folders += 1;
        }
        Ok(())
    }

    /// Puts one file. All its calls are asked for on a copy first, so that a refusal stores nothing.
    fn put_file(&mut self, source: &Source, path: &VolumePath) -> Outcome {
        let bytes = source.read()?;
        let pieces: Vec<&[u8]> = bytes.chunks(WRITE_LIMIT).collect();
        let store = &*self.store;
        let place = Place::of(store, store.volume(), path)?;
        let change = Change {
            what: &path.shown(),
            folders: &[place.folder],
            file: None,
            keeping: match find(store.volume(), path) {
                Ok(_) => Keeping::IfTaking,
                Err(_) => Keeping::Always,
            },
        };
        let planned = planned(store, &change, |plan| {
            let asked = ask(plan, &place, &pieces);
            asked.map_err(|refusal| store.refused(change.what, refusal))
        })?;
        // The first list is the create's, then come the pieces, last the rename's.
        let progress = &mut self.progress;
        let logs = planned.carry_out(self.store, |list| {
            let piece = list.checked_sub(1).and_then(|piece| pieces.get(piece));
            progress.add_bytes(piece.map_or(0, |piece| piece.len() as u64));
        })?;
        self.note_cleaned(logs);
        Ok(())
    }

    /// Notes logs that were cleaned, each once.
    fn note_cleaned(&mut self, logs: Vec<String>) {
        for log in logs {
            if !self.cleaned.contains(&log) {
                self.cleaned.push(log);
            }
        }
    }
}

fn say_how_far(to: &VolumePath, done: &[Source], left: &[Source]) {
    for (sources, what) in [(done, "in the volume"), (left, "not put")] {
        if !sources.is_empty() {
            let paths = sources
                .iter()
                .map(|source| to.join_all(&source.path).shown());
            complain(&format!(
                "{what}: {}",
                paths.collect::<Vec<String>>().join(", ")
            ));
        }
    }
}

/// The calls that put a file: it is created in its folder under a name of put's own, written, and renamed to its name.
fn ask(plan: &mut Plan, place: &Place, pieces: &[&[u8]]) -> Result<(), Refusal> {
    let folder = place.folder;
    plan.call(|volume, list| calls::create(volume, folder, PART, list))?;
    let inode = calls::find(plan.volume(), folder, PART)?;
    let mut offset = 0;
    for piece in pieces {
        plan.call(|volume, list| calls::write(volume, inode, offset, piece, list))?;
        offset += piece.len() as u64;
    }
    plan.call(|volume, list| calls::rename(volume, folder, PART, folder, place.name(), list))?;
    Ok(())
}
