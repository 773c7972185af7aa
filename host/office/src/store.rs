//! A volume in a file of the host: opened and locked, and changed group by group.

use crate::disk::{land_group, write_stores, Disk};
use crate::failure::{advice, Failure, Outcome};
use crate::files::{is_file_of, stands_for_folder};
use crate::path::{Lost, VolumePath};
use crate::room::{is_stuck, way_out};
use crate::text::{complain, shown_name, shown_path, typed_path};
use calls::layout::{LIST_WORDS, NAME_BYTES, VOLUME_LIMIT};
use calls::list::{groups, Store as WordStore};
use refusal::{Answer, Refusal};
use std::fs::{File, OpenOptions, TryLockError};
use std::io::{self, Read};
use std::path::{Path, PathBuf};

/// What a command does with the volume.
#[derive(Clone, Copy, Debug, PartialEq, Eq)]
pub enum Mode {
    /// It only reads. The file is locked while its bytes are read; the command then works from these.
    Read,
    /// It changes the volume. The file is locked as long as the command runs, and nobody else may read it.
    Change {
        /// The group, counted from 1 over all calls of the command, in which a power cut is rehearsed.
        cut: Option<u64>,
    },
}

/// A volume in a file; locked as long as this value lives, if it was opened to be changed.
#[derive(Debug)]
pub struct Store {
    path: PathBuf,
    file: File,
    /// The volume's bytes as the file has them. Of a file too long for a volume only so many that every call
    /// refuses them.
    volume: Vec<u8>,
    /// How many bytes the file has.
    length: u64,
    cut: Option<u64>,
    /// How many groups have landed.
    landed: u64,
}

impl Store {
    /// Opens a volume's file, locks it and reads it.
    ///
    /// A file that is missing, no regular file or locked by another command is [`Failure::Host`]. What the bytes
    /// are is for the calls to judge; a file over [`VOLUME_LIMIT`] is not read whole, and every call then refuses
    /// it with 2 (no volume).
    pub fn open(path: &Path, mode: Mode) -> Result<Store, Failure> {
        let shown = shown_path(path);
        let failed = |error: io::Error| Failure::Host(format!("{shown}: {error}"));
        let file = open_locked(path, mode)?;
        if mode != Mode::Read {
            // What others stored before, a killed command too, must have landed before the first call.
            file.fence().map_err(failed)?;
        }
        let length = file.metadata().map_err(failed)?.len();
        let mut volume = Vec::new();
        let mut start = (&file).take(VOLUME_LIMIT + 1);
        start.read_to_end(&mut volume).map_err(failed)?;
        let cut = match mode {
            Mode::Read => {
                file.unlock().map_err(failed)?;
                None
            }
            Mode::Change { cut } => cut,
        };
        Ok(Store {
            path: path.to_path_buf(),
            file,
            volume,
            length,
            cut,
            landed: 0,
        })
    }

    /// The volume's bytes.
    pub fn volume(&self) -> &[u8] {
        &self.volume
    }

    /// How many bytes the file has.
    pub fn length(&self) -> u64 {
        self.length
    }

    /// The volume's path as a screen can show it.
    pub fn shown(&self) -> String {
        shown_path(&self.path)
    }

    /// The volume's path as a command line has it that is to be typed.
    pub fn typed(&self) -> String {
        typed_path(&self.path)
    }

    /// The failure of a command whose call was refused; `what` is what the call was about.
    ///
    /// Refusals of the volume itself are said of the volume. Where nothing makes room any more, the
    /// advice is not to remove files, but the way out.
    pub fn refused(&self, what: &str, refusal: Refusal) -> Failure {
        let volume = self.typed();
        let advice = match refusal {
            Refusal::Taken
            | Refusal::NoInode
            | Refusal::DirectoryFull
            | Refusal::NoSpace
            | Refusal::LastPage
                if is_stuck(&self.volume) =>
            {
                way_out(&self.volume, &volume)
            }
            _ => advice(refusal, &volume),
        };
        let what = match refusal {
            Refusal::NoVolume | Refusal::Damaged | Refusal::JournalOpen => self.shown(),
            _ => what.to_owned(),
        };
        Failure::Refused {
            what,
            refusal,
            advice,
        }
    }

    /// The failure of a command that looked for a path: which name of it is not there, or leads to a file where a
    /// folder is wanted.
    pub fn lost(&self, path: &VolumePath, lost: Lost) -> Failure {
        let (what, refusal) = (path.shown(), lost.refusal);
        let start = path.start(lost.found);
        let advice = match refusal {
            Refusal::NotThere if path.names().len() > 1 => {
                let name = shown_name(&path.names()[lost.found]);
                format!(
                    "no name {name} in {}; {}",
                    start.shown(),
                    self.lists(&start)
                )
            }
            Refusal::WrongType => format!("{} is a file, not a folder", start.shown()),
            _ => return self.refused(&what, refusal),
        };
        Failure::refused(&what, refusal, advice)
    }

    /// The advice to list the names of a folder.
    pub fn lists(&self, folder: &VolumePath) -> String {
        let volume = self.typed();
        match folder.is_root() {
            true => format!("'office ls {volume}' lists the names"),
            false => format!("'office ls {volume} {}' lists the names", folder.typed()),
        }
    }

    /// The failure of a command whose call was to give a file or a folder the name `new` and was refused (see
    /// [`Store::refused`]).
    pub fn refused_new(&self, what: &str, new: &[u8], refusal: Refusal) -> Failure {
        if refusal != Refusal::BadName || !stands_for_folder(new) {
            return self.refused(what, refusal);
        }
        let advice = "\".\" and \"..\" stand for a folder and the one above it, \
                      and no file can get such a name";
        Failure::refused(what, refusal, advice.into())
    }

    /// The failure of a command whose call about the volume as a whole was refused.
    pub fn refused_whole(&self, refusal: Refusal) -> Failure {
        self.refused(&self.shown(), refusal)
    }

    /// An empty plan for changes of this volume.
    pub fn plan(&self) -> Plan {
        Plan {
            volume: self.volume.clone(),
            lists: Vec::new(),
        }
    }

    /// Makes a changing call in a plan of this volume; `what` is what the call is about (see
    /// [`Store::refused`]).
    pub fn ask(
        &self,
        plan: &mut Plan,
        what: &str,
        call: impl FnOnce(&[u8], &mut [u64]) -> Answer,
    ) -> Outcome {
        let asked = plan.call(call);
        asked.map_err(|refusal| self.refused(what, refusal))?;
        Ok(())
    }

    /// Makes one changing call and stores its list in the file; answers the list, as far as it was filled.
    ///
    /// A refusal writes nothing; `what` is what the call is about (see [`Store::refused`]).
    pub fn change(
        &mut self,
        what: &str,
        call: impl FnOnce(&[u8], &mut [u64]) -> Answer,
    ) -> Result<Vec<u64>, Failure> {
        let mut plan = self.plan();
        self.ask(&mut plan, what, call)?;
        let list = plan.lists.concat();
        self.carry_out(plan, |_| {})?;
        Ok(list)
    }

    /// Stores the lists of a plan in the file, one after another, each group by group.
    ///
    /// `after` is told the number of each list (from 0) once it has landed whole. The plan is one of this store,
    /// made after its last change.
    pub fn carry_out(&mut self, plan: Plan, mut after: impl FnMut(usize)) -> Result<(), Failure> {
        for (number, list) in plan.lists.iter().enumerate() {
            for group in groups(list) {
                self.land(&group)?;
            }
            after(number);
        }
        self.volume = plan.volume;
        Ok(())
    }

    /// Lands a group; or, where the cut falls in it, only every other of its stores.
    fn land(&mut self, group: &[WordStore]) -> Result<(), Failure> {
        let number = self.landed + 1;
        if self.cut == Some(number) {
            let kept: Vec<WordStore> = group.iter().copied().step_by(2).collect();
            write_stores(&self.file, &kept).map_err(|error| self.broken(error))?;
            return Err(Failure::Cut {
                group: number,
                volume: self.typed(),
            });
        }
        land_group(&self.file, group).map_err(|error| self.broken(error))?;
        self.landed = number;
        Ok(())
    }

    /// The failure of a command that could not write.
    fn broken(&self, error: io::Error) -> Failure {
        let (volume, typed) = (self.shown(), self.typed());
        Failure::Host(format!(
            "{volume}: {error}; the volume may hold part of the change; run 'office recover {typed}'"
        ))
    }

    /// Says that a rehearsed cut was not reached, if one was asked for. The command is done.
    pub fn say_if_uncut(&self) {
        if self.cut.is_some() {
            complain(&format!(
                "no cut: the command had only {} groups",
                self.landed
            ));
        }
    }
}

/// Changes asked for on a copy of a volume, to be stored together once all are granted.
///
/// Each call gets the volume as the one before leaves it, so the lists are to be stored in this order.
#[derive(Clone, Debug)]
pub struct Plan {
    volume: Vec<u8>,
    lists: Vec<Vec<u64>>,
}

impl Plan {
    /// Makes a changing call on the copy and keeps its list, if it has any words; answers how many.
    ///
    /// A refusal leaves the plan as it was.
    pub fn call(&mut self, call: impl FnOnce(&[u8], &mut [u64]) -> Answer) -> Answer {
        let mut list = vec![0; LIST_WORDS];
        let count = call(&self.volume, &mut list)?;
        if count > 0 {
            calls::carry_out(&mut self.volume, &list, count)?;
            list.truncate(count as usize);
            self.lists.push(list);
        }
        Ok(count)
    }

    /// The volume as the calls so far leave it.
    pub fn volume(&self) -> &[u8] {
        &self.volume
    }

    /// How many of the calls so far change something.
    pub fn changes(&self) -> usize {
        self.lists.len()
    }
}

/// The names in a folder, in list order.
pub fn names_of(volume: &[u8], folder: u64) -> Result<Vec<Vec<u8>>, Refusal> {
    let mut names = Vec::new();
    loop {
        let mut name = vec![0; NAME_BYTES];
        match calls::kth_name(volume, folder, names.len() as u64, &mut name) {
            Ok(length) => name.truncate(length as usize),
            Err(Refusal::NotThere) => return Ok(names),
            Err(refusal) => return Err(refusal),
        }
        names.push(name);
    }
}

/// Opens a regular file and locks it: for a reading command shared, for a changing one alone.
///
/// A file that is missing, no regular file or locked by another command is [`Failure::Host`].
pub fn open_locked(path: &Path, mode: Mode) -> Result<File, Failure> {
    let shown = shown_path(path);
    let failed = |error: io::Error| Failure::Host(format!("{shown}: {error}"));
    loop {
        let file = open_regular(path, mode)?;
        lock(&file, mode, &shown)?;
        // Where a format came between, the path now leads to another file; then once more.
        if is_file_of(&file.metadata().map_err(failed)?, path) {
            return Ok(file);
        }
    }
}

/// Opens a regular file; a folder, a pipe or a device is none.
fn open_regular(path: &Path, mode: Mode) -> Result<File, Failure> {
    let shown = shown_path(path);
    let failed = |error: io::Error| Failure::Host(format!("{shown}: {error}"));
    if !path.metadata().map_err(failed)?.is_file() {
        return Err(Failure::Host(format!("{shown}: no regular file")));
    }
    let mut options = OpenOptions::new();
    options.read(true).write(mode != Mode::Read);
    options.open(path).map_err(failed)
}

/// Locks a file for a command; does not wait for another that has it.
fn lock(file: &File, mode: Mode, shown: &str) -> Result<(), Failure> {
    let locked = match mode {
        Mode::Read => file.try_lock_shared(),
        Mode::Change { .. } => file.try_lock(),
    };
    locked.map_err(|error| match error {
        TryLockError::WouldBlock => Failure::Host(format!(
            "{shown}: locked: another command is at work on it; try again when it has ended"
        )),
        TryLockError::Error(error) => Failure::Host(format!("{shown}: no lock: {error}")),
    })
}
