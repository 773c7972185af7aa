//! The office tool: files of the host put into a volume and read back.
//!
//! A volume is kept in a file of the host. `office COMMAND VOLUME ..` works on it: `format`, `put`, `get`, `ls`,
//! `cat`, `mv`, `ln`, `rm`, `truncate`, `clean`, `recover`, `check`, `map`, `gaps` and `log`; `office --help` says what
//! each does.
//!
//! Nothing in the tool stores in a volume by itself. Every change is a store list that a compiled call of [`calls`]
//! filled, and [`store`] writes it to the file group by group, with a sync of the file as the fence. So a process
//! that is killed is a power cut as document 01 means it: the file holds all groups before the one at work, and of
//! that one whichever words were written; `office recover` closes the journal. A lock on the file keeps two commands
//! from storing at the same time.
//!
//! Only [`show`], which stores nothing, reads through the reference model.
//!
//! The modules, top-down: [`commands`] (what each command does), [`room`] (pages kept free, and logs cleaned to make
//! room), [`path`] (paths inside a volume), [`store`] (the volume in its file), [`disk`] (words stored in a file),
//! [`show`] (what a volume looks like), [`files`] (files of the host), [`arguments`], [`help`], [`failure`],
//! [`progress`] and [`text`].
//!
//! # Example
//!
//! A plan asks for several changes on a copy; the file is written only when all of them are granted.
//!
//! ```
//! use calls::layout::ROOT;
//! use office::store::{Mode, Store};
//!
//! let folder = std::env::temp_dir().join(format!("office-doc-{}", std::process::id()));
//! std::fs::create_dir_all(&folder)?;
//! let path = folder.join("volume");
//! let mut bytes = vec![0; 16 * 512];
//! calls::format(&mut bytes, 16, 8).expect("good sizes");
//! std::fs::write(&path, &bytes)?;
//!
//! let mut store = Store::open(&path, Mode::Change { cut: None }).expect("a free file");
//! let mut plan = store.plan();
//! plan.call(|volume, list| calls::create(volume, ROOT, b"A1", list)).expect("room for it");
//! plan.call(|volume, list| calls::write(volume, 1, 0, b"text", list)).expect("room for it");
//! store.carry_out(plan, |_| {}).expect("the file is written");
//!
//! assert_eq!(calls::size(&std::fs::read(&path)?, 1), Ok(4));
//! std::fs::remove_dir_all(&folder)?;
//! # Ok::<(), std::io::Error>(())
//! ```

#![warn(missing_docs)]
#![forbid(unsafe_code)]

pub mod arguments;
pub mod commands;
pub mod disk;
pub mod failure;
pub mod files;
pub mod help;
pub mod path;
pub mod progress;
pub mod room;
pub mod show;
pub mod store;
pub mod text;

use std::ffi::OsString;
use std::process::ExitCode;

/// Runs the tool with these arguments (those after the program's name) and answers its exit status.
///
/// What a command says goes to standard output, what went wrong to standard error.
pub fn run(arguments: Vec<OsString>) -> ExitCode {
    match commands::run(arguments) {
        Ok(()) => ExitCode::SUCCESS,
        Err(failure) => {
            failure.tell();
            ExitCode::from(failure.status())
        }
    }
}
