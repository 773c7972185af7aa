//! The progress line of long work: `12 of 200 files, 34,816 bytes`, written over itself on standard error.

use crate::text::thousands;
use std::io::{self, IsTerminal, Write};

/// Work on one file is long from this many bytes on.
const LONG_BYTES: u64 = 16 * 1_024;

/// The progress of a command, shown or not.
///
/// The line is ended when this value goes, so that what is said next stands on a line of its own.
#[derive(Debug)]
pub struct Progress {
    shown: bool,
    started: bool,
    files: u64,
    all: u64,
    bytes: u64,
}

impl Progress {
    /// Progress of work on `all` files of `bytes` bytes together.
    ///
    /// It is shown if the work is long, that is, more than one file or more than 16 KB, and if standard error is a
    /// terminal or the line is asked for.
    pub fn new(all: u64, bytes: u64, asked: bool) -> Progress {
        let long = all > 1 || bytes > LONG_BYTES;
        Progress {
            shown: long && (asked || io::stderr().is_terminal()),
            started: false,
            files: 0,
            all,
            bytes: 0,
        }
    }

    /// So many more bytes are done.
    pub fn add_bytes(&mut self, bytes: u64) {
        if bytes > 0 {
            self.bytes += bytes;
            self.draw();
        }
    }

    /// One more file is done.
    pub fn add_file(&mut self) {
        self.files += 1;
        self.draw();
    }

    /// How many files are done.
    pub fn files(&self) -> u64 {
        self.files
    }

    /// How many bytes are done.
    pub fn bytes(&self) -> u64 {
        self.bytes
    }

    fn draw(&mut self) {
        if self.shown {
            let (files, all, bytes) = (self.files, self.all, thousands(self.bytes));
            let _ = write!(io::stderr(), "\r{files} of {all} files, {bytes} bytes");
            self.started = true;
        }
    }
}

impl Drop for Progress {
    fn drop(&mut self) {
        if self.started {
            let _ = writeln!(io::stderr());
        }
    }
}
