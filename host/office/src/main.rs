//! The program `office`: its arguments handed to the library, the exit status handed back.

use std::process::ExitCode;

fn main() -> ExitCode {
    office::run(std::env::args_os().skip(1).collect())
}
