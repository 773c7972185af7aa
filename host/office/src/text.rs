//! Texts: names and paths as a screen can show them, numbers, and the two outputs.

use crate::failure::{Failure, Outcome};
use std::ffi::OsStr;
use std::io::{self, ErrorKind, Write};
use std::os::unix::ffi::OsStrExt;

/// A name as a screen can show it: control bytes, and bytes that are no UTF-8, as `\xNN`; all else as it is.
///
/// ```
/// use office::text::shown_name;
///
/// assert_eq!(shown_name("Käse 1".as_bytes()), "Käse 1");
/// assert_eq!(shown_name(b"a\nb\xFF\x7F"), "a\\x0Ab\\xFF\\x7F");
/// assert_eq!(shown_name("\u{85}".as_bytes()), "\\xC2\\x85");
/// ```
pub fn shown_name(name: &[u8]) -> String {
    escaped(name, |letter| !letter.is_control())
}

/// Bytes as text: the letters of UTF-8 that may stand for themselves as they are, all other bytes as `\xNN`.
///
/// ```
/// use office::text::escaped;
///
/// assert_eq!(escaped(b"a\xFFb", |letter| letter != 'b'), "a\\xFF\\x62");
/// ```
pub fn escaped(bytes: &[u8], stands: impl Fn(char) -> bool) -> String {
    let mut text = String::new();
    for part in bytes.utf8_chunks() {
        for letter in part.valid().chars() {
            if stands(letter) {
                text.push(letter);
            } else {
                push_bytes(&mut text, letter.encode_utf8(&mut [0; 4]).as_bytes());
            }
        }
        push_bytes(&mut text, part.invalid());
    }
    text
}

/// Adds bytes as `\xNN` each.
fn push_bytes(text: &mut String, bytes: &[u8]) {
    for byte in bytes {
        text.push_str(&format!("\\x{byte:02X}"));
    }
}

/// A path of the host, or any argument, as a screen can show it (see [`shown_name`]).
pub fn shown_path(path: impl AsRef<OsStr>) -> String {
    shown_name(path.as_ref().as_bytes())
}

/// A path of the host as a shell takes it, for a command line that is to be typed: a backslash before each
/// character that has a meaning there, and `./` before a path that would be taken for an option.
///
/// A path with bytes that only [`shown_path`] can show cannot be typed.
///
/// ```
/// use office::text::typed_path;
///
/// assert_eq!(typed_path("days/2025-07_a.vol"), "days/2025-07_a.vol");
/// assert_eq!(typed_path("Käse 1$.vol"), "Käse\\ 1\\$.vol");
/// assert_eq!(typed_path("-v"), "./-v");
/// ```
pub fn typed_path(path: impl AsRef<OsStr>) -> String {
    let shown = shown_path(path);
    let mut text = String::from(if shown.starts_with('-') { "./" } else { "" });
    for letter in shown.chars() {
        if letter.is_ascii_punctuation() && !"-_./,:+@%".contains(letter) || letter == ' ' {
            text.push('\\');
        }
        text.push(letter);
    }
    text
}

/// A number with commas between its thousands.
///
/// ```
/// use office::text::thousands;
///
/// assert_eq!(thousands(7), "7");
/// assert_eq!(thousands(34_816), "34,816");
/// assert_eq!(thousands(1_000_000), "1,000,000");
/// ```
pub fn thousands(number: u64) -> String {
    let digits = number.to_string();
    let mut text = String::new();
    for (place, digit) in digits.chars().enumerate() {
        if place > 0 && (digits.len() - place).is_multiple_of(3) {
            text.push(',');
        }
        text.push(digit);
    }
    text
}

/// A count with its noun, in the plural unless the count is 1.
///
/// ```
/// use office::text::counted;
///
/// assert_eq!(counted(1, "file"), "1 file");
/// assert_eq!(counted(1_200, "page"), "1,200 pages");
/// ```
pub fn counted(count: u64, noun: &str) -> String {
    let ending = if count == 1 { "" } else { "s" };
    format!("{} {noun}{ending}", thousands(count))
}

/// Writes bytes to standard output, at once.
///
/// A closed pipe ends the command quietly ([`Failure::Quiet`]); any other error is the host's.
pub fn print(bytes: &[u8]) -> Outcome {
    let mut out = io::stdout().lock();
    let written = out.write_all(bytes).and_then(|()| out.flush());
    written.map_err(|error| match error.kind() {
        ErrorKind::BrokenPipe => Failure::Quiet,
        _ => Failure::Host(format!("standard output: {error}")),
    })
}

/// Writes a line to standard output (see [`print()`]).
pub fn say(line: &str) -> Outcome {
    print(format!("{line}\n").as_bytes())
}

/// Writes a line to standard error, after the tool's name. There is nowhere to say that it failed.
pub fn complain(line: &str) {
    let _ = writeln!(io::stderr(), "office: {line}");
}
