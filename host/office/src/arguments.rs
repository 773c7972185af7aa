//! The arguments of a command: options anywhere, `--` ends them, all bytes allowed.

use crate::failure::Failure;
use crate::help::Command;
use crate::text::shown_path;
use std::ffi::{OsStr, OsString};
use std::os::unix::ffi::OsStrExt;
use std::path::Path;

/// The arguments of a command, sorted into plain ones and options.
#[derive(Debug, Default)]
pub struct Arguments {
    plain: Vec<OsString>,
    options: Vec<(&'static str, OsString)>,
}

impl Arguments {
    /// Sorts what stands after a command's name.
    ///
    /// An option is `--name` or `-n`, or `--name VALUE` or `--name=VALUE` if it takes a value. `-` alone is plain, and so is
    /// all after `--`. An option that the command does not have, one given twice, one without its value, and too
    /// few or too many plain arguments are [`Failure::Use`].
    pub fn sort(command: &Command, rest: Vec<OsString>) -> Result<Arguments, Failure> {
        let mut sorted = Arguments::default();
        let mut rest = rest.into_iter();
        while let Some(argument) = rest.next() {
            if argument == "--" {
                sorted.plain.extend(rest.by_ref());
            } else if argument.len() > 1 && argument.as_bytes()[0] == b'-' {
                sorted.take_option(command, &argument, &mut rest)?;
            } else {
                sorted.plain.push(argument);
            }
        }
        sorted.check_count(command)?;
        Ok(sorted)
    }

    fn take_option(
        &mut self,
        command: &Command,
        argument: &OsStr,
        rest: &mut impl Iterator<Item = OsString>,
    ) -> Result<(), Failure> {
        let (name, joined) = split_option(argument);
        let wrong = |what: &str| {
            let option = shown_path(name);
            Failure::Use(format!("{}: option {option} {what}", command.name))
        };
        let known = command.options.iter().find(|option| name == option.name);
        let option = known.ok_or_else(|| wrong("is unknown"))?;
        if self.has(option.name) {
            return Err(wrong("is given twice"));
        }
        let value = match (option.value, joined) {
            (None, None) => OsString::new(),
            (None, Some(_)) => return Err(wrong("takes no value")),
            (Some(_), Some(value)) => value.to_owned(),
            (Some(value), None) => rest
                .next()
                .ok_or_else(|| wrong(&format!("needs a value, {value}")))?,
        };
        self.options.push((option.name, value));
        Ok(())
    }

    fn check_count(&self, command: &Command) -> Result<(), Failure> {
        let wrong = |what: &str| Err(Failure::Use(format!("{}: {what}", command.name)));
        match self.plain.len() {
            0 => wrong("VOLUME is missing"),
            count if count < command.least => wrong("too few arguments"),
            count if count > command.most => wrong("too many arguments"),
            _ => Ok(()),
        }
    }

    /// The volume's path, the first plain argument.
    pub fn volume(&self) -> &Path {
        Path::new(self.plain.first().map_or(OsStr::new(""), |path| path))
    }

    /// The plain arguments after the volume.
    pub fn plain(&self) -> &[OsString] {
        self.plain.get(1..).unwrap_or(&[])
    }

    /// The bytes of a plain argument after the volume, from 0; none if there are fewer.
    pub fn bytes(&self, index: usize) -> Option<&[u8]> {
        self.plain().get(index).map(|argument| argument.as_bytes())
    }

    /// Whether an option is given.
    pub fn has(&self, option: &str) -> bool {
        self.options.iter().any(|(name, _)| *name == option)
    }

    /// The value of an option; none if it is not given.
    pub fn value(&self, option: &str) -> Option<&OsStr> {
        let mut given = self.options.iter();
        given
            .find(|(name, _)| *name == option)
            .map(|(_, value)| value.as_os_str())
    }

    /// The value of an option as a number; none if it is not given.
    pub fn number(&self, option: &str) -> Result<Option<u64>, Failure> {
        self.value(option)
            .map(|value| number(option, value))
            .transpose()
    }
}

/// An option's name and the value after `=`, if there is one.
fn split_option(argument: &OsStr) -> (&OsStr, Option<&OsStr>) {
    let bytes = argument.as_bytes();
    match bytes.iter().position(|&byte| byte == b'=') {
        Some(place) => (
            OsStr::from_bytes(&bytes[..place]),
            Some(OsStr::from_bytes(&bytes[place + 1..])),
        ),
        None => (argument, None),
    }
}

/// A decimal number; `what` names the argument where it is none.
pub fn number(what: &str, value: &OsStr) -> Result<u64, Failure> {
    let digits = value.to_str().filter(|text| !text.starts_with('+'));
    digits
        .and_then(|text| text.parse().ok())
        .ok_or_else(|| Failure::Use(format!("{what}: {} is no number", shown_path(value))))
}
