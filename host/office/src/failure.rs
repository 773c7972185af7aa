//! What ends a command before it is done: the exit status, the line on standard error and the advice.

use crate::text::{complain, counted};
use refusal::Refusal;

/// What a command answers.
pub type Outcome = Result<(), Failure>;

/// Why a command is not done.
#[derive(Debug)]
pub enum Failure {
    /// The volume refused. Exit status 1.
    Refused {
        /// What was asked for: a name, or the volume.
        what: String,
        /// The refusal.
        refusal: Refusal,
        /// What to do about it.
        advice: String,
    },
    /// The volume would do it, but be left with too few free pages. Exit status 1.
    Kept {
        /// What was asked for: a name, or two.
        what: String,
        /// The free pages that it would leave.
        free: u64,
        /// The free pages that are kept, at the least.
        kept: u64,
        /// The volume's path, as typed.
        volume: String,
    },
    /// The command line is wrong, whatever the files hold. Exit status 2.
    Use(String),
    /// A file of the host is missing, in the way, locked, not fit or cannot be made, or reading or writing failed.
    /// Exit status 3.
    Host(String),
    /// A rehearsed power cut. Exit status 4.
    Cut {
        /// The group that was cut, from 1.
        group: u64,
        /// The volume's path, as typed.
        volume: String,
    },
    /// Everything is said already; the exit status.
    Said(u8),
    /// Standard output is closed: nobody reads on. Exit status 0.
    Quiet,
}

impl Failure {
    /// The failure of a command that was refused, with this advice.
    pub fn refused(what: &str, refusal: Refusal, advice: String) -> Failure {
        Failure::Refused {
            what: what.to_owned(),
            refusal,
            advice,
        }
    }

    /// The exit status of a command that ends so.
    pub fn status(&self) -> u8 {
        match self {
            Failure::Refused { .. } | Failure::Kept { .. } => 1,
            Failure::Use(_) => 2,
            Failure::Host(_) => 3,
            Failure::Cut { .. } => 4,
            Failure::Said(status) => *status,
            Failure::Quiet => 0,
        }
    }

    /// Whether more free pages, or shorter logs, might help.
    pub fn is_for_room(&self) -> bool {
        match self {
            Failure::Refused { refusal, .. } => {
                matches!(refusal, Refusal::NoSpace | Refusal::LastPage)
            }
            Failure::Kept { .. } => true,
            _ => false,
        }
    }

    /// Says on standard error what went wrong, in one line.
    pub fn tell(&self) {
        match self {
            Failure::Refused {
                what,
                refusal,
                advice,
            } => complain(&format!("{what}: {}; {advice}", refused(*refusal))),
            Failure::Kept {
                what,
                free,
                kept,
                volume,
            } => complain(&format!(
                "{what}: would leave {}, and at least {kept} are kept so that logs can be cleaned \
                 and files removed; {}",
                counted(*free, "free page"),
                make_room(volume)
            )),
            Failure::Use(what) => complain(&format!("{what}; see office --help")),
            Failure::Host(what) => complain(what),
            Failure::Cut { group, volume } => complain(&format!(
                "power cut in group {group} (rehearsed); run 'office recover {volume}'"
            )),
            Failure::Said(_) | Failure::Quiet => {}
        }
    }
}

/// A refusal as the tool says it: "refused 12 (no space)".
pub fn refused(refusal: Refusal) -> String {
    format!("refused {} ({refusal})", refusal.number())
}

/// What to do about a refusal; `volume` is the volume's path as typed.
///
/// ```
/// use office::failure::advice;
/// use refusal::Refusal;
///
/// assert_eq!(advice(Refusal::JournalOpen, "day.vol"), "run 'office recover day.vol'");
/// ```
pub fn advice(refusal: Refusal, volume: &str) -> String {
    match refusal {
        Refusal::NoVolume | Refusal::Damaged => format!("'office check {volume}' says why"),
        Refusal::JournalOpen => format!("run 'office recover {volume}'"),
        Refusal::BadName => "a name has 1 to 32 bytes, none of them 0 or '/'".into(),
        Refusal::NotThere => format!("'office ls {volume}' lists the names"),
        Refusal::Taken => format!("take another name, or 'office rm {volume} NAME' first"),
        Refusal::PastTheEnd => "a file has at most 65,536 bytes".into(),
        Refusal::NoInode => {
            format!("every inode is in use; remove files with 'office rm {volume} NAME'")
        }
        Refusal::DirectoryFull => {
            format!("224 names stand already; remove some with 'office rm {volume} NAME'")
        }
        Refusal::NoSpace | Refusal::LastPage => make_room(volume),
        Refusal::WrongType => "a folder, where a file is wanted".into(),
        Refusal::NotEmpty => {
            format!("names stand in it; 'office rm -r {volume} PATH' removes it with them")
        }
        Refusal::IntoItself => "no folder can go into itself or a folder beneath it".into(),
        Refusal::ShortMemory | Refusal::LongWrite | Refusal::BadList | Refusal::TooManyGaps => {
            "the tool asked wrongly; nothing was stored".into()
        }
    }
}

/// What to do where there is no room, not even with cleaned logs.
fn make_room(volume: &str) -> String {
    format!(
        "cleaning logs gives back too little; remove files with 'office rm {volume} NAME', \
         or take a larger volume"
    )
}
