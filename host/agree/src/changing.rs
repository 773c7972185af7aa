//! Questions about the nine calls that fill a store list.

use crate::arguments::{data, folder, inode, new_name, offset, old_name, standing};
use crate::outcome::Outcome;
use crate::sheet::{Equation, Sheet};
use crate::{term, volumes};
use reference::{Answer, Call, FileMap};
use samples::{
    clean, create_folder, create_in, link_in, rename_in, set_size, unlink_in, write, Random,
};

/// A call that fills a store list.
#[derive(Clone, Copy, Debug, PartialEq, Eq)]
pub enum Kind {
    /// Create.
    Create,
    /// Create folder.
    CreateFolder,
    /// Link.
    Link,
    /// Unlink.
    Unlink,
    /// Rename.
    Rename,
    /// Write.
    Write,
    /// Set size.
    SetSize,
    /// Clean.
    Clean,
    /// Recover.
    Recover,
}

impl Kind {
    /// All nine.
    pub const ALL: [Kind; 9] = [
        Kind::Create,
        Kind::CreateFolder,
        Kind::Link,
        Kind::Unlink,
        Kind::Rename,
        Kind::Write,
        Kind::SetSize,
        Kind::Clean,
        Kind::Recover,
    ];

    /// The kind of a call.
    pub fn of(call: &Call) -> Kind {
        match call {
            Call::Create { .. } => Kind::Create,
            Call::CreateFolder { .. } => Kind::CreateFolder,
            Call::Link { .. } => Kind::Link,
            Call::Unlink { .. } => Kind::Unlink,
            Call::Rename { .. } => Kind::Rename,
            Call::Write { .. } => Kind::Write,
            Call::SetSize { .. } => Kind::SetSize,
            Call::Clean { .. } => Kind::Clean,
            Call::Recover => Kind::Recover,
        }
    }

    /// The call's name, and the refusals that documents 01 and 02 give it.
    pub fn told(self) -> (&'static str, &'static [u64]) {
        match self {
            Kind::Create => ("create", &[1, 2, 3, 4, 5, 6, 7, 10, 11, 12, 15, 16]),
            Kind::CreateFolder => ("create folder", Kind::Create.told().1),
            Kind::Link => ("link", &[1, 2, 3, 4, 5, 6, 7, 11, 12, 15, 16]),
            Kind::Unlink => ("unlink", &[1, 2, 3, 4, 5, 6, 12, 16, 17]),
            Kind::Rename => ("rename", &[1, 2, 3, 4, 5, 6, 11, 12, 16, 18]),
            Kind::Write => ("write", &[1, 2, 3, 4, 6, 8, 9, 12, 15, 16]),
            Kind::SetSize => ("set size", &[1, 2, 3, 4, 6, 9, 12, 15, 16]),
            Kind::Clean => ("clean", &[1, 2, 3, 4, 6, 12]),
            Kind::Recover => ("recover", &[1, 2, 3]),
        }
    }

    /// Whether the call may be done with nothing to change.
    pub fn may_change_nothing(self) -> bool {
        !matches!(
            self,
            Kind::Create | Kind::CreateFolder | Kind::Link | Kind::Unlink
        )
    }

    /// The call with arguments that are often right.
    pub fn call(self, map: &FileMap, random: &mut Random) -> Call {
        match self {
            Kind::Create | Kind::CreateFolder => {
                let (folder, name) = match random.once_in(4) {
                    true => old_name(map, random),
                    false => (folder(map, random), new_name(random)),
                };
                match self {
                    Kind::Create => create_in(folder, &name),
                    _ => create_folder(folder, &name),
                }
            }
            Kind::Link => {
                let (old_folder, old) = old_name(map, random);
                link_in(old_folder, &old, folder(map, random), &new_name(random))
            }
            Kind::Unlink => {
                let (folder, name) = old_name(map, random);
                unlink_in(folder, &name)
            }
            Kind::Rename => {
                let [(old_folder, old), (new_folder, new)] =
                    [(); 2].map(|()| old_name(map, random));
                rename_in(old_folder, &old, new_folder, &new)
            }
            Kind::Write => {
                let inode = inode(map, random);
                write(inode, offset(map, inode, random), &data(random))
            }
            Kind::SetSize => {
                let inode = inode(map, random);
                set_size(inode, offset(map, inode, random))
            }
            Kind::Clean => match random.once_in(4) {
                true => clean(0),
                false => clean(inode(map, random)),
            },
            Kind::Recover => Call::Recover,
        }
    }
}

/// A call, the volume and the list that are lent to it, and what the reference makes of them.
pub struct Made {
    /// The volume.
    pub volume: Vec<u8>,
    /// The call.
    pub call: Call,
    before: Vec<u64>,
    after: Vec<u64>,
    /// The answer.
    pub answer: Answer,
}

impl Made {
    /// Makes a call of this kind on a volume, with a list of so many words.
    pub fn new(kind: Kind, volume: Vec<u8>, words: u64, random: &mut Random) -> Made {
        let call = kind.call(&standing(&volume), random);
        Made::of(call, volume, words)
    }

    /// Makes this call on a volume, with a list of so many words.
    pub fn of(call: Call, volume: Vec<u8>, words: u64) -> Made {
        let before: Vec<u64> = (9_000..9_000 + words).collect();
        let mut after = before.clone();
        let answer = call.fill(&volume, &mut after);
        Made {
            volume,
            call,
            before,
            after,
            answer,
        }
    }

    /// Asks for the words that the call fills, from the words of the volume.
    pub fn by_words(&self, name: &str) -> Sheet {
        let mut sheet = Sheet::new(name);
        let words = sheet.words(&self.volume);
        sheet.ask(self.filling(&words));
        sheet
    }

    /// The equation of the words that the call fills, from the words of the volume.
    pub fn filling(&self, words: &str) -> Equation {
        let (length, lent) = (self.volume.len(), self.before.len());
        let filled = |count: u64| term::numbers(&self.after[..count as usize]);
        Equation {
            kind: "Answer (List ℕ)",
            left: format!("fills {length} {words} {lent} {}", term::call(&self.call)),
            right: term::answered(self.answer.map(filled)),
        }
    }

    /// Asks for the list afterwards, from the volume's bytes; for the answer too if `answered`.
    fn by_bytes(&self, name: &str, answered: bool) -> Sheet {
        let mut sheet = Sheet::new(name);
        let bytes = sheet.bytes("bytes", &self.volume);
        let lent = sheet.list(&self.before);
        let at = format!("{bytes} {lent} {}", term::call(&self.call));
        sheet.ask(Equation {
            kind: "List ℕ",
            left: format!("call_list {at}"),
            right: term::numbers(&self.after),
        });
        if answered {
            let answer = Equation {
                kind: "Answer ℕ",
                left: format!("call_answer {at}"),
                right: term::number(self.answer),
            };
            sheet.ask_of("answer", answer);
        }
        sheet
    }
}

/// The length of a lent list.
fn list_words(outcome: Outcome, random: &mut Random) -> u64 {
    match outcome {
        Outcome::Refused(1) => match random.once_in(2) {
            true => 4_095,
            false => random.below(40),
        },
        _ => 4_096 + random.below(3),
    }
}

/// A call that comes to an outcome. Where the header or a length settles it, it is asked by bytes:
/// then few of them are read.
pub fn changing(kind: Kind, outcome: Outcome, name: &str, random: &mut Random) -> Option<Sheet> {
    let volume = volumes::towards(outcome, random);
    let words = list_words(outcome, random);
    let made = Made::new(kind, volume, words, random);
    (Outcome::of_filling(made.answer) == outcome).then(|| match outcome {
        Outcome::Refused(1 | 2) => made.by_bytes(name, true),
        _ => made.by_words(name),
    })
}

/// This call on this volume, where it comes to an outcome.
pub fn given(call: &Call, volume: Vec<u8>, outcome: Outcome, name: &str) -> Option<Sheet> {
    let made = Made::of(call.clone(), volume, 4_096);
    (Outcome::of_filling(made.answer) == outcome).then(|| made.by_words(name))
}

/// A done call, by bytes: the whole list afterwards, with the rest that keeps its content. That the
/// answer is the count of the words filled is asked of set size alone, whose list is quick to
/// compute: it is said of all calls at once.
pub fn filling(kind: Kind, name: &str, random: &mut Random) -> Option<Sheet> {
    let mut volume = volumes::young(random);
    if kind == Kind::Recover {
        volumes::cut_journalled(&mut volume, random);
    }
    let made = Made::new(kind, volume, 4_096 + random.below(3), random);
    let short = made.answer.is_ok_and(|words| (1..400).contains(&words));
    short.then(|| made.by_bytes(name, kind == Kind::SetSize))
}
