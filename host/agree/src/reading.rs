//! Questions about the reading calls and about what volume-list prints.

use crate::arguments::{folder, inode, offset, old_name, standing};
use crate::outcome::Outcome;
use crate::sheet::{Equation, Sheet};
use crate::{term, volumes};
use reference::{
    find, free_count, gaps, kth_name, listing, read, size, total, Answer, FileMap, Refusal,
};
use samples::{any_number, formatted, marked_list, Random};

/// A reading call.
#[derive(Clone, Copy, Debug, PartialEq, Eq)]
pub enum Kind {
    /// Find.
    Find,
    /// Size.
    Size,
    /// Read.
    Read,
    /// K-th name.
    KthName,
    /// Total.
    Total,
    /// Count of free pages.
    FreeCount,
    /// Gaps.
    Gaps,
    /// The program volume-list, which answers a text.
    Listing,
}

impl Kind {
    /// All of them.
    pub const ALL: [Kind; 8] = [
        Kind::Find,
        Kind::Size,
        Kind::Read,
        Kind::KthName,
        Kind::Total,
        Kind::FreeCount,
        Kind::Gaps,
        Kind::Listing,
    ];

    /// The call's name, and the refusals that documents 01 and 02 give it.
    pub fn told(self) -> (&'static str, &'static [u64]) {
        match self {
            Kind::Find => ("find", &[2, 3, 4, 5, 6, 16]),
            Kind::Size => ("size", &[2, 3, 4, 6, 16]),
            Kind::Read => ("read", &[2, 3, 4, 6, 16]),
            Kind::KthName => ("k-th name", &[1, 2, 3, 4, 6, 16]),
            Kind::Total => ("total", &[2, 3, 4, 6, 16]),
            Kind::FreeCount => ("free count", &[2, 3, 4]),
            Kind::Gaps => ("gaps", &[2, 3, 4, 14]),
            Kind::Listing => ("volume-list", &[2, 3, 4]),
        }
    }

    /// The call with arguments that are often right.
    fn call(self, map: &FileMap, random: &mut Random) -> Reading {
        match self {
            Kind::Find => {
                let (folder, name) = old_name(map, random);
                Reading::Find(folder, name)
            }
            Kind::Size => Reading::Size(inode(map, random)),
            Kind::Read => {
                let inode = inode(map, random);
                let length = random.below(48) as usize;
                let offset = offset(map, inode, random);
                Reading::Read(inode, offset, random.bytes(length))
            }
            Kind::KthName => {
                let folder = folder(map, random);
                let k = match random.once_in(6) {
                    true => any_number(random),
                    false => random.below(map.names(folder).len() as u64 + 1),
                };
                let length = match random.once_in(4) {
                    true => random.below(32),
                    false => random.between(32, 36),
                };
                Reading::KthName(folder, k, random.bytes(length as usize))
            }
            Kind::Total => Reading::Total(folder(map, random)),
            Kind::FreeCount => Reading::FreeCount,
            Kind::Gaps => Reading::Gaps(marked_list(random.below(12))),
            Kind::Listing => Reading::Listing,
        }
    }
}

/// A reading call with its arguments: of find the folder and the name, of size the inode, of read the
/// inode, the offset and the lent buffer, of k-th name the folder, k and the lent buffer, of total the
/// folder, of gaps the words of the lent list.
pub enum Reading {
    Find(u64, Vec<u8>),
    Size(u64),
    Read(u64, u64, Vec<u8>),
    KthName(u64, u64, Vec<u8>),
    Total(u64),
    FreeCount,
    Gaps(Vec<u64>),
    Listing,
}

impl Reading {
    /// The call's kind.
    pub fn kind(&self) -> Kind {
        match self {
            Reading::Find(..) => Kind::Find,
            Reading::Size(..) => Kind::Size,
            Reading::Read(..) => Kind::Read,
            Reading::KthName(..) => Kind::KthName,
            Reading::Total(..) => Kind::Total,
            Reading::FreeCount => Kind::FreeCount,
            Reading::Gaps(..) => Kind::Gaps,
            Reading::Listing => Kind::Listing,
        }
    }

    /// The reference's answer, and the lent buffer or list afterwards. The listing answers as the
    /// free count, which has the same refusals.
    pub fn make(&self, volume: &[u8]) -> (Answer, Vec<u64>) {
        let none = Vec::new();
        match self {
            Reading::Find(folder, name) => (find(volume, *folder, name), none),
            Reading::Size(inode) => (size(volume, *inode), none),
            Reading::Read(inode, offset, buffer) => {
                with_buffer(buffer, |lent| read(volume, *inode, *offset, lent))
            }
            Reading::KthName(folder, k, buffer) => {
                with_buffer(buffer, |lent| kth_name(volume, *folder, *k, lent))
            }
            Reading::Total(folder) => (total(volume, *folder), none),
            Reading::Gaps(list) => {
                let mut lent = list.clone();
                (gaps(volume, &mut lent), lent)
            }
            Reading::FreeCount | Reading::Listing => (free_count(volume), none),
        }
    }

    /// Asks from the words of the volume; of read and k-th name for the bytes that they fill, of gaps
    /// for the pairs.
    pub fn by_words(&self, volume: &[u8], name: &str) -> Sheet {
        let mut sheet = Sheet::new(name);
        let at = format!("{} {}", volume.len(), sheet.words(volume));
        let (answer, lent) = self.make(volume);
        let filled = answer.map(|count| term::numbers(&lent[..(count as usize).min(lent.len())]));
        let (kind, left, right) = match self {
            Reading::Find(folder, name) => {
                let left = format!("find {at} {folder} {}", term::bytes(name));
                ("Answer ℕ", left, term::number(answer))
            }
            Reading::Size(inode) => {
                let left = format!("size {at} {inode}");
                ("Answer ℕ", left, term::number(answer))
            }
            Reading::Read(inode, offset, buffer) => {
                let left = format!("read {at} {inode} {offset} {}", buffer.len());
                ("Answer (List ℕ)", left, term::answered(filled))
            }
            Reading::KthName(folder, k, buffer) => {
                let left = format!("kth_name {at} {folder} {k} {}", buffer.len());
                ("Answer (List ℕ)", left, term::answered(filled))
            }
            Reading::Total(folder) => {
                let left = format!("total {at} {folder}");
                ("Answer ℕ", left, term::number(answer))
            }
            Reading::FreeCount => ("Answer ℕ", format!("count_free {at}"), term::number(answer)),
            Reading::Gaps(list) => {
                let pairs = answer.map(|count| term::pairs(&lent[..2 * count as usize]));
                let left = format!("gaps_in {at} {}", list.len() / 2);
                ("Answer (List (ℕ × ℕ))", left, term::answered(pairs))
            }
            Reading::Listing => {
                let text = term::bytes(&listing(volume));
                ("List ℕ", format!("listing_of {at}"), text)
            }
        };
        sheet.ask(Equation { kind, left, right });
        sheet
    }

    /// Asks from the bytes of the volume; also for the lent buffer or list afterwards.
    fn by_bytes(&self, volume: &[u8], name: &str) -> Sheet {
        let mut sheet = Sheet::new(name);
        let v = sheet.bytes("bytes", volume);
        let (answer, lent) = self.make(volume);
        let after = term::numbers(&lent);
        let answer = term::number(answer);
        match self {
            Reading::Find(folder, name) => {
                let left = format!("find_answer {v} {folder} {}", term::bytes(name));
                sheet.ask(numbered(left, answer));
            }
            Reading::Size(inode) => sheet.ask(numbered(format!("size_answer {v} {inode}"), answer)),
            Reading::Read(inode, offset, buffer) => {
                let at = format!("{v} {inode} {offset} {}", term::bytes(buffer));
                sheet.ask(numbered(format!("read_answer {at}"), answer));
                sheet.ask_of("buffer", listed(format!("read_buffer {at}"), after));
            }
            Reading::KthName(folder, k, buffer) => {
                let at = format!("{v} {folder} {k} {}", term::bytes(buffer));
                sheet.ask(numbered(format!("kth_name_answer {at}"), answer));
                sheet.ask_of("buffer", listed(format!("kth_name_buffer {at}"), after));
            }
            Reading::Total(folder) => {
                sheet.ask(numbered(format!("total_answer {v} {folder}"), answer));
            }
            Reading::FreeCount => sheet.ask(numbered(format!("free_answer {v}"), answer)),
            Reading::Gaps(list) => {
                let pairs = list.len() / 2;
                sheet.ask(numbered(format!("gaps_answer {v} {pairs}"), answer));
                let left = format!("gaps_words {v} {}", term::numbers(list));
                sheet.ask_of("list", listed(left, after));
                let left = format!("gaps_list (λ g. g) {v} {}", term::pairs(list));
                let right = term::pairs(&lent);
                let kind = "List (ℕ × ℕ)";
                sheet.ask_of("pairs", Equation { kind, left, right });
            }
            Reading::Listing => {
                let text = term::bytes(&listing(volume));
                sheet.ask(listed(format!("listing {v}"), text));
            }
        }
        sheet
    }
}

/// Makes a call with a copy of a buffer; answers also the bytes that it then holds.
fn with_buffer(buffer: &[u8], call: impl FnOnce(&mut [u8]) -> Answer) -> (Answer, Vec<u64>) {
    let mut lent = buffer.to_vec();
    let answer = call(&mut lent);
    (answer, lent.into_iter().map(u64::from).collect())
}

/// An equation between answers that are numbers.
fn numbered(left: String, right: String) -> Equation {
    let kind = "Answer ℕ";
    Equation { kind, left, right }
}

/// An equation between lists of bytes or words.
fn listed(left: String, right: String) -> Equation {
    let kind = "List ℕ";
    Equation { kind, left, right }
}

/// A call that comes to an outcome. Where the header or a length settles it, it is asked by bytes:
/// then few of them are read.
pub fn reading(kind: Kind, outcome: Outcome, name: &str, random: &mut Random) -> Option<Sheet> {
    let volume = volumes::towards(outcome, random);
    let call = kind.call(&standing(&volume), random);
    let (answer, _) = call.make(&volume);
    (Outcome::of(answer) == outcome).then(|| match outcome {
        Outcome::Refused(1 | 2) => call.by_bytes(&volume, name),
        _ => call.by_words(&volume, name),
    })
}

/// This call on this volume, where it comes to an outcome.
pub fn given(call: &Reading, volume: &[u8], outcome: Outcome, name: &str) -> Option<Sheet> {
    let (answer, _) = call.make(volume);
    (Outcome::of(answer) == outcome).then(|| call.by_words(volume, name))
}

/// A call by bytes, done on a volume that is quick to read, with what it leaves in a buffer or list:
/// of read and gaps some of it is filled and some keeps its content.
pub fn buffer(kind: Kind, name: &str, random: &mut Random) -> Option<Sheet> {
    let volume = match kind {
        Kind::Read => volumes::young_written(random),
        Kind::Gaps => volumes::young_cleaned(random),
        _ => volumes::young(random),
    };
    let call = kind.call(&standing(&volume), random);
    let (answer, lent) = call.make(&volume);
    let part = |filled: u64| (1..lent.len() as u64).contains(&filled);
    let wanted = answer.is_ok_and(|count| match kind {
        Kind::Read => part(count),
        Kind::Gaps => part(2 * count),
        _ => true,
    });
    wanted.then(|| call.by_bytes(&volume, name))
}

/// A call by bytes that is refused with this: the buffer or list keeps its content.
pub fn kept_buffer(kind: Kind, refusal: Refusal, name: &str, random: &mut Random) -> Option<Sheet> {
    let volume = match kind {
        Kind::Gaps => volumes::young_cleaned(random),
        _ => volumes::young(random),
    };
    let call = kind.call(&standing(&volume), random);
    let (answer, lent) = call.make(&volume);
    let refused = answer == Err(refusal) && !lent.is_empty();
    refused.then(|| call.by_bytes(&volume, name))
}

/// Gaps on a volume without a free page: no pair, also where the list has none.
pub fn no_gaps(name: &str, random: &mut Random) -> Option<Sheet> {
    let volume = volumes::crowded(random);
    let call = Reading::Gaps(marked_list(random.below(4)));
    let none = free_count(&volume) == Ok(0);
    none.then(|| call.by_words(&volume, name))
}

/// Gaps on a volume with three stretches of free pages or more, into a list that lacks so many pairs.
pub fn several_gaps(lacking: u64, name: &str, random: &mut Random) -> Option<Sheet> {
    let volume = volumes::used(random);
    let (answer, _) = Reading::Gaps(marked_list(64)).make(&volume);
    let count = answer.ok().filter(|&count| count >= 3)?;
    let call = Reading::Gaps(marked_list(2 * (count - lacking)));
    Some(call.by_words(&volume, name))
}

/// A good volume of 129 pages, which is too long for volume-list.
pub fn long_listing(name: &str, random: &mut Random) -> Option<Sheet> {
    let volume = formatted(129, 8 * random.between(1, 4));
    Some(Reading::Listing.by_words(&volume, name))
}
