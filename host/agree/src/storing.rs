//! Questions about format, carry out and power cuts: what is stored on a volume. All are of bytes.

use crate::arguments::standing;
use crate::changing::{self, Made};
use crate::maps::ask_folder;
use crate::outcome::Outcome;
use crate::sheet::{Equation, Sheet};
use crate::{term, volumes};
use reference::layout::word;
use reference::{carry_out, cut, format, groups, land, Call, Refusal, FENCE};
use samples::{any_number, filled, rename_in, Random};

/// Asks for an answer without a number and for the volume afterwards, of a definition pair.
fn ask_stored(sheet: &mut Sheet, made: (Result<(), Refusal>, &[u8]), lefts: [String; 2]) {
    let [answer, volume] = lefts;
    sheet.ask(Equation {
        kind: "Answer Nothing",
        left: answer,
        right: term::answered(made.0.map(|()| "(record {})".to_string())),
    });
    sheet.ask_of("volume", leaving(volume, made.1));
}

/// An equation between the bytes of two volumes.
fn leaving(left: String, volume: &[u8]) -> Equation {
    Equation {
        kind: "List ℕ",
        left,
        right: term::bytes(volume),
    }
}

/// Format, with sizes that are allowed or nearly so.
pub fn formatting(outcome: Outcome, name: &str, random: &mut Random) -> Option<Sheet> {
    let (mut pages, mut inodes) = volumes::sizes(random);
    let mut volume = volumes::blank(pages, random);
    if outcome != Outcome::Done {
        match random.below(4) {
            0 => pages = any_number(random),
            1 => inodes = any_number(random),
            2 => volume.truncate(random.below(volume.len() as u64) as usize),
            _ => volume.extend(vec![7; random.between(1, 600) as usize]),
        }
    }
    let mut after = volume.clone();
    let answer = format(&mut after, pages, inodes);
    (Outcome::of(answer) == outcome).then(|| {
        let mut sheet = Sheet::new(name);
        let at = format!("{} {pages} {inodes}", sheet.bytes("bytes", &volume));
        let lefts = [format!("format_answer {at}"), format!("format_volume {at}")];
        ask_stored(&mut sheet, (answer, &after), lefts);
        sheet
    })
}

/// What is wrong with a list that carry out refuses with 13.
#[derive(Clone, Copy, Debug, PartialEq, Eq)]
pub enum Spoiled {
    /// Nothing is wrong.
    Good,
    /// The count is odd.
    OddCount,
    /// The count is over the list's length.
    LongCount,
    /// An index is past the volume, and no fence.
    IndexPast,
    /// A fence's value is not 0.
    FenceValue,
    /// The last pair is no fence.
    NoLastFence,
}

/// A store list and the count that is given with it. What stands behind the count is not looked at.
struct Lent {
    list: Vec<u64>,
    count: usize,
}

impl Lent {
    /// A good list for a volume of so many words: any stores, in any order.
    fn good(words: u64, random: &mut Random) -> Lent {
        let mut list = Vec::new();
        for _ in 0..random.between(1, 3) {
            for _ in 0..random.between(1, 6) {
                list.extend([random.below(words), any_number(random)]);
            }
            list.extend([FENCE, 0]);
        }
        let count = list.len();
        list.extend(random.bytes(8).into_iter().map(u64::from));
        Lent { list, count }
    }

    /// Makes one thing wrong and no other.
    fn spoil(&mut self, spoiled: Spoiled, words: u64, random: &mut Random) {
        let pairs = (0..self.count).step_by(2);
        let (fences, stores): (Vec<usize>, Vec<usize>) =
            pairs.partition(|&place| self.list[place] == FENCE);
        match spoiled {
            Spoiled::Good => {}
            Spoiled::OddCount => self.count = self.count - 1 + 2 * random.below(2) as usize,
            Spoiled::LongCount => {
                self.list.truncate(self.count);
                self.count += 2 * random.between(1, 3) as usize;
            }
            Spoiled::IndexPast => {
                let store = random.choose(&stores).copied().unwrap_or(0);
                self.list[store] = match random.once_in(2) {
                    true => words,
                    false => FENCE - random.between(1, 9),
                };
            }
            Spoiled::FenceValue => {
                let fence = random.choose(&fences).copied().unwrap_or(0);
                self.list[fence + 1] = random.between(1, 9);
            }
            Spoiled::NoLastFence => self.count -= 2,
        }
    }
}

/// Carry out, with a list that is good, empty or spoiled.
pub fn carrying(
    outcome: Outcome,
    spoiled: Spoiled,
    name: &str,
    random: &mut Random,
) -> Option<Sheet> {
    let volume = match outcome {
        Outcome::Refused(2) => volumes::unheaded(random),
        _ => volumes::any(random),
    };
    let words = volume.len() as u64 / 8;
    let mut lent = Lent::good(words, random);
    lent.spoil(spoiled, words, random);
    if outcome == Outcome::Unchanged {
        lent.count = 0;
    }
    let mut after = volume.clone();
    let answer = carry_out(&mut after, &lent.list, lent.count as u64);
    let came = Outcome::of_filling(answer.map(|()| lent.count as u64));
    (came == outcome).then(|| {
        let mut sheet = Sheet::new(name);
        let v = sheet.bytes("bytes", &volume);
        let at = format!("{v} {} {}", sheet.list(&lent.list), lent.count);
        let lefts = [format!("carry_answer {at}"), format!("carry_volume {at}")];
        ask_stored(&mut sheet, (answer, &after), lefts);
        sheet
    })
}

/// The longest list that is cut, in words: it is carried out byte by byte.
const LONGEST_CUT: usize = 120;

/// What the power leaves of the list of a call with so many groups: a cut in a group, of which some
/// words are kept; or, without a group, the whole list landed.
pub fn power(count: usize, group: Option<usize>, name: &str, random: &mut Random) -> Option<Sheet> {
    let mut volume = volumes::used(random);
    let kind = *random.choose(&changing::Kind::ALL)?;
    let list = filled(&volume, &kind.call(&standing(&volume), random)).ok()?;
    if groups(&list).len() != count || list.len() > LONGEST_CUT {
        return None;
    }
    let mut sheet = Sheet::new(name);
    ask_left(&mut sheet, &mut volume, &list, group, random);
    Some(sheet)
}

/// Asks what the power leaves of a list on a volume, and leaves that there.
fn ask_left(
    sheet: &mut Sheet,
    volume: &mut [u8],
    list: &[u64],
    group: Option<usize>,
    random: &mut Random,
) {
    let at = format!("{} {}", sheet.bytes("bytes", volume), sheet.list(list));
    let power = match group {
        None => {
            land(volume, list);
            "held".to_string()
        }
        Some(group) => {
            let stores = groups(list).into_iter().nth(group).unwrap_or_default();
            let mut kept: Vec<u64> = stores.iter().map(|store| store.0).collect();
            kept.retain(|_| random.once_in(2));
            // a word that the group need not store: then it keeps its value
            kept.push(random.below(volume.len() as u64 / 8));
            cut(volume, list, group, |index| kept.contains(&index));
            format!("(cut {group} (λ w. has w {}))", term::numbers(&kept))
        }
    };
    sheet.ask(leaving(format!("leaves 8 {power} {at}"), volume));
}

/// What a cut in a group leaves of a move onto a file's last name: the bytes, the names of both folders, and
/// what recover fills then.
pub fn cut_move(group: usize, name: &str, random: &mut Random) -> Option<Sheet> {
    let mut volume = volumes::with_folders(random);
    let list = filled(&volume, &rename_in(1, b"b", 2, b"c")).ok()?;
    let mut sheet = Sheet::new(name);
    ask_left(&mut sheet, &mut volume, &list, Some(group), random);
    let (map, pages, inodes) = (standing(&volume), word(&volume, 0), word(&volume, 1));
    let words = sheet.words(&volume);
    let left = format!("map_of (view {words}) {pages} {inodes}");
    for folder in [1, 2] {
        ask_folder(&mut sheet, &left, &map, folder);
    }
    let recover = Made::of(Call::Recover, volume, 4_096);
    sheet.ask_of("recover", recover.filling(&words));
    Some(sheet)
}
