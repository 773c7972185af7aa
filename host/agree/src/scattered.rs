//! Questions about writes that find no run of free pages (document 02, order 3): they take the lowest free pages, which lie in several
//! pieces, and append an entry for each piece.

use crate::outcome::Outcome;
use crate::sheet::{Equation, Sheet};
use crate::{term, volumes};
use reference::{free_count, judge, Call, Use, Volume};
use samples::{appended_entries, filled, run, text, write, Random};

/// The longest write, in bytes, of which every word is asked for. The words of data take long to compute: for each byte of a word the
/// definitions go through the list of all bytes.
const LONGEST: u64 = 600;

/// A write to a file, on a volume whose free pages lie in pieces: it covers more pages than any piece has.
struct Write {
    volume: Vec<u8>,
    inode: u64,
    offset: u64,
    length: u64,
}

/// What a write takes where it is done.
struct Taken {
    /// The data pages, in file order.
    data: Vec<u64>,
    /// How many entries it appends: one for each piece in which the data pages lie.
    entries: u64,
    /// How many fresh pages the log takes.
    log_pages: usize,
}

impl Write {
    /// Draws one, of about as many pages as are free; none where a piece is as long, or where the write would be too long.
    fn drawn(random: &mut Random) -> Option<Write> {
        let volume = volumes::in_pieces(random);
        let judged = judge(&volume).ok()?;
        let (&inode, _) = judged.files.last_key_value()?;
        let longest = judged.free_stretches().iter().map(|piece| piece.1).max()?;
        let count = (free_count(&volume).ok()? + 1).saturating_sub(random.below(6));
        if count <= longest {
            return None;
        }
        let file_page = match random.once_in(8) {
            true => 128 - count,
            false => random.below(6),
        };
        let [first, last] = [place_in_page(random), place_in_page(random)];
        let length = 512 * (count - 1) + last + 1 - first;
        (length <= 4_096).then_some(Write {
            volume,
            inode,
            offset: 512 * file_page + first,
            length,
        })
    }

    /// The call.
    fn call(&self) -> Call {
        write(self.inode, self.offset, &text(self.length as usize))
    }

    /// What the write takes, by the reference; none where it is refused.
    fn taken(&self) -> Option<Taken> {
        let mut landed = self.volume.clone();
        run(&mut landed, &self.call()).ok()?;
        let (before, after) = (judge(&self.volume).ok()?, judge(&landed).ok()?);
        let mapped = after.files[&self.inode].mapped().map(|pair| pair.1);
        let was_free = |&page: &u64| before.uses[page as usize] == Use::Free;
        let log_pages = |volume: &Volume| volume.logs[&self.inode].pages.len();
        Some(Taken {
            data: mapped.filter(was_free).collect(),
            entries: appended_entries(&self.volume, &landed, self.inode),
            log_pages: log_pages(&after) - log_pages(&before),
        })
    }

    /// What the write needs: what it takes where two more pages are free, so that it may lack one
    /// and leaves one. None where it lacks more, or where the two make a run that is long enough.
    fn needed(&self) -> Option<Taken> {
        let volume = volumes::with_pages_more(&self.volume, 2);
        let taken = Write { volume, ..*self }.taken()?;
        (taken.entries >= 2).then_some(taken)
    }

    /// The places in a page of which a long write's words are asked for: the first, the last, and those at which the bytes written begin
    /// and end.
    fn places(&self) -> [u64; 4] {
        let last = self.offset + self.length - 1;
        [0, 63, self.offset / 8 % 64, last / 8 % 64]
    }

    /// Asks for the words that the write fills, or for its refusal; of a long write's data for a few words of each page.
    fn asked(&self, name: &str, random: &mut Random) -> Sheet {
        let mut sheet = Sheet::new(name);
        let words = sheet.words(&self.volume);
        let (length, lent) = (self.volume.len(), 4_096 + random.below(3));
        let mut left = format!("fills {length} {words} {lent} {}", term::call(&self.call()));
        let mut list = filled(&self.volume, &self.call());
        if let Some(Taken { data, .. }) = self.taken().filter(|_| self.length > LONGEST) {
            let places = self.places();
            let [pages, few] = [&data[..], &places].map(term::numbers);
            left = format!("map_answer (some_values {pages} {few}) ({left})");
            list = list.map(|list| some_values(&data, &places, &list));
        }
        sheet.ask(Equation {
            kind: "Answer (List ℕ)",
            left,
            right: term::answered(list.map(|list| term::numbers(&list))),
        });
        sheet
    }
}

/// The first place in a page, the last, or any.
fn place_in_page(random: &mut Random) -> u64 {
    [0, 511, random.below(512)][random.below(3) as usize]
}

/// A store list with 0 for the values in these pages, but for those in these places of a page. The equations have the same as a
/// definition.
fn some_values(pages: &[u64], places: &[u64], list: &[u64]) -> Vec<u64> {
    let asked = |index: u64| !pages.contains(&(index / 64)) || places.contains(&(index % 64));
    let value = |pair: &[u64]| if asked(pair[0]) { pair[1] } else { 0 };
    let pairs = list.chunks_exact(2);
    pairs.flat_map(|pair| [pair[0], value(pair)]).collect()
}

/// A write that is done, or refused because a single page lacks, for the data or for the log (12),
/// or because none would be left (15). It has two entries or more, and needs at least so many fresh
/// log pages.
pub fn scattered(
    outcome: Outcome,
    log_pages: usize,
    name: &str,
    random: &mut Random,
) -> Option<Sheet> {
    let write = Write::drawn(random)?;
    let came = Outcome::of(filled(&write.volume, &write.call()));
    let wanted = came == outcome && write.needed()?.log_pages >= log_pages;
    wanted.then(|| write.asked(name, random))
}

#[cfg(test)]
mod tests {
    use super::Write;
    use crate::outcome::Outcome;
    use reference::{free_count, judge};
    use samples::{filled, Random};
    use std::cmp::Ordering;
    use std::collections::BTreeSet;

    /// Many writes.
    fn writes() -> impl Iterator<Item = Write> {
        let mut random = Random::new(1);
        (0..20_000).filter_map(move |_| Write::drawn(&mut random))
    }

    /// How many more entries fit in the tail's page of the written file's log; none stands for an empty log.
    fn slots(write: &Write) -> Option<u64> {
        let judged = judge(&write.volume).expect("the volume is accepted");
        let tail = judged.logs[&write.inode].tail;
        (tail != 0).then_some(7 - tail % 512 / 64)
    }

    /// Two to nine pieces, each with an empty log and with 0 to 6 slots. The log takes as many pages as the entries need: none, one or two.
    #[test]
    fn every_shape_is_done() {
        let (mut shapes, mut log_pages) = (BTreeSet::new(), BTreeSet::new());
        for write in writes() {
            let Some(taken) = write.taken() else { continue };
            let slots = slots(&write);
            let beyond = taken.entries.saturating_sub(slots.unwrap_or(0));
            assert_eq!(taken.log_pages as u64, beyond.div_ceil(7));
            shapes.insert((taken.entries, slots));
            log_pages.insert(taken.log_pages);
        }
        let slots = || [None].into_iter().chain((0..=6).map(Some));
        let expected = (2..=9).flat_map(|entries| slots().map(move |slots| (entries, slots)));
        assert_eq!(shapes, expected.collect());
        assert_eq!(log_pages, BTreeSet::from([0, 1, 2]));
    }

    /// Order 4: with as many free pages as needed a write is refused with 15, with fewer with 12,
    /// with more it is done. Each comes about with no log page, with one and with two.
    #[test]
    fn the_free_pages_decide() {
        let mut seen = BTreeSet::new();
        for write in writes() {
            let Some(needed) = write.needed() else {
                continue;
            };
            let pages = (needed.data.len() + needed.log_pages) as u64;
            let free = free_count(&write.volume).expect("the volume is accepted");
            assert!(free + 1 >= pages, "at most one lacks");
            let expected = match free.cmp(&pages) {
                Ordering::Less => Outcome::Refused(12),
                Ordering::Equal => Outcome::Refused(15),
                Ordering::Greater => Outcome::Done,
            };
            let came = Outcome::of(filled(&write.volume, &write.call()));
            assert_eq!(came, expected, "{pages} of {free}");
            seen.insert((came, needed.log_pages));
        }
        let all = [Outcome::Done, Outcome::Refused(12), Outcome::Refused(15)];
        let all = all.map(|outcome| [0, 1, 2].map(|log_pages| (outcome, log_pages)));
        assert_eq!(seen, all.into_iter().flatten().collect());
    }
}
