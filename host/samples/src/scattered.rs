//! Volumes whose free pages lie scattered, and writes that find no run of free pages there.
//!
//! Order 3 of document 02: "A write that finds no single run shall take the lowest free pages one by one, as many as it needs. It
//! appends one write entry for each longest stretch among them, all with the final size, in file order. Log pages, up to two now, come
//! from the lowest free pages left." Such a write's list depends on more than the count of free pages, and all of it is varied here:
//!
//! - The pages for the data, 2 to 9, lie in 2 to 9 pieces of any lengths, or there is one run of them above or below smaller pieces.
//! - The file's log is empty, or 0 to 6 more entries fit in the tail's page. (7 never do: a tail's page has an entry.)
//! - The tail's page lies below the pages for the data, between them, directly behind them, or behind every free page. The pages for the
//!   log lie above scattered data and follow directly or lie apart; beside a run they lie below or above it.
//! - As many pages are free as data and log need, one fewer, one more, or two more. With as many as needed the write is refused since
//!   order 4: it would take the last one. The first and the last page of the volume may be among them.
//! - The write begins and ends at a page's boundary or inside a page, whose other bytes are old ones of the file or zeros; the old size
//!   lies before, inside or behind what is written. Entries that no longer count map the free pages too.

use crate::by_hand::{entry_add, entry_remove, entry_size, entry_write, formatted, put_log, text};
use crate::calls::write;
use reference::random::Random;
use reference::{judge, Call};

/// A volume whose free pages lie scattered, and the writes to make on it.
#[derive(Clone, Debug)]
pub struct Scattered {
    /// What the volume is.
    pub title: String,
    /// The volume. Its journal is closed. The file "a" is inode 1, which is written; "b" is inode 2.
    pub volume: Vec<u8>,
    /// Writes to inode 1, of 1 to 9 pages, each on the volume as it is.
    pub writes: Vec<Call>,
}

/// The volumes with their writes: those with scattered free pages ([`in_pieces`]), those with a run ([`with_runs`]), and those on which
/// every second page is free ([`every_second_free`]).
///
/// ```
/// use samples::{appended_entries, done, scattered};
///
/// let sample = scattered().next().expect("there are samples");
/// assert!(sample.title.starts_with("2 pages in [1, 1]"));
/// let mut volume = sample.volume.clone();
/// done(&mut volume, &sample.writes[0]);
/// assert_eq!(appended_entries(&sample.volume, &volume, 1), 2);
/// ```
pub fn scattered() -> impl Iterator<Item = Scattered> {
    in_pieces().chain(with_runs()).chain(every_second_free())
}

/// How many entries a call appended to the log of an inode, by the accepted volumes before and after it.
pub fn appended_entries(before: &[u8], after: &[u8], inode: u64) -> u64 {
    let entries = |volume: &[u8]| {
        let volume = judge(volume).expect("the volume is accepted");
        volume.logs[&inode].placed(volume.bytes).count() as u64
    };
    entries(after) - entries(before)
}

/// How many more entries fit in the tail's page of a log; none stands for an empty log.
type Slots = Option<u64>;

/// An empty log, and 0 to 6 more entries in the tail's page.
const SLOTS: [Slots; 8] = [
    None,
    Some(0),
    Some(1),
    Some(2),
    Some(3),
    Some(4),
    Some(5),
    Some(6),
];

/// How many pages a log takes for further entries: those that do not fit in the tail's page, seven to a page.
fn log_pages(entries: u64, slots: Slots) -> u64 {
    entries.saturating_sub(slots.unwrap_or(0)).div_ceil(7)
}

/// Where the tail's page of the written file's log lies.
#[derive(Clone, Copy, Debug, PartialEq, Eq)]
enum Place {
    /// Below every free page.
    Below,
    /// Between the free pages for the data.
    Between,
    /// Behind the free pages for the data, before the others.
    Behind,
    /// Behind every free page.
    Last,
}

const PLACES: [Place; 4] = [Place::Below, Place::Between, Place::Behind, Place::Last];

/// How many used pages stand where the tail's page does, which is the fifth of them.
const USED: u64 = 13;

/// The log and data pages of a volume in a row, from the first on.
#[derive(Default)]
struct Row {
    /// Whether each page is free.
    free: Vec<bool>,
    /// The place in the row of the page that is the tail's.
    tail: usize,
}

impl Row {
    /// Puts free pages at the row's end.
    fn free(&mut self, count: u64) {
        self.free.extend((0..count).map(|_| true));
    }

    /// Puts used pages at the row's end.
    fn used(&mut self, count: u64) {
        self.free.extend((0..count).map(|_| false));
    }

    /// Puts the used pages at the row's end among which the tail's page is, if this is their place; else so many others.
    fn used_at(&mut self, here: bool, otherwise: u64) {
        if here {
            self.tail = self.free.len() + 4;
        }
        self.used(if here { USED } else { otherwise });
    }
}

/// Volumes on which the lowest free pages, 2 to 9, lie in 2 to 9 pieces, for each count of slots, each place of the tail's page, and as
/// many free pages as needed, one fewer, one more and two more.
pub fn in_pieces() -> impl Iterator<Item = Scattered> {
    let pairs = (2..=9).flat_map(|count| (2..=count).map(move |pieces| (count, pieces)));
    let ways = pairs.flat_map(|pair| SLOTS.map(|slots| (pair, slots)));
    let ways = ways.flat_map(|way| PLACES.map(|place| (way, place)));
    let ways = ways.flat_map(|way| [2, 1, 0, 3].map(|more| (way, more)));
    (0..).zip(ways).map(|(seed, (way, more))| {
        let (((count, pieces), slots), place) = way;
        let mut random = Random::new(seed);
        let free = count + log_pages(pieces, slots) + more - 1;
        let pieces = lengths(&mut random, count, pieces);
        let row = row_of_pieces(&mut random, &pieces, free, place);
        let title =
            format!("{count} pages in {pieces:?}, {free} free, {slots:?} slots, tail {place:?}: ");
        put_together(&mut random, title, 8, &row, slots, count)
    })
}

/// Lengths of so many pieces, each at least 1, that add up to a count.
fn lengths(random: &mut Random, count: u64, pieces: u64) -> Vec<u64> {
    let cut = |cuts: &u64| u64::from(cuts.count_ones()) == pieces - 1;
    let ways: Vec<u64> = (0..1 << (count - 1)).filter(cut).collect();
    let cuts = random.choose(&ways).expect("there are as many pages");
    let mut lengths = vec![1];
    for place in 0..count - 1 {
        match lengths.last_mut() {
            Some(length) if cuts >> place & 1 == 0 => *length += 1,
            _ => lengths.push(1),
        }
    }
    lengths
}

/// A row in which so many pages are free: those of the pieces, of which the last may lack a page, and the others behind them. Those follow
/// directly in every second row where that makes no run as long as the pieces together, and else lie apart.
fn row_of_pieces(random: &mut Random, pieces: &[u64], free: u64, place: Place) -> Row {
    let count: u64 = pieces.iter().sum();
    let rest = free.saturating_sub(count);
    let last = pieces[pieces.len() - 1];
    let joined = random.once_in(2) && last + rest < count && place != Place::Behind;
    let mut row = Row::default();
    row.used_at(place == Place::Below, 0);
    for (index, &length) in pieces.iter().enumerate() {
        if index > 0 {
            let middle = place == Place::Between && index == pieces.len() / 2;
            row.used_at(middle, random.between(1, 2));
        }
        row.free(length);
    }
    if free < count {
        row.free.pop();
    }
    row.used_at(place == Place::Behind, 0);
    for index in 0..rest {
        let behind_used = index == 0 && place == Place::Behind;
        row.used(u64::from(!joined && !behind_used));
        row.free(1);
    }
    row.used_at(place == Place::Last, 0);
    row
}

/// Volumes on which a run of free pages is exactly as long as the data, or a page longer, with up to two single free pages below it and
/// up to one above it, for each count of slots: the write takes the run though lower pages are free, and where no page is left for the
/// log, or none behind it, it is refused.
pub fn with_runs() -> impl Iterator<Item = Scattered> {
    let ways = (2..=9).flat_map(|count| SLOTS.map(|slots| (count, slots)));
    let ways = ways.flat_map(|way| [0, 1, 2].map(|below| (way, below)));
    let ways = ways.flat_map(|way| [0, 1].map(|above| (way, above)));
    let ways = ways.flat_map(|way| [0, 1].map(|longer| (way, longer)));
    (0..).zip(ways).map(|(seed, (way, longer))| {
        let (((count, slots), below), above) = way;
        let mut random = Random::new(seed);
        let place = [Place::Below, Place::Behind, Place::Last][random.below(3) as usize];
        let run = count + longer;
        let mut row = Row::default();
        row.used_at(place == Place::Below, 0);
        for _ in 0..below {
            row.free(1);
            row.used(1);
        }
        row.free(run);
        row.used_at(place == Place::Behind, 1);
        row.free(above);
        row.used_at(place == Place::Last, 0);
        let title = format!(
            "a run of {run}, {below} free below, {above} above, {slots:?} slots, tail {place:?}: "
        );
        put_together(&mut random, title, 8, &row, slots, count)
    })
}

/// Volumes of 16 to 4,096 pages on which every second page is free, for each count of slots (of 4,096 pages for two of them).
pub fn every_second_free() -> impl Iterator<Item = Scattered> {
    let sizes = [(16, 8), (41, 8), (300, 32), (4_096, 256)];
    let ways = sizes.into_iter().flat_map(|size| {
        let few = if size.0 == 4_096 { 2 } else { SLOTS.len() };
        SLOTS[..few].iter().map(move |&slots| (size, slots))
    });
    (0..).zip(ways).map(|(seed, ((pages, inodes), slots))| {
        let first = inodes / 8 + 1;
        let row = Row {
            free: (first..pages).map(|page| page % 2 == 1).collect(),
            tail: 4 + first as usize % 2,
        };
        let title = format!("every second of {pages} pages free, {slots:?} slots: ");
        let count = 9 - seed % 8;
        put_together(&mut Random::new(seed), title, inodes, &row, slots, count)
    })
}

/// Puts a volume with such a row of pages together, for writes of mostly so many pages.
fn put_together(
    random: &mut Random,
    title: String,
    inodes: u64,
    row: &Row,
    slots: Slots,
    count: u64,
) -> Scattered {
    let first = inodes / 8 + 1;
    let [free, mut used] = [true, false].map(|free| -> Vec<u64> {
        let pages = (first..).zip(&row.free).filter(|page| *page.1 == free);
        pages.map(|page| page.0).collect()
    });
    let mut volume = formatted(first + row.free.len() as u64, inodes);
    let file_page = if random.once_in(5) { 119 } else { 3 };
    match slots {
        None => put_log(&mut volume, 1, &[], &[]),
        Some(slots) => {
            let tail_page = first + row.tail as u64;
            used.retain(|&page| page != tail_page);
            let mut log = vec![tail_page];
            if random.once_in(2) {
                log.insert(0, take(random, &mut used));
            }
            let length = 7 * log.len() - slots as usize;
            let old = Old::new(random, file_page, count);
            let entries = old.entries(random, &mut volume, &mut used, free[0], length);
            put_log(&mut volume, 1, &log, &entries);
        }
    }
    put_others(random, &mut volume, &used);
    Scattered {
        title,
        volume,
        writes: writes(random, file_page, count),
    }
}

/// Takes one of the used pages.
fn take(random: &mut Random, used: &mut Vec<u64>) -> u64 {
    let place = random.below(used.len() as u64) as usize;
    used.remove(place)
}

/// What the written file holds before: its size, and file pages that may be mapped.
struct Old {
    size: u64,
    mapped: Vec<u64>,
}

impl Old {
    /// For writes of so many pages from this file page on: the size lies in the first of them, in the last, or behind them.
    fn new(random: &mut Random, file_page: u64, count: u64) -> Old {
        let (first, last) = (file_page, file_page + count - 1);
        let sizes = [512 * first + 77, 512 * last + 300, 512 * last + 712];
        let size = sizes[random.below(3) as usize].min(65_536);
        let mut mapped = Vec::new();
        for page in [first, last, 0, last + 1, first + 1] {
            if 512 * page < size && !mapped.contains(&page) {
                mapped.push(page);
            }
        }
        let places = mapped.len() as u64;
        mapped.rotate_left(random.below(places) as usize);
        Old { size, mapped }
    }

    /// So many entries of the file's log. The last ones map up to four file pages, in used pages; those before them no longer count, and
    /// map a free page.
    fn entries(
        &self,
        random: &mut Random,
        volume: &mut [u8],
        used: &mut Vec<u64>,
        free: u64,
        count: usize,
    ) -> Vec<[u64; 8]> {
        let most = count.min(4).min(used.len() - 2);
        let mapped = &self.mapped[..self.mapped.len().min(most)];
        let mut entries = vec![entry_write(mapped[0], free, 1, self.size); count - mapped.len()];
        if let Some(first) = entries.first_mut() {
            *first = entry_size(65_536);
        }
        for &file_page in mapped {
            let page = take(random, used);
            put_bytes(volume, page, self.size - 512 * file_page);
            entries.push(entry_write(file_page, page, 1, self.size));
        }
        entries
    }
}

/// Puts so many bytes that tell it from others into a data page, and zeros behind them.
fn put_bytes(volume: &mut [u8], page: u64, count: u64) {
    let start = 512 * page as usize;
    let bytes = volume[start..start + 512].iter_mut();
    for (byte, index) in bytes.zip(0..) {
        let kept = index < count;
        *byte = if kept {
            (31 * page + index) as u8 | 1
        } else {
            0
        };
    }
}

/// Puts the directory and file 2 on a volume, so that all these pages are used: a page for the log of file 2, up to six for its data,
/// and the others for the directory's log.
fn put_others(random: &mut Random, volume: &mut [u8], used: &[u64]) {
    let (log, others) = used.split_at(1);
    let (data, directory) = others.split_at(6.min(others.len() - 1));
    let size = 512 * data.len() as u64;
    let mut entries = vec![entry_size(size)];
    for (&page, file_page) in data.iter().zip(0..) {
        put_bytes(volume, page, 512);
        entries.push(entry_write(file_page, page, 1, size));
    }
    put_log(volume, 2, log, &entries);
    let length = 7 * directory.len() - random.below(5) as usize;
    let mut names = vec![entry_remove(b"never"); length];
    names[0] = entry_add(1, b"a");
    names[2] = entry_add(2, b"b");
    put_log(volume, 0, directory, &names);
}

/// Where a write begins in its first page, and how many bytes of its last page it writes.
const ENDS: [(u64, u64); 6] = [
    (0, 512),
    (511, 1),
    (37, 20),
    (0, 123),
    (200, 512),
    (511, 511),
];

/// Writes to file 1 from a file page on: of so many pages with each of [`ENDS`] that an allowed length has, and of each other count from 1
/// to 9 with one of them.
fn writes(random: &mut Random, file_page: u64, count: u64) -> Vec<Call> {
    let of_pages = |pages: u64| -> Vec<Call> {
        let writes = ENDS.into_iter().filter_map(|(start, end)| {
            let length = (512 * (pages - 1) + end).checked_sub(start)?;
            let allowed = (1..=4_096).contains(&length);
            allowed.then(|| write(1, 512 * file_page + start, &text(length as usize)))
        });
        writes.collect()
    };
    let mut writes = of_pages(count);
    for pages in (1..=9).filter(|&pages| pages != count) {
        writes.extend(random.choose(&of_pages(pages)).cloned());
    }
    writes
}
