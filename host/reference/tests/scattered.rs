//! Writes into scattered free pages (order 3 of document 02): lists by hand, and on every sample the
//! whole list worked out beside the library, from the order's sentences.

use reference::layout::{head_word, tail_word};
use reference::{cut, free_count, groups, judge, land, map_after, Call, Use, Volume, FENCE};
use samples::*;
use std::cmp::Ordering;
use std::collections::{BTreeMap, BTreeSet};
use std::ops::Range;

/// A write entry's fields: first file page, first data page, page count.
type Fields = (u64, u64, u64);

/// What order 3 says of a write of at least one byte on an accepted volume.
struct Scatter {
    /// The data pages, in file order: a run, or the lowest free pages (fewer where fewer are free).
    data: Vec<u64>,
    /// The entries, one for each longest stretch of the data pages.
    entries: Vec<Fields>,
    /// How many pages the log needs.
    log_pages: usize,
    /// The free pages left behind the data, ascending.
    left: Vec<u64>,
    /// How many more entries fit in the tail's page; none of an empty log.
    slots: Option<u64>,
}

impl Scatter {
    /// Of a write that covers these file pages.
    fn of(volume: &Volume<'_>, inode: u64, covered: Range<u64>) -> Scatter {
        let pages = 0..volume.sizes.pages();
        let free: Vec<u64> = pages
            .filter(|&page| volume.uses[page as usize] == Use::Free)
            .collect();
        let count = covered.end - covered.start;
        let all_free = |first: &u64| (*first..first + count).all(|page| free.contains(&page));
        let data: Vec<u64> = match free.iter().copied().find(all_free) {
            Some(first) => (first..first + count).collect(),
            None => free.iter().take(count as usize).copied().collect(),
        };
        let mut entries: Vec<Fields> = Vec::new();
        for (&page, file_page) in data.iter().zip(covered) {
            match entries.last_mut() {
                Some(entry) if entry.1 + entry.2 == page => entry.2 += 1,
                _ => entries.push((file_page, page, 1)),
            }
        }
        let tail = volume.logs[&inode].tail;
        let slots = (tail != 0).then_some((448 - tail % 512) / 64);
        let beyond = entries.len().saturating_sub(slots.unwrap_or(0) as usize);
        let log_pages = beyond.div_ceil(7);
        let left = free.iter().filter(|page| !data.contains(page)).copied();
        Scatter {
            log_pages,
            left: left.collect(),
            slots,
            data,
            entries,
        }
    }

    /// How many free pages are more than a write of so many pages needs: "12 now means that the free
    /// pages are fewer than the data and log pages together."
    fn spare(&self, count: usize) -> i64 {
        (self.data.len() + self.left.len()) as i64 - (count + self.log_pages) as i64
    }

    /// The list of a write that is done: of the tail before, and of the file after the write.
    fn list(&self, inode: u64, tail: u64, file: &[u8]) -> Vec<u64> {
        let log = &self.left[..self.log_pages];
        let mut stores = BTreeMap::new();
        for (page, file_page) in self.data.iter().zip(self.entries[0].0 as usize..) {
            let mut bytes = file[512 * file_page..].to_vec();
            bytes.resize(512, 0);
            let words = bytes.as_chunks().0.iter().copied();
            stores.extend((64 * page..).zip(words.map(u64::from_le_bytes)));
        }
        let old_slots = 0..self.slots.unwrap_or(0);
        let mut places: Vec<u64> = old_slots.map(|slot| tail + 64 * slot).collect();
        for page in log {
            places.extend((0..7).map(|slot| 512 * page + 64 * slot));
        }
        for (&(file_page, page, count), place) in self.entries.iter().zip(&places) {
            let words = [1, file_page, page, count, file.len() as u64, 0, 0, 0];
            stores.extend((place / 8..).zip(words));
        }
        let mut chain = log.to_vec();
        if tail == 0 {
            stores.insert(head_word(inode), log[0]);
        } else {
            chain.insert(0, tail / 512);
        }
        for two in chain.windows(2) {
            stores.insert(64 * two[0] + 56, two[1]);
        }
        let mut list: Vec<u64> = stores.into_iter().flat_map(<[u64; 2]>::from).collect();
        let end = places[self.entries.len() - 1] + 64;
        list.extend([FENCE, 0, tail_word(inode), end, FENCE, 0]);
        list
    }
}

/// What kind of write one of the samples' is.
#[derive(Clone, Copy, Debug, PartialEq, Eq, PartialOrd, Ord)]
struct Kind {
    /// How many pages it covers.
    count: usize,
    /// How many entries it appends, or in how many stretches its pages lie where it is refused.
    entries: usize,
    /// How many pages its log needs.
    log_pages: usize,
    /// How many free pages are more than needed (1 stands for more too); below 1 it is refused.
    spare: i64,
    /// How many more entries fit in the tail's page; none of an empty log.
    slots: Option<u64>,
    /// Whether the tail's page lies below all data pages, and above all.
    tail: Option<[bool; 2]>,
    /// Whether the first log page taken lies below the data pages, and directly behind them.
    log: Option<[bool; 2]>,
    /// Whether it begins, and ends, at a page's boundary.
    boundaries: [bool; 2],
    /// Whether the size grows.
    grows: bool,
    /// Whether old bytes other than 0 are kept in the pages that it covers.
    keeps: bool,
}

/// Checks one write of a sample: the answer and the whole list, and the map once it has landed.
fn check(title: &str, volume: &[u8], call: &Call) -> Kind {
    let Call::Write {
        inode,
        offset,
        bytes,
    } = call
    else {
        panic!("{title}the samples have writes alone");
    };
    let judged = judge(volume).unwrap();
    let before = map_of(volume);
    let after = map_after(&before, judged.sizes.inodes(), call);
    let (old, new) = (&before.files[inode], &after.files[inode]);
    let end = offset + bytes.len() as u64;
    let covered = offset / 512..end.div_ceil(512);
    let scatter = Scatter::of(&judged, *inode, covered.clone());
    let spare = scatter.spare(covered.clone().count());
    let tail = judged.logs[inode].tail;

    let list = filled(volume, call).map_err(|refusal| refusal.number());
    if spare < 0 {
        assert_eq!(list, Err(12), "{title}");
    } else if spare == 0 {
        assert_eq!(list, Err(15), "{title}the last page is kept back");
    } else {
        assert_eq!(list, Ok(scatter.list(*inode, tail, new)), "{title}");
        let mut landed = volume.to_vec();
        land(&mut landed, &list.unwrap());
        assert_eq!(map_of(&landed), after, "{title}");
    }

    let [first, last] = [scatter.data[0], scatter.data[scatter.data.len() - 1]];
    let log = scatter.left.first().filter(|_| scatter.log_pages > 0);
    let beside = (512 * covered.start..*offset).chain(end..512 * covered.end);
    let mut kept = beside.map(|at| old.get(at as usize).copied().unwrap_or(0));
    Kind {
        count: covered.count(),
        entries: scatter.entries.len(),
        log_pages: scatter.log_pages,
        spare: spare.min(1),
        slots: scatter.slots,
        tail: (tail != 0).then_some([tail / 512 < first, tail / 512 > last]),
        log: log.map(|&page| [page < first, page == last + 1]),
        boundaries: [offset, &end].map(|at| at.is_multiple_of(512)),
        grows: new.len() > old.len(),
        keeps: kept.any(|byte| byte != 0),
    }
}

/// Every write of every sample; and the samples reach what they are for.
#[test]
fn every_sample() {
    let mut kinds = BTreeSet::new();
    let mut scattered_writes = 0;
    for sample in scattered() {
        let title = &sample.title;
        let judged = judge(&sample.volume).unwrap_or_else(|refusal| panic!("{title}{refusal}"));
        assert!(!judged.journal.is_open(), "{title}");
        for call in &sample.writes {
            let kind = check(title, &sample.volume, call);
            kinds.insert(kind);
            scattered_writes += u64::from(kind.spare > 0 && kind.entries > 1);
        }
    }
    assert!(scattered_writes > 15_000, "{scattered_writes}");
    check_shapes(&kinds);
    check_places(&kinds);
}

/// Writes of 2 to 9 pages with each count of entries, slots and log pages that goes together, with just
/// enough free pages, one too few and one more.
fn check_shapes(kinds: &BTreeSet<Kind>) {
    let slots: BTreeSet<_> = [None].into_iter().chain((0..=6).map(Some)).collect();
    for count in 2..=9_usize {
        for entries in 1..=count {
            for &slots in &slots {
                let beyond = entries.saturating_sub(slots.unwrap_or(0) as usize);
                let log_pages = beyond.div_ceil(7);
                for spare in [-1, 0, 1] {
                    // with a data page too few, the pages that are free may be fewer pieces
                    let fewer = spare < 0 && log_pages == 0;
                    let reached = kinds.iter().any(|kind| {
                        (kind.count, kind.slots, kind.spare) == (count, slots, spare)
                            && (kind.entries, kind.log_pages) == (entries, log_pages)
                    });
                    assert!(reached || fewer, "{count} {entries} {slots:?} {spare}");
                }
            }
        }
        let data_page_too_few = |kind: &Kind| kind.count == count && kind.log_pages == 0;
        let mut too_few = kinds.iter().filter(|kind| kind.spare == -1);
        assert!(too_few.any(data_page_too_few), "{count}");
    }
}

/// The tail's page below the data pages, between them and above them; log pages below and above a run,
/// and above scattered data; each way to begin and end.
fn check_places(kinds: &BTreeSet<Kind>) {
    let done = || kinds.iter().filter(|kind| kind.spare > 0);
    let scattered = || done().filter(|kind| kind.entries > 1);
    let tails: BTreeSet<_> = scattered().filter_map(|kind| kind.tail).collect();
    let expected = [[true, false], [false, false], [false, true]];
    assert_eq!(tails, BTreeSet::from(expected));
    let logs: BTreeSet<_> = scattered().filter_map(|kind| kind.log).collect();
    assert_eq!(logs, BTreeSet::from([[false, false], [false, true]]));
    let runs = done().filter(|kind| kind.entries == 1);
    let logs: BTreeSet<_> = runs.filter_map(|kind| kind.log).collect();
    let expected = [[true, false], [false, false], [false, true]];
    assert_eq!(logs, BTreeSet::from(expected));
    let ends: BTreeSet<_> = scattered()
        .map(|kind| (kind.boundaries, kind.grows))
        .collect();
    assert_eq!(ends.len(), 8);
    let keeps: BTreeSet<_> = scattered().map(|kind| kind.keeps).collect();
    assert_eq!(keeps.len(), 2);
}

/// "of free pages 5 6 8 10 12 13 and six pages, the entries are (5, 2), (8, 1), (10, 1), (12, 2)".
/// Page 16 is free too, and kept back (order 4).
#[test]
fn the_example_of_the_readings() {
    let free = [5, 6, 8, 10, 12, 13, 16];
    let mut volume = with_free_pages(17, 8, |page| free.contains(&page));
    assert_eq!(
        words(&volume, tail_word(1)..tail_word(1) + 1),
        [7 * 512 + 192]
    );
    let call = write(1, 0, &text(3_072));
    let list = filled(&volume, &call).unwrap();
    assert_eq!(list.len(), 2 * (6 * 64 + 4 * 8 + 3));
    let groups = groups(&list);
    let data: BTreeSet<u64> = groups[0].iter().map(|store| store.0 / 64).collect();
    assert_eq!(data, BTreeSet::from([5, 6, 7, 8, 10, 12, 13]));
    let entries = [
        entry_write(0, 5, 2, 3_072),
        entry_write(2, 8, 1, 3_072),
        entry_write(3, 10, 1, 3_072),
        entry_write(4, 12, 2, 3_072),
    ];
    let in_log = groups[0].iter().filter(|store| store.0 / 64 == 7).copied();
    let expected = (7 * 64 + 24..).zip(entries.concat());
    assert_eq!(in_log.collect::<Vec<_>>(), expected.collect::<Vec<_>>());
    assert_eq!(groups[1], [(tail_word(1), 7 * 512 + 448)]);
    land(&mut volume, &list);
    assert_eq!(map_of(&volume).files[&1], text(3_072));
    assert_eq!(free_count(&volume), Ok(4), "the old data pages and page 16");
}

/// A volume of 64 pages on which these pages are free, and so many entries stand in the log of file 1,
/// "a", which has no byte. The log's pages are the lowest ones.
fn with_entries(entries: usize, free: impl Fn(u64) -> bool) -> Vec<u8> {
    let mut volume = formatted(64, 8);
    let used: Vec<u64> = (2..64).filter(|&page| !free(page)).collect();
    let (log, directory) = used.split_at(entries.div_ceil(7));
    put_log(&mut volume, 1, log, &vec![entry_size(0); entries]);
    let mut names = vec![entry_remove(b"never"); 7 * directory.len()];
    names[0] = entry_add(1, b"a");
    put_log(&mut volume, 0, directory, &names);
    volume
}

/// The same with so many free pages, each for itself: 20, 22 and so on.
fn with_single_pages(entries: usize, free: u64) -> Vec<u8> {
    let range = 20..20 + 2 * free;
    let volume = with_entries(entries, |page| page % 2 == 0 && range.contains(&page));
    assert_eq!(free_count(&volume), Ok(free));
    volume
}

/// The count of words that a call fills, or the refusal's number.
fn answer(volume: &[u8], call: &Call) -> Result<usize, u64> {
    let list = filled(volume, call).map_err(|refusal| refusal.number())?;
    Ok(list.len())
}

/// "nine pages in nine pieces with f = 0 and ten free pages is 12"; with eleven it would take the
/// last, and with twelve it is done, and its list is the longest of a write.
#[test]
fn nine_pages_in_nine_pieces() {
    for (entries, needed, words) in [
        (0, 11, 1_306),
        (7, 11, 1_306),
        (6, 11, 1_306),
        (5, 10, 1_304),
        (1, 10, 1_304),
        (8, 10, 1_304),
        (13, 11, 1_306),
        (14, 11, 1_306),
    ] {
        for free in 0..=12 {
            let volume = with_single_pages(entries, free);
            let expected = match free.cmp(&needed) {
                Ordering::Less => Err(12),
                Ordering::Equal => Err(15),
                Ordering::Greater => Ok(words),
            };
            let answer = answer(&volume, &write(1, 511, &text(4_096)));
            assert_eq!(answer, expected, "{entries} entries, {free} free");
        }
    }
}

/// Nine entries in three log pages: one in the page left behind, seven and one in fresh pages, with two
/// links, and all with the final size.
#[test]
fn entries_in_three_log_pages() {
    let mut volume = with_single_pages(6, 12);
    let list = filled(&volume, &write(1, 1_000, &text(4_096))).unwrap();
    let groups = groups(&list);
    let entry = |number: u64| entry_write(1 + number, 20 + 2 * number, 1, 5_096);
    let in_page = |page: u64| -> Vec<(u64, u64)> {
        let inside = groups[0].iter().filter(|store| store.0 / 64 == page);
        inside.copied().collect()
    };
    let stores = |first: u64, entries: Range<u64>, link: Option<(u64, u64)>| {
        let words = entries.flat_map(entry);
        (first..).zip(words).chain(link).collect::<Vec<_>>()
    };
    assert_eq!(
        in_page(2),
        stores(2 * 64 + 48, 0..1, Some((2 * 64 + 56, 38)))
    );
    assert_eq!(in_page(38), stores(38 * 64, 1..8, Some((38 * 64 + 56, 40))));
    assert_eq!(in_page(40), stores(40 * 64, 8..9, None));
    assert_eq!(groups[1], [(tail_word(1), 40 * 512 + 64)]);
    land(&mut volume, &list);
    assert_eq!(judge(&volume).unwrap().logs[&1].pages, [2, 38, 40]);
    assert_eq!(free_count(&volume), Ok(1));
}

/// "A run with no page left for the log is 12, with no second try." A page below the run or above it is
/// for the log, and a further one is kept back (order 4).
#[test]
fn a_run_and_no_page_for_the_log() {
    for entries in [0, 1, 6, 7, 14] {
        let needs_page = entries % 7 == 0;
        let call = write(1, 0, &text(1_536));
        let volume = with_entries(entries, |page| (20..23).contains(&page));
        let expected = if needs_page { Err(12) } else { Err(15) };
        assert_eq!(answer(&volume, &call), expected, "{entries} entries");
        for further in [18, 24] {
            let free = |page: u64| (20..23).contains(&page) || page == further;
            let volume = with_entries(entries, free);
            let expected = if needs_page { Err(15) } else { Ok(406) };
            assert_eq!(answer(&volume, &call), expected, "{entries} entries");
            let mut volume = with_entries(entries, |page| free(page) || page == 30);
            let expected = if needs_page { 408 } else { 406 };
            assert_eq!(done(&mut volume, &call), expected, "{entries} entries");
            let judged = judge(&volume).unwrap();
            assert_eq!(judged.files[&1].data_page(0), Some(20));
            let last = judged.logs[&1].pages.last();
            assert_eq!(last == Some(&further), needs_page);
        }
    }
}

/// "Set size's copy needs one page and is never scattered."
#[test]
fn set_size_takes_one_page() {
    let mut volume = with_single_pages(5, 5);
    assert_eq!(
        done(&mut volume, &write(1, 0, &text(1_500))),
        2 * (3 * 64 + 3 * 8 + 4)
    );
    assert_eq!(
        free_count(&volume),
        Ok(1),
        "three for the data and one for the log"
    );
    assert_eq!(answer(&volume, &set_size(1, 700)), Err(15));
    assert_eq!(answer(&volume, &set_size(1, 1_024)), Ok(22));
    let mut volume = with_single_pages(5, 6);
    done(&mut volume, &write(1, 0, &text(1_500)));
    assert_eq!(done(&mut volume, &set_size(1, 700)), 166);
    assert_eq!(map_of(&volume).files[&1], text(700));
}

/// Every group of scattered writes cut, with any words kept: the map is the one before or the one after.
#[test]
fn cuts() {
    let mut random = Random::new(3);
    let mut counts = [0; 2];
    for Scattered {
        title,
        volume,
        writes,
    } in in_pieces().step_by(7)
    {
        let before = map_of(&volume);
        let Ok(list) = filled(&volume, &writes[0]) else {
            continue;
        };
        let after = map_after(&before, 8, &writes[0]);
        for _ in 0..6 {
            let mut broken = volume.clone();
            random_cut(&mut random, &mut broken, &list);
            let map = map_of(&broken);
            assert!(map == before || map == after, "{title}");
            counts[usize::from(map == after)] += 1;
        }
        let mut broken = volume.clone();
        cut(&mut broken, &list, 0, |_| true);
        assert_eq!(map_of(&broken), before, "{title}");
    }
    assert!(counts.iter().all(|&count| count > 500), "{counts:?}");
}
