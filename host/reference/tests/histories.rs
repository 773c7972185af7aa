//! Random lists of calls with power cuts, and recoveries cut and run through: the third demand by
//! running, and what else holds of every call.

mod need;

use need::{covered_pages, data_places, free_pages, need, refused_for_pages, write_entries, Need};
use reference::layout::{set_word, tail_word, word};
use reference::{
    carry_out, free_count, groups, judge, kth_name, land, map_after, read, refused_by_map, size,
    total, Call, FileMap, Refusal, Volume,
};
use samples::*;

/// A history: a volume that calls and cuts change, and the map that it must have.
struct History {
    random: Random,
    volume: Vec<u8>,
    inodes: u64,
    counts: Counts,
}

/// How often things happened; a test that never reaches them would show nothing.
#[derive(Default)]
struct Counts {
    landed: u64,
    cut: u64,
    left_open: u64,
    scattered: u64,
    refused: [u64; 19],
    moved: u64,
}

impl History {
    fn new(seed: u64, pages: u64, inodes: u64) -> History {
        let mut random = Random::new(seed);
        let mut volume = random.bytes(pages as usize * 512);
        assert_eq!(reference::format(&mut volume, pages, inodes), Ok(()));
        History::on(random, volume)
    }

    /// A history from an accepted volume with a closed journal on, which gets any position.
    fn on(mut random: Random, mut volume: Vec<u8>) -> History {
        let position = random.below(16);
        set_word(&mut volume, 8, position);
        set_word(&mut volume, 9, position);
        let inodes = word(&volume, 1);
        History {
            random,
            volume,
            inodes,
            counts: Counts::default(),
        }
    }

    /// One call: refused, landed, or cut.
    fn step(&mut self) {
        let before = map_of(&self.volume);
        let open = judge(&self.volume).unwrap().journal.is_open();
        let call = if open && !self.random.once_in(4) {
            Call::Recover
        } else {
            any_call(&mut self.random, self.inodes, &before)
        };
        let expected = self.expected_refusal(&before, open, &call);
        let list = match filled(&self.volume, &call) {
            Err(refusal) => {
                assert_eq!(Some(refusal), expected, "{call:?}");
                self.counts.refused[refusal.number() as usize] += 1;
                return;
            }
            Ok(list) => list,
        };
        assert_eq!(expected, None, "{call:?}");
        assert!(list.len() <= longest_list(&call), "{call:?}");
        check_places(&judge(&self.volume).unwrap(), &call, &list);
        self.counts.scattered += u64::from(is_scattered(&judge(&self.volume).unwrap(), &call));
        let after = map_after(&before, self.inodes, &call);
        self.counts.moved += u64::from(!list.is_empty() && changed_logs(&call).len() == 2);
        self.try_cuts(&list, &before, &after);
        if self.random.once_in(3) {
            self.cut_call(&list, &before, &after);
        } else {
            self.land_call(&list, &after);
        }
    }

    /// The refusal that document 01 and the orders give the call, worked out beside the library.
    fn expected_refusal(&self, before: &FileMap, open: bool, call: &Call) -> Option<Refusal> {
        if open {
            return (*call != Call::Recover).then_some(Refusal::JournalOpen);
        }
        let volume = judge(&self.volume).unwrap();
        refused_by_map(before, self.inodes, call)
            .or_else(|| refused_for_pages(&volume, before, call))
    }

    fn land_call(&mut self, list: &[u64], after: &FileMap) {
        let mut carried = self.volume.clone();
        assert_eq!(carry_out(&mut carried, list, list.len() as u64), Ok(()));
        land(&mut self.volume, list);
        assert_eq!(self.volume, carried, "landed whole is carried out");
        assert_eq!(map_of(&self.volume), *after);
        assert!(!judge(&self.volume).unwrap().journal.is_open());
        self.counts.landed += 1;
    }

    /// Cuts the call for good: the volume stays as the cut left it.
    fn cut_call(&mut self, list: &[u64], before: &FileMap, after: &FileMap) {
        random_cut(&mut self.random, &mut self.volume, list);
        let map = map_of(&self.volume);
        assert!(map == *before || map == *after);
        self.counts.cut += 1;
        if judge(&self.volume).unwrap().journal.is_open() {
            self.counts.left_open += 1;
        }
    }

    /// Cuts copies of the volume, and recovers them with further cuts.
    fn try_cuts(&mut self, list: &[u64], before: &FileMap, after: &FileMap) {
        for _ in 0..3 {
            let mut broken = self.volume.clone();
            random_cut(&mut self.random, &mut broken, list);
            let map = map_of(&broken);
            assert!(map == *before || map == *after);
            for _ in 0..self.random.below(3) {
                let recovery = filled(&broken, &Call::Recover).unwrap();
                random_cut(&mut self.random, &mut broken, &recovery);
                assert_eq!(map_of(&broken), map, "a cut recovery keeps the map");
            }
            done(&mut broken, &Call::Recover);
            assert_eq!(map_of(&broken), map, "a recovery keeps the map");
            assert!(!judge(&broken).unwrap().journal.is_open());
        }
    }

    /// Checks the reading calls against the map.
    fn check_readings(&mut self) {
        let map = map_of(&self.volume);
        if judge(&self.volume).unwrap().journal.is_open() {
            assert_eq!(free_count(&self.volume), Err(Refusal::JournalOpen));
            return;
        }
        for (&folder, names) in &map.folders {
            for (k, (name, inode)) in names.iter().enumerate() {
                let mut buffer = [7; 33];
                let answer = kth_name(&self.volume, folder, k as u64, &mut buffer);
                assert_eq!(answer, Ok(name.len() as u64));
                assert_eq!(buffer[..name.len()], name[..]);
                assert!(buffer[name.len()..32].iter().all(|&byte| byte == 0));
                assert_eq!(buffer[32], 7);
                assert_eq!(reference::find(&self.volume, folder, name), Ok(*inode));
            }
            assert_eq!(total(&self.volume, folder), Ok(map.total(folder)));
        }
        for (&inode, bytes) in &map.files {
            assert_eq!(size(&self.volume, inode), Ok(bytes.len() as u64));
            let offset = self.random.below(bytes.len() as u64 + 2);
            let mut buffer = vec![7; self.random.below(2_000) as usize];
            let count = read(&self.volume, inode, offset, &mut buffer).unwrap() as usize;
            let rest = bytes.get(offset as usize..).unwrap_or(&[]);
            assert_eq!(count, rest.len().min(buffer.len()));
            assert_eq!(buffer[..count], rest[..count]);
            assert!(buffer[count..].iter().all(|&byte| byte == 7));
        }
    }
}

/// The longest list of each call, in words.
fn longest_list(call: &Call) -> usize {
    match call {
        Call::Create { .. } | Call::CreateFolder { .. } => 48,
        Call::Link { .. } => 24,
        Call::Unlink { .. } => 42,
        Call::Rename {
            old_folder,
            new_folder,
            ..
        } if old_folder == new_folder => 58,
        Call::Rename { .. } => 66,
        Call::Write { .. } => 1_306,
        Call::SetSize { .. } => 168,
        Call::Clean { .. } => 3_670,
        Call::Recover => 14,
    }
}

/// Whether a call is a write whose data pages lie scattered.
fn is_scattered(volume: &Volume<'_>, call: &Call) -> bool {
    write_entries(volume, covered_pages(call)) > 1
}

/// The pages that a call with enough space takes: the data pages, and the lowest left for the log.
fn places(volume: &Volume<'_>, need: &Need) -> Vec<u64> {
    let free = free_pages(volume);
    let mut taken = data_places(&free, need.data_pages);
    let left = free.iter().filter(|page| !taken.contains(page));
    let log: Vec<u64> = left.take(need.log_pages as usize).copied().collect();
    taken.extend(log);
    taken
}

/// The inodes whose logs a call changes.
fn changed_logs(call: &Call) -> Vec<u64> {
    match call {
        Call::Create { folder, .. }
        | Call::CreateFolder { folder, .. }
        | Call::Unlink { folder, .. } => vec![*folder],
        Call::Link { new_folder, .. } => vec![*new_folder],
        Call::Rename {
            old_folder,
            new_folder,
            ..
        } if old_folder == new_folder => vec![*old_folder],
        Call::Rename {
            old_folder,
            new_folder,
            ..
        } => vec![*old_folder, *new_folder],
        Call::Write { inode, .. } | Call::SetSize { inode, .. } | Call::Clean { inode } => {
            vec![*inode]
        }
        Call::Recover => vec![],
    }
}

/// Checks that log and data pages are stored only where the call may: the lowest free pages, and
/// the log's last page from the tail on.
fn check_places(volume: &Volume<'_>, call: &Call, list: &[u64]) {
    let map = reference::map(volume);
    let Some(need) = need(volume, &map, call) else {
        assert_eq!(list.is_empty(), !volume.journal.is_open(), "{call:?}");
        return;
    };
    let tails = changed_logs(call).into_iter();
    let tails: Vec<u64> = tails.map(|inode| volume.word(tail_word(inode))).collect();
    let mut taken = places(volume, &need);
    let first_word = volume.sizes.first_page() * 64;
    let stores: Vec<(u64, u64)> = groups(list).concat();
    for &(index, _) in stores.iter().filter(|store| store.0 >= first_word) {
        let behind = |tail: &u64| index / 64 == tail / 512 && index >= tail / 8;
        let behind_tail = tails.iter().any(behind);
        assert!(taken.contains(&(index / 64)) || behind_tail, "{call:?}");
    }
    taken.retain(|page| !stores.iter().any(|store| store.0 / 64 == *page));
    assert!(taken.is_empty(), "every page taken is stored to");
}

/// Runs a history and answers its counts.
fn history(seed: u64, pages: u64, inodes: u64, calls: u64) -> Counts {
    let mut history = History::new(seed, pages, inodes);
    for number in 0..calls {
        history.step();
        if number % 8 == 0 {
            history.check_readings();
        }
    }
    history.counts
}

#[test]
fn small_volumes() {
    let mut total = Counts::default();
    for seed in 0..40 {
        let mut random = Random::new(1_000 + seed);
        let inodes = 8 * random.between(1, 4);
        let pages = random.between(16, 40);
        let counts = history(seed, pages, inodes, 160);
        total.landed += counts.landed;
        total.cut += counts.cut;
        total.left_open += counts.left_open;
        total.scattered += counts.scattered;
        total.moved += counts.moved;
        for (sum, count) in total.refused.iter_mut().zip(counts.refused) {
            *sum += count;
        }
    }
    assert!(total.landed > 500 && total.cut > 200 && total.left_open > 40);
    assert!(total.scattered > 4, "{}", total.scattered);
    assert!(total.moved > 40, "{}", total.moved);
    for number in [4, 5, 6, 7, 8, 9, 10, 12, 15, 16, 17, 18] {
        assert!(total.refused[number] > 5, "{number}: {:?}", total.refused);
    }
    for number in [1, 2, 3, 13, 14] {
        assert_eq!(total.refused[number], 0);
    }
}

/// From volumes with scattered free pages on: few calls each, since they make runs again.
#[test]
fn scattered_volumes() {
    let mut scattered_writes = 0;
    for (sample, seed) in scattered().step_by(9).zip(200..) {
        let mut history = History::on(Random::new(seed), sample.volume);
        for _ in 0..12 {
            history.step();
        }
        history.check_readings();
        scattered_writes += history.counts.scattered;
    }
    assert!(scattered_writes > 80, "{scattered_writes}");
}

/// From volumes with folders on, which have full log pages and few free ones.
#[test]
fn volumes_with_folders() {
    let mut moved = 0;
    let mut refused = [0; 19];
    for (sample, seed) in folders().zip(400..) {
        if judge(&sample.volume).unwrap().journal.is_open() {
            continue;
        }
        let mut history = History::on(Random::new(seed), sample.volume);
        for _ in 0..40 {
            history.step();
        }
        history.check_readings();
        moved += history.counts.moved;
        for (sum, count) in refused.iter_mut().zip(history.counts.refused) {
            *sum += count;
        }
    }
    assert!(moved > 80, "{moved}");
    for number in [6, 7, 12, 15, 16, 17, 18] {
        assert!(refused[number] > 0, "{number}: {refused:?}");
    }
}

#[test]
fn the_smallest_volume() {
    history(77, 16, 8, 400);
}

#[test]
fn many_inodes_on_few_pages() {
    history(78, 16, 96, 200);
    history(79, 36, 256, 200);
}

#[test]
fn large_volumes() {
    history(80, 300, 32, 120);
    history(81, 700, 256, 80);
    history(82, 4_096, 64, 8);
}

/// Long directories: names are only added, until the directory or the inodes are full.
#[test]
fn a_directory_that_fills_up() {
    let mut history = History::new(83, 120, 256);
    for number in 0..230 {
        let call = if number % 5 == 4 {
            link(&numbered(number - 1), &numbered(number))
        } else {
            create(&numbered(number))
        };
        let before = map_of(&history.volume);
        let expected = history.expected_refusal(&before, false, &call);
        let result = filled(&history.volume, &call);
        assert_eq!(result.as_ref().err().copied(), expected);
        assert_eq!(expected.is_some(), number >= 224);
        if let Ok(list) = result {
            history.land_call(&list, &map_after(&before, 256, &call));
        }
    }
    for _ in 0..40 {
        history.step();
    }
    let volume = history.volume.clone();
    assert_eq!(word(&volume, 0), 120);
}
