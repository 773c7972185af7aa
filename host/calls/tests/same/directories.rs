//! Logs of a directory at the limits of an index of names, and names that an index could take for one another.
//!
//! Each log says which names it leaves, so that what is compared is also what document 01 says.

use crate::compare::{every_kind, Compared, Counts};
use reference::layout::{set_word, valid_word};
use reference::{judge, land, Call, Refusal};
use samples::{
    added_again, added_and_removed, clean, create, home, largest_log, link, names_one_byte_apart,
    names_with_homes, nearly_same_names, rename, size_of, unlink, varied_name, varied_names,
    DirectoryLog, MOST_DIFFERENT, MOST_ENTRIES, NOWHERE,
};
use std::collections::HashSet;
use std::fmt::Display;

/// Names in list order, each with its inode.
type Names = Vec<(Vec<u8>, u64)>;

/// The names in inode 0 of a volume by the model.
fn names_in(volume: &[u8]) -> Result<Names, Refusal> {
    let named = |&(name, inode): &(&[u8], u64)| (name.to_vec(), inode);
    judge(volume).map(|judged| judged.folders[&0].iter().map(named).collect())
}

/// All of these, unless they are many or the log is long, so that each call takes milliseconds: then the first two, the
/// last two and one between.
fn some_of<T: Clone>(log: &DirectoryLog, all: &[T]) -> Vec<T> {
    let few = log.length() > 1_500 || all.len() > 224;
    match all {
        [first, second, between @ .., before_last, last] if few => {
            let ends = [first, second, before_last, last].map(T::clone);
            let middle = between.get(between.len() / 2).cloned();
            ends.into_iter().chain(middle).collect()
        }
        _ => all.to_vec(),
    }
}

/// Pages for a log, its files, a clean log of 224 names and some more.
fn roomy(log: &DirectoryLog) -> u64 {
    log.pages() + 45
}

/// Logs on which calls are compared: how often they gave each answer, and names that no log of theirs adds.
struct Logs {
    counts: Counts,
    never: Vec<Vec<u8>>,
}

impl Logs {
    /// For logs that add no name of "~" alone.
    fn new() -> Logs {
        Logs::without(&[1, 8, 9, 32].map(|length| vec![b'~'; length]))
    }

    /// For logs that add none of these names.
    fn without(never: &[Vec<u8>]) -> Logs {
        Logs {
            counts: Counts::default(),
            never: never.to_vec(),
        }
    }

    /// Compares calls on a volume with this log and pages to spare, which must be accepted.
    fn accepted(&mut self, title: impl Display, log: &DirectoryLog) {
        self.accepted_on(roomy(log), title, log);
    }

    /// The same on a volume of so many pages: calls about names that stand, that are gone and that never stood.
    /// Checks each answer against the names that the log leaves.
    fn accepted_on(&mut self, pages: u64, title: impl Display, log: &DirectoryLog) {
        println!("{title}, {pages} pages"); // shown where the test fails
        let volume = log.volume(pages);
        let names = log.standing();
        assert_eq!(names_in(&volume), Ok(names.clone()));
        self.compare_names(log, &volume, &names);
        self.compare_files(log, &volume);
        for (call, after) in changes(log, pages, &names, &self.never[0]) {
            self.compare_change(&volume, &call, &after);
        }
    }

    /// Find and k-th name, with the answers that these names give.
    fn compare_names(&mut self, log: &DirectoryLog, volume: &[u8], names: &Names) {
        let mut compared = Compared::new(volume, log.length() % 8, &mut self.counts);
        for (name, inode) in some_of(log, names) {
            compared.find(0, &name);
            assert_eq!(compared.answer(), Ok(inode), "{name:?}");
        }
        for name in some_of(log, &log.gone()).iter().chain(&self.never) {
            compared.find(0, name);
            assert_eq!(compared.answer(), Err(Refusal::NotThere), "{name:?}");
        }
        let lengths = names.iter().map(|name| name.0.len() as u64);
        let lengths: Vec<(u64, u64)> = (0..).zip(lengths).collect();
        for (k, length) in some_of(log, &lengths) {
            compared.kth_name(0, k, &[0x55; 33]);
            assert_eq!(compared.answer(), Ok(length), "name {k}");
        }
        let count = names.len() as u64;
        for k in [count, count + 1, u64::MAX] {
            compared.kth_name(0, k, &[0x55; 33]);
            assert_eq!(compared.answer(), Err(Refusal::NotThere), "name {k}");
        }
    }

    /// Count of free pages, gaps, size and recover.
    fn compare_files(&mut self, log: &DirectoryLog, volume: &[u8]) {
        let pages = volume.len() as u64 / 512;
        let mut compared = Compared::new(volume, 0, &mut self.counts);
        compared.free_count();
        assert_eq!(compared.answer(), Ok(log.free_pages(pages)));
        compared.gaps();
        let files = log.files();
        for inode in [0, 1, 2, 5, 6, 8] {
            let size = match files.contains(&inode) {
                true if log.has_file_logs(pages) => Ok(size_of(inode)),
                true => Ok(0),
                false => Err(Refusal::NotThere),
            };
            compared.size(inode);
            assert_eq!(compared.answer(), size, "inode {inode}");
        }
        compared.change(&Call::Recover, 4_096);
        assert_eq!(compared.answer(), Ok(0));
    }

    /// Makes a call that must be refused or leave these names, and asks for the last once its list has landed.
    fn compare_change(&mut self, volume: &[u8], call: &Call, after: &Result<Names, Refusal>) {
        let mut compared = Compared::new(volume, 0, &mut self.counts);
        let list = compared.change(call, 4_096);
        let names = match after {
            Ok(names) => names,
            Err(refusal) => return assert_eq!(compared.answer(), Err(*refusal), "{call:?}"),
        };
        assert_eq!(compared.answer(), Ok(list.len() as u64), "{call:?}");
        let mut landed = volume.to_vec();
        land(&mut landed, &list);
        assert_eq!(names_in(&landed).as_ref(), Ok(names), "{call:?}");
        let mut compared = Compared::new(&landed, 0, &mut self.counts);
        compared.kth_name(0, names.len() as u64, &[0x55; 33]);
        assert_eq!(compared.answer(), Err(Refusal::NotThere), "{call:?}");
        if let Some((name, inode)) = names.last() {
            compared.find(0, name);
            assert_eq!(compared.answer(), Ok(*inode), "{call:?}");
            compared.kth_name(0, names.len() as u64 - 1, &[0x55; 33]);
            assert_eq!(compared.answer(), Ok(name.len() as u64), "{call:?}");
        }
    }

    /// Makes every kind of call on a volume that must be damaged, about these names.
    fn damaged(&mut self, title: impl Display, volume: &[u8], names: &[&[u8]]) {
        let compared = Compared::new(volume, 0, &mut self.counts);
        let mut compared = compared
            .titled(format!("{title}: "))
            .refused(Refusal::Damaged);
        every_kind(&mut compared, &[0], names);
    }
}

/// Calls that change the names on a volume of so many pages with this log, each with the names afterwards or the
/// refusal. `names` are those that stand, `never` is one that never stood.
fn changes(
    log: &DirectoryLog,
    pages: u64,
    names: &Names,
    never: &[u8],
) -> Vec<(Call, Result<Names, Refusal>)> {
    let free = log.free_pages(pages);
    let left_in_page = (7 - log.length() % 7) % 7;
    let room = |entries: usize, after: Names| match free > 0 || entries <= left_in_page {
        true => Ok(after),
        false => Err(Refusal::NoSpace),
    };
    // create and link keep one page back
    let one_more = |name: &[u8], inode: u64| match names.len() < 224 {
        true if left_in_page == 0 && free == 1 => Err(Refusal::LastPage),
        true => room(1, with(names, name, inode)),
        false => Err(Refusal::DirectoryFull),
    };
    let cleaned = match log.length() == 0 || free >= names.len().div_ceil(7) as u64 {
        true => Ok(names.clone()),
        false => Err(Refusal::NoSpace),
    };
    let files = log.files();
    let fresh = (1..8).find(|inode| !files.contains(inode));
    let fresh = fresh.expect("inodes 6 and 7 are left");
    let gone = log.gone();
    let mut calls = vec![
        (create(never), one_more(never, fresh)),
        (unlink(never), Err(Refusal::NotThere)),
        (link(never, NOWHERE), Err(Refusal::NotThere)),
        (clean(0), cleaned),
    ];
    for name in gone.first().into_iter().chain(gone.last()) {
        calls.extend([
            (create(name), one_more(name, fresh)),
            (unlink(name), Err(Refusal::NotThere)),
            (rename(name, never), Err(Refusal::NotThere)),
        ]);
    }
    if let (Some((first, inode)), Some((last, last_inode))) = (names.first(), names.last()) {
        let rest = without(names, first);
        let over = match inode == last_inode {
            true => Ok(names.clone()),
            false => room(2, with(&without(&rest, last), first, *last_inode)),
        };
        calls.extend([
            (create(first), Err(Refusal::Taken)),
            (link(last, first), Err(Refusal::Taken)),
            (link(first, never), one_more(never, *inode)),
            (unlink(first), room(1, rest.clone())),
            (unlink(last), room(1, without(names, last))),
            (rename(first, never), room(2, with(&rest, never, *inode))),
            (rename(first, first), Ok(names.clone())),
            (rename(last, first), over),
        ]);
        if let Some(name) = gone.last() {
            calls.push((rename(first, name), room(2, with(&rest, name, *inode))));
        }
    }
    calls
}

/// These names and one more behind them.
fn with(names: &Names, name: &[u8], inode: u64) -> Names {
    [&names[..], &[(name.to_vec(), inode)]].concat()
}

/// These names but for one.
fn without(names: &Names, name: &[u8]) -> Names {
    let others = names.iter().filter(|other| other.0 != name);
    others.cloned().collect()
}

/// What the samples are made of: names that are all different and of all lengths, homes where they are said to be, and
/// counts as document 01's limits give them.
#[test]
fn names_and_counts_of_the_samples() {
    let names = varied_names(0..MOST_ENTRIES);
    let lengths: HashSet<usize> = names.iter().map(Vec::len).collect();
    assert_eq!(lengths, (1..=32).collect());
    for names in [names, nearly_same_names(), names_one_byte_apart()] {
        assert_eq!(names.iter().collect::<HashSet<_>>().len(), names.len());
    }
    for name in names_with_homes(256, 255..256, 20) {
        assert!(home(&name, 256) == 255 && home(&name, 16_384) >= 16_320);
    }
    let apart = names_one_byte_apart();
    for (name, place) in apart[1..].iter().zip(0..) {
        let differs = |&at: &usize| name[at] != apart[0][at];
        assert_eq!((0..32).filter(differs).collect::<Vec<_>>(), [place]);
    }
    assert_eq!((MOST_ENTRIES, MOST_DIFFERENT), (28_658, 14_441));
}

/// As many different names as the log of an accepted volume can add, and one less: the log goes through every page.
#[test]
fn the_most_different_names() {
    let mut logs = Logs::new();
    for (different, length) in [(14_440, 28_656), (14_441, 28_658)] {
        for in_pairs in [true, false] {
            let log = largest_log(different, in_pairs);
            assert_eq!(
                (log.different(), log.length()),
                (different as usize, length)
            );
            assert_eq!(log.standing().len(), 224);
            let title = format!("{different} names, in pairs: {in_pairs}");
            logs.accepted_on(4_096, title, &log);
        }
    }
    logs.counts.reached(&["unlink", "rename"], &[0, 12], 2);
    logs.counts.reached(&["create", "link"], &[11], 4);
    logs.counts.reached(&["clean"], &[12], 4);
}

/// More different names than a log can add and take back, so that more than 224 stand: among them 14,448, the most that
/// the large index holds, and 14,449. Once with the files that the names lead to and once with none, as if no name stood.
/// Then the most different names with the last remove left off.
#[test]
fn more_different_names() {
    let mut logs = Logs::new();
    let rows = [
        (14_442, 226),
        (14_448, 238),
        (14_449, 240),
        (28_658, 28_658),
    ];
    for (different, standing) in rows {
        for in_pairs in [true, false] {
            let log = largest_log(different, in_pairs);
            assert_eq!(
                (log.different() as u64, log.length() as u64),
                (different, MOST_ENTRIES)
            );
            assert_eq!(log.standing().len(), standing);
            let mut volume = log.volume(4_096);
            let (first, last) = (varied_name(0), varied_name(different - 1));
            let title = format!("{different} names, in pairs: {in_pairs}");
            logs.damaged(&title, &volume, &[&first, &last]);
            for inode in 1..8 {
                set_word(&mut volume, valid_word(inode), 0);
            }
            logs.damaged(title, &volume, &[&first]);
        }
    }
    let log = largest_log(MOST_DIFFERENT, false);
    let log = log.beginning(log.length() - 1);
    assert_eq!(log.standing().len(), 225);
    logs.damaged("no last remove", &log.volume(4_096), &[&varied_name(0)]);
}

/// Removes take no place in an index of names, however many names they have that never stood.
#[test]
fn removes_of_names_that_never_stood() {
    let mut logs = Logs::new();
    let names = varied_names(0..224);
    let others = varied_names(1_000..1_000 + MOST_ENTRIES - 224);
    logs.never.extend_from_slice(&others[..3]);
    let mut before = DirectoryLog::default();
    before.remove_each(&others);
    before.add_each(&names);
    let mut behind = DirectoryLog::of_adds(&names[..192]);
    behind.remove_each(&others);
    for (title, log) in [("before", before), ("behind", behind)] {
        assert_eq!(log.standing().len(), log.different());
        logs.accepted_on(4_096, title, &log);
    }
    for count in [3, 192, 193, 224] {
        let mut log = DirectoryLog::default();
        log.remove_each(&names[..count]);
        log.remove_each(&others[..300]);
        log.add_each(&names[..count]);
        log.remove_each(&others[300..600]);
        assert_eq!(log.standing().len(), count);
        logs.accepted(format_args!("{count} names"), &log);
    }
}

/// Every name removed and added again: all in the same order, all in reverse order, one by one, and without a remove
/// between. What counts is the last add, with its inode and its place in the list.
#[test]
fn names_added_again() {
    let mut logs = Logs::new();
    for count in [3, 192, 193, 224] {
        let names = varied_names(7..7 + count);
        let mut one_by_one = DirectoryLog::of_adds(&names);
        for name in &names {
            one_by_one.remove(name);
            one_by_one.add(name);
        }
        let mut no_remove = DirectoryLog::of_adds(&names);
        no_remove.add_each(names.iter().rev());
        for (title, log, reverse) in [
            ("same order", added_again(&names, false), false),
            ("reverse order", added_again(&names, true), true),
            ("one by one", one_by_one, false),
            ("without a remove", no_remove, true),
        ] {
            let mut listed: Vec<Vec<u8>> = log.standing().into_iter().map(|name| name.0).collect();
            if reverse {
                listed.reverse();
            }
            assert_eq!(listed, names);
            logs.accepted(format_args!("{count} names, {title}"), &log);
        }
    }
    logs.counts.reached(&["find", "kth_name"], &[0, 6], 60);
    logs.counts.reached(&["create", "link"], &[0, 11], 4);
}

/// The same with thousands of names, all removed in the end but 224: the last ones, or the first ones.
#[test]
fn thousands_of_names_added_again() {
    let mut logs = Logs::new();
    let names = varied_names(0..7_002);
    for (reverse, going) in [(false, &names[..6_778]), (true, &names[224..])] {
        let mut log = added_again(&names, reverse);
        log.remove_each(going);
        assert_eq!((log.different(), log.standing().len()), (7_002, 224));
        logs.accepted_on(4_096, format_args!("reverse: {reverse}"), &log);
    }
}

/// Every beginning of a log in which three names come and go.
#[test]
fn every_beginning_of_a_log() {
    let mut logs = Logs::new();
    let names = [b"a".to_vec(), b"ab".to_vec(), vec![b'a'; 32]];
    for reverse in [false, true] {
        let mut log = added_again(&names, reverse);
        log.remove_each(names.iter().rev());
        log.add_each(&names);
        for length in 0..=log.length() {
            let title = format!("{length} entries, reverse: {reverse}");
            logs.accepted(title, &log.beginning(length));
        }
    }
    logs.counts.reached(&["find", "unlink"], &[0, 6], 20);
    logs.counts
        .reached(&["create", "link", "rename", "clean"], &[0], 20);
}

/// One name added and removed many times; it stands in the end, or not.
#[test]
fn one_name_many_times() {
    let mut logs = Logs::new();
    for name in [&b"a"[..], &[b'a'; 32]] {
        for times in [2, 100, 500] {
            let mut log = DirectoryLog::of_adds(&[b"b".to_vec()]);
            for _ in 0..times {
                log.add(name);
                log.remove(name);
            }
            assert_eq!(log.standing(), [(b"b".to_vec(), 1)]);
            logs.accepted(format_args!("{times} times"), &log);
            log.add(name);
            assert_eq!(log.standing()[1].0, name);
            logs.accepted(format_args!("{times} times and once more"), &log);
        }
    }
}

/// Few names many times, in logs through every page: one name added and removed, and 3, 192, 193 and 224 names only
/// added, which is more adds than the large index holds names.
#[test]
fn few_names_through_every_page() {
    let mut logs = Logs::new();
    let mut log = DirectoryLog::default();
    for _ in 0..MOST_ENTRIES / 2 {
        log.add(b"a");
        log.remove(b"a");
    }
    assert_eq!((log.different(), log.standing().len()), (1, 0));
    logs.accepted_on(4_096, "none", &log);
    let log = log.beginning(log.length() - 1);
    assert_eq!(log.standing().len(), 1);
    logs.accepted_on(4_096, "one", &log);
    for count in [3, 192, 193, 224] {
        let names = varied_names(0..count as u64);
        let mut log = DirectoryLog::default();
        log.add_each(names.iter().cycle().take(MOST_ENTRIES as usize));
        assert_eq!((log.different(), log.standing().len()), (count, count));
        logs.accepted_on(4_096, format_args!("{count} names"), &log);
    }
}

/// A remove of a name that does not stand takes nothing out, and an add of a name that stands puts it at the list's end
/// with the new inode; document 01 accepts both.
#[test]
fn removes_of_none_and_adds_of_standing_names() {
    let mut logs = Logs::new();
    type Row = (&'static [&'static str], &'static [(&'static [u8], u64)]);
    let rows: [Row; 8] = [
        (&["-a"], &[]),
        (&["+a", "-b"], &[(b"a", 1)]),
        (&["+a", "-a", "-a"], &[]),
        (&["-a", "+a"], &[(b"a", 1)]),
        (&["+a", "+a"], &[(b"a", 2)]),
        (&["+a", "+a", "-a"], &[]),
        (&["+a", "+b", "+a"], &[(b"b", 2), (b"a", 3)]),
        (&["+a", "+b", "-a", "-a", "+a"], &[(b"b", 2), (b"a", 3)]),
    ];
    for (entries, names) in rows {
        let mut log = DirectoryLog::default();
        for entry in entries {
            match entry.split_at(1) {
                ("+", name) => log.add(name.as_bytes()),
                (_, name) => log.remove(name.as_bytes()),
            }
        }
        let standing = log.standing();
        let standing: Vec<(&[u8], u64)> = standing.iter().map(|(n, i)| (&n[..], *i)).collect();
        assert_eq!(standing, names);
        logs.accepted(format_args!("{entries:?}"), &log);
    }
}

/// A name that comes, goes and comes again at the log's very end, which is at every place of a page; with few names
/// before it, and with more than the small index holds.
#[test]
fn a_name_at_the_end_of_the_log() {
    let mut logs = Logs::new();
    for count in (0..8).chain(193..201) {
        let mut log = DirectoryLog::of_adds(&varied_names(0..count));
        for stands in [true, false, true] {
            match stands {
                true => log.add(b"the last"),
                false => log.remove(b"the last"),
            }
            let last = log.standing().pop().map(|name| name.0);
            assert_eq!(last == Some(b"the last".to_vec()), stands);
            logs.accepted(format_args!("{count} names, then {stands}"), &log);
        }
    }
}

/// As many different names as the small index holds, one less and one more: all standing or some removed, in logs that end
/// at a page's end or one entry behind it; and each with one more name in the last entry.
#[test]
fn as_many_names_as_the_small_index_holds() {
    let mut logs = Logs::new();
    for different in [191, 192, 193] {
        let names = varied_names(0..different as u64);
        for removed in [0, 1, different - 1, different] {
            let mut log = DirectoryLog::of_adds(&names);
            log.remove_each(&names[..removed]);
            let whole_pages = log.length().next_multiple_of(7);
            for length in [whole_pages, whole_pages + 1] {
                log.fill_up(length);
                assert_eq!((log.different(), log.length()), (different, length));
                assert_eq!(log.standing().len(), different - removed);
                let title = format!("{different} names, {removed} removed, {length} entries");
                logs.accepted(&title, &log);
                let mut one_more = log.clone();
                one_more.add(b"one more");
                assert_eq!(one_more.different(), different + 1);
                logs.accepted(format_args!("{title}, one more"), &one_more);
            }
        }
    }
    logs.counts.reached(&["find", "kth_name"], &[0, 6], 500);
}

/// 224 names and 225 behind a log of thousands of names that went: with one of 225 removed the volume is accepted, and
/// with that one added again it is not.
#[test]
fn full_directories_behind_long_logs() {
    let mut logs = Logs::new();
    let names = varied_names(0..2_225);
    let (going, staying) = names.split_at(2_000);
    let mut adds_first = DirectoryLog::of_adds(&names);
    adds_first.remove_each(going);
    let mut all_removed = DirectoryLog::of_adds(&names[1_000..]);
    all_removed.remove_each(&names[1_000..]);
    all_removed.add_each(staying);
    for (title, full) in [
        ("in pairs", added_and_removed(going, staying)),
        ("adds first", adds_first),
        ("all removed", all_removed),
        ("nothing before", DirectoryLog::of_adds(staying)),
    ] {
        assert_eq!(full.standing().len(), 225);
        let volume = full.volume(roomy(&full));
        logs.damaged(title, &volume, &[&names[0], &names[2_224], NOWHERE]);
        for name in [&names[2_000], &names[2_100], &names[2_224]] {
            let mut log = full.clone();
            log.remove(name);
            assert_eq!(log.standing().len(), 224);
            logs.accepted(title, &log);
            log.add(name);
            assert_eq!(log.standing().len(), 225);
            logs.damaged(title, &log.volume(roomy(&log)), &[name]);
        }
    }
    logs.counts.reached(&["create", "link"], &[3, 11], 12);
    let others = ["find", "unlink", "rename", "clean", "free_count", "size"];
    logs.counts.reached(&others, &[0, 3], 12);
}

/// Logs of names that share slots: all standing, every other one removed, all added again in reverse order, and names that
/// are never added removed before each add.
fn logs_of(names: &[Vec<u8>], never: &[Vec<u8>]) -> [DirectoryLog; 4] {
    let mut halved = DirectoryLog::of_adds(names);
    halved.remove_each(names.iter().step_by(2));
    let mut between = DirectoryLog::default();
    for (name, other) in names.iter().zip(never.iter().cycle()) {
        between.remove(other);
        between.add(name);
    }
    let all = DirectoryLog::of_adds(names);
    [all, halved, added_again(names, true), between]
}

/// Names that are all looked up from the last slot of the small index on, so that the look-ups go around its end; also with
/// names of the first slot, which is then taken.
#[test]
fn names_with_one_home() {
    let of_last = names_with_homes(256, 255..256, 230);
    let of_first = names_with_homes(256, 0..1, 100);
    let (of_last, never) = of_last.split_at(224);
    let mut logs = Logs::without(never);
    let mixed = |last: usize| [&of_last[..last], &of_first[..192 - last]].concat();
    for names in [
        of_last[..1].to_vec(),
        of_last[..2].to_vec(),
        of_last[..192].to_vec(),
        of_last[..193].to_vec(),
        of_last.to_vec(),
        mixed(96),
        mixed(180),
        mixed(96).into_iter().rev().collect(),
    ] {
        for (log, number) in logs_of(&names, never).iter().zip(0..) {
            assert_eq!(log.different(), names.len());
            logs.accepted(format_args!("{} names, log {number}", names.len()), log);
        }
    }
    logs.counts.reached(&["find", "kth_name"], &[0, 6], 300);
}

/// Thousands of names that are looked up from the last 16 slots of the large index on, behind names of its first slots; 224
/// stand in the end, then 225.
#[test]
fn thousands_of_names_with_few_homes() {
    let names = names_with_homes(16_384, 16_368..16_384, 2_004);
    let (names, never) = names.split_at(2_000);
    let of_first = names_with_homes(16_384, 0..16, 100);
    let mut logs = Logs::without(never);
    let mut log = DirectoryLog::of_adds(&of_first);
    log.add_each(names);
    log.remove_each(never);
    log.remove_each(&of_first);
    log.remove_each(names.iter().rev().skip(112));
    log.add_each(&names[..112]);
    assert_eq!((log.different(), log.standing().len()), (2_100, 224));
    logs.accepted("224 names", &log);
    log.add(&names[112]);
    assert_eq!(log.standing().len(), 225);
    logs.damaged(
        "225 names",
        &log.volume(roomy(&log)),
        &[&names[0], &never[0]],
    );
}

/// Names that are nearly the same: each third is removed and some of these added again, then each fifth. Before them come
/// names that go: none, a few, and more than the small index holds. Those take the last slots of an index and go on around its
/// end, so that the names one byte apart come to stand behind them and are compared with the first.
#[test]
fn names_taken_for_one_another() {
    let (near, apart) = (nearly_same_names(), names_one_byte_apart());
    let altered = |name: &[u8], place: usize| {
        let mut name = name.to_vec();
        name[place] = b'+';
        name
    };
    let places = [0, 7, 8, 15, 16, 23, 24, 31].into_iter();
    let mut never: Vec<Vec<u8>> = places
        .flat_map(|place| [altered(&near[31], place), altered(&apart[0], place)])
        .collect();
    never.retain(|name| !apart.contains(name));
    let mut logs = Logs::without(&never);
    let going = names_with_homes(16_384, 15_872..15_904, 520);
    for names in [near, apart] {
        for count in [0, 12, 520] {
            let mut log = added_and_removed(&going[..count], &names);
            logs.accepted(format_args!("{count} before"), &log);
            for step in [3, 5] {
                log.remove_each(names.iter().step_by(step));
                logs.accepted(format_args!("{count} before, each {step}. removed"), &log);
                log.add_each(names.iter().step_by(2 * step));
                logs.accepted(format_args!("{count} before, each {step}. again"), &log);
            }
        }
    }
    logs.counts.reached(&["find", "kth_name"], &[0, 6], 90);
}

/// A word of an entry changed so that it is none: a length that is not the name's, a kind or an inode that a directory does not
/// have, a byte that no name has; in the first, a middle and the last entry, with as many names as the small index holds
/// and with more.
#[test]
fn entries_that_are_none() {
    let mut logs = Logs::new();
    let slash = u64::from_le_bytes(*b"a/b\0\0\0\0\0");
    for different in [3, 192, 193, 224] {
        let names = varied_names(100..100 + different);
        let mut log = DirectoryLog::of_adds(&names);
        log.remove(&names[1]);
        let good = log.volume(roomy(&log));
        assert_eq!(names_in(&good), Ok(log.standing()));
        for entry in [0, names.len() / 2, names.len()] {
            let length = names.get(entry).unwrap_or(&names[1]).len() as u64;
            let lengths = [0, length - 1, length + 1, 33, length + (1 << 32)];
            let mut changes: Vec<(u64, u64)> = lengths.map(|length| (2, length)).to_vec();
            changes.extend([0, 1, 2, 5, 3 + (1 << 32)].map(|kind| (0, kind)));
            changes.extend([(3, 0), (3, slash), (6, 1 << 56)]);
            if entry < names.len() {
                changes.extend([0, 8, 1 + (1 << 32), u64::MAX].map(|inode| (1, inode)));
            }
            for (word, value) in changes {
                let mut volume = good.clone();
                set_word(&mut volume, log.first_word(entry) + word, value);
                let title = format!("{different} names, entry {entry}, word {word} is {value}");
                logs.damaged(title, &volume, &[&names[0]]);
            }
        }
    }
}
