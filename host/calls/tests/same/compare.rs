//! One call, made twice: compiled on lent memory, and by the reference model on a copy.

use crate::compiled::fill;
use crate::lent::Lent;
use reference::layout::ROOT;
use reference::{judge, map, Answer, Call, Refusal, FENCE};
use samples::{
    any_call, any_calls, any_name, any_number, clean, create_folder, create_in, link_in,
    marked_list, name_of, rename_in, set_size, unlink_in, write, Random, NOWHERE,
};
use std::collections::BTreeMap;
use std::fmt::Arguments;

/// Stands for "done, with nothing to change" among the numbers of answers.
pub const NOTHING: u64 = 99;

/// How often each call gave each answer: by the call's name and the refusal's number, 0 for done.
#[derive(Debug, Default)]
pub struct Counts(BTreeMap<(&'static str, u64), u64>);

impl Counts {
    fn count(&mut self, call: &'static str, answer: Answer) {
        let number = answer.err().map_or(0, |refusal| refusal.number());
        *self.0.entry((call, number)).or_default() += 1;
    }

    fn count_nothing(&mut self, call: &'static str) {
        *self.0.entry((call, NOTHING)).or_default() += 1;
    }

    /// Checks that each of these calls gave each of these answers, `times` at least.
    #[track_caller]
    pub fn reached(&self, calls: &[&'static str], numbers: &[u64], times: u64) {
        for &call in calls {
            for &number in numbers {
                let found = self.0.get(&(call, number)).copied().unwrap_or(0);
                assert!(found >= times, "{call} {number}: {found} times; {self:?}");
            }
        }
    }
}

/// The calls that read a volume.
pub const READINGS: [&str; 7] = [
    "find",
    "size",
    "read",
    "kth_name",
    "total",
    "free_count",
    "gaps",
];

/// The calls that fill a store list.
pub const CHANGES: [&str; 9] = [
    "create",
    "create_folder",
    "link",
    "unlink",
    "rename",
    "write",
    "set_size",
    "clean",
    "recover",
];

/// The longest volume, in bytes, and the most stretches for which gaps is compared with lists of every length.
const SMALL: usize = 300 * 512;
const FEW: u64 = 40;

/// A volume on which calls are compared. It may hold anything.
pub struct Compared<'a> {
    bytes: &'a [u8],
    volume: Lent<u8>,
    counts: &'a mut Counts,
    last: Option<Answer>,
    title: String,
    refused: Option<Refusal>,
}

impl<'a> Compared<'a> {
    /// Lends these bytes to the compiled calls, from `shift` bytes into a word on.
    pub fn new(bytes: &'a [u8], shift: usize, counts: &'a mut Counts) -> Compared<'a> {
        let volume = Lent::new(bytes, shift);
        Compared {
            bytes,
            volume,
            counts,
            last: None,
            title: String::new(),
            refused: None,
        }
    }

    /// The same volume, on which every call must be refused so.
    pub fn refused(self, refusal: Refusal) -> Compared<'a> {
        let refused = Some(refusal);
        Compared { refused, ..self }
    }

    /// The same volume with a title, which begins the message where a call is wrong.
    pub fn titled(self, title: String) -> Compared<'a> {
        Compared { title, ..self }
    }

    /// The title, for a message.
    pub fn title(&self) -> &str {
        &self.title
    }

    /// What the last call answered, compiled and by the model.
    pub fn answer(&self) -> Answer {
        self.last.expect("a call was made")
    }

    /// Checks an answer, and that a call left the volume as it was.
    #[track_caller]
    fn same(
        &mut self,
        call: &'static str,
        arguments: Arguments<'_>,
        compiled: Answer,
        expected: Answer,
    ) {
        let title = &self.title;
        assert_eq!(compiled, expected, "{title}{call}({arguments})");
        if let Some(refusal) = self.refused {
            assert_eq!(compiled, Err(refusal), "{title}{call}({arguments})");
        }
        let unchanged = self.volume.holds(self.bytes);
        assert!(unchanged, "{title}{call} changed the volume");
        self.counts.count(call, expected);
        self.last = Some(expected);
    }

    /// Find, in a folder.
    pub fn find(&mut self, folder: u64, name: &[u8]) {
        let lent = Lent::new(name, name.len() % 8);
        let compiled = calls::find(self.volume.slice(), folder, lent.slice());
        let expected = reference::find(self.bytes, folder, name);
        let arguments = format_args!("{folder}, {name:?}");
        self.same("find", arguments, compiled, expected);
        assert!(lent.holds(name), "find changed the name");
    }

    /// Size.
    pub fn size(&mut self, inode: u64) {
        let compiled = calls::size(self.volume.slice(), inode);
        let expected = reference::size(self.bytes, inode);
        self.same("size", format_args!("{inode}"), compiled, expected);
    }

    /// Total of a folder.
    pub fn total(&mut self, folder: u64) {
        let compiled = calls::total(self.volume.slice(), folder);
        let expected = reference::total(self.bytes, folder);
        self.same("total", format_args!("{folder}"), compiled, expected);
    }

    /// Count of free pages.
    pub fn free_count(&mut self) {
        let compiled = calls::free_count(self.volume.slice());
        let expected = reference::free_count(self.bytes);
        self.same("free_count", format_args!(""), compiled, expected);
    }

    /// Gaps, with lists of every length in words from none to two pairs more than needed; of a few lengths where
    /// stretches are many or the volume is large, and where the volume is refused.
    pub fn gaps(&mut self) {
        let lengths = match reference::gaps(self.bytes, &mut [0; 4_096]) {
            Ok(count) if count <= FEW && self.bytes.len() <= SMALL => (0..=2 * count + 4).collect(),
            Ok(count) => {
                let needed = 2 * count;
                let mut few = vec![0, 1];
                few.extend(needed.saturating_sub(2)..=needed + 2);
                few
            }
            Err(_) => vec![0, 3],
        };
        for words in lengths {
            self.gaps_into(words);
        }
    }

    /// Gaps, into a list of so many words.
    pub fn gaps_into(&mut self, words: u64) {
        let before = marked_list(words);
        let mut lent = Lent::new(&before, 0);
        let mut copy = before;
        let compiled = calls::gaps(self.volume.slice(), lent.slice_mut());
        let expected = reference::gaps(self.bytes, &mut copy);
        self.same("gaps", format_args!("{words} words"), compiled, expected);
        assert!(lent.holds(&copy), "gaps({words} words) left other words");
    }

    /// Read, into a buffer that holds these bytes.
    pub fn read(&mut self, inode: u64, offset: u64, buffer: &[u8]) {
        let mut lent = Lent::new(buffer, buffer.len() % 8);
        let mut copy = buffer.to_vec();
        let compiled = calls::read(self.volume.slice(), inode, offset, lent.slice_mut());
        let expected = reference::read(self.bytes, inode, offset, &mut copy);
        let arguments = format!("{inode}, {offset}, {} bytes", buffer.len());
        self.same("read", format_args!("{arguments}"), compiled, expected);
        assert!(lent.holds(&copy), "read({arguments}) left other bytes");
    }

    /// K-th name of a folder, into a buffer that holds these bytes.
    pub fn kth_name(&mut self, folder: u64, k: u64, buffer: &[u8]) {
        let mut lent = Lent::new(buffer, buffer.len() % 8);
        let mut copy = buffer.to_vec();
        let compiled = calls::kth_name(self.volume.slice(), folder, k, lent.slice_mut());
        let expected = reference::kth_name(self.bytes, folder, k, &mut copy);
        let arguments = format!("{folder}, {k}, {} bytes", buffer.len());
        self.same("kth_name", format_args!("{arguments}"), compiled, expected);
        assert!(lent.holds(&copy), "kth_name({arguments}) left other bytes");
    }

    /// A changing call, with a list of so many words; answers the filled part.
    pub fn change(&mut self, call: &Call, words: u64) -> Vec<u64> {
        let arguments = call.clone();
        let before: Vec<u64> = (0..words).map(|index| index ^ 0x5A5A << 40).collect();
        let mut lent = Lent::new(&before, 0);
        let mut copy = before;
        let compiled = fill(call, self.volume.slice(), lent.slice_mut());
        let expected = call.fill(self.bytes, &mut copy);
        let name = name_of(call);
        self.same(
            name,
            format_args!("{call:?}, {words} words"),
            compiled,
            expected,
        );
        assert!(lent.holds(&copy), "{call:?} left other words");
        assert_eq!(*call, arguments, "the call changed its arguments");
        if expected == Ok(0) {
            self.counts.count_nothing(name);
        }
        copy.truncate(expected.unwrap_or(0) as usize);
        copy
    }

    /// Format, on a copy of the volume.
    pub fn format(&mut self, pages: u64, inodes: u64) {
        let mut lent = Lent::new(self.bytes, pages as usize % 8);
        let mut copy = self.bytes.to_vec();
        let compiled = calls::format(lent.slice_mut(), pages, inodes).map(|()| 0);
        let expected = reference::format(&mut copy, pages, inodes).map(|()| 0);
        let arguments = format!("{pages}, {inodes}");
        self.same("format", format_args!("{arguments}"), compiled, expected);
        assert!(lent.holds(&copy), "format({arguments}) left other bytes");
    }

    /// Carry out, on a copy of the volume; answers what it then holds.
    pub fn carry_out(&mut self, list: &[u64], count: u64) -> Vec<u8> {
        let mut lent = Lent::new(self.bytes, list.len() % 8);
        let words = Lent::new(list, 0);
        let mut copy = self.bytes.to_vec();
        let compiled = calls::carry_out(lent.slice_mut(), words.slice(), count).map(|()| 0);
        let expected = reference::carry_out(&mut copy, list, count).map(|()| 0);
        let arguments = format!("{} words, {count}", list.len());
        self.same("carry_out", format_args!("{arguments}"), compiled, expected);
        assert!(words.holds(list), "carry_out({arguments}) changed the list");
        assert!(lent.holds(&copy), "carry_out({arguments}) left other bytes");
        copy
    }
}

/// Makes every call on a volume, the changing calls on one volume in three: some about what stands there and some
/// with any arguments.
pub fn compare_all(random: &mut Random, bytes: &[u8], counts: &mut Counts) {
    compare_readings(random, bytes, counts);
    if random.once_in(3) {
        compare_changes(random, bytes, counts);
    }
    let mut compared = Compared::new(bytes, 0, counts);
    let pages = bytes.len() as u64 / 512;
    compared.format(pages, 8 * random.between(1, 32));
    compared.format(any_number(random), any_number(random));
    let list = any_list(random, bytes.len() as u64 / 8);
    let count = match random.below(4) {
        0 => any_number(random),
        1 => random.below(list.len() as u64 + 2),
        _ => list.len() as u64,
    };
    compared.carry_out(&list, count);
}

/// Makes every kind of call on a volume, about these names in these folders.
pub fn every_kind(compared: &mut Compared<'_>, folders: &[u64], names: &[&[u8]]) {
    compared.free_count();
    compared.gaps_into(0);
    for number in [0, 1, 224] {
        compared.kth_name(0, number, &[0x55; 33]);
        compared.size(number);
    }
    compared.read(1, 0, &[0x55; 9]);
    let mut calls = vec![set_size(1, 3), write(1, 0, b"x"), Call::Recover];
    for &folder in folders {
        compared.kth_name(folder, 0, &[0x55; 33]);
        compared.total(folder);
        calls.push(clean(folder));
        for name in names {
            compared.find(folder, name);
            calls.extend([create_in(folder, name), create_folder(folder, name)]);
            calls.extend([unlink_in(folder, name), link_in(folder, name, 0, NOWHERE)]);
            calls.extend([
                rename_in(folder, name, 0, NOWHERE),
                rename_in(0, name, folder, NOWHERE),
            ]);
        }
    }
    for call in &calls {
        compared.change(call, 4_096);
    }
}

/// Makes every changing call on a volume: some with any arguments, and of an accepted one some about what
/// stands there.
pub fn compare_changes(random: &mut Random, bytes: &[u8], counts: &mut Counts) {
    let mut compared = Compared::new(bytes, random.below(8) as usize, counts);
    for call in any_calls(random) {
        compared.change(&call, any_room(random));
    }
    if let Ok(judged) = judge(bytes) {
        let (inodes, map) = (judged.sizes.inodes(), map(&judged));
        for _ in 0..6 {
            let call = any_call(random, inodes, &map);
            compared.change(&call, any_room(random));
        }
    }
}

/// How many words a lent list has: mostly enough.
fn any_room(random: &mut Random) -> u64 {
    match random.below(24) {
        0 => 4_095,
        1 => random.below(4_096),
        2..=4 => random.between(4_097, 4_200),
        _ => 4_096,
    }
}

/// Makes every reading call on a volume.
pub fn compare_readings(random: &mut Random, bytes: &[u8], counts: &mut Counts) {
    let mut compared = Compared::new(bytes, random.below(8) as usize, counts);
    compared.free_count();
    compared.gaps();
    compared.find(any_folder(random), &any_name(random));
    compared.size(any_number(random));
    compared.size(random.below(10));
    compared.total(any_folder(random));
    let buffer = any_buffer(random);
    compared.read(any_number(random), any_number(random), &buffer);
    compared.read(random.below(10), random.below(2_000), &buffer);
    compared.kth_name(any_folder(random), any_number(random), &buffer);
    let shorter = random.bytes(40);
    let shorter = &shorter[..random.between(28, 40) as usize];
    compared.kth_name(any_folder(random), random.below(3), shorter);
    if let Ok(judged) = judge(bytes) {
        let folders: Vec<_> = judged.folders.iter().collect();
        let (&folder, names) = random.choose(&folders).expect("inode 0 is a folder");
        compared.total(folder);
        if let Some((name, inode)) = random.choose(names) {
            compared.find(folder, name);
            compared.find(folder, &altered(random, name));
            compared.size(*inode);
            compared.total(*inode);
        }
        compared.kth_name(folder, random.below(names.len() as u64 + 1), &buffer);
        let files: Vec<(&u64, u64)> = judged
            .files
            .iter()
            .map(|(k, file)| (k, file.size))
            .collect();
        if let Some((inode, size)) = random.choose(&files) {
            compared.read(**inode, any_offset(random, *size), &buffer);
            compared.read(**inode, any_offset(random, *size), &buffer);
        }
    }
}

/// An inode given as folder: every second time inode 0.
fn any_folder(random: &mut Random) -> u64 {
    match random.below(8) {
        0 => any_number(random),
        1..=3 => random.below(10),
        _ => ROOT,
    }
}

/// A buffer's bytes; often near the limits of a name or a page.
fn any_buffer(random: &mut Random) -> Vec<u8> {
    let length = match random.below(8) {
        0 => random.below(70_000),
        1 | 2 => random.between(30, 34),
        3 => random.between(510, 514),
        _ => random.below(1_200),
    };
    random.bytes(length as usize)
}

/// A name that is nearly another: one byte changed, taken away or added.
fn altered(random: &mut Random, name: &[u8]) -> Vec<u8> {
    let mut name = name.to_vec();
    let place = random.below(name.len() as u64) as usize;
    match random.below(3) {
        0 => name[place] ^= 1 << random.below(8),
        1 => name.truncate(place),
        _ => name.push(b'x'),
    }
    name
}

/// An offset in a file of this size or around it.
fn any_offset(random: &mut Random, size: u64) -> u64 {
    let near = match random.below(5) {
        0 => return any_number(random),
        1 => 0,
        2 => size,
        3 => 512 * random.below(size / 512 + 1),
        _ => random.below(size + 1),
    };
    (near + random.below(5)).saturating_sub(2)
}

/// A list for carry out on a volume of so many words: often a store list, often nearly one.
pub fn any_list(random: &mut Random, words: u64) -> Vec<u64> {
    let wrong = random.once_in(2);
    let mut list = Vec::new();
    for _ in 0..random.below(9) {
        let index = match random.below(12) {
            0 if wrong => any_number(random),
            1 if wrong => words,
            2 => words.saturating_sub(1),
            3 | 4 => FENCE,
            5 => random.below(140),
            _ => random.below(words),
        };
        let value = match index {
            FENCE if wrong && random.once_in(4) => any_number(random),
            FENCE => 0,
            _ => any_number(random),
        };
        list.extend([index, value]);
    }
    if !(wrong && random.once_in(3)) {
        list.extend([FENCE, 0]);
    }
    if wrong && random.once_in(6) {
        list.pop();
    }
    list
}
