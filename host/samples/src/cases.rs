//! Cases A to M of document 01 as rows of one table, and a run of a row on any library of the calls.

use crate::by_hand::{formatted, numbered, text};
use crate::calls::{clean, create, marked_list, rename, set_size, unlink, write};
use reference::layout::word;
use reference::{cut, groups, Answer, Call, Refusal, Store};

/// Carry out: stores the first so many words of a list on a volume.
pub type CarryOut = fn(&mut [u8], &[u64], u64) -> Result<(), Refusal>;

/// The calls of a library that a row is run on.
pub struct Library {
    /// Makes a changing call: fills the list.
    pub fill: fn(&Call, &[u8], &mut [u64]) -> Answer,
    /// Carry out.
    pub carry_out: CarryOut,
    /// Find, in a folder.
    pub find: fn(&[u8], u64, &[u8]) -> Answer,
    /// Size.
    pub size: fn(&[u8], u64) -> Answer,
    /// Read.
    pub read: fn(&[u8], u64, u64, &mut [u8]) -> Answer,
    /// K-th name of a folder.
    pub kth_name: fn(&[u8], u64, u64, &mut [u8]) -> Answer,
    /// Total of a folder.
    pub total: fn(&[u8], u64) -> Answer,
    /// Count of free pages.
    pub free_count: fn(&[u8]) -> Answer,
    /// Gaps.
    pub gaps: fn(&[u8], &mut [u64]) -> Answer,
}

/// What comes before a row's call, on a volume just formatted with P = 16 and N = 8.
#[derive(Clone, Debug)]
pub enum Before {
    /// A call that is done and whose list is carried out.
    Done(Call),
    /// A call whose list is cut in this group (from 0); of its words these land.
    Cut(Call, usize, Vec<u64>),
}

/// A row: the call, and what document 01 says of it.
#[derive(Clone, Debug)]
pub struct Case {
    /// The letter, with a number where a case has several calls.
    pub name: &'static str,
    /// What comes before.
    pub before: Vec<Before>,
    /// The call.
    pub call: Call,
    /// The count of words filled, where the paper states it, or none for "done"; or the refusal's number.
    pub answer: Result<Option<u64>, u64>,
    /// The whole list in groups, where it is short; none else.
    pub groups: Vec<Vec<Store>>,
    /// Words of the volume once the list is carried out: the first index and the values from there on.
    pub words: Vec<(u64, Vec<u64>)>,
    /// The count of free pages then.
    pub free: u64,
    /// The names then, each with its inode and the file's bytes.
    pub names: Vec<(&'static [u8], u64, Vec<u8>)>,
}

/// Checks a row on a library: the list, the volume's words, and what the reading calls say.
pub fn check_case(library: &Library, case: &Case) {
    let mut volume = formatted(16, 8);
    for before in &case.before {
        match before {
            Before::Done(call) => {
                let list = filled_by(library, &volume, call).expect("the call before is done");
                let stored = (library.carry_out)(&mut volume, &list, list.len() as u64);
                assert_eq!(stored, Ok(()), "{}", case.name);
            }
            Before::Cut(call, group, landed) => {
                let list = filled_by(library, &volume, call).expect("the call before is done");
                cut(&mut volume, &list, *group, |index| landed.contains(&index));
                assert_eq!((library.free_count)(&volume), Err(Refusal::JournalOpen));
                assert_eq!((library.gaps)(&volume, &mut []), Err(Refusal::JournalOpen));
            }
        }
    }
    match (filled_by(library, &volume, &case.call), case.answer) {
        (Err(refusal), expected) => assert_eq!(Err(refusal.number()), expected, "{}", case.name),
        (Ok(list), Ok(count)) => {
            let length = list.len() as u64;
            assert_eq!(length, count.unwrap_or(length), "{}", case.name);
            if !case.groups.is_empty() {
                assert_eq!(groups(&list), case.groups, "{}", case.name);
            }
            let stored = (library.carry_out)(&mut volume, &list, length);
            assert_eq!(stored, Ok(()), "{}", case.name);
        }
        (Ok(list), expected) => panic!("{}: {} words, not {expected:?}", case.name, list.len()),
    }
    check_volume(library, case, &volume);
}

/// Fills a marked list with a call of the library; answers the filled part.
fn filled_by(library: &Library, volume: &[u8], call: &Call) -> Result<Vec<u64>, Refusal> {
    let before = marked_list(4_096);
    let mut list = before.clone();
    let answer = (library.fill)(call, volume, &mut list);
    let count = answer.unwrap_or(0) as usize;
    assert_eq!(list[count..], before[count..], "the rest keeps its content");
    list.truncate(count);
    answer.map(|_| list)
}

/// Checks the volume that a row leaves.
fn check_volume(library: &Library, case: &Case, volume: &[u8]) {
    let name = case.name;
    for (first, values) in &case.words {
        let found: Vec<u64> = (*first..)
            .take(values.len())
            .map(|index| word(volume, index))
            .collect();
        assert_eq!(found, *values, "{name}: words from {first} on");
    }
    assert_eq!((library.free_count)(volume), Ok(case.free), "{name}");
    let mut pairs = [0; 16];
    let count = (library.gaps)(volume, &mut pairs).expect("16 pages have at most 7 stretches");
    assert!(count <= case.free.min(7), "{name}");
    let lengths: u64 = pairs.chunks(2).map(|pair| pair[1]).sum();
    assert_eq!(lengths, case.free, "{name}: lengths of the gaps");
    for (k, (name, inode, bytes)) in case.names.iter().enumerate() {
        let mut padded = [7; 33];
        let mut expected = [0; 33];
        expected[..name.len()].copy_from_slice(name);
        expected[32] = 7;
        let length = (library.kth_name)(volume, 0, k as u64, &mut padded);
        assert_eq!(
            (length, padded),
            (Ok(name.len() as u64), expected),
            "{}",
            case.name
        );
        assert_eq!((library.find)(volume, 0, name), Ok(*inode), "{}", case.name);
        assert_eq!(
            (library.size)(volume, *inode),
            Ok(bytes.len() as u64),
            "{}",
            case.name
        );
        let mut buffer = vec![7; bytes.len() + 3];
        assert_eq!(
            (library.read)(volume, *inode, 0, &mut buffer),
            Ok(bytes.len() as u64)
        );
        assert_eq!(buffer, [&bytes[..], &[7; 3]].concat(), "{}", case.name);
    }
    let sizes: usize = case.names.iter().map(|row| row.2.len()).sum();
    assert_eq!((library.total)(volume, 0), Ok(sizes as u64), "{name}");
    let none = (library.kth_name)(volume, 0, case.names.len() as u64, &mut [0; 32]);
    assert_eq!(none, Err(Refusal::NotThere), "{name}: no further name");
    for inode in 1..8 {
        if !case.names.iter().any(|row| row.1 == inode) {
            assert_eq!(
                (library.size)(volume, inode),
                Err(Refusal::NotThere),
                "{name}"
            );
        }
    }
}

/// The rows: cases A to K with every number in the paper, and L and M.
pub fn cases() -> Vec<Case> {
    let mut rows = the_chain();
    rows.extend(after_b());
    rows.push(the_cut());
    rows.extend(limits());
    rows
}

/// These bytes, from an offset on, behind zeros.
fn behind_zeros(offset: usize, bytes: &[u8]) -> Vec<u8> {
    [&vec![0; offset][..], bytes].concat()
}

/// The calls of cases B, C, D, E and F, each after the ones before it.
fn chain_calls() -> [Call; 5] {
    [
        create(b"A1"),
        write(1, 510, b"abcd"),
        set_size(1, 100),
        clean(1),
        unlink(b"A1"),
    ]
}

/// What comes before the `place`-th call of the chain.
fn before(place: usize) -> Vec<Before> {
    chain_calls()[..place]
        .iter()
        .cloned()
        .map(Before::Done)
        .collect()
}

/// Cases A to F: a chain from an empty volume and back.
fn the_chain() -> Vec<Case> {
    let [b, c, d, e, f] = chain_calls();
    let entry = |kind: u64, fields: [u64; 4]| {
        let mut words = vec![kind];
        words.extend(fields);
        words.extend([0; 3]);
        words
    };
    let mut header = vec![0; 128];
    for (index, value) in [(0, 16), (1, 8), (2, 1), (64, 1)] {
        header[index] = value;
    }
    let old = u64::from_le_bytes([0xE7; 8]);
    vec![
        Case {
            name: "A",
            before: before(0),
            call: Call::Recover,
            answer: Ok(Some(0)),
            groups: vec![],
            words: vec![(0, header), (128, vec![old; 14 * 64])],
            free: 14,
            names: vec![],
        },
        Case {
            name: "B",
            before: before(0),
            call: b,
            answer: Ok(Some(48)),
            groups: create_groups(),
            words: vec![
                (128, vec![3, 1, 2, 12_609, 0, 0, 0, 0]),
                (64, vec![1, 2, 1_088]),
                (72, vec![1, 0, 0, 0]),
                (8, vec![2, 2]),
            ],
            free: 13,
            names: vec![(b"A1", 1, vec![])],
        },
        Case {
            name: "C",
            before: before(1),
            call: c,
            answer: Ok(Some(280)),
            groups: vec![],
            words: vec![(72, vec![1, 5, 2_624]), (320, entry(1, [0, 3, 2, 514]))],
            free: 10,
            names: vec![(b"A1", 1, behind_zeros(510, b"abcd"))],
        },
        Case {
            name: "D",
            before: before(2),
            call: d,
            answer: Ok(Some(166)),
            groups: vec![],
            words: vec![
                (72, vec![1, 5, 2_752]),
                (328, entry(2, [100, 0, 0, 0])),
                (336, entry(1, [0, 6, 1, 100])),
            ],
            free: 11,
            names: vec![(b"A1", 1, vec![0; 100])],
        },
        Case {
            name: "E",
            before: before(3),
            call: e,
            answer: Ok(Some(40)),
            groups: vec![],
            words: vec![(72, vec![1, 3, 1_600]), (192, entry(1, [0, 6, 1, 100]))],
            free: 11,
            names: vec![(b"A1", 1, vec![0; 100])],
        },
        Case {
            name: "F",
            before: before(4),
            call: f,
            answer: Ok(Some(40)),
            groups: vec![],
            words: vec![(8, vec![6, 6]), (72, vec![0])],
            free: 13,
            names: vec![],
        },
    ]
}

/// The list of case B. Order 6: "Every create, of a file or a folder, stores the type in its first
/// group, so case B's list has 48 words."
fn create_groups() -> Vec<Vec<Store>> {
    let journal = [(16, 66), (17, 0), (18, 72), (19, 0)];
    let inodes = [(65, 2), (73, 0), (74, 0), (75, 0)];
    let entry = [3, 1, 2, 12_609, 0, 0, 0, 0];
    let mut first = [&journal[..], &inodes].concat();
    first.extend((128..).zip(entry));
    vec![
        first,
        vec![(9, 2)],
        vec![(66, 1_088), (72, 1)],
        vec![(8, 2)],
    ]
}

/// A row after case B, with the volume of B where the call is refused or changes nothing.
fn on_b(name: &'static str, call: Call, answer: Result<Option<u64>, u64>) -> Case {
    Case {
        name,
        before: before(1),
        call,
        answer,
        groups: vec![],
        words: vec![(8, vec![2, 2]), (66, vec![1_088])],
        free: 13,
        names: vec![(b"A1", 1, vec![])],
    }
}

/// Cases G, H, I, K and M. Of case M order 4 says: "Case M's write of 1,537 bytes now gets the new
/// number"; one byte fewer leaves a page.
fn after_b() -> Vec<Case> {
    let full = text(4_096);
    let mut rows = vec![
        on_b("G", rename(b"A1", b"A1"), Ok(Some(0))),
        on_b("H", create(b"A1"), Err(7)),
        on_b("I", write(1, 61_440, &full), Ok(None)),
        on_b("I, one further", write(1, 61_441, &full), Err(9)),
        on_b("K", write(1, 0, &text(4_097)), Err(8)),
        on_b("M", write(1, 0, &full), Ok(None)),
        on_b(
            "M, then 1,537 bytes",
            write(1, 4_096, &text(1_537)),
            Err(15),
        ),
        on_b(
            "M, 1,536 bytes instead",
            write(1, 4_096, &text(1_536)),
            Ok(None),
        ),
        on_b(
            "M, 2,048 bytes instead",
            write(1, 4_096, &text(2_048)),
            Err(15),
        ),
        on_b(
            "M, 2,049 bytes instead",
            write(1, 4_096, &text(2_049)),
            Err(12),
        ),
    ];
    let after = [
        ("I", 4, behind_zeros(61_440, &full)),
        ("M", 4, full.clone()),
        ("M, then 1,537 bytes", 4, full.clone()),
        (
            "M, 1,536 bytes instead",
            1,
            [&full[..], &text(1_536)].concat(),
        ),
        ("M, 2,048 bytes instead", 4, full.clone()),
        ("M, 2,049 bytes instead", 4, full.clone()),
    ];
    for (name, free, bytes) in after {
        let row = rows.iter_mut().find(|row| row.name == name);
        let row = row.expect("the row stands above");
        row.free = free;
        row.names[0].2 = bytes;
        if name.starts_with("M,") {
            row.before.push(Before::Done(write(1, 0, &full)));
        }
    }
    rows
}

/// Case J: the create of case B cut with word 66 landed and word 72 not.
fn the_cut() -> Case {
    Case {
        name: "J",
        before: vec![Before::Cut(create(b"A1"), 2, vec![66])],
        call: Call::Recover,
        answer: Ok(Some(10)),
        groups: vec![vec![(66, 0), (72, 0)], vec![(8, 2)]],
        words: vec![(8, vec![2, 2])],
        free: 14,
        names: vec![],
    }
}

/// Case L: the longest name and one longer, the last inode and one more.
fn limits() -> Vec<Case> {
    let row = |name, before, call, answer, names: Vec<(&'static [u8], u64, Vec<u8>)>| Case {
        name,
        before,
        call,
        answer,
        groups: vec![],
        words: vec![],
        free: if names.is_empty() { 14 } else { 13 },
        names,
    };
    let creates = |count: u64| -> Vec<Before> {
        let calls = (1..=count).map(|number| create(&numbered(number)));
        calls.map(Before::Done).collect()
    };
    const NAMES: [&[u8]; 7] = [
        b"n001", b"n002", b"n003", b"n004", b"n005", b"n006", b"n007",
    ];
    let seven = || (NAMES.iter().zip(1..)).map(|(&name, inode)| (name, inode, vec![]));
    let longest = (&[97_u8; 32] as &[u8], 1, vec![]);
    let (seventh, eighth) = (create(NAMES[6]), create(b"n008"));
    vec![
        row("L", vec![], create(&[97; 32]), Ok(Some(48)), vec![longest]),
        row("L, 33 bytes", vec![], create(&[97; 33]), Err(5), vec![]),
        row(
            "L, seven creates",
            creates(6),
            seventh,
            Ok(None),
            seven().collect(),
        ),
        row(
            "L, the eighth",
            creates(7),
            eighth,
            Err(10),
            seven().collect(),
        ),
    ]
}
