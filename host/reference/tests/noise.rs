//! Noise: random bytes, changed bits and words of accepted volumes, odd lengths, huge numbers,
//! made-up volumes. Every call returns, refusals leave lent memory as it was, and what is accepted is
//! treated as the rules say.

mod need;

use need::refused_for_pages;
use reference::layout::{set_word, word};
use reference::{
    carry_out, cut, find, format, free_count, gaps, groups, judge, kth_name, land, listing, map,
    map_after, read, refused_by_map, size, total, Answer, Call, Refusal, FENCE,
};
use samples::*;

/// What came of a volume: refused, open, or accepted with the journal closed.
#[derive(Default, Debug)]
struct Counts {
    no_volume: u64,
    damaged: u64,
    open: u64,
    closed: u64,
    filled: u64,
}

/// Makes every call on a volume, whatever it holds, and checks what must hold of the answers.
fn make_every_call(random: &mut Random, volume: &[u8], counts: &mut Counts) {
    let refusal = match judge(volume) {
        Err(refusal) => Some(refusal),
        Ok(judged) if judged.journal.is_open() => Some(Refusal::JournalOpen),
        Ok(_) => None,
    };
    match refusal {
        Some(Refusal::NoVolume) => counts.no_volume += 1,
        Some(Refusal::Damaged) => counts.damaged += 1,
        Some(_) => counts.open += 1,
        None => counts.closed += 1,
    }
    for call in any_calls(random) {
        counts.filled += u64::from(changing_call(random, volume, refusal, &call));
    }
    reading_calls(random, volume, refusal);
    direct_calls(random, volume);
}

/// Makes one changing call; answers whether it filled words.
fn changing_call(
    random: &mut Random,
    volume: &[u8],
    refusal: Option<Refusal>,
    call: &Call,
) -> bool {
    let mut short = marked_list(random.below(4_096));
    let marked = short.clone();
    let answer = call.fill(volume, &mut short);
    assert_eq!(answer, Err(Refusal::ShortMemory));
    assert_eq!(short, marked);

    let result = filled(volume, call);
    let recovery = *call == Call::Recover && refusal == Some(Refusal::JournalOpen);
    if let (Some(refusal), false) = (refusal, recovery) {
        assert_eq!(result, Err(refusal));
        return false;
    }
    let before = map_of(volume);
    let inodes = word(volume, 1);
    let list = match result {
        Err(refusal) => {
            let expected = refused_by_map(&before, inodes, call)
                .or_else(|| refused_for_pages(&judge(volume).unwrap(), &before, call));
            assert_eq!(Some(refusal), expected);
            return false;
        }
        Ok(list) => list,
    };
    let after = map_after(&before, inodes, call);
    let mut landed = volume.to_vec();
    land(&mut landed, &list);
    assert_eq!(map_of(&landed), after);
    assert!(!judge(&landed).unwrap().journal.is_open());
    let mut broken = volume.to_vec();
    let group = random.below(groups(&list).len() as u64) as usize;
    cut(&mut broken, &list, group, |_| random.once_in(2));
    let map = map_of(&broken);
    assert!(map == before || map == after);
    !list.is_empty()
}

fn reading_calls(random: &mut Random, volume: &[u8], refusal: Option<Refusal>) {
    let length = random.below(700);
    let marked = random.bytes(length as usize);
    let check = |answer: Answer, buffer: &[u8]| {
        assert!(refusal.is_none() || answer.is_err());
        if let (Err(actual), Some(refusal)) = (answer, refusal) {
            assert!(actual == refusal || actual == Refusal::ShortMemory);
        }
        if answer.is_err() {
            assert_eq!(buffer, marked);
        }
    };
    check(find(volume, random.below(4), &any_name(random)), &marked);
    check(total(volume, any_number(random)), &marked);
    check(total(volume, random.below(4)), &marked);
    check(size(volume, any_number(random)), &marked);
    check(free_count(volume), &marked);
    for inode in [any_number(random), random.below(5)] {
        let mut buffer = marked.clone();
        let answer = read(volume, inode, any_number(random), &mut buffer);
        check(answer, &buffer);
        if let Ok(count) = answer {
            assert_eq!(buffer[count as usize..], marked[count as usize..]);
        }
    }
    for k in [any_number(random), random.below(3)] {
        let mut buffer = marked.clone();
        let answer = kth_name(volume, random.below(4), k, &mut buffer);
        check(answer, &buffer);
        assert_eq!(buffer.get(32..), marked.get(32..));
    }
    let before = marked_list(random.below(12));
    let mut pairs = before.clone();
    match gaps(volume, &mut pairs) {
        Ok(count) => {
            assert_eq!(refusal, None);
            let filled = 2 * count as usize;
            assert_eq!(pairs[filled..], before[filled..]);
        }
        Err(actual) => {
            assert_eq!(actual, refusal.unwrap_or(Refusal::TooManyGaps));
            assert_eq!(pairs, before);
        }
    }
    let lines = listing(volume);
    let refused = refusal.is_some() || volume.len() > 65_536;
    assert_eq!(lines.starts_with(b"refused"), refused);
    assert!(lines.ends_with(b"\n"));
}

/// Format and carry out, on copies of the volume.
fn direct_calls(random: &mut Random, volume: &[u8]) {
    let mut copy = volume.to_vec();
    if format(&mut copy, any_number(random), any_number(random)).is_err() {
        assert_eq!(copy, volume);
    }
    let mut list: Vec<u64> = (0..random.below(8)).map(|_| any_number(random)).collect();
    if random.once_in(2) {
        list.extend([FENCE, 0]);
    }
    let count = match random.below(3) {
        0 => any_number(random),
        _ => list.len() as u64,
    };
    let mut copy = volume.to_vec();
    match carry_out(&mut copy, &list, count) {
        Ok(()) => {
            let mut landed = volume.to_vec();
            land(&mut landed, &list[..count as usize]);
            assert_eq!(copy, landed);
        }
        Err(refusal) => {
            assert!(matches!(refusal, Refusal::NoVolume | Refusal::BadList));
            assert_eq!(copy, volume);
        }
    }
}

#[test]
fn random_bytes_of_any_length() {
    let mut random = Random::new(1);
    let mut counts = Counts::default();
    for length in (0..40).chain([511, 512, 513, 8_191, 8_192, 8_193, 10_240, 70_000]) {
        let volume = random.bytes(length);
        make_every_call(&mut random, &volume, &mut counts);
    }
    assert_eq!(counts.no_volume, 48, "{counts:?}");
}

#[test]
fn random_bytes_with_sizes() {
    let mut random = Random::new(2);
    let mut counts = Counts::default();
    for _ in 0..60 {
        for volume in headed_noise(&mut random) {
            make_every_call(&mut random, &volume, &mut counts);
        }
    }
    assert_eq!(counts.no_volume, 0);
    assert!(counts.damaged > 100, "{counts:?}");
}

/// Makes every call on used volumes after one to three changes each. `change` makes one: it gets the volume before, and its copy.
fn change_volumes(seed: u64, change: impl Fn(&mut Random, &[u8], &mut [u8])) {
    let mut random = Random::new(seed);
    let mut counts = Counts::default();
    for _ in 0..20 {
        let volume = used_volume(&mut random);
        for _ in 0..12 {
            let mut changed = volume.clone();
            for _ in 0..random.between(1, 3) {
                change(&mut random, &volume, &mut changed);
            }
            make_every_call(&mut random, &changed, &mut counts);
        }
    }
    assert!(counts.closed > 40 && counts.damaged > 20, "{counts:?}");
    assert!(counts.filled > 100 && counts.open > 5, "{counts:?}");
}

#[test]
fn changed_bits() {
    change_volumes(3, |random, _, changed| {
        let limit = if random.once_in(2) { 1_600 } else { 8_192 };
        let place = random.below(limit) as usize;
        changed[place] ^= 1 << random.below(8);
    });
}

#[test]
fn changed_words() {
    change_volumes(4, |random, volume, changed| {
        let index = match random.below(3) {
            0 => random.between(8, 48),
            1 => random.between(64, 127),
            _ => random.between(128, 400),
        };
        let value = match random.below(2) {
            0 => any_number(random),
            _ => word(volume, random.below(400)),
        };
        set_word(changed, index, value);
    });
}

/// Every word of a used volume set to numbers that break things, one at a time.
#[test]
fn each_word_changed() {
    let mut random = Random::new(5);
    let volume = used_volume(&mut random);
    for index in 0..volume.len() as u64 / 8 {
        for value in [0, 1, 3, 513, u64::MAX] {
            let mut changed = volume.clone();
            set_word(&mut changed, index, value);
            if let Ok(judged) = judge(&changed) {
                map(&judged);
            }
        }
    }
}

#[test]
fn made_up_volumes() {
    let mut random = Random::new(6);
    let mut counts = Counts::default();
    for _ in 0..400 {
        let volume = made_up(&mut random);
        make_every_call(&mut random, &volume, &mut counts);
    }
    assert!(counts.closed > 60 && counts.damaged > 60, "{counts:?}");
    assert!(counts.filled > 200, "{counts:?}");
}
