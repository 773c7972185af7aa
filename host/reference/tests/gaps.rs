//! Gaps: the stretches of free pages, by hand and by what document 02 says of them; lists of every
//! length, and each refusal.

use reference::layout::set_word;
use reference::{free_count, gaps, judge, Call, Refusal, Use};
use samples::*;

/// The pairs that gaps fills into a list with room for them and three more words, which must keep
/// their content.
#[track_caller]
fn pairs_of(volume: &[u8]) -> Vec<[u64; 2]> {
    let count = gaps(volume, &mut marked_list(4_096)).expect("2,048 pairs are enough");
    let before = marked_list(2 * count + 3);
    let mut list = before.clone();
    assert_eq!(gaps(volume, &mut list), Ok(count));
    let filled = 2 * count as usize;
    assert_eq!(list[filled..], before[filled..]);
    let pairs = list[..filled].chunks(2);
    pairs.map(|pair| [pair[0], pair[1]]).collect()
}

/// Checks what document 02 says of the pairs, on a volume that must be accepted.
fn check_pairs(volume: &[u8]) {
    let pairs = pairs_of(volume);
    let uses = judge(volume).unwrap().uses;
    let free = |page: u64| uses.get(page as usize) == Some(&Use::Free);
    for &[first, length] in &pairs {
        assert!(length > 0 && (first..first + length).all(free), "{pairs:?}");
        assert!(!free(first - 1) && !free(first + length), "{pairs:?}");
    }
    assert!(pairs.windows(2).all(|two| two[0][0] < two[1][0]));
    let lengths: u64 = pairs.iter().map(|pair| pair[1]).sum();
    assert_eq!(free_count(volume), Ok(lengths));
}

/// Makes the call with lists of every length in words up to this one: refused with 14 as long as
/// the pairs do not fit, and the same pairs from there on.
fn check_lists(volume: &[u8], longest: u64) {
    let pairs = pairs_of(volume);
    let count = pairs.len() as u64;
    for words in 0..=longest {
        let mut list = marked_list(words);
        let answer = gaps(volume, &mut list);
        let mut expected = marked_list(words);
        if words / 2 < count {
            assert_eq!(answer, Err(Refusal::TooManyGaps), "{words} words");
        } else {
            assert_eq!(answer, Ok(count), "{words} words");
            expected[..2 * pairs.len()].copy_from_slice(&pairs.concat());
        }
        assert_eq!(list, expected, "{words} words");
    }
}

/// Checks that a volume gets this refusal with every list, long or short, which keeps its content.
fn check_refused(volume: &[u8], refusal: Refusal) {
    for words in [0, 1, 2, 3, 4_096] {
        let mut list = marked_list(words);
        assert_eq!(gaps(volume, &mut list), Err(refusal));
        assert_eq!(list, marked_list(words));
    }
}

#[test]
fn a_formatted_volume_is_one_stretch() {
    for (pages, inodes) in [(16, 8), (16, 96), (36, 256), (4_096, 8), (4_096, 256)] {
        let volume = formatted(pages, inodes);
        let first = inodes / 8 + 1;
        assert_eq!(pairs_of(&volume), [[first, pages - first]]);
        check_lists(&volume, 9);
    }
}

/// Cases A to F, whose pages document 01 gives.
#[test]
fn campsite_examples() {
    let mut volume = formatted(16, 8);
    assert_eq!(pairs_of(&volume), [[2, 14]]);
    let steps: [(Call, &[[u64; 2]]); 5] = [
        (create(b"A1"), &[[3, 13]]),
        (write(1, 510, b"abcd"), &[[6, 10]]),
        (set_size(1, 100), &[[3, 2], [7, 9]]),
        (clean(1), &[[4, 2], [7, 9]]),
        (unlink(b"A1"), &[[3, 13]]),
    ];
    for (call, pairs) in steps {
        done(&mut volume, &call);
        assert_eq!(pairs_of(&volume), pairs, "{call:?}");
        check_lists(&volume, 9);
    }
}

/// Every page in use: no pair, and a list of no pairs will do.
#[test]
fn no_free_page() {
    for pages in [16, 300] {
        let volume = with_free_pages(pages, 8, |_| false);
        assert_eq!(free_count(&volume), Ok(0));
        assert_eq!(gaps(&volume, &mut []), Ok(0));
        assert_eq!(pairs_of(&volume).len(), 0);
        check_lists(&volume, 9);
    }
}

#[test]
fn several_stretches() {
    let free = [2, 3, 5, 9, 10, 11, 13, 15];
    let volume = with_free_pages(16, 8, |page| free.contains(&page));
    let pairs = [[2, 2], [5, 1], [9, 3], [13, 1], [15, 1]];
    assert_eq!(pairs_of(&volume), pairs);
    check_lists(&volume, 16);
}

/// A list exactly as long as the stretches is fine, and one pair shorter is 14; an odd last word is
/// no pair.
#[test]
fn room_for_the_pairs() {
    let volume = with_free_pages(16, 8, |page| [2, 4, 6].contains(&page));
    for (words, answer) in [
        (0, Err(Refusal::TooManyGaps)),
        (4, Err(Refusal::TooManyGaps)),
        (5, Err(Refusal::TooManyGaps)),
        (6, Ok(3)),
        (7, Ok(3)),
    ] {
        let mut list = marked_list(words);
        assert_eq!(gaps(&volume, &mut list), answer, "{words} words");
        match answer {
            Ok(_) => assert_eq!(list[..6], [2, 1, 4, 1, 6, 1]),
            Err(_) => assert_eq!(list, marked_list(words)),
        }
        assert_eq!(list.get(6..), marked_list(words).get(6..));
    }
}

/// The ends of the log and data pages, and the most stretches that a volume can have.
#[test]
fn free_pages_at_the_ends() {
    for (pages, inodes) in [(16, 8), (16, 96), (36, 256), (4_096, 8), (4_096, 256)] {
        let [first, last] = [inodes / 8 + 1, pages - 1];
        let second = |from: u64| (from..pages).step_by(2).map(|page| [page, 1]);
        let expected: Vec<(&str, Vec<[u64; 2]>)> = vec![
            ("all free", vec![[first, pages - first]]),
            ("none free", vec![]),
            ("every second, from the first", second(first).collect()),
            ("every second, from the second", second(first + 1).collect()),
            ("the first and the last", vec![[first, 1], [last, 1]]),
            ("the first", vec![[first, 1]]),
            ("the last", vec![[last, 1]]),
            ("all but the first", vec![[first + 1, last - first]]),
            ("all but the last", vec![[first, last - first]]),
        ];
        let volumes = volumes_with_gaps(pages, inodes);
        for (way, volume) in &volumes {
            check_pairs(volume);
            let known = expected.iter().find(|row| row.0 == *way);
            if let Some((_, pairs)) = known {
                assert_eq!(pairs_of(volume), *pairs, "{way}");
            }
        }
        let known = |row: &&(&str, _)| volumes.iter().any(|(way, _)| *way == row.0);
        assert_eq!(expected.iter().filter(known).count(), expected.len());
    }
    let most = with_free_pages(4_096, 8, |page| page % 2 == 0);
    assert_eq!(pairs_of(&most).len(), 2_047);
}

/// 2, 3 and 4 come before 14; 1 does not apply, however short the list is.
#[test]
fn refusals_of_the_volume_come_first() {
    let volume = sample();
    let changed = |stores: &[(u64, u64)]| {
        let mut volume = volume.clone();
        for &(index, value) in stores {
            set_word(&mut volume, index, value);
        }
        volume
    };
    check_refused(&[], Refusal::NoVolume);
    check_refused(&volume[..volume.len() - 1], Refusal::NoVolume);
    check_refused(&changed(&[(2, 0), (8, 16)]), Refusal::NoVolume);
    check_refused(&changed(&[(8, 16)]), Refusal::Damaged);
    check_refused(&changed(&[(120, 2), (9, 1), (16, 80)]), Refusal::Damaged);
    let open = changed(&[(8, 0), (9, 1), (16, 80), (17, 1)]);
    check_refused(&open, Refusal::JournalOpen);
    check_lists(&volume, 9);
}

/// A create that was cut: 4 until it is recovered, and then its log page is free again.
#[test]
fn a_journal_left_open() {
    let mut volume = formatted(16, 8);
    let list = filled(&volume, &create(b"A1")).expect("the call is done");
    reference::cut(&mut volume, &list, 2, |index| index == 66);
    check_refused(&volume, Refusal::JournalOpen);
    done(&mut volume, &Call::Recover);
    assert_eq!(pairs_of(&volume), [[2, 14]]);
}

#[test]
fn made_up_and_used_volumes() {
    let mut random = Random::new(8);
    let mut most = 0;
    let mut counts = [0; 3];
    for number in 0..3_000 {
        let volume = match number % 3 {
            0 => used_volume(&mut random),
            _ => made_up(&mut random),
        };
        match free_count(&volume) {
            Ok(_) => {
                check_pairs(&volume);
                let count = pairs_of(&volume).len();
                check_lists(&volume, 2 * count as u64 + 3);
                most = most.max(count);
                counts[count.min(2)] += 1;
            }
            Err(refusal) => check_refused(&volume, refusal),
        }
    }
    assert!(most > 20 && counts.iter().all(|&count| count > 100));
}
