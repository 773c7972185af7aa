//! Thousands of volumes: damaged, made up, noise, and reached by random calls and power cuts.

use crate::{case_j, cases, longest_stretch, said, stretches};
use office::show::{gaps_text, log_text, map_text, reason};
use reference::layout::set_word;
use reference::{judge, Volume};
use refusal::Refusal;
use samples::{
    any_call, change_live_word, filled, flip_live_bit, formatted, headed_noise, live_words,
    made_up, map_of, random_cut, run, sample, used_volume, Random, NUMBERS,
};
use std::collections::BTreeMap;

/// What `reason` says where it finds nothing wrong on a volume that the calls refuse.
const UNKNOWN: &str = "for a reason that this tool does not know";

/// Counts of what the calls answered.
#[derive(Default)]
struct Verdicts(BTreeMap<u64, u64>);

impl Verdicts {
    /// Asks for the reason of a volume, which must be there and known exactly where it is refused.
    fn check(&mut self, volume: &[u8]) {
        let answer = calls::free_count(volume);
        let found = reason(volume);
        assert_eq!(found.is_none(), answer.is_ok());
        assert_ne!(found.as_deref(), Some(UNKNOWN));
        let number = answer.map_or_else(Refusal::number, |_| 0);
        *self.0.entry(number).or_default() += 1;
    }

    /// Each of these answers was given so often.
    fn reached(&self, numbers: &[u64], least: u64) {
        for number in numbers {
            assert!(self.0.get(number) >= Some(&least), "{number}: {:?}", self.0);
        }
    }
}

fn damage(seed: u64, change: fn(&mut Random, &mut [u8], &[Vec<u64>])) {
    let mut random = Random::new(seed);
    let mut verdicts = Verdicts::default();
    for number in 0..1_000 {
        let volume = match number % 2 {
            0 => used_volume(&mut random),
            _ => made_up(&mut random),
        };
        verdicts.check(&volume);
        let live = live_words(&volume);
        for _ in 0..12 {
            let mut changed = volume.clone();
            for _ in 0..random.between(1, 3) {
                change(&mut random, &mut changed, &live);
            }
            verdicts.check(&changed);
        }
    }
    verdicts.reached(&[0, 2, 3, 4], 200);
}

#[test]
fn changed_bits() {
    damage(51, flip_live_bit);
}

#[test]
fn changed_words() {
    damage(52, change_live_word);
}

#[test]
fn live_words_at_limits() {
    let mut verdicts = Verdicts::default();
    for volume in [sample(), case_j()].into_iter().chain(cases()) {
        for index in live_words(&volume).concat() {
            let mut changed = volume.clone();
            for number in NUMBERS.into_iter().chain(0..24) {
                set_word(&mut changed, index, number);
                verdicts.check(&changed);
            }
        }
    }
    verdicts.reached(&[0, 2, 3, 4], 100);
}

#[test]
fn noise() {
    let mut random = Random::new(53);
    let mut verdicts = Verdicts::default();
    for length in (0..80).chain([511, 512, 8_191, 8_192, 8_193, 4_096 * 512]) {
        verdicts.check(&random.bytes(length));
    }
    for _ in 0..2_000 {
        for volume in headed_noise(&mut random) {
            verdicts.check(&volume);
        }
    }
    verdicts.reached(&[2], 80);
    verdicts.reached(&[3], 3_500);
}

/// Random calls with power cuts: every state is accepted, and its texts agree with the reference.
#[test]
fn histories() {
    let mut random = Random::new(54);
    let mut verdicts = Verdicts::default();
    for _ in 0..60 {
        let mut volume = formatted(random.between(16, 90), 8);
        for _ in 0..60 {
            let call = any_call(&mut random, 8, &map_of(&volume));
            match filled(&volume, &call) {
                Ok(list) if !list.is_empty() && random.once_in(5) => {
                    random_cut(&mut random, &mut volume, &list);
                }
                _ => drop(run(&mut volume, &call)),
            }
            verdicts.check(&volume);
            texts(&volume);
        }
    }
    verdicts.reached(&[0, 4], 300);
    assert_eq!(verdicts.0.keys().copied().collect::<Vec<_>>(), [0, 4]);
}

#[test]
fn texts_of_made_up_volumes() {
    let mut random = Random::new(55);
    for _ in 0..2_000 {
        texts(&made_up(&mut random));
    }
}

/// Holds the log texts of every inode, the map's totals and the gaps against the reference.
fn texts(volume: &[u8]) {
    let Ok(judged) = judge(volume) else {
        assert_eq!(map_text(volume, 80, true), Err(Refusal::Damaged));
        assert_eq!(gaps_text(volume), Err(Refusal::Damaged));
        assert_eq!(log_text(volume, 0), Err(Refusal::Damaged));
        return;
    };
    let open = usize::from(judged.journal.is_open());
    for inode in 0..judged.sizes.inodes() + 2 {
        let text = log_text(volume, inode);
        let Some(log) = judged.logs.get(&inode) else {
            assert_eq!(text, Err(Refusal::NotThere));
            continue;
        };
        let full = log.pages.len().saturating_sub(1) * 7;
        let entries = full + (log.tail % 512 / 64) as usize;
        assert_eq!(text.unwrap().lines().count(), 1 + open + entries);
    }
    let text = map_text(volume, 80, false).unwrap();
    let free = format!(", {} free", judged.free_pages());
    assert!(text.trim_end().ends_with(&free));
    gaps(volume, &judged);
}

/// Holds the gaps, which are the compiled call's, against the uses that the reference finds.
fn gaps(volume: &[u8], judged: &Volume<'_>) {
    if judged.journal.is_open() {
        assert_eq!(gaps_text(volume), Err(Refusal::JournalOpen));
        return;
    }
    let text = gaps_text(volume).unwrap();
    let stretches = stretches(&judged.uses);
    if stretches.is_empty() {
        assert_eq!(text, "no page is free\n");
        return;
    }
    let lines: Vec<&str> = text.lines().collect();
    let (table, end) = lines.split_at(1 + stretches.len());
    assert_eq!(table[0], "free pages  length");
    for (line, (first, length)) in table[1..].iter().zip(&stretches) {
        let (pages, count) = line.split_once(' ').unwrap();
        let (from, to) = pages.split_once('-').unwrap_or((pages, pages));
        assert_eq!(from, first.to_string());
        assert_eq!(to, (first + length - 1).to_string());
        assert_eq!(
            (count.trim_start(), line.len()),
            (length.to_string().as_str(), 18)
        );
    }
    let longest = format!("longest: {}", said(&longest_stretch(&judged.uses)));
    assert_eq!(end[..2], ["", &longest]);
    let total = format!("total: {} free page", judged.free_pages());
    assert!(end[2].starts_with(&total) && end.len() == 3);
}
