//! Volumes with few free pages (order 4 of document 02): calls that would take the last one, and
//! calls that go on from there.

use crate::changes::{random_calls, volume_after};
use crate::compare::{Compared, Counts, CHANGES, NOTHING};
use samples::{last_page, Random};

/// The calls that keep one page back.
const KEEPING: [&str; 5] = ["create", "create_folder", "link", "write", "set_size"];

/// Every call of every sample: the answer, and every word of the list.
#[test]
fn every_call() {
    let mut counts = Counts::default();
    for (sample, number) in last_page().zip(0..) {
        let compared = Compared::new(&sample.volume, number % 8, &mut counts);
        let mut compared = compared.titled(sample.title);
        for call in &sample.calls {
            compared.change(call, 4_096);
        }
        compared.free_count();
        compared.gaps();
    }
    counts.reached(&CHANGES[..8], &[0, 12], 40);
    counts.reached(&KEEPING, &[15], 40);
    counts.reached(&["rename", "write", "set_size", "clean"], &[NOTHING], 40);
}

/// The volumes that each call leaves, with each call made again.
#[test]
fn calls_after_a_call() {
    let mut counts = Counts::default();
    for (sample, number) in last_page().step_by(5).zip(0..) {
        let [first, others] = [number % 5, 0].map(|skipped| sample.calls.iter().skip(skipped));
        for call in first.step_by(5) {
            let Some(volume) = volume_after(&sample.volume, call, &mut counts) else {
                continue;
            };
            let compared = Compared::new(&volume, number % 8, &mut counts);
            let mut compared = compared.titled(format!("{}{call:?}, ", sample.title));
            for call in others.clone() {
                compared.change(call, 4_096);
            }
        }
    }
    counts.reached(&CHANGES[..8], &[0, 12], 10);
    counts.reached(&KEEPING, &[15], 15);
}

/// Random calls, some of them cut, from the samples on.
#[test]
fn calls_that_go_on() {
    let mut counts = Counts::default();
    for (sample, seed) in last_page().step_by(2).zip(9_000..) {
        random_calls(&mut Random::new(seed), sample.volume, 20, &mut counts);
    }
    counts.reached(&CHANGES[..8], &[0, 12], 20);
    counts.reached(&KEEPING, &[15], 10);
}
