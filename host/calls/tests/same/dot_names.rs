//! Volumes that hold the names "." and ".." (order 5 of document 02): every call by name with names
//! like these, and calls that go on from there.

use crate::changes::{drawn_calls, volume_after};
use crate::compare::{compare_readings, Compared, Counts, CHANGES, NOTHING, READINGS};
use samples::{
    any_call_with_dots, calls_by_name, dot_names, made_up_with_dots, map_of, tried_names, Random,
};

/// The calls by name that fill a store list.
const BY_NAME: [&str; 5] = ["create", "create_folder", "link", "unlink", "rename"];

/// The reading calls, about each tried name and each that stands.
fn readings(compared: &mut Compared, volume: &[u8]) {
    for name in tried_names() {
        compared.find(0, name);
    }
    let map = map_of(volume);
    for k in 0..=map.names(0).len() as u64 {
        compared.kth_name(0, k, &[0xA7; 40]);
    }
    compared.total(0);
    for &inode in map.files.keys() {
        compared.size(inode);
        compared.read(inode, 0, &[0xA7; 100]);
    }
    compared.free_count();
    compared.gaps();
}

/// Every call of every sample: the answer, every word of the list, and every byte once it is
/// carried out.
#[test]
fn every_call() {
    let mut counts = Counts::default();
    let calls = calls_by_name();
    for (sample, number) in dot_names().zip(0..) {
        let compared = Compared::new(&sample.volume, number % 8, &mut counts);
        let mut compared = compared.titled(sample.title);
        readings(&mut compared, &sample.volume);
        for (call, place) in calls.iter().zip(0..) {
            let list = compared.change(call, 4_096);
            if place % 7 == number % 7 {
                compared.carry_out(&list, list.len() as u64);
            }
        }
    }
    counts.reached(&BY_NAME, &[0, 4, 5], 80);
    counts.reached(&BY_NAME, &[12], 3);
    counts.reached(&["link", "unlink", "rename", "find"], &[6], 200);
    counts.reached(&["create", "create_folder", "link"], &[7, 11, 15], 7);
    counts.reached(&["create", "create_folder"], &[10], 7);
    counts.reached(&["rename"], &[NOTHING], 20);
    counts.reached(&READINGS, &[0, 4], 6);
}

/// The volumes that a call leaves, with the reading calls and every seventh call made again.
#[test]
fn calls_after_a_call() {
    let mut counts = Counts::default();
    let calls = calls_by_name();
    for (sample, number) in dot_names().zip(0..) {
        for call in calls.iter().skip(number % 11).step_by(11) {
            let Some(volume) = volume_after(&sample.volume, call, &mut counts) else {
                continue;
            };
            let compared = Compared::new(&volume, number % 8, &mut counts);
            let mut compared = compared.titled(format!("{}{call:?}, ", sample.title));
            readings(&mut compared, &volume);
            for call in calls.iter().skip(number % 7).step_by(7) {
                compared.change(call, 4_096);
            }
        }
    }
    counts.reached(&BY_NAME, &[0, 5], 100);
}

/// Random calls, some of them cut, from the samples on.
#[test]
fn calls_that_go_on() {
    let mut counts = Counts::default();
    for (sample, seed) in dot_names().zip(5_500..) {
        let mut random = Random::new(seed);
        let volume = sample.volume;
        drawn_calls(&mut random, volume, 60, any_call_with_dots, &mut counts);
    }
    counts.reached(&["create", "create_folder", "link", "rename"], &[5], 100);
    counts.reached(&CHANGES, &[0], 100);
}

/// Made-up volumes half of whose names are like these, with the calls by name.
#[test]
fn made_up_volumes() {
    let mut random = Random::new(5_600);
    let mut counts = Counts::default();
    let calls = calls_by_name();
    for number in 0..2_500 {
        let volume = made_up_with_dots(&mut random);
        compare_readings(&mut random, &volume, &mut counts);
        let mut compared = Compared::new(&volume, number % 8, &mut counts);
        for name in tried_names() {
            compared.find(0, name);
        }
        for call in calls.iter().skip(number % 29).step_by(29) {
            compared.change(call, 4_096);
        }
    }
    counts.reached(&BY_NAME, &[0, 3, 4, 5], 100);
    counts.reached(&["find"], &[0, 3, 4, 5, 6], 500);
}
