//! Runs `volume::gaps`, whose list of structs no C program can lend, beside `gaps::list_words`, which the tests of host/calls hold against
//! the reference: the same answer and the same pairs, with lists of every length up to two more than needed, on volumes that random calls
//! leave. tests/unproved compiles it over the calls without their proofs.

use answer::{code, done_code, Refusal};
use gaps::Gap;

/// What stands in a list before a call.
const BEFORE: (u64, u64) = (9, 7);

/// Numbers that look random, from a seed.
struct Random(u64);

impl Random {
    fn below(&mut self, n: u64) -> u64 {
        self.0 = self.0.wrapping_mul(6364136223846793005).wrapping_add(1442695040888963407);
        (self.0 >> 33) % n
    }
}

/// Makes a call that fills a store list, and carries the list out.
fn step(volume: &mut [u8], call: impl Fn(&[u8], &mut [u64]) -> Result<u64, Refusal>) {
    let mut list = vec![0; 4096];
    let count = code(call(volume, &mut list));
    assert!(count <= 0 || done_code(volume::carry_out(volume, &list, count as u64)) == 0);
}

/// Asks for the gaps in lists of `pairs` structs; gives the answer and the list.
fn as_structs(volume: &[u8], pairs: usize) -> (i64, Vec<(u64, u64)>) {
    let mut list = vec![Gap { first: BEFORE.0, length: BEFORE.1 }; pairs];
    let answer = code(volume::gaps(volume, &mut list));
    (answer, list.iter().map(|gap| (gap.first, gap.length)).collect())
}

/// The same in words.
fn as_words(volume: &[u8], pairs: usize) -> (i64, Vec<(u64, u64)>) {
    let mut list: Vec<u64> = (0..2 * pairs).map(|i| if i % 2 == 0 { BEFORE.0 } else { BEFORE.1 }).collect();
    let answer = code(gaps::list_words(volume, &mut list));
    (answer, list.chunks_exact(2).map(|pair| (pair[0], pair[1])).collect())
}

/// Compares the two; gives how many gaps there are.
fn compare(volume: &[u8]) -> usize {
    let count = as_words(volume, 2048).0.max(0) as usize;
    for pairs in 0..count + 3 {
        assert_eq!(as_structs(volume, pairs), as_words(volume, pairs));
    }
    count
}

fn main() {
    let (mut random, mut compared, mut most) = (Random(1), 0, 0);
    for pages in [16, 20, 64, 200, 512] {
        for _ in 0..6 {
            let mut volume = vec![0; pages * 512];
            assert_eq!(done_code(volume::format(&mut volume, pages as u64, 16)), 0);
            for _ in 0..120 {
                let (name, inode) = ([65 + random.below(12) as u8], random.below(16));
                let (folder, other) = (random.below(4), random.below(4));
                let (offset, bytes) = (random.below(9000), vec![1; random.below(3000) as usize]);
                match random.below(8) {
                    0 | 1 => step(&mut volume, |v, list| volume::create(v, folder, &name, list)),
                    2 => step(&mut volume, |v, list| volume::create_folder(v, folder, &name, list)),
                    3 => step(&mut volume, |v, list| volume::unlink(v, folder, &name, list)),
                    4 => step(&mut volume, |v, list| volume::rename(v, folder, &name, other, &name, list)),
                    5 => step(&mut volume, |v, list| volume::clean(v, inode, list)),
                    _ => step(&mut volume, |v, list| volume::write(v, inode, offset, &bytes, list)),
                }
                most = most.max(compare(&volume));
                compared += 1;
            }
            let (at, bit) = (random.below(volume.len() as u64) as usize, random.below(8));
            volume[at] ^= 1 << bit;
            compare(&volume);
        }
    }
    assert!(most > 4, "the volumes have few gaps");
    println!("gap_structs: {compared} volumes with up to {most} gaps: structs as words");
}
