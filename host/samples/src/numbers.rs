//! Numbers and names without regard to a volume.

use reference::random::Random;

/// Numbers at which sums wrap, limits end and types narrow.
pub const NUMBERS: [u64; 22] = [
    0,
    1,
    2,
    7,
    8,
    31,
    33,
    127,
    128,
    448,
    511,
    512,
    4_096,
    65_535,
    65_536,
    65_537,
    1 << 32,
    (1 << 32) + 1,
    1 << 55,
    1 << 61,
    u64::MAX - 511,
    u64::MAX,
];

/// Any number of 64 bits, small ones and those of [`NUMBERS`] more often.
pub fn any_number(random: &mut Random) -> u64 {
    match random.below(4) {
        0 => random.number(),
        1 => random.below(70_000),
        2 => random.below(10),
        _ => NUMBERS[random.below(NUMBERS.len() as u64) as usize],
    }
}

/// Bytes that are often a name and often one of a few.
pub fn any_name(random: &mut Random) -> Vec<u8> {
    match random.below(4) {
        0 => {
            let length = random.below(40) as usize;
            random.bytes(length)
        }
        1 => vec![97; random.below(40) as usize],
        _ => vec![97 + random.below(5) as u8],
    }
}
