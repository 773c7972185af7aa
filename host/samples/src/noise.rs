//! Noise that looks a little like a volume.

use reference::layout::set_word;
use reference::random::Random;

/// Random bytes behind a good header; and the same with a closed journal and likely inode words.
pub fn headed_noise(random: &mut Random) -> [Vec<u8>; 2] {
    let inodes = 8 * random.between(1, 4);
    let pages = random.between(16, 24);
    let mut headed = random.bytes(pages as usize * 512);
    for (index, value) in [(0, pages), (1, inodes), (2, 1)] {
        set_word(&mut headed, index, value);
    }
    let mut likely = headed.clone();
    for index in [8, 9] {
        set_word(&mut likely, index, 3);
    }
    for index in 64..64 + 8 * inodes {
        let value = match random.below(3) {
            0 => 0,
            1 => 1,
            _ => random.below(pages * 512),
        };
        set_word(&mut likely, index, value);
    }
    set_word(&mut likely, 64, 1);
    [headed, likely]
}
