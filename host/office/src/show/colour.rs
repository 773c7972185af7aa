//! A colour for each inode, the same in the terminal and in the picture.

/// The red, green and blue of an inode: bright enough for black letters, different for all 256 inodes.
pub(super) fn of_inode(inode: u64) -> [u8; 3] {
    let hue = (210.0 + 137.508 * inode as f64) % 360.0;
    let lightness = [0.68, 0.78, 0.60][inode as usize % 3];
    from_hue(hue, 0.62, lightness)
}

/// A darker shade of a colour, for borders.
pub(super) fn darker(colour: [u8; 3]) -> [u8; 3] {
    colour.map(|part| part / 2)
}

/// Red, green and blue of a hue in degrees, with saturation and lightness from 0 to 1.
fn from_hue(hue: f64, saturation: f64, lightness: f64) -> [u8; 3] {
    let reach = saturation * lightness.min(1.0 - lightness);
    [0.0, 8.0, 4.0].map(|shift| {
        let place = (shift + hue / 30.0) % 12.0;
        let slope = (place - 3.0).min(9.0 - place).clamp(-1.0, 1.0);
        ((lightness - reach * slope) * 255.0).round() as u8
    })
}

#[cfg(test)]
mod tests {
    use super::of_inode;
    use std::collections::BTreeSet;

    #[test]
    fn every_inode_has_a_colour_of_its_own() {
        let colours: BTreeSet<[u8; 3]> = (0..256).map(of_inode).collect();
        assert_eq!(colours.len(), 256);
        let bright =
            |colour: &[u8; 3]| colour.iter().map(|&part| u64::from(part)).sum::<u64>() > 330;
        assert!(colours.iter().all(bright));
    }
}
