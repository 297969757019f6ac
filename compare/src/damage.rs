//! Random damage to a state image.

use crate::board::IMAGE;
use crate::random::Random;
use model::image;

/// Changes some bytes, or takes a run of bytes from another image, or changes the length.
pub fn damage(random: &mut Random, image: &mut Vec<u8>, other: &[u8]) {
    match random.below(16) {
        0 => image.truncate(random.below(IMAGE as u32) as usize),
        1 => image.extend((0..=random.below(8)).map(|_| 0)),
        2..=4 => {
            let first = random.below(IMAGE as u32) as usize;
            let last = first + random.below((IMAGE - first) as u32) as usize;
            image[first..=last].copy_from_slice(&other[first..=last]);
        }
        _ => {
            for _ in 0..=random.below(3) {
                let byte = &mut image[random.below(IMAGE as u32) as usize];
                *byte = match random.below(3) {
                    0 => random.word() as u8,
                    1 => *byte ^ (1 << random.below(8)),
                    _ => byte.wrapping_add(random.pick(&[1, 255]) as u8),
                };
            }
        }
    }
}

/// A copy of the image, damaged until it does not load.
pub fn refused(random: &mut Random, image: &[u8], other: &[u8]) -> Vec<u8> {
    let mut damaged = image.to_vec();
    while image::loaded(&damaged).is_some() {
        damage(random, &mut damaged, other);
    }
    damaged
}
