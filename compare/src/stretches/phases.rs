//! The places within a byte at which stretches begin and end.

use std::fmt;

/// The bits of pixels that are smaller than a byte.
const SIZES: [u32; 3] = [1, 2, 4];

/// The two ways.
pub const WAYS: [&str; 2] = ["forth", "back"];

/// Stretches by the place of the first and of the last pixel.
#[derive(Default)]
pub struct Ends {
    times: [[u64; 8]; 2],
}

impl Ends {
    /// Counts a stretch of so many pixels from a place on, in bytes of so many.
    pub fn note(&mut self, in_byte: u32, is_back: bool, place: u32, length: u32) {
        let moved = (length - 1) % in_byte;
        let last = match is_back {
            true => place + in_byte - moved,
            false => place + moved,
        };
        let [first_times, last_times] = &mut self.times;
        first_times[place as usize] += 1;
        last_times[(last % in_byte) as usize] += 1;
    }

    /// Whether one of the places of such a byte was never met.
    pub fn is_any_0(&self, in_byte: u32) -> bool {
        self.rows(in_byte).iter().any(|times| times.contains(&0))
    }

    /// How often each place of such a byte was met.
    pub fn told(&self, in_byte: u32) -> String {
        let [first, last] = self.rows(in_byte);
        format!("by place in a byte: the first at {first:?}, the last at {last:?}")
    }

    fn rows(&self, in_byte: u32) -> [&[u64]; 2] {
        let [first, last] = &self.times;
        [&first[..in_byte as usize], &last[..in_byte as usize]]
    }
}

/// Stretches by size of pixel and by way.
#[derive(Default)]
pub struct Phases {
    ends: [[Ends; 2]; SIZES.len()],
}

impl Phases {
    /// Counts a stretch of so many pixels from a place on.
    pub fn note(&mut self, bits: u32, is_back: bool, place: u32, length: u32) {
        if let Some(size) = SIZES.iter().position(|size| *size == bits) {
            self.ends[size][usize::from(is_back)].note(8 / bits, is_back, place, length);
        }
    }

    /// What was never met.
    pub fn never_met(&self) -> Option<String> {
        let is_any_0 = self.rows().any(|(bits, _, ends)| ends.is_any_0(8 / bits));
        is_any_0.then(|| "no stretch began or ended at some place in a byte".to_string())
    }

    /// The size, way, and ends of each.
    fn rows(&self) -> impl Iterator<Item = (u32, &'static str, &Ends)> {
        let sizes = SIZES.into_iter().zip(&self.ends);
        sizes.flat_map(|(bits, ways)| {
            let ways = WAYS.into_iter().zip(ways);
            ways.map(move |(way, ends)| (bits, way, ends))
        })
    }
}

impl fmt::Display for Phases {
    fn fmt(&self, lines: &mut fmt::Formatter) -> fmt::Result {
        for (bits, way, ends) in self.rows() {
            let told = ends.told(8 / bits);
            write!(lines, "\n  stretches of {bits}-bit pixels {way}, {told}")?;
        }
        Ok(())
    }
}
