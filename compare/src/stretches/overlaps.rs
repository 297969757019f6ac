//! Stretches of source pixels that lie a few bytes from the destination.

use super::cases::FARTHEST;
use super::places;
use super::taken::Ink;
use crate::report;
use model::Registers;
use std::fmt;

const DISTANCES: usize = 2 * FARTHEST as usize + 1;

const TITLES: [&str; 4] = [
    "positions in bytes copied forth over their own source, by how many bytes further on it lies",
    "positions in bytes copied back over their own source",
    "positions in bytes blended forth over their own source",
    "positions in bytes blended back over their own source",
];

/// Positions in whole bytes of stretches that reach their own source, by ink, way and distance.
#[derive(Default)]
pub struct Overlaps {
    times: [[u64; DISTANCES]; TITLES.len()],
}

impl Overlaps {
    /// Counts the stretch that comes next, of so many positions in whole bytes.
    pub fn note(&mut self, registers: &Registers, ink: Ink, whole: u32) {
        let row = match ink {
            Ink::Solid => return,
            Ink::Copied => 0,
            Ink::Blended => 2,
        };
        let fields = registers.fields();
        let [from, to] = [places::source(registers), places::destination(registers)];
        let distance = from.byte() as i64 - to.byte() as i64;
        let bytes = i64::from(whole * to.map.bits() / 8);
        if distance.abs() <= FARTHEST && distance.abs() < bytes {
            let way = usize::from(fields.x_sign() < 0);
            self.times[row + way][(distance + FARTHEST) as usize] += u64::from(whole);
        }
    }

    /// What was never met.
    pub fn never_met(&self) -> Option<String> {
        let rows = TITLES.iter().zip(&self.times);
        let (title, place) = rows
            .filter_map(|(title, times)| Some((title, times.iter().position(|one| *one == 0)?)))
            .next()?;
        let distance = place as i64 - FARTHEST;
        Some(format!("{title}: {distance} bytes were never met"))
    }
}

impl fmt::Display for Overlaps {
    fn fmt(&self, lines: &mut fmt::Formatter) -> fmt::Result {
        let names: Vec<String> = (-FARTHEST..=FARTHEST)
            .map(|distance| distance.to_string())
            .collect();
        let names: Vec<&str> = names.iter().map(String::as_str).collect();
        for (title, times) in TITLES.iter().zip(&self.times) {
            write!(lines, "{}", report::met(title, &names, times))?;
        }
        Ok(())
    }
}
