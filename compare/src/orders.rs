//! The pixel orders of the maps that drawings use; maps of 8 bits are left out, as the orders are one there.

use crate::report;
use crate::states;
use model::pixels::Order;
use model::Coprocessor;
use std::fmt;

const ROLES: [&str; 4] = ["destination", "source", "pattern", "mask"];

/// The orders of destination, source, pattern and mask map, I for Intel and M for Motorola, by the bits of a number from the lowest up.
const MIXES: [&str; 16] = [
    "IIII", "MIII", "IMII", "MMII", "IIMI", "MIMI", "IMMI", "MMMI", "IIIM", "MIIM", "IMIM", "MMIM",
    "IIMM", "MIMM", "IMMM", "MMMM",
];

/// What was met.
#[derive(Default)]
pub struct Orders {
    /// Drawings with a map in Motorola order, by what the map is used for.
    motorola: [u64; ROLES.len()],
    /// Drawings that use all four maps, by their orders.
    mixes: [u64; MIXES.len()],
}

impl Orders {
    /// Counts the drawing in hand.
    pub fn note(&mut self, state: &Coprocessor) {
        let maps = states::maps_by_role(state);
        let orders = maps.map(|map| {
            let map = &state.registers.maps[map?];
            (map.bits() < 8).then(|| map.order())
        });
        let are_motorola = orders.map(|order| order == Some(Order::Motorola));
        for (times, is_motorola) in self.motorola.iter_mut().zip(are_motorola) {
            *times += u64::from(is_motorola);
        }
        if !orders.contains(&None) {
            let bits = (0..).zip(are_motorola);
            let mix: usize = bits.map(|(bit, is_one)| usize::from(is_one) << bit).sum();
            self.mixes[mix] += 1;
        }
    }

    /// A mix of orders that was never met.
    pub fn never_met(&self) -> Option<String> {
        let mut mixes = MIXES.iter().zip(self.mixes);
        let (name, _) = mixes.find(|(_, times)| *times == 0)?;
        Some(format!("no drawing had its four maps in the orders {name}"))
    }
}

impl fmt::Display for Orders {
    fn fmt(&self, lines: &mut fmt::Formatter) -> fmt::Result {
        let title = "maps of 1, 2 or 4 bits in Motorola order";
        write!(lines, "{}", report::met(title, &ROLES, &self.motorola))?;
        let title = "four such maps, by order (I or M) of destination, source, pattern, mask";
        write!(lines, "{}", report::met(title, &MIXES, &self.mixes))
    }
}
