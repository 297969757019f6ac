//! What sequences of calls met.

use crate::orders::Orders;
use crate::random_drawings::FUNCTIONS;
use crate::report;
use model::operations::Kind;
use model::registers::{OPERATIONS_START, STEPS_START};
use model::Coprocessor;
use std::fmt;

/// The kinds of calls.
#[derive(Clone, Copy, Debug)]
pub enum Call {
    Fresh,
    Write,
    Read,
    Run,
    Save,
    Load,
}

/// Each kind of call, and the numbers that it can answer with on a state that calls made.
const CALLS: [(&str, &[usize]); 6] = [
    ("fresh states", &[0, 9]),
    ("writes", &[0, 1, 2, 3, 4, 5, 6, 7, 8]),
    ("reads", &[0, 1, 3]),
    ("runs", &[0, 9]),
    ("saves", &[0]),
    ("loads", &[0, 10]),
];

const NUMBERS: [&str; 11] = [
    "accepted", "1", "2", "3", "4", "5", "6", "7", "8", "9", "10",
];

/// What sequences met.
#[derive(Default)]
pub struct Counts {
    pub sequences: u64,
    /// By kind of call and number answered.
    calls: [[u64; NUMBERS.len()]; 6],
    pub positions: u64,
    /// Runs that did positions, and those of them after which the memory was another.
    pub runs: [u64; 2],
    pub carried: u64,
    pub loaded_inside: u64,
    functions: [u64; FUNCTIONS.len()],
    pixel_sizes: [u64; 4],
    drawing_modes: [u64; 4],
    mask_modes: [u64; 3],
    orders: Orders,
}

impl Counts {
    /// Counts a call by its answer; a number that the call cannot answer with is a difference.
    pub fn note_call(&mut self, call: Call, number: u32) -> Result<(), String> {
        let (name, numbers) = CALLS[call as usize];
        let number = number as usize;
        if !numbers.contains(&number) {
            return Err(format!("one of the {name} answered with {number}"));
        }
        self.calls[call as usize][number] += 1;
        Ok(())
    }

    /// Counts an accepted write by the drawing that it started, if it did.
    pub fn note_start(&mut self, state: &Coprocessor, offset: u32, length: u32) {
        let fields = state.registers.fields();
        let starting_byte = match fields.kind() {
            Some(Kind::Codes) => STEPS_START,
            _ => OPERATIONS_START,
        };
        let is_started = (offset..offset + length).contains(&starting_byte);
        let function = FUNCTIONS.iter().position(|one| *one == fields.function);
        if let Some(function) = function.filter(|_| is_started) {
            let code = state.registers.map(fields.destination).pixel_code();
            self.functions[function] += 1;
            self.pixel_sizes[usize::from(code)] += 1;
            self.drawing_modes[fields.drawing_mode as usize] += 1;
            self.mask_modes[fields.mask as usize] += 1;
            self.orders.note(state);
        }
    }

    /// A number that some call can answer with and none did, or a mix of orders.
    pub fn never_met(&self) -> Option<String> {
        let mut calls = CALLS.iter().zip(&self.calls);
        let never = calls.find_map(|((name, numbers), times)| {
            let never = numbers.iter().find(|number| times[**number] == 0)?;
            Some(format!("none of the {name} answered with {never}"))
        });
        never.or_else(|| self.orders.never_met())
    }
}

impl fmt::Display for Counts {
    fn fmt(&self, lines: &mut fmt::Formatter) -> fmt::Result {
        let calls: u64 = self.calls.iter().flatten().sum();
        write!(
            lines,
            "sequences: {}, of {calls} calls; {} positions in {} runs, of which {} changed memory",
            self.sequences, self.positions, self.runs[0], self.runs[1]
        )?;
        write!(
            lines,
            "\n  {} loads into another coprocessor; {} of all loads in state 3",
            self.carried, self.loaded_inside
        )?;
        for ((name, _), times) in CALLS.iter().zip(&self.calls) {
            write!(lines, "{}", report::met(name, &NUMBERS, times))?;
        }
        let starts: [(&str, &[&str], &[u64]); 4] = [
            (
                "function",
                &["2", "3", "4", "5", "8", "9", "10"],
                &self.functions,
            ),
            ("bits of a pixel", &["1", "2", "4", "8"], &self.pixel_sizes),
            (
                "drawing mode",
                &["00", "01", "10", "11"],
                &self.drawing_modes,
            ),
            ("mask mode", &["00", "01", "10"], &self.mask_modes),
        ];
        for (field, names, times) in starts {
            let title = format!("starts by {field}");
            write!(lines, "{}", report::met(&title, names, times))?;
        }
        write!(lines, "{}", self.orders)
    }
}
