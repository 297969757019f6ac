//! What a random sequence does next.

use super::sequence::Sequence;
use crate::calls;
use crate::damage;
use crate::set_ups;
use crate::states;
use crate::writes::{self, Write};
use model::coprocessor::SIZE_LIMIT;
use model::image;
use model::operations::Kind;

/// The most positions that are left to a run without a limit.
const LONGEST_RUN: u64 = 3_000;

impl Sequence<'_> {
    /// Makes 20 to 60 calls, and those of a set-up by writes besides.
    pub fn go_on(&mut self) -> Result<(), String> {
        let calls = 20 + self.random.below(41) as usize + self.to_come.len();
        (0..calls).try_for_each(|_| self.call())
    }

    /// A call of any kind, most often one that brings a drawing on.
    fn call(&mut self) -> Result<(), String> {
        match self.random.below(100) {
            0..=5 => {
                let (offset, length) = calls::place(&mut self.random);
                self.read(offset, length)
            }
            6..=11 => self.write_any(),
            12..=16 => self.load_any(),
            17..=19 => self.run_any_misfit(),
            20 => self.renew_any(),
            21..=24 => self.save(),
            25..=30 => self.carry(),
            31 => self.run_on(),
            _ if self.pair.plain.drawing.is_unfinished() => self.run_on(),
            _ => self.set_up(),
        }
    }

    /// The next write of a set-up, a start, or the image of another set-up.
    fn set_up(&mut self) -> Result<(), String> {
        if let Some(write) = self.to_come.pop() {
            return self.write(write);
        }
        let can_start = self.pair.plain.registers.fields().kind().is_some();
        match self.random.below(8) {
            0 => self.write_any(),
            1 if can_start => self.write_destination(),
            2..=5 if can_start => {
                let write = self.start();
                self.write(write)
            }
            _ => {
                let (state, start) = set_ups::set_up(&mut self.random);
                self.to_come.push(start);
                self.load(&image::of(&state))
            }
        }
    }

    /// A write that starts the stored function again, or one nearly right.
    fn start(&mut self) -> Write {
        let registers = &self.pair.plain.registers;
        if registers.fields().kind() == Some(Kind::Codes) && !self.random.once_in(4) {
            return calls::codes(&mut self.random);
        }
        let operations = match self.random.below(6) {
            0 => calls::operations(&mut self.random),
            1 => registers.operations ^ 1 << self.random.below(32),
            2 => registers.operations ^ self.random.below(8),
            _ => registers.operations,
        };
        calls::top_of_operations(&mut self.random, operations)
    }

    /// Writes both destination pointers, most often inside the destination.
    fn write_destination(&mut self) -> Result<(), String> {
        let registers = &self.pair.plain.registers;
        let map = *registers.map(registers.fields().destination);
        let x = set_ups::destination(&mut self.random, map.width);
        let y = set_ups::destination(&mut self.random, map.height);
        self.write(writes::destination((x.into(), y.into())))
    }

    fn write_any(&mut self) -> Result<(), String> {
        let write = calls::write(&mut self.random);
        self.write(write)
    }

    fn run_on(&mut self) -> Result<(), String> {
        let is_short = self.pair.plain.left() <= LONGEST_RUN;
        let allowance = match self.random.once_in(12) && is_short {
            true => u32::MAX,
            false => calls::allowance(&mut self.random),
        };
        self.run(allowance)
    }

    fn run_any_misfit(&mut self) -> Result<(), String> {
        let length = calls::misfit(&mut self.random, self.pair.plain.size);
        let allowance = calls::allowance(&mut self.random);
        self.run_misfit(length, allowance)
    }

    fn renew_any(&mut self) -> Result<(), String> {
        let wide = self.random.word();
        let size = match self.random.below(4) {
            0 => self.random.pick(&[0, 0, SIZE_LIMIT + 1, wide]),
            _ => set_ups::size(&mut self.random),
        };
        self.renew(size)
    }

    /// Loads the image of this, an earlier or any other state, as it is or damaged.
    fn load_any(&mut self) -> Result<(), String> {
        let mut image = match self.random.below(8) {
            0 => image::of(&states::any(&mut self.random)).to_vec(),
            1..=3 => self.kept.clone(),
            _ => self.pair.image().to_vec(),
        };
        if !self.random.once_in(3) {
            damage::damage(&mut self.random, &mut image, &self.kept);
        }
        self.load(&image)
    }
}
