//! The coprocessor's record and the calls (01, What the board draws; 01, Numbers a call answers with).

use crate::drawing::Drawing;
use crate::image;
use crate::moves;
use crate::position;
use crate::refusals::{Refusal, NONE};
use crate::registers::{self, Registers, OPERATIONS_START};
use crate::start;

/// The largest memory, in bytes.
pub const SIZE_LIMIT: u32 = 1_048_576;

/// The coprocessor's record.
#[derive(Clone, Debug, PartialEq, Eq)]
pub struct Coprocessor {
    /// The bytes of the memory that runs are lent.
    pub size: u32,
    /// The register bank.
    pub registers: Registers,
    /// The drawing in hand.
    pub drawing: Drawing,
}

/// 01, What the board draws: a memory has 1 to 1,048,576 bytes.
pub fn is_within_limit(size: u32) -> bool {
    (1..=SIZE_LIMIT).contains(&size)
}

impl Coprocessor {
    /// A fresh state and refusal 0, or a fresh state of size 1 and refusal 9.
    pub fn fresh(size: u32) -> (Coprocessor, u32) {
        let (size, refusal) = if is_within_limit(size) {
            (size, NONE)
        } else {
            (1, Refusal::Size.number())
        };
        let fresh = Coprocessor {
            size,
            registers: Registers::default(),
            drawing: Drawing::Nothing { stopped: false },
        };
        (fresh, refusal)
    }

    /// Writes `length` bytes of `value` at `offset`, and answers the refusal, which leaves the record.
    pub fn write(&mut self, offset: u32, length: u32, value: u32) -> u32 {
        match self.written(offset, length, value) {
            Ok(next) => {
                *self = next;
                NONE
            }
            Err(refusal) => refusal.number(),
        }
    }

    /// Reads `length` bytes at `offset`, and answers the refusal and the value, 0 if refused.
    pub fn read(&self, offset: u32, length: u32) -> (u32, u32) {
        let refused = registers::check_place(offset, length)
            .and_then(|()| registers::check_listed(offset, length))
            .and_then(|()| self.check_record());
        match refused {
            Ok(()) => (NONE, self.registers.read(offset, length)),
            Err(refusal) => (refusal.number(), 0),
        }
    }

    /// Does at most `allowance` positions, and answers the refusal and how many it did.
    ///
    /// A refusal leaves the record and the memory. No position of a valid record reaches beyond the memory; one that did would panic.
    pub fn run(&mut self, memory: &mut [u8], allowance: u32) -> (u32, u32) {
        if memory.len() as u64 != u64::from(self.size) {
            return (Refusal::Size.number(), 0);
        }
        if let Err(refusal) = self.check_record() {
            return (refusal.number(), 0);
        }
        (NONE, self.draw(memory, allowance))
    }

    /// Writes the image into a buffer of 115 bytes, and answers the refusal, which leaves the buffer.
    pub fn save(&self, buffer: &mut [u8]) -> u32 {
        if buffer.len() != image::LENGTH || !self.is_valid() {
            return Refusal::Image.number();
        }
        buffer.copy_from_slice(&image::of(self));
        NONE
    }

    /// Becomes the record of an image, and answers the refusal, which leaves the record.
    pub fn load(&mut self, buffer: &[u8]) -> u32 {
        match image::loaded(buffer) {
            Some(loaded) => {
                *self = loaded;
                NONE
            }
            None => Refusal::Image.number(),
        }
    }

    /// The positions of the drawing in hand, 0 for nothing.
    pub fn total(&self) -> u64 {
        self.drawing.total(&self.registers)
    }

    /// The positions left of the drawing in hand, 0 for nothing.
    pub fn left(&self) -> u64 {
        self.total()
            .saturating_sub(self.drawing.done(&self.registers))
    }

    /// Whether the record is the one that its own image loads to.
    pub fn is_valid(&self) -> bool {
        image::loaded(&image::of(self)).as_ref() == Some(self)
    }

    /// Refusal 10 on a record.
    fn check_record(&self) -> Result<(), Refusal> {
        self.is_valid().then_some(()).ok_or(Refusal::Image)
    }

    /// The record after an accepted write, or the lowest refusal that applies.
    fn written(&self, offset: u32, length: u32, value: u32) -> Result<Coprocessor, Refusal> {
        registers::check_place(offset, length)?;
        if self.drawing.is_unfinished() {
            return Err(Refusal::Unfinished);
        }
        registers::check_listed(offset, length)?;

        let mut next = self.clone();
        next.registers = self.registers.written(offset, length, value);
        let covers_function = (offset..offset + length).contains(&OPERATIONS_START);
        if covers_function && next.registers.fields().kind().is_none() {
            return Err(Refusal::Function);
        }
        let started = start::started(&next.registers, offset, length);
        if started.is_some() {
            start::check(&next.registers, self.size)?;
        }
        self.check_record()?;

        if let Some(kind) = started {
            start::reduce_pointers(&mut next.registers);
            next.drawing = start::first(&next.registers, kind, length);
        }
        Ok(next)
    }

    /// Positions go strictly one after another, until the allowance or the drawing ends: how many it did.
    pub(crate) fn draw(&mut self, memory: &mut [u8], allowance: u32) -> u32 {
        let mut done = 0;
        while done < allowance && self.drawing.is_unfinished() {
            let is_foreground = position::is_foreground(&self.registers, &self.drawing, memory);
            position::draw(&self.registers, &self.drawing, is_foreground, memory);
            self.drawing = moves::advance(&mut self.registers, self.drawing, is_foreground);
            done += 1;
        }
        done
    }
}
