//! A state held twice, by the proved code and by the independent program, and compared after every call.

use crate::board::{self, IMAGE};
use crate::guarded::Guarded;
use crate::memories::Memories;
use crate::states;
use model::image;
use model::refusals::{Refusal, NONE};
use model::Coprocessor;
use std::fmt::Debug;

/// The two states: the image of the proved code between guard bytes, and the record of the independent program.
#[derive(Clone, Debug)]
pub struct Pair {
    image: Guarded,
    pub plain: Coprocessor,
}

impl Pair {
    /// A fresh state of both, and the answer.
    pub fn fresh(size: u32) -> Result<(Pair, u32), String> {
        let (plain, _) = Coprocessor::fresh(1);
        let image = Guarded::of(&[0; IMAGE]);
        let mut pair = Pair { image, plain };
        let refusal = pair.renew(size)?;
        Ok((pair, refusal))
    }

    /// Makes both fresh, whatever they were: the answer.
    pub fn renew(&mut self, size: u32) -> Result<u32, String> {
        let said = board::fresh(self.image.bytes_mut(), size);
        let (plain, right) = Coprocessor::fresh(size);
        self.plain = plain;
        self.agree("fresh", &[size], said, right)?;
        Ok(right)
    }

    /// The state of an image, in both, if it loads: the answer.
    ///
    /// A refused image is refused by every call, which leaves it; the memories are what its run is lent.
    pub fn load(&mut self, image: &[u8], memories: &mut Memories) -> Result<u32, String> {
        let mut lent = Guarded::of(image);
        let said = board::load(lent.bytes_mut());
        let right = self.plain.load(image);
        if lent.bytes() != image || !lent.are_guards_kept() {
            return Err(format!("load changed the image {image:02X?}"));
        }
        if said == NONE {
            self.image.take(image);
        }
        self.agree("load", &[], said, right)
            .and_then(|()| match right {
                NONE => Ok(()),
                _ => refused_by_every_call(image, memories),
            })
            .map_err(|difference| format!("{difference}\nimage {image:02X?}"))?;
        Ok(right)
    }

    /// A write in both: the answer.
    pub fn write(&mut self, offset: u32, length: u32, value: u32) -> Result<u32, String> {
        let said = board::write(self.image.bytes_mut(), offset, length, value);
        let right = self.plain.write(offset, length, value);
        self.agree("write", &[offset, length, value], said, right)?;
        Ok(right)
    }

    /// A read in both: the refusal and the value.
    pub fn read(&mut self, offset: u32, length: u32) -> Result<(u32, u32), String> {
        let said = board::read(self.image.bytes_mut(), offset, length);
        let right = self.plain.read(offset, length);
        self.agree("read", &[offset, length], said, right)?;
        Ok(right)
    }

    /// A run in both: the refusal and the positions done.
    pub fn run(&mut self, memories: &mut Memories, allowance: u32) -> Result<(u32, u32), String> {
        let proved = memories.proved.bytes_mut();
        let said = board::run(self.image.bytes_mut(), proved, allowance);
        let right = self.plain.run(&mut memories.plain, allowance);
        self.agree("run", &[allowance], said, right)?;
        memories
            .agree()
            .map_err(|difference| format!("run {allowance:X}: {difference}\n{:?}", self.plain))?;
        Ok(right)
    }

    /// The image that both save.
    pub fn save(&self) -> Result<Vec<u8>, String> {
        let mut image = vec![0; IMAGE];
        let saved = self.plain.save(&mut image);
        self.agree("save", &[], (NONE, self.image()), (saved, &image))?;
        Ok(image)
    }

    /// A save into a buffer of a wrong length, which stays: the answer.
    ///
    /// The proved library has no save; there every call refuses the image in a buffer of that length.
    pub fn save_misfit(&mut self, length: usize, memories: &mut Memories) -> Result<u32, String> {
        let mut image = self.image().to_vec();
        image.resize(length, 0);
        let said = self.load(&image, memories)?;
        let mut buffer = vec![0x5A; length];
        let right = self.plain.save(&mut buffer);
        if buffer != vec![0x5A; length] {
            return Err(format!("save changed a buffer of {length} bytes"));
        }
        self.agree("save", &[length as u32], said, right)?;
        Ok(right)
    }

    /// Whether the state is 3, drawing and inside.
    pub fn is_inside(&self) -> bool {
        states::is_inside(self.image())
    }

    /// The image of the state, as the proved code keeps it.
    pub fn image(&self) -> &[u8] {
        self.image.bytes()
    }

    /// That both answered the same and have the same image, and that no guard byte was touched.
    fn agree<A: PartialEq + Debug>(
        &self,
        call: &str,
        arguments: &[u32],
        said: A,
        right: A,
    ) -> Result<(), String> {
        let image = image::of(&self.plain);
        let guards = self.image.are_guards_kept();
        if said == right && image == self.image() && guards {
            return Ok(());
        }
        let differing: Vec<usize> = (0..IMAGE)
            .filter(|at| self.image()[*at] != image[*at])
            .collect();
        Err(format!(
            "{call} {arguments:X?}: {said:?} for {right:?}, image differs at {differing:?}, guards kept: {guards}\n{:?}",
            self.plain
        ))
    }
}

/// That an image which does not load is refused with 10 by every call, before any other number but a fresh state's 9, and
/// stays.
fn refused_by_every_call(image: &[u8], memories: &mut Memories) -> Result<(), String> {
    let refusal = Refusal::Image.number();
    let mut lent = Guarded::of(image);
    let written = board::write(lent.bytes_mut(), 0x50, 4, 1);
    let misplaced = board::write(lent.bytes_mut(), 0x51, 4, 1);
    let read = board::read(lent.bytes_mut(), 0x50, 4);
    let run = board::run(lent.bytes_mut(), memories.proved.bytes_mut(), 9);
    let fresh = match image.len() {
        IMAGE => (refusal, Refusal::Size.number()),
        _ => (
            board::fresh(lent.bytes_mut(), 64),
            board::fresh(lent.bytes_mut(), 0),
        ),
    };
    let answers = [written, misplaced, read.0, run.0, fresh.0];
    let is_size_first = fresh.1 == Refusal::Size.number();
    let is_kept = lent.bytes() == image && lent.are_guards_kept();
    if answers != [refusal; 5] || !is_size_first || read.1 != 0 || run.1 != 0 || !is_kept {
        return Err(format!(
            "a refused image: write {written}, misplaced write {misplaced}, read {read:?}, run {run:?}, fresh {fresh:?}, image kept: {is_kept}"
        ));
    }
    memories.agree()
}
