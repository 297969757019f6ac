//! What a fitter may do between two runs of a drawing: reads, and calls that are refused, none of which changes anything.

use crate::board::IMAGE;
use crate::calls;
use crate::damage;
use crate::memories::Memories;
use crate::others::Others;
use crate::pair::Pair;
use crate::random::Random;
use crate::report;
use std::fmt;

/// The kinds of what is done.
#[derive(Clone, Copy)]
enum Act {
    Read,
    Write,
    Run,
    Load,
    Save,
}

/// Each kind, and the numbers that it is answered with in the middle of a drawing.
const ACTS: [(Act, &str, &[u32]); 5] = [
    (Act::Read, "reads", &[0, 1, 3]),
    (Act::Write, "writes", &[1, 2]),
    (Act::Run, "runs", &[9]),
    (Act::Load, "loads", &[10]),
    (Act::Save, "saves", &[10]),
];

/// Lengths that no image has.
const WRONG_LENGTHS: [usize; 5] = [0, 1, IMAGE - 1, IMAGE + 1, 2 * IMAGE];

/// How often each kind was answered with each of its numbers.
#[derive(Default)]
pub struct Counts {
    times: [[u64; 3]; ACTS.len()],
}

/// Does what a fitter may do, with random numbers of its own.
pub struct Between<'a> {
    random: Random,
    others: &'a Others,
    /// Lent to runs that are to be refused for its length.
    misfit: Memories,
    pub counts: Counts,
}

impl<'a> Between<'a> {
    pub fn new(random: Random, others: &'a Others) -> Between<'a> {
        Between {
            random,
            others,
            misfit: Memories::of(&[]),
            counts: Counts::default(),
        }
    }

    /// Does one thing of any kind to an unfinished drawing, which must leave both images as they were.
    pub fn act(&mut self, pair: &mut Pair, memories: &mut Memories) -> Result<(), String> {
        let before = pair.save()?;
        let kind = self.random.below(ACTS.len() as u32) as usize;
        let (act, name, numbers) = ACTS[kind];
        let number = match act {
            Act::Read => self.read(pair),
            Act::Write => self.write(pair),
            Act::Run => self.run(pair),
            Act::Load => self.load(pair, memories),
            Act::Save => self.save(pair, memories),
        }?;
        if pair.save()? != before {
            return Err(format!("one of the {name} changed the image {before:02X?}"));
        }
        match numbers.iter().position(|right| *right == number) {
            Some(place) => self.counts.times[kind][place] += 1,
            None => return Err(format!("one of the {name} was answered with {number}")),
        }
        Ok(())
    }

    fn read(&mut self, pair: &mut Pair) -> Result<u32, String> {
        let (offset, length) = calls::place(&mut self.random);
        Ok(pair.read(offset, length)?.0)
    }

    fn write(&mut self, pair: &mut Pair) -> Result<u32, String> {
        let (offset, length, value) = match self.random.below(4) {
            0 => calls::codes(&mut self.random),
            _ => calls::write(&mut self.random),
        };
        pair.write(offset, length, value)
    }

    /// A run that is lent a memory of another length, which stays.
    fn run(&mut self, pair: &mut Pair) -> Result<u32, String> {
        let length = calls::misfit(&mut self.random, pair.plain.size);
        self.misfit.set_length(&mut self.random, length);
        let before = self.misfit.plain.clone();
        let allowance = calls::allowance(&mut self.random);
        match pair.run(&mut self.misfit, allowance)? {
            (number, 0) if self.misfit.plain == before => Ok(number),
            (number, done) => Err(format!(
                "a run lent {length} bytes: {number}, {done} positions, memory kept: {}",
                self.misfit.plain == before
            )),
        }
    }

    /// A load of the drawing's own image, damaged.
    fn load(&mut self, pair: &mut Pair, memories: &mut Memories) -> Result<u32, String> {
        let other = self
            .others
            .of_another_size(&mut self.random, pair.plain.size);
        let damaged = damage::refused(&mut self.random, pair.image(), other.image());
        pair.load(&damaged, memories)
    }

    /// A save into a buffer of a wrong length.
    fn save(&mut self, pair: &mut Pair, memories: &mut Memories) -> Result<u32, String> {
        let place = self.random.below(WRONG_LENGTHS.len() as u32) as usize;
        pair.save_misfit(WRONG_LENGTHS[place], memories)
    }
}

impl Counts {
    /// A kind that was never answered with one of its numbers.
    pub fn never_met(&self) -> Option<String> {
        let mut kinds = ACTS.iter().zip(&self.times);
        kinds.find_map(|((_, name, numbers), times)| {
            let mut answers = numbers.iter().zip(times);
            let (number, _) = answers.find(|(_, times)| **times == 0)?;
            Some(format!(
                "none of the {name} between two runs was answered with {number}"
            ))
        })
    }
}

impl fmt::Display for Counts {
    fn fmt(&self, lines: &mut fmt::Formatter) -> fmt::Result {
        let names = ACTS.map(|(_, name, _)| name);
        let times = self.times.map(|times| times.iter().sum());
        let all: u64 = times.iter().sum();
        let title = format!("{all} refused calls and reads between two runs");
        write!(lines, "{}", report::met(&title, &names, &times))
    }
}
