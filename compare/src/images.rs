//! State images: whole ones, damaged ones, and ones with exactly one rule broken, taken or refused by both.

use crate::damage;
use crate::memories::Memories;
use crate::others::Others;
use crate::progress::Steps;
use crate::random::Random;
use crate::report;
use crate::rules::{self, Rule};
use crate::shelf::Shelf;
use crate::states::is_inside;
use model::coprocessor::is_within_limit;
use model::image;
use model::Coprocessor;
use std::fmt;

/// The positions that an image which loads is run for.
const POSITIONS: u32 = 3;

/// What a comparison of images met.
#[derive(Default)]
pub struct Counts {
    whole: u64,
    damaged: u64,
    loaded: u64,
    loaded_inside: u64,
    refused: u64,
    rules: Vec<Rule>,
}

/// Compares an image in each step; each rule is broken by itself as often as each other.
pub fn compare(random: &mut Random, steps: Steps, others: &Others) -> Result<Counts, String> {
    let count = steps.asked;
    let mut rules = rules::all();
    let mut turn = (0..rules.len()).cycle();
    let mut counts = Counts::default();
    let mut images = Images {
        shelf: Shelf::new(random),
        random,
        others,
        memories: Memories::of(&[]),
    };
    for number in steps {
        let mut image = images.any();
        let is_loaded = match number % 10 {
            0 => {
                counts.whole += 1;
                images.is_taken(&image)?
            }
            1..=3 => {
                counts.damaged += 1;
                let other = images.any();
                damage::damage(images.random, &mut image, &other);
                images.is_taken(&image)?
            }
            _ => {
                let rule = &mut rules[turn.next().unwrap_or_default()];
                images.break_alone(rule)?;
                false
            }
        };
        counts.loaded += u64::from(is_loaded);
        counts.loaded_inside += u64::from(is_loaded && is_inside(&image));
        counts.refused += u64::from(!is_loaded);
    }
    let rare = rules.iter().find(|rule| rule.times < count / 1000);
    if let Some(Rule { name, times, .. }) = rare {
        return Err(format!("broken by itself only {times} times: {name}"));
    }
    Ok(Counts { rules, ..counts })
}

/// What the comparison has at hand.
struct Images<'a> {
    random: &'a mut Random,
    others: &'a Others,
    shelf: Shelf,
    memories: Memories,
}

impl Images<'_> {
    /// The image of any state.
    fn any(&mut self) -> Vec<u8> {
        image::of(self.shelf.any(self.random)).to_vec()
    }

    /// A state that fits the rule, every other time one in state 3 if there is one.
    fn fitting(&mut self, rule: &Rule) -> Coprocessor {
        let inside = match rule.times % 2 {
            0 => None,
            _ => self.shelf.fitting_inside(self.random, &rule.fits).cloned(),
        };
        inside.unwrap_or_else(|| self.shelf.fitting(self.random, &rule.fits).clone())
    }

    /// Breaks the rule in the image of a state that fits it: whole it loads, and so it does not.
    fn break_alone(&mut self, rule: &mut Rule) -> Result<(), String> {
        let state = self.fitting(rule);
        let whole = image::of(&state);
        rule.times += 1;
        rule.times_inside += u64::from(is_inside(&whole));
        let broken = (rule.breaks)(self.random, &state);
        match (self.is_taken(&whole)?, self.is_taken(&broken)?) {
            (true, false) => Ok(()),
            _ => Err(format!("not broken by itself: {}, {state:?}", rule.name)),
        }
    }

    /// Whether both take the image, in a coprocessor with another size and another drawing; they then save it as it was.
    fn is_taken(&mut self, bytes: &[u8]) -> Result<bool, String> {
        let size = match bytes.len() >= image::SIZE.end {
            true => image::get(bytes, image::SIZE),
            false => 0,
        };
        if is_within_limit(size) {
            self.memories.set_length(self.random, size);
        }
        let mut pair = self.others.of_another_size(self.random, size).clone();
        if pair.load(bytes, &mut self.memories)? != 0 {
            return Ok(false);
        }
        let answer = pair.run(&mut self.memories, 0)?;
        if answer != (0, 0) || pair.save()? != bytes {
            return Err(format!("loaded and saved: {answer:?}, {bytes:02X?}"));
        }
        pair.run(&mut self.memories, POSITIONS)?;
        Ok(true)
    }
}

impl fmt::Display for Counts {
    fn fmt(&self, lines: &mut fmt::Formatter) -> fmt::Result {
        let broken: u64 = self.rules.iter().map(|rule| rule.times).sum();
        write!(
            lines,
            "images: {} loaded, {} of them in state 3, {} refused; {} were whole, {} damaged, {broken} had one rule broken by itself:",
            self.loaded, self.loaded_inside, self.refused, self.whole, self.damaged
        )?;
        for group in self.rules.chunk_by(|one, next| one.group == next.group) {
            let rules = group
                .iter()
                .map(|rule| format!("{}: {}", rule.name, rule.times));
            write!(lines, "{}", report::list(group[0].group, rules))?;
        }
        let inside = || self.rules.iter().map(|rule| rule.times_inside);
        let met = || inside().filter(|times| *times > 0);
        write!(
            lines,
            "\n  {} of these were in state 3; {} of the {} rules were broken so, each at least {} times",
            inside().sum::<u64>(),
            met().count(),
            self.rules.len(),
            met().min().unwrap_or(0)
        )
    }
}
