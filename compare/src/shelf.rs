//! States at hand: any, and as many again that are drawing and inside.

use crate::random::Random;
use crate::states::{self, is_inside};
use model::image;
use model::Coprocessor;

const COUNT: usize = 64;
const INSIDE: usize = 128;

/// The states, of which new ones come in turn.
pub struct Shelf {
    any: Vec<Coprocessor>,
    inside: Vec<Coprocessor>,
}

impl Shelf {
    pub fn new(random: &mut Random) -> Shelf {
        let mut shelf = Shelf {
            any: (0..COUNT).map(|_| states::any(random)).collect(),
            inside: Vec::new(),
        };
        while shelf.inside.len() < INSIDE {
            let state = states::any(random);
            if is_inside(&image::of(&state)) {
                shelf.inside.push(state);
            }
        }
        shelf
    }

    /// A state of the shelf, after a new one has come; one in eight is inside.
    pub fn any(&mut self, random: &mut Random) -> &Coprocessor {
        let new = states::any(random);
        if is_inside(&image::of(&new)) {
            self.inside[place(random, INSIDE)] = new.clone();
        }
        self.any[place(random, COUNT)] = new;
        match random.once_in(8) {
            true => &self.inside[place(random, INSIDE)],
            false => &self.any[place(random, COUNT)],
        }
    }

    /// A state that fits; where none of any state does, new ones come until one does.
    pub fn fitting(
        &mut self,
        random: &mut Random,
        fits: &dyn Fn(&Coprocessor) -> bool,
    ) -> &Coprocessor {
        let first = place(random, COUNT);
        let mut places = (first..first + COUNT).map(|place| place % COUNT);
        let place = places.find(|place| fits(&self.any[*place]));
        let place = place.unwrap_or(first);
        while !fits(&self.any[place]) {
            self.any[place] = states::any(random);
        }
        &self.any[place]
    }

    /// A state that fits and is inside, if there is one.
    pub fn fitting_inside(
        &self,
        random: &mut Random,
        fits: &dyn Fn(&Coprocessor) -> bool,
    ) -> Option<&Coprocessor> {
        let first = place(random, INSIDE);
        let mut places = (first..first + INSIDE).map(|place| place % INSIDE);
        let place = places.find(|place| fits(&self.inside[*place]))?;
        Some(&self.inside[place])
    }
}

fn place(random: &mut Random, count: usize) -> usize {
    random.below(count as u32) as usize
}
