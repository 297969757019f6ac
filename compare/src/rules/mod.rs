//! The rules of the state image, each with a way to break it by itself (01, State image).

mod bits;
mod counters;
mod maps;
mod pointers;
mod reductions;
mod starts;

use crate::random::Random;
use model::coprocessor::SIZE_LIMIT;
use model::image;
use model::Coprocessor;
use std::ops::Range;

/// The bytes of an image.
const LENGTH: u32 = image::LENGTH as u32;

type Fits = Box<dyn Fn(&Coprocessor) -> bool>;
type Breaks = Box<dyn Fn(&mut Random, &Coprocessor) -> Vec<u8>>;

/// A rule of the image.
pub struct Rule {
    /// The rules that it is listed with.
    pub group: &'static str,
    pub name: String,
    /// How often it was broken by itself, and how often so in an image of state 3.
    pub times: u64,
    pub times_inside: u64,
    /// Whether it can be broken in this state while every other rule holds.
    pub fits: Fits,
    /// The image of a state that fits, with this rule broken.
    pub breaks: Breaks,
}

/// Every rule, group by group.
pub fn all() -> Vec<Rule> {
    let groups = [
        ("frame", frame()),
        ("reductions", reductions::rules()),
        ("counters", counters::rules()),
        ("state 3", bits::rules()),
        ("operations", starts::rules()),
        ("maps", maps::rules()),
        ("pointers", pointers::rules()),
    ];
    let rules = groups.into_iter().flat_map(|(group, rules)| {
        let named = move |rule| Rule { group, ..rule };
        rules.into_iter().map(named)
    });
    rules.collect()
}

/// The rules that do not look at the registers.
fn frame() -> Vec<Rule> {
    vec![
        of_bytes("length", any, |random, bytes| {
            if random.once_in(2) {
                bytes.truncate(random.pick(&[LENGTH - 1, LENGTH - 1, 16, 0]) as usize);
            } else {
                let longer = [LENGTH + 1, LENGTH + 1, 128, 2 * LENGTH];
                bytes.resize(random.pick(&longer) as usize, 0);
            }
        }),
        of_bytes("mark", any, |random, bytes| {
            change(random, &mut bytes[image::MARK]);
        }),
        of_bytes("version", any, |random, bytes| {
            change(random, &mut bytes[image::VERSION]);
        }),
        of_record("size 0", rests, |_, state| state.size = 0),
        of_record("size above the limit", any, |random, state| {
            state.size = from(random, SIZE_LIMIT + 1, u32::MAX);
        }),
        of_bytes("state", has_zero_counters, |random, bytes| {
            let first = u32::from(image::DRAWING_INSIDE) + 1;
            bytes[image::STATE_AT] = from(random, first, 255) as u8;
        }),
    ]
}

/// A rule that was not broken yet.
fn rule(
    name: String,
    fits: impl Fn(&Coprocessor) -> bool + 'static,
    breaks: impl Fn(&mut Random, &Coprocessor) -> Vec<u8> + 'static,
) -> Rule {
    Rule {
        group: "",
        name,
        times: 0,
        times_inside: 0,
        fits: Box::new(fits),
        breaks: Box::new(breaks),
    }
}

/// A rule that is broken in the record.
fn of_record(
    name: impl Into<String>,
    fits: impl Fn(&Coprocessor) -> bool + 'static,
    breaks: impl Fn(&mut Random, &mut Coprocessor) + 'static,
) -> Rule {
    let breaks = move |random: &mut Random, state: &Coprocessor| {
        let mut broken = state.clone();
        breaks(random, &mut broken);
        image::of(&broken).to_vec()
    };
    rule(name.into(), fits, breaks)
}

/// A rule that is broken in the bytes of the image.
fn of_bytes(
    name: impl Into<String>,
    fits: impl Fn(&Coprocessor) -> bool + 'static,
    breaks: impl Fn(&mut Random, &mut Vec<u8>) + 'static,
) -> Rule {
    let breaks = move |random: &mut Random, state: &Coprocessor| {
        let mut bytes = image::of(state).to_vec();
        breaks(random, &mut bytes);
        bytes
    };
    rule(name.into(), fits, breaks)
}

fn any(_: &Coprocessor) -> bool {
    true
}

fn rests(state: &Coprocessor) -> bool {
    !state.drawing.is_unfinished()
}

fn draws(state: &Coprocessor) -> bool {
    state.drawing.is_unfinished()
}

/// Whether the counters are zero, as they are for every state that is not of a drawing.
fn has_zero_counters(state: &Coprocessor) -> bool {
    image::of(state)[image::COUNTERS] == [0; 5]
}

/// A number from `first` to `last`, most often one of these two.
fn from(random: &mut Random, first: u32, last: u32) -> u32 {
    match random.below(4) {
        0 | 1 => first,
        2 => last,
        _ => first + random.below(last - first + 1),
    }
}

/// Makes one of the bytes another.
fn change(random: &mut Random, bytes: &mut [u8]) {
    let place = any_of(random, 0..bytes.len());
    bytes[place] ^= 1 + random.below(255) as u8;
}

/// Any place of a part of the image.
fn any_of(random: &mut Random, part: Range<usize>) -> usize {
    part.start + random.below(part.len() as u32) as usize
}
