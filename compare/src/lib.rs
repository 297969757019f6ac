//! The proved code and the independent program: held against each other (`comparison`), timed (`speed`), and drawn with (`picture`).

pub mod arguments;
pub mod comparison;
pub mod fast;
pub mod memories;
pub mod panics;
pub mod picture;
pub mod random;
pub mod random_drawings;
pub mod speed;
pub mod stretches;
pub mod writes;

mod between;
mod board;
mod calls;
mod damage;
mod drawings;
mod guarded;
mod images;
mod leaves;
mod mixes;
mod orders;
mod others;
mod outlines;
mod pair;
mod pixels;
mod progress;
mod report;
mod rules;
mod sequences;
mod set_ups;
mod shelf;
mod states;
