//! Lines and codes, whose stretches are strokes.

pub mod cases;
pub mod counts;
pub mod rule;
