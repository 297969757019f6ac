//! The proved library, the fast runner and the clear program, timed at the same work, which is also done by hand.

pub mod instructions;
pub mod race;
pub mod workloads;

mod limits;
mod runners;
