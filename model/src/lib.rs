//! The drawing half of the XGA coprocessor, position by position, to be read line by line against 01.
//!
//! Where 003 overrules 01 the difference is D1 to D5 of docs/DIFFERENCES.md.
//! Where the papers are silent, docs/DECISIONS.md decides.

pub mod boundary;
pub mod circle;
pub mod codes;
pub mod coprocessor;
pub mod drawing;
pub mod fates;
pub mod image;
pub mod map;
pub mod mixes;
pub mod moves;
pub mod operations;
pub mod pixels;
pub mod position;
pub mod reach;
pub mod refusals;
pub mod registers;
pub mod start;

pub use coprocessor::Coprocessor;
pub use drawing::Drawing;
pub use map::Map;
pub use refusals::Refusal;
pub use registers::Registers;
