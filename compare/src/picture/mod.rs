//! A figured cloth, drawn through the proved library.

pub mod loom;
pub mod motif;
