//! The rule by which the library takes many positions of a row, line or code at once, as a stretch, and all others one by one.

use super::places::{self, share_a_byte};
use super::strokes::rule::stroke;
use model::codes::{self, Code};
use model::operations;
use model::{Coprocessor, Drawing, Registers};

/// Where no stretch can begin, so many positions are done one by one before it is looked again.
const TOGETHER: u32 = 16;

/// What a stretch takes.
#[derive(Clone, Copy, Debug, PartialEq, Eq)]
pub enum Kind {
    /// The colour.
    Solid,
    /// Source pixels that begin at the same bits of their bytes as the destination.
    Copy,
    /// Source pixels that begin at others.
    Slide,
    /// The colour that a pattern map picks.
    Pattern,
    /// The colour, in a line or a code.
    Stroke,
}

/// The kind of the stretch that begins at the next position.
pub fn kind(state: &Coprocessor) -> Kind {
    let registers = &state.registers;
    match state.drawing {
        Drawing::Line { .. } | Drawing::Codes { .. } => Kind::Stroke,
        _ if registers.fields().uses_pattern() => Kind::Pattern,
        _ if !takes_source(registers) => Kind::Solid,
        _ => {
            let [from, to] = [places::source(registers), places::destination(registers)];
            match from.in_byte() == to.in_byte() {
                true => Kind::Copy,
                false => Kind::Slide,
            }
        }
    }
}

/// Whether a drawing without a pattern takes the source pixel.
pub fn takes_source(registers: &Registers) -> bool {
    registers.fields().foreground_source == operations::SOURCE_MAP
}

/// How the next position stands to stretches.
#[derive(Clone, Copy, Debug, PartialEq, Eq)]
pub enum Standing {
    OutsideMap,
    OutsideMask,
    /// The stretch would draw into a byte between those that it reads.
    Shared,
    /// Of a code that only moves.
    Moved,
    /// The next step of a line or code leads outside.
    AtEdge,
    /// A stretch can begin here.
    Fit,
}

/// How the next position of a drawing without a bar stands, if at most so many positions are done.
pub fn standing(state: &Coprocessor, allowance: u32) -> Standing {
    match outside(&state.registers) {
        _ if is_moved(state) => Standing::Moved,
        Some(Cut::MaskEdge) => Standing::OutsideMask,
        Some(_) => Standing::OutsideMap,
        None if stretch(state, allowance).length() == 0 => Standing::AtEdge,
        None if is_shared(state, stretch(state, allowance).length()) => Standing::Shared,
        None => Standing::Fit,
    }
}

/// Whether the next position is of a code that only moves.
fn is_moved(state: &Coprocessor) -> bool {
    current_code(state).is_some_and(|code| !code.draws)
}

/// The code that a run of codes is at.
pub fn current_code(state: &Coprocessor) -> Option<Code> {
    match state.drawing {
        Drawing::Codes { count, code, .. } => codes::at(state.registers.steps, count, code),
        _ => None,
    }
}

/// Whether the next position lies outside the map or the mask boundary, as the edge over which it lies.
pub fn outside(registers: &Registers) -> Option<Cut> {
    let fields = registers.fields();
    let [x, y] = [registers.destination_x, registers.destination_y].map(i64::from);
    let [left, top] = [registers.mask_origin_x, registers.mask_origin_y].map(i64::from);
    let is_masked = fields.mask == operations::MASK_BOUNDARY;
    let is_in_mask = !is_masked || registers.maps[0].pixel_at(x - left, y - top).is_some();
    match registers.map(fields.destination).pixel_at(x, y) {
        None => Some(Cut::MapEdge),
        Some(_) => (!is_in_mask).then_some(Cut::MaskEdge),
    }
}

/// Whether a byte lies in the range that a stretch of so many positions reads, and in the one that it draws into.
fn is_shared(state: &Coprocessor, length: u32) -> bool {
    let registers = &state.registers;
    read(state).is_some_and(|read| {
        let x_sign = registers.fields().x_sign();
        let drawn = places::destination(registers).bytes(length, x_sign);
        share_a_byte(&read.bytes(length, x_sign), &drawn)
    })
}

/// The first pixel that a stretch reads, where its bytes must lie apart from those that it draws into.
pub fn read(state: &Coprocessor) -> Option<places::Place<'_>> {
    match kind(state) {
        Kind::Slide => Some(places::source(&state.registers)),
        Kind::Pattern => Some(places::pattern(&state.registers)),
        Kind::Solid | Kind::Copy | Kind::Stroke => None,
    }
}

/// What ends a stretch.
#[derive(Clone, Copy, Debug, PartialEq, Eq)]
pub enum Cut {
    /// That of the row, line or code.
    End,
    Allowance,
    MapEdge,
    MaskEdge,
    /// The source or the pattern comes in at its other edge.
    Wrap,
}

/// The next positions of a drawing.
#[derive(Clone, Copy, Debug, PartialEq, Eq)]
pub enum Piece {
    /// So many at once, and what ends them.
    Stretch(u32, Cut),
    /// So many one by one.
    Singles(u32),
}

impl Piece {
    /// The positions.
    pub fn length(&self) -> u32 {
        match *self {
            Piece::Stretch(length, _) | Piece::Singles(length) => length,
        }
    }
}

/// The next positions of a drawing without a bar, of at most so many.
pub fn piece(state: &Coprocessor, allowance: u32) -> Piece {
    match standing(state, allowance) {
        Standing::Fit => stretch(state, allowance),
        _ => {
            let left = state.left().min(u64::from(allowance)) as u32;
            Piece::Singles(left.min(TOGETHER))
        }
    }
}

/// The stretch from the next position, which lies inside, to the nearest end, of which the first named is told.
pub fn stretch(state: &Coprocessor, allowance: u32) -> Piece {
    let (length, cut) = match kind(state) {
        Kind::Stroke => stroke(state, allowance),
        _ => row(state, allowance),
    };
    Piece::Stretch(length, cut)
}

/// The stretch of a row.
fn row(state: &Coprocessor, allowance: u32) -> (u32, Cut) {
    let registers = &state.registers;
    let fields = registers.fields();
    let upto = |first: i64, last: i64, at: i64| match fields.x_sign() {
        1 => last - at + 1,
        _ => at - first + 1,
    };
    let side = |map: u32| i64::from(registers.map(map).width);
    let x = i64::from(registers.destination_x);
    let first = i64::from(registers.mask_origin_x);
    let mask = upto(first, first + side(0), x);
    let wrap = match kind(state) {
        Kind::Copy | Kind::Slide => Some((fields.source, registers.source_x)),
        Kind::Pattern => Some((fields.pattern, registers.pattern_x)),
        Kind::Solid | Kind::Stroke => None,
    };
    let ends = [
        (Cut::End, Some(rest(state).into())),
        (Cut::Allowance, Some(allowance.into())),
        (Cut::MapEdge, Some(upto(0, side(fields.destination), x))),
        (
            Cut::MaskEdge,
            (fields.mask == operations::MASK_BOUNDARY).then_some(mask),
        ),
        (
            Cut::Wrap,
            wrap.map(|(map, at)| upto(0, side(map), at.into())),
        ),
    ];
    let ends = ends.into_iter().filter_map(|(cut, far)| Some((cut, far?)));
    let (cut, far) = ends.min_by_key(|(_, far)| *far).expect("a row has an end");
    (far as u32, cut)
}

/// The positions left in this row.
fn rest(state: &Coprocessor) -> u32 {
    let done = match state.drawing {
        Drawing::Block { column, .. } => u32::from(column),
        _ => 0,
    };
    u32::from(state.registers.dimension_1) + 1 - done
}
