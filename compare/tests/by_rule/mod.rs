//! Drawing by the rule of stretches, whole bytes and pixels read first, with a mistake if asked.

mod apart;
mod strokes;

use compare::stretches::bars::{self, Bar};
use compare::stretches::parts::Parts;
use compare::stretches::places::{self, Place};
use compare::stretches::rule::{self, Kind, Piece, Standing};
use model::{mixes, moves, Coprocessor, Registers};

/// What may be done wrong.
#[derive(Clone, Copy, Debug, PartialEq, Eq)]
pub enum Mistake {
    /// Of a row, line or code.
    NoEnd,
    NoAllowance,
    NoMapEdge,
    NoMaskEdge,
    /// Of a source or pattern.
    NoWrap,
    AnyPhase,
    OutsideMask,
    /// Though there is a bar.
    Barred(Bar),
    /// All of the source is read before any of it is written.
    ReadFirst,
    OtherWay,
    NoPlanes,
    MixIsSource,
    /// A colour's byte is not made of its pixels.
    WideColour,
    /// The bytes of ragged ends are drawn whole.
    WholeEnds,
    /// Ranges that share bytes, or one byte, are taken for apart.
    Shared,
    OneShared,
    /// What is read is taken in Intel order.
    IntelOrder,
    /// A pattern is taken from the first pixel of a byte.
    PatternByte,
    NoBackground,
    /// Another step after the last position of a line or code.
    LastStep,
    /// E does not come round.
    EndlessE,
    MoveDrawn,
}

pub const MISTAKES: [Mistake; 31] = [
    Mistake::NoEnd,
    Mistake::NoAllowance,
    Mistake::NoMapEdge,
    Mistake::NoMaskEdge,
    Mistake::NoWrap,
    Mistake::AnyPhase,
    Mistake::OutsideMask,
    Mistake::Barred(Bar::ReadForm),
    Mistake::Barred(Bar::Pattern),
    Mistake::Barred(Bar::Bits),
    Mistake::Barred(Bar::Source),
    Mistake::Barred(Bar::MaskMap),
    Mistake::Barred(Bar::Compare),
    Mistake::Barred(Bar::Arithmetic),
    Mistake::Barred(Bar::Background),
    Mistake::Barred(Bar::Mode),
    Mistake::Barred(Bar::Format),
    Mistake::ReadFirst,
    Mistake::OtherWay,
    Mistake::NoPlanes,
    Mistake::MixIsSource,
    Mistake::WideColour,
    Mistake::WholeEnds,
    Mistake::Shared,
    Mistake::OneShared,
    Mistake::IntelOrder,
    Mistake::PatternByte,
    Mistake::NoBackground,
    Mistake::LastStep,
    Mistake::EndlessE,
    Mistake::MoveDrawn,
];

/// Runs at most so many positions: how many it did, or nothing where a mistake leads out of the memory or to a record that is refused.
pub fn run(
    state: &mut Coprocessor,
    memory: &mut [u8],
    allowance: u32,
    mistake: Option<Mistake>,
) -> Option<u32> {
    let bar = bars::bar(&state.registers);
    if bar.is_some() && bar.map(Mistake::Barred) != mistake {
        return Some(state.run(memory, allowance).1);
    }
    let mut done = 0;
    while done < allowance && state.drawing.is_unfinished() {
        let piece = piece(state, allowance - done, mistake);
        match piece {
            Piece::Singles(length) if state.run(memory, length) == (0, length) => {}
            Piece::Singles(_) => return None,
            Piece::Stretch(length, _) => stretch(state, memory, length, mistake)?,
        }
        done += piece.length();
    }
    Some(done)
}

/// The next positions.
fn piece(state: &Coprocessor, allowance: u32, mistake: Option<Mistake>) -> Piece {
    let is_fit = match rule::standing(state, allowance) {
        Standing::Fit => true,
        Standing::Shared => match mistake {
            Some(Mistake::AnyPhase) => rule::kind(state) == Kind::Slide,
            Some(Mistake::Shared) => true,
            Some(Mistake::OneShared) => apart::shares_one(state, allowance),
            _ => false,
        },
        Standing::OutsideMask => mistake == Some(Mistake::OutsideMask),
        Standing::Moved => {
            mistake == Some(Mistake::MoveDrawn) && rule::outside(&state.registers).is_none()
        }
        Standing::OutsideMap | Standing::AtEdge => false,
    };
    let stretch = is_fit.then(|| seen(state, allowance, mistake));
    match stretch.filter(|stretch| stretch.length() > 0) {
        Some(stretch) => stretch,
        None => rule::piece(state, allowance),
    }
}

/// The stretch as it is seen with a mistake.
fn seen(state: &Coprocessor, allowance: u32, mistake: Option<Mistake>) -> Piece {
    let mut seen = state.clone();
    let fields = seen.registers.fields();
    let maps = &mut seen.registers.maps;
    let read = match fields.uses_pattern() {
        true => fields.pattern,
        false => fields.source % 4,
    };
    let mut allowance = allowance;
    match mistake {
        Some(Mistake::NoEnd) => {
            seen.registers.dimension_1 = 4_095;
            seen.registers.steps |= 0x0F0F_0F0F;
        }
        Some(Mistake::NoAllowance) => allowance = u32::MAX,
        Some(Mistake::NoMapEdge) => {
            let map = &mut maps[fields.destination as usize];
            (map.width, map.height) = (4_095, 4_095);
        }
        Some(Mistake::NoMaskEdge | Mistake::OutsideMask) => seen.registers.operations &= !0xC0,
        Some(Mistake::NoWrap) => maps[read as usize].width = 4_095,
        _ => {}
    }
    rule::stretch(&seen, allowance)
}

/// Draws a stretch of so many pixels; nothing where it leads out of the memory.
fn stretch(
    state: &mut Coprocessor,
    memory: &mut [u8],
    length: u32,
    mistake: Option<Mistake>,
) -> Option<()> {
    match rule::kind(state) {
        Kind::Stroke => strokes::draw(state, memory, length, mistake),
        Kind::Solid | Kind::Copy => draw_bytes(state, memory, length, mistake),
        Kind::Slide if mistake == Some(Mistake::AnyPhase) => {
            draw_bytes(state, memory, length, mistake)
        }
        Kind::Slide | Kind::Pattern => apart::draw(state, memory, length, mistake),
    }
}

/// Draws a stretch as whole bytes and ragged ends.
fn draw_bytes(
    state: &mut Coprocessor,
    memory: &mut [u8],
    length: u32,
    mistake: Option<Mistake>,
) -> Option<()> {
    let registers = &state.registers;
    let to = places::destination(registers);
    let in_byte = 8 / to.map.bits();
    let is_back = registers.fields().x_sign() < 0;
    let mut parts = Parts::of(length, to.in_byte(), in_byte, is_back);
    if mistake == Some(Mistake::WholeEnds) {
        parts = Parts {
            before: 0,
            whole: length,
            after: 0,
        };
    }
    state.run(memory, parts.before);
    whole_bytes(state, memory, parts.whole.div_ceil(in_byte), mistake)?;
    pass(state, parts.whole);
    state.run(memory, parts.after);
    Some(())
}

/// Passes over so many positions.
fn pass(state: &mut Coprocessor, length: u32) {
    for _ in 0..length {
        if state.drawing.is_unfinished() {
            state.drawing = moves::advance(&mut state.registers, state.drawing, true);
        }
    }
}

/// Draws so many whole bytes; nothing where they lead out of the memory.
fn whole_bytes(
    state: &Coprocessor,
    memory: &mut [u8],
    count: u32,
    mistake: Option<Mistake>,
) -> Option<()> {
    let registers = &state.registers;
    let [from, to] = [places::source(registers), places::destination(registers)];
    let x_sign = registers.fields().x_sign();
    let byte = |place: &Place, on: i64| usize::try_from(place.byte() as i64 + x_sign * on).ok();
    let planes = match mistake {
        Some(Mistake::NoPlanes) => 0xFF,
        _ => repeated(registers.plane_mask, to.map.bits()),
    };
    let mix = match mistake {
        Some(Mistake::MixIsSource) => 3,
        _ => registers.foreground_mix.into(),
    };
    let before = memory.to_vec();
    let mut order: Vec<i64> = (0..count.into()).collect();
    if mistake == Some(Mistake::OtherWay) {
        order.reverse();
    }
    for on in order {
        let source = match rule::takes_source(registers) {
            true => {
                let read: &[u8] = match mistake {
                    Some(Mistake::ReadFirst) => &before,
                    _ => memory,
                };
                u32::from(*read.get(byte(&from, on)?)?)
            }
            false => colour(registers, to.map.bits(), mistake),
        };
        let place = memory.get_mut(byte(&to, on)?)?;
        *place = mixes::mix(mix, 8, planes, source, (*place).into()) as u8;
    }
    Some(())
}

fn colour(registers: &Registers, bits: u32, mistake: Option<Mistake>) -> u32 {
    match mistake {
        Some(Mistake::WideColour) => registers.foreground_colour,
        _ => repeated(registers.foreground_colour, bits),
    }
}

/// A byte of one pixel again and again.
fn repeated(pixel: u32, bits: u32) -> u32 {
    let pixel = pixel & mixes::ones(bits);
    (0..8 / bits).fold(0, |byte, place| byte | pixel << (place * bits))
}
