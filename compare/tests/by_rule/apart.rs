//! Drawing copies in another phase and patterns: all that is read first, and then pixel by pixel, with a mistake if asked.

use super::{pass, Mistake};
use compare::stretches::{places, rule};
use compare::writes::Point;
use model::pixels::{self, Layout, Order};
use model::{mixes, Coprocessor, Registers};

/// The logical mixes, which are all that is known here.
const LOGICAL: u8 = 0xF;

/// Whether what the next stretch reads and what it draws into have one byte in common.
pub fn shares_one(state: &Coprocessor, allowance: u32) -> bool {
    let x_sign = state.registers.fields().x_sign();
    let length = rule::stretch(state, allowance).length();
    let drawn = places::destination(&state.registers).bytes(length, x_sign);
    let read = rule::read(state).map(|read| read.bytes(length, x_sign));
    read.is_some_and(|read| read.filter(|byte| drawn.contains(byte)).count() == 1)
}

/// Draws so many pixels of the source, or bytes as the pattern picks them; nothing where they lead out of the memory.
pub fn draw(
    state: &mut Coprocessor,
    memory: &mut [u8],
    length: u32,
    mistake: Option<Mistake>,
) -> Option<()> {
    let registers = &state.registers;
    let fields = registers.fields();
    let mut layout = registers.map(fields.destination).layout();
    if fields.uses_pattern() {
        layout.bits = 8;
    }
    let read = row(registers, memory, length, mistake)?;
    for (on, pixel) in (0..).zip(read) {
        if let Some(ink) = ink(registers, pixel, mistake) {
            put(registers, memory, layout, on, ink)?;
        }
    }
    pass(state, length);
    Some(())
}

/// The mix and colour that a pixel read comes to, if it draws.
fn ink(registers: &Registers, pixel: u32, mistake: Option<Mistake>) -> Option<(u8, u32)> {
    match (registers.fields().uses_pattern(), pixel) {
        (false, _) => Some((registers.foreground_mix, pixel)),
        (true, 1) => Some((registers.foreground_mix, registers.foreground_colour)),
        _ if mistake == Some(Mistake::NoBackground) => None,
        _ => Some((registers.background_mix, registers.background_colour)),
    }
}

/// So many pixels of the source's or the pattern's row.
fn row(
    registers: &Registers,
    memory: &[u8],
    length: u32,
    mistake: Option<Mistake>,
) -> Option<Vec<u32>> {
    let fields = registers.fields();
    let (map, x, y) = match fields.uses_pattern() {
        true => (fields.pattern, registers.pattern_x, registers.pattern_y),
        false => (fields.source, registers.source_x, registers.source_y),
    };
    let (mut layout, mut first) = (registers.map(map).layout(), i64::from(x));
    match mistake {
        Some(Mistake::IntelOrder) => layout.order = Order::Intel,
        Some(Mistake::PatternByte) if fields.uses_pattern() => {
            first -= i64::from(places::pattern(registers).in_byte()).min(first);
        }
        _ => {}
    }
    let pixel = |on: i64| {
        let place = at((first + fields.x_sign() * on, y.into()))?;
        Some(pixels::get(memory, &layout, place))
    };
    (0..length.into()).map(pixel).collect()
}

/// Draws the pixel so far on in the row, by a mix and a colour.
fn put(
    registers: &Registers,
    memory: &mut [u8],
    layout: Layout,
    on: i64,
    ink: (u8, u32),
) -> Option<()> {
    let x = i64::from(registers.destination_x) + registers.fields().x_sign() * on;
    let place = (x, registers.destination_y.into());
    put_at(registers, memory, layout, place, ink)
}

/// Draws a pixel by a mix and a colour; nothing where it lies out of the memory.
pub fn put_at(
    registers: &Registers,
    memory: &mut [u8],
    layout: Layout,
    place: Point,
    (mix, colour): (u8, u32),
) -> Option<()> {
    let place = at(place)?;
    if !pixels::lies_within(memory.len(), &layout, place) {
        return None;
    }
    let destination = pixels::get(memory, &layout, place);
    let mix = u32::from(mix & LOGICAL);
    let new = mixes::mix(mix, layout.bits, registers.plane_mask, colour, destination);
    pixels::put(memory, &layout, place, new);
    Some(())
}

/// A place that is not left of its map or above it.
fn at((x, y): Point) -> Option<(u32, u32)> {
    Some((u32::try_from(x).ok()?, u32::try_from(y).ok()?))
}
