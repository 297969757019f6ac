//! The same run as [`Coprocessor::run`], written for speed: the yardstick of the proved library.
//!
//! The registers are decoded once into a `Setup`, the loop carries a `Pen` along one `Stretch` after another, and
//! the record is put together at the end. The loop is there three times, as most drawings keep no bit from one position to the next.

mod inks;
mod pen;
mod points;
mod position;
mod setup;
mod stretches;
mod surfaces;
mod valid;

use model::coprocessor::Coprocessor;
use model::operations::Kind;
use model::refusals::{Refusal, NONE};
use pen::Pen;
use setup::Setup;
use stretches::Stretch;

/// The loops: without a bit, with the look-back bit of an area boundary, and with the bit of being inside.
const PLAIN: u8 = 0;
const BOUNDARY: u8 = 1;
const FILL: u8 = 2;

/// Does at most `allowance` positions, and answers the refusal and how many it did, as [`Coprocessor::run`].
pub fn run(coprocessor: &mut Coprocessor, memory: &mut [u8], allowance: u32) -> (u32, u32) {
    if memory.len() as u64 != u64::from(coprocessor.size) {
        return (Refusal::Size.number(), 0);
    }
    if !valid::is_valid(coprocessor) {
        return (Refusal::Image.number(), 0);
    }
    (NONE, draw(coprocessor, memory, allowance))
}

/// Positions of a valid record one after another, until the allowance or the drawing ends: how many it did.
pub fn draw(coprocessor: &mut Coprocessor, memory: &mut [u8], allowance: u32) -> u32 {
    let fields = coprocessor.registers.fields();
    if fields.kind() == Some(Kind::Fill) {
        draw_on::<FILL>(coprocessor, memory, allowance)
    } else if fields.draws_boundary() {
        draw_on::<BOUNDARY>(coprocessor, memory, allowance)
    } else {
        draw_on::<PLAIN>(coprocessor, memory, allowance)
    }
}

/// One of the loops, each a function of its own.
#[inline(never)]
fn draw_on<const LOOP: u8>(
    coprocessor: &mut Coprocessor,
    memory: &mut [u8],
    allowance: u32,
) -> u32 {
    let Some(setup) = Setup::of(coprocessor) else {
        return 0;
    };
    let (mut stretch, begun, bit) = Stretch::of(&setup, coprocessor.drawing);
    let mut bit = bit && LOOP != PLAIN;
    let mut pen = Pen::of(&coprocessor.registers, begun);
    stretch.find_row_start(&setup, &pen);

    let mut end = None;
    let mut done = 0;
    while done < allowance {
        let is_foreground = position::draw::<LOOP>(&setup, &stretch, &pen, bit, memory);
        done += 1;
        if pen.done < stretch.last {
            bit = match LOOP {
                BOUNDARY => stretch.rises(&pen),
                FILL => is_foreground,
                _ => bit,
            };
            pen = pen.stepped(&setup, &stretch);
        } else {
            bit = false;
            (pen, end) = stretch.pass(&setup, pen);
            if end.is_some() {
                break;
            }
        }
    }
    pen.put_back(&mut coprocessor.registers);
    coprocessor.drawing = end.unwrap_or_else(|| stretch.drawing(&setup, pen.done, bit));
    done
}
