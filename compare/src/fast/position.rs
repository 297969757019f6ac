//! One position (01, One position).

use super::pen::Pen;
use super::setup::{Mask, Pattern, Setup};
use super::stretches::Stretch;
use super::{BOUNDARY, FILL};

/// Draws the position at the pen, with its bit, and answers whether it is in the foreground; a pixel beyond the memory panics.
#[inline(always)]
pub(super) fn draw<const LOOP: u8>(
    setup: &Setup,
    stretch: &Stretch,
    pen: &Pen,
    bit: bool,
    memory: &mut [u8],
) -> bool {
    let source = match &setup.source {
        Some(surface) => surface.pixel(memory, pen.source.x, pen.source.y),
        None => 0,
    };
    let pattern = match &setup.pattern {
        Pattern::Foreground => 1,
        Pattern::FromSource => u32::from(source != 0),
        Pattern::Map(surface) => surface.pixel(memory, pen.pattern.x, pen.pattern.y),
    };
    let picked = match LOOP {
        FILL => pattern ^ u32::from(bit),
        _ => pattern,
    };
    let ink = &setup.inks[picked as usize & 1];
    let is_foreground = picked & 1 == 1;

    let (x, y) = match LOOP {
        BOUNDARY => (pen.destination.column(), pen.destination.y),
        _ => (pen.destination.x, pen.destination.y),
    };
    if !setup.destination.holds(x, y) || !mask_allows(setup, x, y, memory) {
        return is_foreground;
    }
    let (byte, shift) = setup.destination.byte(memory, x, y);
    let destination = u32::from(*byte) >> shift;
    if stretch.draws::<LOOP>(pen, bit) && !setup.compare.holds(destination) {
        *byte ^= (ink.change(source, destination) << shift) as u8;
    }
    is_foreground
}

/// Whether the mask lets a pixel inside the destination map be drawn.
#[inline(always)]
fn mask_allows(setup: &Setup, x: u32, y: u32, memory: &[u8]) -> bool {
    let (x, y) = (
        x.wrapping_sub(setup.origin.0),
        y.wrapping_sub(setup.origin.1),
    );
    match &setup.mask {
        Mask::Off => true,
        Mask::Boundary(surface) => surface.holds(x, y),
        Mask::Enabled(surface) => surface.holds(x, y) && surface.pixel(memory, x, y) == 1,
    }
}
