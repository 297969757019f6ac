//! Blocks of one colour.

use super::{
    block, columns, one, pixels, Work, Workload, ALL, FILL, RAGGED, SIDE, SMALL_PIXELS, SOURCES,
    SQUARE, TO, XORS,
};
use crate::speed::limits::{bits, bytes, Rows};
use crate::writes::{self, map, Point, BITS_8};

const COLOUR: u8 = 0x5A;

/// Planes with holes, and a colour that has bits in them and beside them.
const PLANES: u8 = 0x5A;
const COLOUR_IN_PLANES: u8 = 0x33;

/// The rows of a whole map.
const ROWS: Rows = Rows::of_map(0, SIDE, SIDE);

pub fn all() -> Vec<Workload> {
    let mut all = vec![
        Workload::new("8-bit fill, 1024 by 1024", large),
        Workload::new("8-bit fill, 512 by 512", plain),
        Workload::new("8-bit xor fill, 512 by 512", xor),
        Workload::new("8-bit fill, planes 5A, 512 by 512", in_planes),
    ];
    for format in SMALL_PIXELS {
        for (kind, columns) in [("", (0, SIDE)), (" ragged,", RAGGED)] {
            let name = format!("{}-bit fill,{kind} {} by {SIDE}", 1 << format, columns.1);
            let prepare = move || of_small_pixels(format, columns);
            all.push(Workload::new(name, prepare));
        }
    }
    all
}

fn large() -> Work {
    let rows = Rows::of_map(0, 1024, 1024);
    fill((1024, 1024), SOURCES, ALL, COLOUR, move |memory| {
        bytes::set(memory, rows, COLOUR)
    })
}

fn plain() -> Work {
    fill(SQUARE, SOURCES, ALL, COLOUR, |memory| {
        bytes::set(memory, ROWS, COLOUR)
    })
}

fn xor() -> Work {
    fill(SQUARE, XORS, ALL, COLOUR, |memory| {
        bytes::xor(memory, ROWS, COLOUR)
    })
}

fn in_planes() -> Work {
    let colour = COLOUR_IN_PLANES;
    fill(SQUARE, SOURCES, PLANES.into(), colour, move |memory| {
        bytes::set_planes(memory, ROWS, PLANES, colour)
    })
}

/// A block that covers an 8-bit map.
fn fill(
    size: Point,
    mixes: (u32, u32),
    planes: u32,
    colour: u8,
    limit: impl Fn(&mut [u8]) + 'static,
) -> Work {
    let mut writes = map(TO, 0, size, BITS_8).to_vec();
    writes.extend(pixels(mixes, planes, (colour, 0)));
    writes.extend(block(size, FILL));
    one(writes, limit)
}

/// Some columns of a map, from the first one on.
fn of_small_pixels(format: u32, (first, width): (usize, usize)) -> Work {
    // All pixels of a byte are the same, so that its low bits are the colour.
    let colours = [0xFF, 0xAA, 0x99][format as usize];
    let mut writes = map(TO, 0, SQUARE, format).to_vec();
    writes.extend(pixels(SOURCES, ALL, (colours, 0)));
    writes.push(writes::destination((first as i64, 0)));
    writes.extend(block((width as i64, SQUARE.1), FILL));
    let rows = columns((first, width), 1 << format);
    one(writes, move |memory| bits::set(memory, rows, colours))
}
