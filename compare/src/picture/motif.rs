//! A figured cloth: a lattice ground, a border, roses, leaves and horns, and a medallion in the middle.

use super::loom::{Loom, BITMAP, CLOTH, MASK, SOURCE};
use crate::writes::{Point, BITS_1, BITS_8};

/// The cloth's size; left mirrors right, and bottom mirrors top.
pub const SIZE: Point = (160, 120);

/// The bytes of the memory, and where the tile, the mask and a leaf's outline lie in it, behind the cloth.
pub const MEMORY: u32 = 0x8000;
const TILE_AT: u32 = 0x6000;
const MASK_AT: u32 = 0x6100;
const LEAF_AT: u32 = 0x6300;

const DARK: u32 = 0x18;
const DEEP: u32 = 0x58;
const MIDDLE: u32 = 0x90;
const PALE: u32 = 0xCC;
const LIGHT: u32 = 0xE6;
const WHITE: u32 = 0xFF;

/// The border's frames, from the edge inwards.
#[rustfmt::skip]
const FRAMES: [u32; 13] = [
    DARK, WHITE, DARK,
    MIDDLE, MIDDLE, MIDDLE, MIDDLE, MIDDLE, MIDDLE, MIDDLE,
    DARK, WHITE, DEEP,
];

/// A leaf's size, its outline, and that of its paler part.
const LEAF: Point = (20, 20);
const LEAF_OUTLINE: [Point; 6] = [(0, 0), (9, 2), (16, 8), (19, 19), (8, 16), (2, 9)];
const LEAF_PALE: [Point; 6] = [(2, 2), (9, 4), (14, 9), (17, 17), (9, 14), (4, 9)];

/// Directions of draw codes, to which the steps are added; up lowers Y.
const RIGHT: u8 = 0x10;
const UP_RIGHT: u8 = 0x30;
const UP: u8 = 0x50;
const UP_LEFT: u8 = 0x70;
const LEFT: u8 = 0x90;
const DOWN_LEFT: u8 = 0xB0;
const DOWN: u8 = 0xD0;
const DOWN_RIGHT: u8 = 0xF0;

/// The directions' bits with left and right exchanged.
const RIGHT_TO_LEFT: [u8; 8] = [0x80, 0x60, 0x40, 0x20, 0x00, 0xE0, 0xC0, 0xA0];

/// The top half, its turned copy below, then the medallion across both.
pub fn weave(loom: &mut Loom) {
    loom.map(CLOTH, 0, SIZE, BITS_8);
    loom.map(SOURCE, 0, SIZE, BITS_8);
    ground(loom);
    border(loom);
    leaves(loom);
    for axis in [40, 80, 120] {
        let row = if axis == 80 { 28 } else { 40 };
        rose(loom, (axis, row));
    }
    horns(loom);
    loom.turned_copy((SIZE.0, SIZE.1 / 2), SIZE.1 - 1);
    medallion(loom);
}

/// A lattice, from a tile of 8 by 8 bits.
fn ground(loom: &mut Loom) {
    loom.map(BITMAP, TILE_AT, (8, 8), BITS_1);
    loom.line(BITMAP, (0, 0), (7, 7), 1);
    loom.line(BITMAP, (7, 0), (0, 7), 1);
    loom.tiled_block((0, 0), (SIZE.0, SIZE.1 / 2), (LIGHT, PALE));
}

/// Frames of lines, a zigzag between them, and a lozenge in each corner.
fn border(loom: &mut Loom) {
    for (inset, colour) in (0..).zip(FRAMES) {
        frame(loom, inset, colour);
    }
    mirrored(loom, (80, 8), WHITE, &zigzag(UP_RIGHT, DOWN_RIGHT, 17));
    mirrored(loom, (151, 59), WHITE, &zigzag(UP_RIGHT, UP_LEFT, 12));
    for axis in [7, 153] {
        lozenge(loom, (axis, 6), &[WHITE, DARK, DARK]);
    }
}

/// So many codes of four steps, in two directions by turns.
fn zigzag(forth: u8, back: u8, count: usize) -> Vec<u8> {
    let turns = [forth + 4, back + 4];
    turns.into_iter().cycle().take(count).collect()
}

/// The top half of a rectangle of lines.
fn frame(loom: &mut Loom, inset: i64, colour: u32) {
    let (right, bottom) = (SIZE.0 - 1 - inset, SIZE.1 / 2 - 1);
    loom.line(CLOTH, (inset, inset), (right, inset), colour);
    loom.line(CLOTH, (inset, inset), (inset, bottom), colour);
    loom.line(CLOTH, (right, inset), (right, bottom), colour);
}

/// A leaf in each upper corner, outlined and filled, with a vein along it.
fn leaves(loom: &mut Loom) {
    loom.map(BITMAP, LEAF_AT, LEAF, BITS_1);
    let at = (15, 15);
    for (outline, colour) in [(LEAF_OUTLINE, DARK), (LEAF_PALE, MIDDLE)] {
        filled(loom, &outline, at, colour);
        // What is filled ends before its closing pixels, so the mirror stands at the map's right edge.
        let mirrored = outline.map(|(x, y)| (LEAF.0 - x, y));
        filled(loom, &mirrored, (SIZE.0 - LEAF.0 - at.0, at.1), colour);
    }
    let vein = [UP_LEFT + 15];
    mirrored(loom, (32, 32), WHITE, &vein);
}

/// The inside of an outline, in one colour.
fn filled(loom: &mut Loom, outline: &[Point], at: Point, colour: u32) {
    loom.block(BITMAP, (0, 0), LEAF, 0);
    loom.outline(outline);
    loom.fill(at, LEAF, colour);
}

/// Four petals around a heart.
fn rose(loom: &mut Loom, (axis, row): Point) {
    for (x, y) in [(0, -7), (-7, 0), (7, 0), (0, 7)] {
        lozenge(
            loom,
            (axis + x, row + y),
            &[WHITE, WHITE, PALE, MIDDLE, DEEP, DEEP, DARK],
        );
    }
    lozenge(loom, (axis, row), &[DARK, DARK, WHITE, WHITE, DARK]);
}

/// Lozenges inside each other, one colour each from the heart out; the axis is at the left of its pixel.
fn lozenge(loom: &mut Loom, (axis, row): Point, colours: &[u32]) {
    for (radius, colour) in (0..).zip(colours) {
        let top = row - i64::from(radius);
        let codes = [DOWN_RIGHT + radius, DOWN_LEFT + radius];
        loom.codes((axis, top), *colour, &codes);
        loom.codes((axis - 1, top), *colour, &turned(&codes));
    }
}

/// Stems with a pair of horns each.
fn horns(loom: &mut Loom) {
    let horn = [
        RIGHT + 8,
        UP_RIGHT + 3,
        UP + 2,
        UP_LEFT + 2,
        LEFT + 1,
        DOWN_LEFT + 1,
    ];
    for (row, colour) in [(43, DARK), (44, DEEP)] {
        mirrored(loom, (80, row), colour, &horn);
    }
    mirrored(loom, (80, 41), DARK, &[DOWN + 4]);
}

/// Nested lozenges, each a block of which only the mask's shape shows.
fn medallion(loom: &mut Loom) {
    let rings = [
        (16, DARK),
        (15, WHITE),
        (14, DEEP),
        (11, DARK),
        (10, PALE),
        (6, DARK),
        (5, WHITE),
        (2, DARK),
    ];
    for (half, colour) in rings {
        let size = (4 * half, 2 * half);
        mask(loom, size);
        let at = ((SIZE.0 - size.0) / 2, (SIZE.1 - size.1) / 2);
        loom.masked_block(at, size, colour);
    }
}

/// A mask with a lozenge that touches its four sides.
fn mask(loom: &mut Loom, size: Point) {
    loom.map(MASK, MASK_AT, size, BITS_1);
    loom.map(BITMAP, MASK_AT, size, BITS_1);
    loom.block(BITMAP, (0, 0), size, 0);
    for row in 0..size.1 {
        let half = 2 * row.min(size.1 - 1 - row) + 2;
        loom.block(BITMAP, (size.0 / 2 - half, row), (2 * half, 1), 1);
    }
}

/// Codes on the right, and their mirror image on the left.
fn mirrored(loom: &mut Loom, at: Point, colour: u32, codes: &[u8]) {
    loom.codes(at, colour, codes);
    loom.codes((SIZE.0 - 1 - at.0, at.1), colour, &turned(codes));
}

/// The codes with left and right exchanged.
fn turned(codes: &[u8]) -> Vec<u8> {
    let turn = |code: &u8| RIGHT_TO_LEFT[usize::from(code >> 5)] | code & 0x1F;
    codes.iter().map(turn).collect()
}
