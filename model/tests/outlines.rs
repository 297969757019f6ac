//! Outlines drawn in mode 11 with the mix xor, then filled: whole pictures (003:2020-2113; 02, 102).

mod common;

use common::{Board, BITS_1, BITS_4};

/// The pixels along the side of both maps.
const SIDE: u32 = 10;

/// A board with a map B of 1 bit for the outline and a map A of 4 bits for the fill.
fn board() -> Board {
    let mut board = Board::new(128);
    board.map(1, 0, SIDE, SIDE, BITS_4);
    board.map(2, 64, SIDE, SIDE, BITS_1);
    board
}

/// Lines from each point to the next and back to the first, by 003's terms.
fn outline(board: &mut Board, points: &[(i32, i32)]) {
    board.write(0x48, 2, 0x0506);
    board.colours(1, 0);
    for (place, from) in points.iter().enumerate() {
        let to = points[(place + 1) % points.len()];
        let (x, y) = (to.0 - from.0, to.1 - from.1);
        let (a, b) = (x.abs().max(y.abs()), x.abs().min(y.abs()));
        board.terms(2 * b - a, 2 * b, 2 * (b - a));
        board.dimensions(a as u32, 0);
        board.destination(from.0, from.1);
        let octant = u32::from(x < 0) << 2 | u32::from(y < 0) << 1 | u32::from(y.abs() > x.abs());
        board.operations(0x0502_8030 | octant);
        board.finish();
    }
}

/// Fills map A with 1 where the outline has its inside, up or down.
fn fill(board: &mut Board, octant: u32) -> Vec<String> {
    let top = if octant & 0b010 == 0 { 0 } else { SIDE - 1 };
    board.write(0x48, 2, 0x0503);
    board.colours(1, 0);
    board.dimensions(SIDE - 1, SIDE - 1);
    board.pattern(0, top);
    board.destination(0, top as i32);
    board.operations(0x0A01_2000 | octant);
    board.finish();
    board.picture(1)
}

const LEAF: [(i32, i32); 4] = [(5, 0), (8, 3), (5, 9), (2, 3)];

const LEAF_FILLED: [&str; 10] = [
    "0000000000",
    "0000110000",
    "0001111000",
    "0011111100",
    "0011111000",
    "0001111000",
    "0001110000",
    "0000110000",
    "0000100000",
    "0000000000",
];

#[test]
fn a_leaf_is_filled_whichever_way_it_is_drawn_and_filled() {
    for octant in 0..4 {
        let mut board = board();
        outline(&mut board, &LEAF);
        assert_eq!(fill(&mut board, octant), LEAF_FILLED);
    }
}

#[test]
fn a_leaf_that_the_left_edge_cuts_is_filled_up_to_the_edge() {
    let moved = LEAF.map(|(x, y)| (x - 5, y));
    let mut board = board();
    outline(&mut board, &moved);
    let cut: Vec<String> = LEAF_FILLED
        .iter()
        .map(|row| format!("{}00000", &row[5..]))
        .collect();
    assert_eq!(fill(&mut board, 0), cut);
}

#[test]
fn a_leaf_that_another_edge_cuts_is_filled_up_to_it() {
    for (x, y) in [(5, 0), (0, -4), (0, 4)] {
        let moved = LEAF.map(|place| (place.0 + x, place.1 + y));
        let mut board = board();
        outline(&mut board, &moved);
        let pixel = |column: i32, row: i32| {
            let row = usize::try_from(row - y)
                .ok()
                .and_then(|row| LEAF_FILLED.get(row));
            let column = usize::try_from(column - x).ok();
            row.zip(column)
                .and_then(|(row, column)| row.chars().nth(column))
                .unwrap_or('0')
        };
        let cut: Vec<String> = (0..10)
            .map(|row| (0..10).map(|column| pixel(column, row)).collect())
            .collect();
        assert_eq!(fill(&mut board, 0), cut);
    }
}

#[test]
fn a_hole_stays_empty() {
    let mut board = board();
    outline(&mut board, &[(1, 1), (9, 1), (9, 9), (1, 9)]);
    outline(&mut board, &[(3, 3), (3, 6), (6, 6), (6, 3)]);
    let filled = fill(&mut board, 0);
    assert_eq!(filled[0], "0000000000");
    assert_eq!(filled[1], "0111111110");
    assert_eq!(filled[3], "0110001110");
    assert_eq!(filled[5], "0110001110");
    assert_eq!(filled[6], "0111111110");
    assert_eq!(filled[9], "0000000000");
}

#[test]
fn two_areas_with_an_edge_in_common_share_no_pixel_and_leave_none() {
    // Both are drawn from the top of the common edge, (4, 1) to (6, 8).
    let mut left = board();
    outline(&mut left, &[(4, 1), (6, 8), (1, 8), (1, 1)]);
    let left = fill(&mut left, 0);
    let mut right = board();
    outline(&mut right, &[(4, 1), (6, 8), (9, 8), (9, 1)]);
    let right = fill(&mut right, 0);
    for y in 0..10 {
        let both = left[y].chars().zip(right[y].chars());
        let filled: String = both
            .map(|(left, right)| match (left, right) {
                ('1', '1') => panic!("row {y} is shared"),
                ('0', '0') => '0',
                _ => '1',
            })
            .collect();
        let expected = if (1..8).contains(&y) {
            "0111111110"
        } else {
            "0000000000"
        };
        assert_eq!(filled, expected);
    }
}
