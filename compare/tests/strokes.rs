//! The rule of strokes: what it says of lines and codes made by hand.

mod begun;

use begun::{begun, pieces, BACK, FROM, TO};
use compare::stretches::bars::{bar, Bar};
use compare::stretches::rule::{self, Cut, Piece, Standing};
use compare::writes::{self, Point, Write, BITS_1, BITS_8, CODES, LINE};
use model::Coprocessor;

/// The octant bits of negative Y and of a major Y.
const UP: u32 = 0b010;
const STEEP: u32 = 0b001;

/// A line between two places of a map of 20 by 4 pixels.
fn line(from: Point, to: Point, operations: u32, others: &[Write]) -> Coprocessor {
    let mut all = writes::line(from, to).to_vec();
    all.push(writes::destination(from));
    all.extend(others);
    let octant = writes::octant(from, to);
    all.push(writes::operations(operations | TO << 16 | octant));
    begun(BITS_8, &all)
}

/// Codes from a place of such a map on.
fn codes(from: Point, codes: &[u8]) -> Coprocessor {
    let word = writes::word(codes.iter().copied());
    let all = [
        writes::destination(from),
        writes::operations(CODES | TO << 16),
        writes::codes(codes.len() as u32, word),
    ];
    begun(BITS_8, &all)
}

/// The pieces of a whole run.
fn all(state: &Coprocessor) -> Vec<Piece> {
    pieces(state, u32::MAX)
}

#[test]
fn a_stroke_ends_with_its_line_the_allowance_and_before_an_edge() {
    let inside = line((2, 1), (11, 3), LINE, &[]);
    assert_eq!(all(&inside), [Piece::Stretch(10, Cut::End)]);
    let cut = [Piece::Stretch(4, Cut::Allowance)];
    assert_eq!(pieces(&inside, 4), cut);
    assert_eq!(pieces(&inside, 10), [Piece::Stretch(10, Cut::End)]);

    // From the last position inside a step leads outside: it goes with those that follow it.
    let right = line((15, 1), (24, 1), LINE, &[]);
    let expected = [Piece::Stretch(4, Cut::MapEdge), Piece::Singles(6)];
    assert_eq!(all(&right), expected);
    let left = line((3, 3), (-3, 0), LINE, &[]);
    let expected = [Piece::Stretch(3, Cut::MapEdge), Piece::Singles(4)];
    assert_eq!(all(&left), expected);
    let down = line((3, 1), (3, 5), LINE, &[]);
    let expected = [Piece::Stretch(2, Cut::MapEdge), Piece::Singles(3)];
    assert_eq!(all(&down), expected);
    let up = line((3, 0), (3, -5), LINE, &[]);
    assert_eq!(rule::standing(&up, u32::MAX), Standing::AtEdge);
    assert_eq!(all(&up), [Piece::Singles(6)]);
    // A line of one position has no step.
    let corner = line((19, 3), (19, 3), LINE, &[]);
    assert_eq!(all(&corner), [Piece::Stretch(1, Cut::End)]);
}

#[test]
fn sixteen_positions_go_one_by_one_before_it_is_looked_again() {
    let entering = line((-12, 2), (17, 2), LINE, &[]);
    let expected = [Piece::Singles(16), Piece::Stretch(14, Cut::End)];
    assert_eq!(all(&entering), expected);
}

#[test]
fn a_stroke_ends_before_the_masks_edge() {
    let mut mask = writes::map(0, 0, (6, 2), BITS_1).to_vec();
    mask.push(writes::mask_origin((4, 1)));
    let masked = |from, to| line(from, to, LINE | 0x40, &mask);
    let right = masked((5, 1), (12, 1));
    let expected = [Piece::Stretch(4, Cut::MaskEdge), Piece::Singles(4)];
    assert_eq!(all(&right), expected);
    let up = masked((9, 2), (9, 0));
    let expected = [Piece::Stretch(1, Cut::MaskEdge), Piece::Singles(2)];
    assert_eq!(all(&up), expected);
    let outside = masked((3, 1), (9, 1));
    assert_eq!(rule::standing(&outside, 1), Standing::OutsideMask);
}

#[test]
fn each_code_is_a_stroke() {
    let state = codes((5, 1), &[0x1F, 0x93]);
    // To the right over the edge, and to the left from outside.
    let expected = [Piece::Stretch(14, Cut::MapEdge), Piece::Singles(6)];
    assert_eq!(all(&state), expected);
    let state = codes((5, 1), &[0x13, 0xD1, 0x52, 0x90]);
    let ends = [4, 2, 3, 1].map(|length| Piece::Stretch(length, Cut::End));
    assert_eq!(all(&state), ends);
    // Upwards over the edge, after which the last code goes along.
    let state = codes((5, 1), &[0x53, 0x90]);
    let expected = [Piece::Stretch(1, Cut::MapEdge), Piece::Singles(4)];
    assert_eq!(all(&state), expected);
    let state = codes((5, 1), &[0x02, 0x1F]);
    assert_eq!(rule::standing(&state, u32::MAX), Standing::Moved);
    let expected = [Piece::Singles(16), Piece::Singles(3)];
    assert_eq!(all(&state), expected);
}

#[test]
fn each_bar_of_strokes_is_told() {
    let bar = |operations, others: &[Write]| {
        let mut writes = vec![writes::source((0, 0))];
        writes.extend(others);
        bar(&line((2, 1), (11, 3), operations, &writes).registers)
    };
    let from = FROM << 20;
    for octant in [0, BACK, UP, STEEP, BACK | UP | STEEP] {
        assert_eq!(bar(LINE | octant, &[]), None);
    }
    assert_eq!(bar(LINE | 0x40, &[]), None);
    assert_eq!(bar(LINE, &[writes::mixes(0xF, 0x15)]), None);
    assert_eq!(bar(LINE - (2 << 24), &[]), Some(Bar::ReadForm));
    assert_eq!(bar(LINE | 0x1000 | from, &[]), Some(Bar::Pattern));
    let map = writes::map(3, 100, (20, 4), BITS_1);
    assert_eq!(bar(LINE & !0xF000 | 0x3000, &map), Some(Bar::Pattern));
    for source in [0x2000_0000, 0x8000_0000] {
        assert_eq!(bar(LINE | source | from, &[]), Some(Bar::Source));
    }
    assert_eq!(bar(LINE | 0x80, &[]), Some(Bar::MaskMap));
    assert_eq!(bar(LINE, &[(0x4A, 1, 0)]), Some(Bar::Compare));
    let arithmetic = [writes::mixes(0x10, 0)];
    assert_eq!(bar(LINE, &arithmetic), Some(Bar::Arithmetic));
    for mode in [0x10, 0x20, 0x30] {
        assert_eq!(bar(LINE | mode, &[]), Some(Bar::Mode));
    }
}
