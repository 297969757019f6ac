//! The rule of stretches: what it says of examples made by hand, that drawing by it comes to the same, and that each mistake in it is noticed.

mod begun;
mod by_rule;

use begun::{begun, pieces, BACK, FROM, TO};
use by_rule::{Mistake, MISTAKES};
use compare::memories::Memories;
use compare::random::Random;
use compare::random_drawings::{started, RandomDrawing};
use compare::stretches::bars::{bar, Bar};
use compare::stretches::cases;
use compare::stretches::parts::Parts;
use compare::stretches::rule::{self, Cut, Kind, Piece, Standing};
use compare::stretches::taken::{ink, Ink};
use compare::stretches::tally::Tally;
use compare::writes::{self, Point, Write, BITS_1, BITS_2, BITS_8, BLOCK, MIX_XOR, MOTOROLA};
use model::Coprocessor;

/// The pixel operations that fill, that copy, and that draw by a pattern map.
const FILL: u32 = BLOCK | TO << 16;
const COPY: u32 = 0x2800_8000 | FROM << 20 | TO << 16;
const PATTERN: u32 = FILL & !0xF000 | FROM << 12;

/// A block of this size at a place of a map of 20 by 4 pixels, from the first pixel of another.
fn block(format: u32, at: Point, size: Point, operations: u32, others: &[Write]) -> Coprocessor {
    let mut all = vec![writes::dimensions(size), writes::source((0, 0))];
    all.push(writes::destination(at));
    all.extend(others);
    all.push(writes::operations(operations));
    begun(format, &all)
}

/// How the next position of a block stands in a run to the end.
fn standing(state: &Coprocessor) -> Standing {
    rule::standing(state, u32::MAX)
}

#[test]
fn rows_end_at_the_rows_end_the_allowance_and_the_maps_edge() {
    let inside = block(BITS_8, (3, 1), (10, 2), FILL, &[]);
    let row = Piece::Stretch(10, Cut::End);
    assert_eq!(pieces(&inside, u32::MAX), [row, row]);
    let cut = Piece::Stretch(4, Cut::Allowance);
    assert_eq!(pieces(&inside, 14), [row, cut]);

    let right = block(BITS_8, (15, 1), (10, 2), FILL, &[]);
    let edge = Piece::Stretch(5, Cut::MapEdge);
    // Five positions right of the map and the ten of the next row are done together, one by one.
    let expected = [edge, Piece::Singles(15)];
    assert_eq!(pieces(&right, u32::MAX), expected);

    let back = block(BITS_8, (5, 1), (10, 1), FILL | BACK, &[]);
    let expected = [Piece::Stretch(6, Cut::MapEdge), Piece::Singles(4)];
    assert_eq!(pieces(&back, u32::MAX), expected);
}

#[test]
fn rows_end_at_the_masks_edge_and_where_the_source_wraps() {
    let masked = FILL | 0x40;
    let mask = |first: i64| {
        let mut writes = writes::map(0, 0, (6, 4), BITS_1).to_vec();
        writes.push(writes::mask_origin((first, 0)));
        writes
    };
    let state = block(BITS_8, (3, 0), (10, 1), masked, &mask(0));
    let expected = [Piece::Stretch(3, Cut::MaskEdge), Piece::Singles(7)];
    assert_eq!(pieces(&state, u32::MAX), expected);
    let state = block(BITS_8, (9, 0), (10, 1), masked | BACK, &mask(5));
    let expected = [Piece::Stretch(5, Cut::MaskEdge), Piece::Singles(5)];
    assert_eq!(pieces(&state, u32::MAX), expected);
    let state = block(BITS_8, (3, 0), (10, 1), masked, &mask(6));
    assert_eq!(standing(&state), Standing::OutsideMask);

    let from = [writes::source((17, 0))];
    let state = block(BITS_8, (0, 0), (10, 1), COPY, &from);
    let expected = [Piece::Stretch(3, Cut::Wrap), Piece::Stretch(7, Cut::End)];
    assert_eq!(pieces(&state, u32::MAX), expected);
    let state = block(
        BITS_8,
        (0, 0),
        (10, 1),
        FILL | 0x8000_0000 | FROM << 20,
        &from,
    );
    assert_eq!(pieces(&state, u32::MAX), [Piece::Stretch(10, Cut::End)]);
}

#[test]
fn a_source_is_taken_in_its_phase_or_in_another() {
    let kind = |format, from| {
        let state = block(format, (1, 1), (10, 1), COPY, &[writes::source(from)]);
        assert_eq!(standing(&state), Standing::Fit);
        rule::kind(&state)
    };
    // Rows of 20 pixels of 1 bit are two bytes and a half.
    assert_eq!(kind(BITS_1, (5, 0)), Kind::Copy);
    assert_eq!(kind(BITS_1, (1, 1)), Kind::Copy);
    assert_eq!(kind(BITS_1, (1, 0)), Kind::Slide);
    assert_eq!(kind(BITS_2, (1, 0)), Kind::Copy);
    assert_eq!(kind(BITS_8, (0, 3)), Kind::Copy);
    let left = block(BITS_8, (-1, 0), (10, 1), COPY, &[]);
    assert_eq!(standing(&left), Standing::OutsideMap);
}

#[test]
fn a_source_in_another_phase_is_a_stretch_where_it_lies_apart() {
    // Pixels 0 to 7 are one byte, and 8 to 15 the next: of eight source pixels from 1 on, the last lies in the byte drawn into.
    let own = COPY & !(0xF << 20) | TO << 20;
    let copy = |format: u32, at, from, length, operations| {
        let writes = [writes::source((from, 0))];
        block(format, (at, 0), (length, 1), operations, &writes)
    };
    let all = |length| [Piece::Stretch(length, Cut::End)];
    let one_by_one = |length| [Piece::Singles(length)];
    let state = copy(BITS_1, 8, 1, 7, own);
    assert_eq!(pieces(&state, u32::MAX), all(7));
    let state = copy(BITS_1, 8, 1, 8, own);
    assert_eq!(pieces(&state, u32::MAX), one_by_one(8));
    // A run that ends before that pixel is a stretch.
    assert_eq!(pieces(&state, 7), [Piece::Stretch(7, Cut::Allowance)]);
    let state = copy(BITS_1, 14, 7, 7, own | BACK);
    assert_eq!(pieces(&state, u32::MAX), all(7));
    let state = copy(BITS_1, 14, 7, 8, own | BACK);
    assert_eq!(pieces(&state, u32::MAX), one_by_one(8));
    // After sixteen positions it is looked again, and the three that remain share a byte too.
    let state = copy(BITS_1, 0, 19, 20, own);
    let expected = [
        Piece::Stretch(1, Cut::Wrap),
        Piece::Singles(16),
        Piece::Singles(3),
    ];
    assert_eq!(pieces(&state, u32::MAX), expected);
}

#[test]
fn a_pattern_is_a_stretch_where_it_lies_apart() {
    let pattern = |base, from, length, operations| {
        let mut writes = writes::map(FROM, base, (20, 4), BITS_1).to_vec();
        writes.push(writes::pattern((from, 0)));
        let at = if operations & BACK == 0 {
            2
        } else {
            1 + length
        };
        block(BITS_8, (at, 1), (length, 1), operations, &writes)
    };
    let state = pattern(100, 15, 9, PATTERN);
    let expected = [Piece::Stretch(5, Cut::Wrap), Piece::Stretch(4, Cut::End)];
    assert_eq!(pieces(&state, u32::MAX), expected);
    let state = pattern(100, 3, 9, PATTERN | BACK);
    let expected = [Piece::Stretch(4, Cut::Wrap), Piece::Stretch(5, Cut::End)];
    assert_eq!(pieces(&state, u32::MAX), expected);
    // The bytes drawn are 22 to 30, and those read two from the base on.
    for (base, is_apart) in [(20, true), (21, false), (30, false), (31, true)] {
        for way in [0, BACK] {
            let from = if way == 0 { 3 } else { 11 };
            let state = pattern(base, from, 9, PATTERN | way);
            assert_eq!(standing(&state) == Standing::Fit, is_apart, "{base}");
        }
    }
}

#[test]
fn each_bar_of_blocks_is_told() {
    let bar = |size, operations, others: &[Write]| {
        bar(&block(BITS_1, (0, 0), size, operations, others).registers)
    };
    let wide = (4, 1);
    let other_order = writes::map(FROM, 100, (20, 4), BITS_1 | MOTOROLA);
    assert_eq!(bar(wide, FILL, &[]), None);
    assert_eq!(bar(wide, COPY, &[]), None);
    assert_eq!(bar(wide, FILL | 1 << 24, &[]), None);
    assert_eq!(bar(wide, FILL | 0x20, &[]), None);
    assert_eq!(bar(wide, FILL, &other_order), None);
    assert_eq!(bar((3, 9), FILL, &[]), Some(Bar::NarrowRow));
    let filled = FILL & !0x0F00_F000 | 0x0A00_2000;
    assert_eq!(bar(wide, filled, &[]), Some(Bar::Fill));
    assert_eq!(bar(wide, COPY | 0x1000, &[]), Some(Bar::Pattern));
    assert_eq!(bar(wide, FILL | 0x80, &[]), Some(Bar::MaskMap));
    assert_eq!(bar(wide, FILL, &[(0x4A, 1, 0)]), Some(Bar::Compare));
    assert_eq!(bar(wide, FILL, &[writes::mixes(0xF, 0x15)]), None);
    assert_eq!(
        bar(wide, FILL, &[writes::mixes(0x10, 0)]),
        Some(Bar::Arithmetic)
    );
    assert_eq!(bar(wide, FILL | 0x30, &[]), Some(Bar::Mode));
    assert_eq!(bar(wide, COPY, &other_order), Some(Bar::Format));
}

#[test]
fn each_bar_of_patterns_is_told() {
    let bar = |format, size, operations, others: &[Write]| {
        let mut writes = writes::map(FROM, 100, (20, 4), BITS_1).to_vec();
        writes.extend(writes::map(3, 100, (4, 4), format));
        writes.extend(others);
        bar(&block(format, (0, 0), size, operations, &writes).registers)
    };
    let of_8 = |operations, others: &[Write]| bar(BITS_8, (4, 1), operations, others);
    assert_eq!(of_8(PATTERN, &[]), None);
    assert_eq!(of_8(PATTERN | 0x40, &[]), None);
    assert_eq!(of_8(PATTERN, &[writes::mixes(0xF, 0xF)]), None);
    assert_eq!(bar(BITS_8 | MOTOROLA, (4, 1), PATTERN, &[]), None);
    assert_eq!(bar(BITS_2, (4, 1), PATTERN, &[]), Some(Bar::Bits));
    assert_eq!(bar(BITS_8, (3, 1), PATTERN, &[]), Some(Bar::NarrowRow));
    for source in [0x2030_0000, 0x8030_0000] {
        assert_eq!(of_8(PATTERN | source, &[]), Some(Bar::Source));
    }
    assert_eq!(of_8(PATTERN | 0x80, &[]), Some(Bar::MaskMap));
    assert_eq!(of_8(PATTERN | 0x30, &[]), Some(Bar::Mode));
    let mixed = |foreground, background| of_8(PATTERN, &[writes::mixes(foreground, background)]);
    assert_eq!(mixed(0x10, 0), Some(Bar::Arithmetic));
    assert_eq!(mixed(0, 0x10), Some(Bar::Background));
}

#[test]
fn the_ink_is_told_by_source_mix_and_planes() {
    let ink = |operations, writes: &[Write]| {
        ink(&block(BITS_2, (0, 0), (9, 1), operations, writes).registers)
    };
    assert_eq!(ink(FILL, &[]), Ink::Solid);
    assert_eq!(ink(COPY, &[]), Ink::Copied);
    assert_eq!(ink(COPY, &[writes::planes(3)]), Ink::Copied);
    assert_eq!(ink(COPY, &[writes::planes(!1)]), Ink::Blended);
    assert_eq!(ink(COPY, &[writes::mixes(MIX_XOR, 0)]), Ink::Blended);
}

#[test]
fn a_stretch_is_whole_bytes_between_ragged_ends() {
    let parts = |before, whole, after| Parts {
        before,
        whole,
        after,
    };
    assert_eq!(Parts::of(20, 3, 8, false), parts(5, 8, 7));
    assert_eq!(Parts::of(20, 3, 8, true), parts(4, 16, 0));
    assert_eq!(Parts::of(4, 3, 8, false), parts(4, 0, 0));
    assert_eq!(Parts::of(8, 7, 8, true), parts(0, 8, 0));
    assert_eq!(Parts::of(5, 0, 1, true), parts(0, 5, 0));
    assert_eq!(Parts::of(5, 1, 2, false), parts(1, 4, 0));
}

/// Each mistake is noticed in at least so many drawings, of so many.
const OFTEN: usize = 4;
const MANY: u64 = 2_800;

/// Random drawings of all families in turn.
fn drawings() -> Vec<RandomDrawing> {
    let mut random = Random::new(1);
    let mut drawing = |number| cases::plan(&mut random, number).1.drawing(&mut random);
    (0..MANY).map(&mut drawing).collect()
}

/// Whether drawing by the rule, with a mistake or without, comes to the state and memory of the independent program.
fn is_same(drawing: &RandomDrawing, allowance: u32, mistake: Option<Mistake>) -> bool {
    let (mut right, mut right_memory) = started(drawing);
    let (mut state, mut memory) = started(drawing);
    while right.left() > 0 {
        let (_, done) = right.run(&mut right_memory, allowance);
        let drawn = by_rule::run(&mut state, &mut memory, allowance, mistake);
        if drawn != Some(done) || state != right || memory != right_memory {
            return false;
        }
    }
    true
}

#[test]
fn drawing_by_the_rule_comes_to_the_same() {
    for drawing in drawings() {
        assert!(is_same(&drawing, u32::MAX, None), "{drawing:?}");
        assert!(is_same(&drawing, 7, None), "{drawing:?}");
    }
}

/// Whether a drawing has the bar that a mistake does not see, if it is one of these.
fn can_be_noticed(drawing: &RandomDrawing, mistake: Mistake) -> bool {
    match mistake {
        Mistake::Barred(unseen) => bar(&started(drawing).0.registers) == Some(unseen),
        _ => true,
    }
}

#[test]
fn every_mistake_is_noticed() {
    let drawings = drawings();
    for mistake in MISTAKES {
        let is_noticed = |drawing: &&RandomDrawing| {
            can_be_noticed(drawing, mistake)
                && [u32::MAX, 7]
                    .iter()
                    .any(|allowance| !is_same(drawing, *allowance, Some(mistake)))
        };
        let noticed = drawings.iter().filter(is_noticed).take(OFTEN).count();
        assert_eq!(noticed, OFTEN, "{mistake:?}");
    }
}

#[test]
fn a_wrong_bit_is_noticed_in_every_byte() {
    let right = Memories::of(&[0x5A; 40]);
    assert!(right.agree().is_ok());
    for place in 0..40 {
        let mut wrong = right.clone();
        wrong.proved.bytes_mut()[place] ^= 1 << (place % 8);
        assert!(wrong.agree().is_err());
    }
}

#[test]
fn what_is_never_met_is_told() {
    let mut tally = Tally::both_ways("things", &["one", "other"]);
    let never = |tally: &Tally| tally.never_met();
    assert!(never(&tally).is_some());
    for (is_back, place) in [(false, 0), (false, 1), (true, 0)] {
        tally.note_way(is_back, place, 2);
    }
    let told = "things: other back was never met".to_string();
    assert_eq!(never(&tally), Some(told));
    tally.note_way(true, 1, 1);
    assert_eq!((never(&tally), tally.sum()), (None, 7));
}
