//! Records that their own image would not load to: refusal 10, and the lower numbers before it (docs/DECISIONS.md).

mod common;

use common::states::unfinished;
use common::{line_at, Board, FILL_BEGUN, IDLE};
use model::{Coprocessor, Drawing};

/// Damage that leaves a record which its own image would not load to.
const DAMAGE: [fn(&mut Coprocessor); 40] = [
    |c| c.size = 0,
    |c| c.size = 1_048_577,
    |c| c.registers.index = 4,
    |c| c.registers.maps[0].width = 4_096,
    |c| c.registers.maps[3].height = 4_096,
    |c| c.registers.maps[2].format = 16,
    |c| c.registers.e = 8_192,
    |c| c.registers.k1 = -8_193,
    |c| c.registers.k2 = i32::MIN,
    |c| c.registers.condition = 8,
    |c| c.registers.dimension_1 = 4_096,
    |c| c.registers.dimension_2 = 4_096,
    |c| c.registers.mask_origin_x = 4_096,
    |c| c.registers.mask_origin_y = 65_535,
    |c| c.registers.source_x = 4_096,
    |c| c.registers.source_y = 4_096,
    |c| c.registers.pattern_x = 4_096,
    |c| c.registers.pattern_y = 4_096,
    |c| c.registers.destination_x = 6_144,
    |c| c.registers.destination_y = -2_049,
    // The record has stored function 5, a line of four positions.
    |c| c.drawing = line_at(4),
    |c| c.drawing = line_at(65_535),
    |c| c.drawing = Drawing::Block { column: 0, row: 0 },
    |c| c.drawing = FILL_BEGUN,
    |c| c.drawing = codes(1, 0, 0),
    |c| {
        c.registers.operations = 0x0801_8000;
        c.drawing = line_at(1);
    },
    |c| {
        c.registers.operations = 0x0801_8000;
        c.drawing = Drawing::Block { column: 4, row: 0 };
    },
    |c| {
        c.registers.operations = 0x0801_8000;
        c.drawing = Drawing::Block { column: 0, row: 1 };
    },
    |c| {
        c.registers.operations = 0x0401_8000;
        c.registers.steps = 0x1111_1111;
        c.drawing = codes(3, 0, 0);
    },
    |c| {
        c.registers.operations = 0x0401_8000;
        c.registers.steps = 0x1111_1111;
        c.drawing = codes(2, 2, 0);
    },
    |c| {
        c.registers.operations = 0x0401_8000;
        c.registers.steps = 0x1111_1111;
        c.drawing = codes(1, 0, 2);
    },
    |c| {
        c.registers.operations = 0x0401_8000;
        c.registers.steps = 0x1100_1111;
        c.drawing = codes(4, 3, 0);
    },
    |c| {
        c.registers.operations = 0x0001_8000;
        c.drawing = line_at(0);
    },
    |c| {
        c.registers.foreground_mix = 0x16;
        c.drawing = line_at(0);
    },
    // The look-back bit in another mode, and at the first position.
    |c| {
        c.drawing = Drawing::Line {
            done: 1,
            rose: true,
        }
    },
    |c| {
        c.registers.operations = 0x0501_8032;
        c.drawing = Drawing::Line {
            done: 0,
            rose: true,
        };
    },
    // Inside at the first position of a row, a fill that is done, one to the left, and one without a pattern map.
    |c| {
        c.registers.operations = 0x0A01_2000;
        c.drawing = fill(0, true);
    },
    |c| {
        c.registers.operations = 0x0A01_2000;
        c.drawing = fill(4, true);
    },
    |c| {
        c.registers.operations = 0x0A01_2004;
        c.drawing = fill(1, true);
    },
    |c| {
        c.registers.operations = 0x0A01_8000;
        c.drawing = fill(1, true);
    },
];

/// A fill in its first row.
fn fill(column: u16, inside: bool) -> Drawing {
    Drawing::Fill {
        column,
        row: 0,
        inside,
    }
}

fn codes(count: u8, code: u16, done: u16) -> Drawing {
    Drawing::Codes { count, code, done }
}

#[test]
fn refusal_10_every_call_but_load_on_a_damaged_record() {
    let whole = unfinished();
    for (number, damage) in DAMAGE.iter().enumerate() {
        for drawing in [whole.coprocessor.drawing, IDLE] {
            let mut damaged = whole.clone();
            damaged.coprocessor.drawing = drawing;
            damage(&mut damaged.coprocessor);
            let before = damaged.clone();
            let is_unfinished = damaged.coprocessor.drawing.is_unfinished();

            let refusal = damaged.refusal(0x58, 4, 0);
            assert_eq!(refusal, if is_unfinished { 2 } else { 10 }, "{number}");
            assert_eq!(damaged.coprocessor.read(0x58, 4), (10, 0));
            let mut memory = vec![0; damaged.coprocessor.size as usize];
            let answer = damaged.coprocessor.run(&mut memory, 9);
            assert_eq!(answer, (10, 0), "{number}");
            let mut buffer = [7; 115];
            assert_eq!(damaged.coprocessor.save(&mut buffer), 10);
            assert_eq!(buffer, [7; 115]);
            assert_eq!(damaged, before);

            assert_eq!(damaged.coprocessor.load(&whole.image()), 0);
            assert_eq!(damaged, whole);
        }
    }
}

#[test]
fn a_record_with_its_bit_in_place_is_not_refused() {
    // The same records, put right: an area boundary after a position, whether it goes up or down, and a fill in mid row.
    let bits = [
        (
            0x0501_8032,
            Drawing::Line {
                done: 1,
                rose: true,
            },
        ),
        (
            0x0501_8030,
            Drawing::Line {
                done: 1,
                rose: true,
            },
        ),
        (0x0A01_2000, fill(1, true)),
    ];
    for (operations, drawing) in bits {
        let mut board = unfinished();
        board.coprocessor.registers.operations = operations;
        board.coprocessor.drawing = drawing;
        assert!(board.coprocessor.is_valid());
        assert_eq!(board.finish(), 3);
    }
}

#[test]
fn the_lowest_number_is_given_on_a_damaged_record() {
    let mut board = Board::square(4);
    board.coprocessor.registers.condition = 8;
    assert_eq!(board.refusal(0x21, 4, 0), 1);
    assert_eq!(board.refusal(0x00, 4, 0), 3);
    assert_eq!(board.refusal(0x7C, 4, 0), 4);
    assert_eq!(board.refusal(0x7C, 4, 0x0800_8000), 5);
    assert_eq!(board.refusal(0x7C, 4, 0x0801_8000), 10);
    assert_eq!(board.coprocessor.read(0x21, 4), (1, 0));
    assert_eq!(board.coprocessor.read(0x00, 4), (3, 0));
    assert_eq!(board.coprocessor.run(&mut [0; 15], 9), (9, 0));

    // A width that no reduction leaves still counts for refusal 8, and a format beyond four bits by its fields for 7.
    let mut board = Board::square(4);
    board.coprocessor.registers.maps[1].width = 65_535;
    board.coprocessor.registers.maps[1].height = 65_535;
    assert_eq!(board.refusal(0x7C, 4, 0x0801_8000), 8);
    let mut board = Board::square(4);
    for (format, refusal) in [(0x13, 10), (0x1B, 10), (0x14, 7), (0x1C, 7)] {
        board.coprocessor.registers.maps[1].format = format;
        assert_eq!(board.refusal(0x7C, 4, 0x0801_8000), refusal);
    }

    let mut board = unfinished();
    board.coprocessor.registers.index = 200;
    assert_eq!(board.refusal(0x58, 4, 0), 2);
}
