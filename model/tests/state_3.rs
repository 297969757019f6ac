//! State 3 of the image, drawing and inside: its bytes, and its rules, each broken by itself (02, 102).

mod common;

use common::states::{block, boundary, codes, fill, line, stopped, varied};
use common::Board;
use model::{Coprocessor, Drawing};

/// The image with one byte changed.
fn changed(mut image: [u8; 115], at: usize, byte: u8) -> [u8; 115] {
    image[at] = byte;
    image
}

/// Whether the image loads; if so it is saved as the same bytes, and if not the old state is kept.
fn loads(image: &[u8; 115]) -> bool {
    let mut coprocessor = block().coprocessor;
    let refusal = coprocessor.load(image);
    if refusal != 0 {
        assert_eq!(refusal, 10);
        assert_eq!(coprocessor, block().coprocessor);
        return false;
    }
    let mut saved = [0; 115];
    assert_eq!(coprocessor.save(&mut saved), 0);
    assert_eq!(saved, *image);
    true
}

/// A line of mode 11 in an octant with so many positions done, as an image of state 3.
fn boundary_image(octant: u8, done: u8) -> [u8; 115] {
    let image = changed(boundary().image(), 111, 0x30 | octant);
    changed(image, 10, done)
}

#[test]
fn bytes_9_to_14_of_a_boundary_and_a_fill() {
    assert_eq!(boundary().image()[9..15], [3, 1, 0, 0, 0, 0]);
    assert_eq!(fill().image()[9..15], [3, 2, 0, 1, 0, 0]);

    let mut level = boundary();
    level.run(1);
    assert_eq!(level.image()[9..15], [1, 2, 0, 0, 0, 0]);
    let mut row_end = fill();
    row_end.run(2);
    assert_eq!(row_end.image()[9..15], [1, 0, 0, 2, 0, 0]);
}

#[test]
fn load_after_save_gives_the_state_in_any_other_coprocessor() {
    for board in [boundary(), fill()] {
        for other in [varied(), codes(), fill(), boundary(), Board::fresh(1)] {
            let mut loaded = other.coprocessor;
            assert_eq!(loaded.load(&board.image()), 0);
            assert_eq!(loaded, board.coprocessor);
        }
        assert!(loads(&board.image()));
        assert!(loads(&changed(board.image(), 9, 1)));
    }
}

#[test]
fn a_line_needs_mode_11_and_a_position_done() {
    for octant in 0..8 {
        for done in 1..5 {
            assert!(loads(&boundary_image(octant, done)));
        }
        assert!(!loads(&boundary_image(octant, 0)), "first position");
        assert!(!loads(&boundary_image(octant, 5)), "no position remains");
        for mode in [0x00, 0x10, 0x20] {
            let image = changed(boundary_image(octant, 1), 111, mode | octant);
            assert!(!loads(&image), "mode {mode:X}");
            assert!(loads(&changed(image, 9, 1)));
        }
    }
    // A read form too.
    assert!(loads(&changed(boundary_image(2, 1), 114, 3)));
}

#[test]
fn a_fill_needs_a_position_done_in_its_row() {
    for row in 0..3 {
        let image = changed(fill().image(), 12, row);
        for column in 1..4 {
            assert!(loads(&changed(image, 10, column)));
        }
        assert!(!loads(&changed(image, 10, 0)), "row {row} begins");
        assert!(loads(&changed(changed(image, 10, 0), 9, 1)));
        assert!(!loads(&changed(image, 10, 4)), "no column remains");
    }
    assert!(!loads(&changed(fill().image(), 12, 3)), "no row remains");
    assert!(!loads(&changed(fill().image(), 14, 1)), "codes");
    // The counter has two bytes.
    let wide = changed(changed(fill().image(), 92, 1), 10, 0);
    assert!(loads(&changed(wide, 11, 1)));
    assert!(!loads(&wide));
}

#[test]
fn a_fill_goes_right_and_has_a_pattern_map() {
    for state in [1, 3] {
        let image = changed(fill().image(), 9, state);
        for octant in 0..8 {
            assert_eq!(loads(&changed(image, 111, octant)), octant < 4);
        }
        for pattern in (0..16).filter(|pattern| ![1, 2, 3].contains(pattern)) {
            assert!(!loads(&changed(image, 112, pattern << 4)), "{pattern}");
        }
        for mode in [0x10, 0x20, 0x30] {
            assert!(loads(&changed(image, 111, mode)));
        }
    }
}

#[test]
fn codes_blocks_and_nothing_have_no_state_3() {
    for board in [codes(), block(), line(), stopped(), varied()] {
        assert!(loads(&board.image()));
        assert!(!loads(&changed(board.image(), 9, 3)));
    }
    // Codes and blocks have none in mode 11 either.
    for board in [codes(), block()] {
        let image = changed(board.image(), 111, 0x30);
        assert!(loads(&image));
        assert!(!loads(&changed(image, 9, 3)));
    }
}

#[test]
fn a_start_begins_without_the_bit() {
    let mut board = fill();
    board.finish();
    board.operations(0x0A01_3000);
    assert_eq!(board.image()[9], 1);
    let mut board = boundary();
    board.finish();
    board.operations(0x0501_8032);
    assert_eq!(board.image()[9], 1);
}

#[test]
fn a_bit_that_only_an_image_reaches_behaves_by_the_rules() {
    // Inside in a row that has no opening pixel: the rest of it is filled, and the next row starts outside.
    let (mut coprocessor, _) = Coprocessor::fresh(1);
    assert_eq!(coprocessor.load(&changed(fill().image(), 12, 0)), 0);
    let mut memory = vec![0; 18];
    assert_eq!(coprocessor.run(&mut memory, 2), (0, 2));
    let next_row = Drawing::Fill {
        column: 0,
        row: 1,
        inside: false,
    };
    assert_eq!(coprocessor.drawing, next_row);
    assert_eq!(coprocessor.run(&mut memory, u32::MAX), (0, 8));
    assert_eq!(memory[4..8], [0, 0, 0xFF, 0xFF]);
    assert_eq!(memory[8..16], [0; 8]);
}
