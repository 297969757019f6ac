//! The state image: its parts, and load after save (01, State image; docs/DECISIONS.md).

mod common;

use common::states::{block, codes, line, stopped, varied};
use common::{Board, IDLE, STOPPED};
use model::{Coprocessor, Drawing};

#[test]
fn the_parts_lie_where_the_paper_has_them() {
    #[rustfmt::skip]
    let expected: [u8; 115] = [
        b'X', b'G', b'S',
        1, 0,
        0x03, 0x02, 0x01, 0x00,
        0,
        0, 0,
        0, 0,
        0,
        2,
        0x11, 0x12, 0x13, 0x14, 0x01, 0x01, 0x03, 0x03, 5,
        0x22, 0x24, 0x26, 0x28, 0x02, 0x01, 0x04, 0x03, 6,
        0x33, 0x36, 0x39, 0x3C, 0x03, 0x01, 0x05, 0x03, 7,
        0x44, 0x48, 0x4C, 0x50, 0x04, 0x01, 0x06, 0x03, 8,
        0xFE, 0xFF, 0xFF, 0xFF, 0x34, 0x12, 0, 0, 0xCC, 0xED, 0xFF, 0xFF, 0x21, 0x22, 0x23, 0x24,
        0x31, 0x32, 3,
        0x41, 0x42, 0x43, 0x44, 0x45, 0x46, 0x47, 0x48, 0x49, 0x4A, 0x4B, 0x4C,
        0x4D, 0x4E, 0x4F, 0x50, 0x51, 0x52, 0x53, 0x54, 0x61, 0x05, 0x71, 0x06,
        0x81, 0x07, 0x91, 0x08, 0xA1, 0x09, 0xB1, 0x0A, 0xC1, 0x0B, 0xD1, 0x0C,
        0xFD, 0xFF, 0x12, 0x17, 0xD1, 0xD2, 0xD3, 0x00,
    ];
    assert_eq!(varied().image(), expected);
}

#[test]
fn bytes_9_to_14_of_each_drawing() {
    assert_eq!(varied().image()[9..15], [0, 0, 0, 0, 0, 0]);
    assert_eq!(line().image()[9..15], [1, 1, 0, 0, 0, 0]);
    assert_eq!(codes().image()[9..15], [1, 1, 0, 1, 0, 4]);
    assert_eq!(block().image()[9..15], [1, 2, 0, 1, 0, 0]);
    assert_eq!(stopped().image()[9..15], [2, 0, 0, 0, 0, 0]);

    let mut wide = Board::square(4);
    wide.dimensions(0x2FF, 3);
    wide.operations(0x0801_8000);
    wide.run(3 * 0x300 + 0x201);
    assert_eq!(wide.image()[9..15], [1, 0x01, 0x02, 3, 0, 0]);

    let mut high = Board::square(4);
    high.dimensions(1, 0x1FF);
    high.operations(0x0801_8000);
    high.run(0x104 * 2 + 1);
    assert_eq!(high.image()[9..15], [1, 1, 0, 0x04, 0x01, 0]);
}

#[test]
fn load_after_save_gives_the_state_in_any_other_coprocessor() {
    let boards = [
        varied(),
        line(),
        codes(),
        block(),
        stopped(),
        Board::fresh(1),
    ];
    for board in &boards {
        for other in &boards {
            let mut loaded = other.coprocessor.clone();
            assert_eq!(loaded.load(&board.image()), 0);
            assert_eq!(loaded, board.coprocessor);
            let mut again = [0; 115];
            assert_eq!(loaded.save(&mut again), 0);
            assert_eq!(again, board.image());
        }
    }
}

#[test]
fn the_size_loaded_may_differ_and_then_the_run_takes_that_length() {
    let (mut other, _) = Coprocessor::fresh(1_000);
    assert_eq!(other.load(&block().image()), 0);
    assert_eq!(other.size, 16);
    assert_eq!(other.run(&mut [0; 1_000], 9), (9, 0));
    assert_eq!(other.run(&mut [0; 16], 9), (0, 6));
}

#[test]
fn state_2_loads_with_any_stored_function() {
    let mut image = stopped().image();
    for function in 0..16 {
        image[114] = function;
        let (mut loaded, _) = Coprocessor::fresh(1);
        assert_eq!(loaded.load(&image), 0);
        assert_eq!(loaded.drawing, STOPPED);
        image[9] = 0;
        assert_eq!(loaded.load(&image), 0);
        assert_eq!(loaded.drawing, IDLE);
        image[9] = 2;
    }
}

#[test]
fn an_idle_image_may_break_the_start_rules() {
    let mut image = line().image();
    image[9..15].fill(0);
    image[68] = 0xFF;
    image[110] = 0;
    let (mut loaded, _) = Coprocessor::fresh(1);
    assert_eq!(loaded.load(&image), 0);
}

#[test]
fn a_state_that_no_run_reaches_behaves_by_the_rules() {
    // A block in its third column and second row, whose destination starts elsewhere than the first row's.
    let mut image = block().image();
    image[107..111].copy_from_slice(&[0xFE, 0xFF, 3, 0]);
    let mut board = block();
    board.memory.fill(0);
    assert_eq!(board.coprocessor.load(&image), 0);
    assert_eq!(
        board.coprocessor.drawing,
        Drawing::Block { column: 2, row: 1 }
    );
    assert_eq!(
        board.visited(),
        [(-2, 3), (-1, 3), (-4, 4), (-3, 4), (-2, 4), (-1, 4)]
    );
    assert_eq!(board.destination_at(), (-4, 5));
    assert_eq!(board.memory, vec![0; 16]);
}
