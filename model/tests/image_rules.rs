//! The rules of the state image, each broken by itself (01, State image; docs/DECISIONS.md).

mod common;

use common::states::{block, codes, line, stopped, varied};
use common::Board;
use model::Coprocessor;

/// Asserts that the image with this change is refused and keeps the old state.
fn assert_breaks(image: [u8; 115], rule: &str) {
    let mut old = block().coprocessor;
    assert_eq!(old.load(&image), 10, "{rule}");
    assert_eq!(old, block().coprocessor, "{rule}");
}

/// The image with one run of bytes changed.
fn changed(mut image: [u8; 115], at: usize, bytes: &[u8]) -> [u8; 115] {
    image[at..at + bytes.len()].copy_from_slice(bytes);
    image
}

#[test]
fn mark_version_size_and_state_are_looked_at() {
    let rules: [(usize, &[u8], &str); 11] = [
        (0, b"x", "mark"),
        (1, b"g", "mark"),
        (2, b"s", "mark"),
        (3, &[0], "version"),
        (3, &[2], "version"),
        (4, &[1], "version"),
        (5, &[0, 0, 0, 0], "size 0"),
        (5, &[1, 0, 0x10, 0], "size 1,048,577"),
        (5, &[0, 0, 0, 1], "size 16,777,216"),
        (9, &[4], "state"),
        (9, &[255], "state"),
    ];
    for (at, bytes, rule) in rules {
        assert_breaks(changed(varied().image(), at, bytes), rule);
    }
    let (mut loaded, _) = Coprocessor::fresh(1);
    assert_eq!(
        loaded.load(&changed(varied().image(), 5, &[0, 0, 0x10, 0])),
        0
    );
    assert_eq!(loaded.size, 1_048_576);
}

#[test]
fn every_reduction_is_looked_at() {
    let mut rules: Vec<(usize, Vec<u8>, &str)> = vec![
        (15, vec![4], "map index"),
        (52, vec![0, 0x20, 0, 0], "E 8,192"),
        (52, vec![0xFF, 0xDF, 0xFF, 0xFF], "E -8,193"),
        (52, vec![0xFF, 0xFF, 0, 0], "E not sign-extended"),
        (56, vec![0, 0, 1, 0], "K1"),
        (60, vec![0, 0, 0, 0x80], "K2"),
        (70, vec![8], "condition"),
        (91, vec![0, 0x10], "dimension 1"),
        (93, vec![0, 0x10], "dimension 2"),
        (95, vec![0, 0x10], "mask origin X"),
        (97, vec![0, 0x10], "mask origin Y"),
        (99, vec![0, 0x10], "source X"),
        (101, vec![0, 0x10], "source Y"),
        (103, vec![0, 0x10], "pattern X"),
        (105, vec![0, 0x10], "pattern Y"),
        (107, vec![0, 0x18], "destination X 6,144"),
        (107, vec![0xFF, 0xF7], "destination X -2,049"),
        (109, vec![0, 0x18], "destination Y 6,144"),
        (109, vec![0xFF, 0x1F], "destination Y not sign-extended"),
    ];
    for map in 0..4 {
        rules.push((16 + 9 * map + 4, vec![0, 0x10], "width"));
        rules.push((16 + 9 * map + 6, vec![0, 0x10], "height"));
        rules.push((16 + 9 * map + 8, vec![0x10], "format"));
    }
    for (at, bytes, rule) in rules {
        assert_breaks(changed(varied().image(), at, &bytes), rule);
    }
}

#[test]
fn the_ends_of_every_reduction_are_accepted() {
    let ends: [(usize, &[u8]); 8] = [
        (15, &[3]),
        (20, &[0xFF, 0x0F, 0xFF, 0x0F, 0x0F]),
        (52, &[0xFF, 0x1F, 0, 0]),
        (56, &[0x00, 0xE0, 0xFF, 0xFF]),
        (70, &[7]),
        (91, &[0xFF, 0x0F, 0xFF, 0x0F]),
        (
            95,
            &[
                0xFF, 0x0F, 0xFF, 0x0F, 0xFF, 0x0F, 0xFF, 0x0F, 0xFF, 0x0F, 0xFF, 0x0F,
            ],
        ),
        (107, &[0xFF, 0x17, 0x00, 0xF8]),
    ];
    for (at, bytes) in ends {
        let (mut loaded, _) = Coprocessor::fresh(1);
        assert_eq!(
            loaded.load(&changed(varied().image(), at, bytes)),
            0,
            "{at}"
        );
    }
}

#[test]
fn counters_are_zero_if_not_drawing() {
    for image in [varied().image(), stopped().image()] {
        for at in 10..15 {
            assert_breaks(changed(image, at, &[1]), "counter of nothing");
        }
    }
}

#[test]
fn a_position_remains_and_other_counters_are_zero() {
    let rules: [(Board, usize, &[u8], &str); 12] = [
        (line(), 10, &[4], "line: no position remains"),
        (line(), 11, &[1], "line: no position remains"),
        (line(), 12, &[1], "line: rows or codes done"),
        (line(), 13, &[1], "line: rows or codes done"),
        (line(), 14, &[1], "line: codes"),
        (block(), 10, &[4], "block: no column remains"),
        (block(), 12, &[3], "block: no row remains"),
        (block(), 13, &[1], "block: no row remains"),
        (block(), 14, &[1], "block: codes"),
        (codes(), 10, &[2], "codes: no position remains"),
        (codes(), 12, &[4], "codes: no code remains"),
        (codes(), 13, &[1], "codes: no code remains"),
    ];
    for (board, at, bytes, rule) in rules {
        assert_breaks(changed(board.image(), at, bytes), rule);
    }
}

#[test]
fn codes_number_1_2_or_4() {
    for count in (0..=255).filter(|count| ![1, 2, 4].contains(count)) {
        let image = changed(codes().image(), 12, &[0, 0, count]);
        assert_breaks(image, "codes number");
    }
    for count in [1, 2, 4] {
        let image = changed(codes().image(), 12, &[0, 0, count]);
        let (mut loaded, _) = Coprocessor::fresh(1);
        assert_eq!(loaded.load(&image), 0);
        assert_eq!(loaded.left(), u64::from(count) * 2 - 1);
    }
}

#[test]
fn no_code_up_to_the_current_one_is_00() {
    // The second of four codes is current: bytes 64 and 65 of the image are the first and second.
    assert_breaks(changed(codes().image(), 64, &[0]), "earlier code 00");
    let at_its_first_position = changed(codes().image(), 10, &[0]);
    let (mut loaded, _) = Coprocessor::fresh(1);
    assert_eq!(loaded.load(&at_its_first_position), 0);
    assert_breaks(changed(at_its_first_position, 65, &[0]), "current code 00");
    for at in [66, 67] {
        let (mut loaded, _) = Coprocessor::fresh(1);
        assert_eq!(loaded.load(&changed(codes().image(), at, &[0])), 0);
    }
    // Bytes below those of the starting write may be 00.
    let image = changed(codes().image(), 12, &[1, 0, 2]);
    let (mut loaded, _) = Coprocessor::fresh(1);
    assert_eq!(loaded.load(&changed(image, 64, &[0, 0])), 0);
    assert_breaks(changed(image, 66, &[0]), "earlier code 00");
}

#[test]
fn a_drawing_image_keeps_the_start_rules() {
    let rules: [(usize, &[u8], &str); 14] = [
        (114, &[0x20], "function 0"),
        (114, &[0x2B], "function 11"),
        (114, &[0x15], "foreground source 01"),
        (114, &[0xE5], "background source 11"),
        (113, &[0x20], "destination 0"),
        (113, &[0x01], "source 0 though used"),
        (112, &[0x00], "pattern 0"),
        (111, &[0xC0], "mask 11"),
        (68, &[0x16], "foreground mix"),
        (69, &[0x16], "background mix"),
        (42, &[0], "source of another size"),
        (51, &[1], "pattern of 2 bits"),
        (25, &[1], "destination beyond the memory"),
        (5, &[15], "memory shorter than the destination"),
    ];
    for (at, bytes, rule) in rules {
        assert_breaks(changed(line().image(), at, bytes), rule);
    }
    let with_mask = changed(line().image(), 111, &[0x80]);
    let (mut loaded, _) = Coprocessor::fresh(1);
    assert_eq!(loaded.load(&with_mask), 0);
    assert_breaks(changed(with_mask, 24, &[3]), "mask map of 8 bits");
    assert_breaks(changed(with_mask, 16, &[16]), "mask map beyond the memory");
}

#[test]
fn a_used_maps_order_is_free_and_its_pixel_code_is_not() {
    // A map of one pixel, which lies in the memory whatever its code.
    let mut small = block().image();
    small[29..33].fill(0);
    for code in 0..8 {
        for format in [code, code | 8] {
            let image = changed(small, 33, &[format]);
            if code <= 3 {
                let (mut loaded, _) = Coprocessor::fresh(1);
                assert_eq!(loaded.load(&image), 0, "format {format}");
                assert_eq!(loaded.registers.maps[1].format, format);
                let mut saved = [0; 115];
                assert_eq!(loaded.save(&mut saved), 0);
                assert_eq!(saved, image);
            } else {
                assert_breaks(image, "pixel code above 3");
            }
        }
    }
    // Formats of mask, destination, source and pattern, all used, each with an order of its own.
    let with_mask = changed(line().image(), 111, &[0x80]);
    for orders in 0..16u8 {
        let mut image = with_mask;
        for (map, at) in [24, 33, 42, 51].into_iter().enumerate() {
            image[at] |= (orders >> map & 1) << 3;
        }
        let (mut loaded, _) = Coprocessor::fresh(1);
        assert_eq!(loaded.load(&image), 0, "{orders:04b}");
    }
}

#[test]
fn used_pointers_lie_in_their_maps() {
    // Source map B and pattern map C are 3 by 2.
    let rules = [(99, 3), (101, 2), (103, 3), (105, 2)];
    for (at, first_outside) in rules {
        assert_breaks(
            changed(line().image(), at, &[first_outside]),
            "pointer outside",
        );
        let inside = changed(line().image(), at, &[first_outside - 1]);
        let (mut loaded, _) = Coprocessor::fresh(1);
        assert_eq!(loaded.load(&inside), 0);
    }
    // Unused ones may be anywhere.
    for at in [99, 101, 103, 105] {
        let (mut loaded, _) = Coprocessor::fresh(1);
        assert_eq!(loaded.load(&changed(block().image(), at, &[0xFF, 0x0F])), 0);
    }
}
