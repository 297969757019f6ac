//! Mixes and compare conditions on one pixel (01, One position).

use model::mixes::{holds, mix};

/// Bit 0 of a logical mix's code stands for S and D, bit 1 for S and not D, bit 2 for not S and D, bit 3 for neither.
fn logical_by_truth_table(code: u32, s: u32, d: u32) -> u32 {
    let cases = [s & d, s & !d, !s & d, !s & !d];
    (0..4)
        .filter(|case| code >> case & 1 == 1)
        .fold(0, |bits, case| bits | cases[case])
}

#[test]
fn logical_mixes_are_the_truth_tables_of_their_codes() {
    let (s, d) = (0b1100, 0b1010);
    for code in 0..16 {
        let expected = logical_by_truth_table(code, s, d) & 0xF;
        assert_eq!(mix(code, 4, 0xF, s, d), expected, "mix {code:X}");
    }
}

#[test]
fn every_mix_of_one_pair() {
    // S 0F hex, D 35 hex, 8 bits, in the order of 01.
    let expected = [
        0x00, 0x05, 0x0A, 0x0F, 0x30, 0x35, 0x3A, 0x3F, 0xC0, 0xC5, 0xCA, 0xCF, 0xF0, 0xF5, 0xFA,
        0xFF, 0x35, 0x0F, 0x44, 0x26, 0x00, 0x22,
    ];
    for (code, expected) in (0..).zip(expected) {
        assert_eq!(mix(code, 8, 0xFF, 0x0F, 0x35), expected, "mix {code:X}");
    }
}

#[test]
fn arithmetic_mixes_hold_at_the_ends_of_each_size() {
    for bits in [1, 2, 4, 8] {
        let top = (1 << bits) - 1;
        for s in 0..=top {
            for d in 0..=top {
                let by = |code| mix(code, bits, 0xFF, s, d);
                assert_eq!(by(0x10), s.max(d));
                assert_eq!(by(0x11), s.min(d));
                assert_eq!(by(0x12), (s + d).min(top));
                assert_eq!(by(0x13), d.saturating_sub(s));
                assert_eq!(by(0x14), s.saturating_sub(d));
                assert_eq!(by(0x15), (s + d) / 2);
            }
        }
    }
}

#[test]
fn the_average_is_rounded_down() {
    assert_eq!(mix(0x15, 8, 0xFF, 4, 7), 5);
    assert_eq!(mix(0x15, 8, 0xFF, 255, 254), 254);
}

/// The arithmetic mixes but the average, by masked pixels alone.
fn arithmetic_in_place(code: u32, full: u32, m: u32, s: u32, d: u32) -> u32 {
    let (a, b) = (s & m, d & m);
    let mixed = match code {
        0x10 => a.max(b),
        0x11 => a.min(b),
        0x12 => {
            let sum = a + (b | (full & !m));
            if sum > full {
                m
            } else {
                sum & m
            }
        }
        0x13 => b.saturating_sub(a) & m,
        _ => a.saturating_sub(b) & m,
    };
    mixed | d & !m
}

/// Every mask of 8 bits, with sources and destinations all over their range.
fn spread() -> impl Iterator<Item = [u32; 3]> {
    let pixels = |step| (0..256).step_by(step);
    (0..256).flat_map(move |m| pixels(13).flat_map(move |s| pixels(11).map(move |d| [m, s, d])))
}

#[test]
fn gathered_arithmetic_agrees_with_arithmetic_in_place() {
    for m in 0..16 {
        for s in 0..16 {
            for d in 0..16 {
                for code in 0x10..0x15 {
                    let expected = arithmetic_in_place(code, 15, m, s, d);
                    assert_eq!(
                        mix(code, 4, m, s, d),
                        expected,
                        "{code:X} {m:X} {s:X} {d:X}"
                    );
                }
            }
        }
    }
    for [m, s, d] in spread() {
        for code in 0x10..0x15 {
            let expected = arithmetic_in_place(code, 255, m, s, d);
            assert_eq!(
                mix(code, 8, m, s, d),
                expected,
                "{code:X} {m:X} {s:X} {d:X}"
            );
        }
    }
}

#[test]
fn masked_bits_of_the_destination_stay() {
    for [m, s, d] in spread() {
        for code in 0..0x16 {
            assert_eq!(mix(code, 8, m, s, d) & !m, d & !m);
        }
    }
}

#[test]
fn bits_above_the_pixel_do_not_count() {
    for code in 0..0x16 {
        for bits in [1, 2, 4, 8] {
            let low = (1 << bits) - 1;
            let clean = mix(code, bits, low, 0x5A & low, 0x33 & low);
            let high = !low;
            assert_eq!(mix(code, bits, low | high, 0x5A | high, 0x33 | high), clean);
            assert!(clean <= low);
        }
    }
}

#[test]
fn conditions_0_to_7() {
    let of_pair = |d, v| -> Vec<bool> { (0..8).map(|c| holds(c, 8, 0xFF, d, v)).collect() };
    let (t, f) = (true, false);
    assert_eq!(of_pair(5, 5), [t, f, t, f, f, t, f, t]);
    assert_eq!(of_pair(200, 5), [t, t, f, f, f, t, t, f]);
    assert_eq!(of_pair(5, 200), [t, f, f, t, f, f, t, t]);
}

#[test]
fn conditions_compare_the_low_bits_of_the_value() {
    assert!(holds(2, 4, 0xFF, 0x3, 0xF3));
    assert!(!holds(3, 4, 0xFF, 0x3, 0xF3));
}
