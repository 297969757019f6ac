//! The fast runner against the clear one: the same refusals, positions, registers and memory.

mod common;

use common::{any_started, damage};
use compare::fast;
use compare::random::Random;
use compare::random_drawings::{drawing_of_four_maps, started, FUNCTIONS};
use compare::writes::{self, Write, BITS_1, BITS_8, MIX_SOURCE};
use model::{image, Coprocessor};

/// Both runs on copies of one state and memory: all that they change and answer is the same; the answer.
fn run(coprocessor: &mut Coprocessor, memory: &mut Vec<u8>, allowance: u32) -> (u32, u32) {
    let (mut fast_coprocessor, mut fast_memory) = (coprocessor.clone(), memory.clone());
    let fast_answer = fast::run(&mut fast_coprocessor, &mut fast_memory, allowance);
    let answer = coprocessor.run(memory, allowance);
    assert_eq!(fast_answer, answer);
    assert_eq!(fast_coprocessor, *coprocessor);
    assert_eq!(fast_memory, *memory);
    answer
}

#[test]
fn drawings_in_one_run() {
    let mut random = Random::new(1);
    let mut positions = 0;
    for _ in 0..4_000 {
        let (mut coprocessor, mut memory) = any_started(&mut random);
        let (refusal, done) = run(&mut coprocessor, &mut memory, u32::MAX);
        assert_eq!(refusal, 0);
        positions += u64::from(done);
    }
    assert!(positions > 60_000);
}

#[test]
fn drawings_of_four_maps_in_every_mix_of_orders() {
    let mut random = Random::new(7);
    for function in FUNCTIONS {
        for mix in 0..16 {
            let mut changed = 0;
            for _ in 0..40 {
                let drawing = drawing_of_four_maps(&mut random, function, mix);
                let (mut coprocessor, mut memory) = started(&drawing);
                run(&mut coprocessor, &mut memory, u32::MAX);
                changed += u32::from(memory != drawing.memory);
            }
            assert!(changed > 0, "function {function}, mix {mix:04b}");
        }
    }
}

#[test]
fn drawings_cut_anywhere() {
    let mut random = Random::new(2);
    for _ in 0..3_000 {
        let (mut coprocessor, mut memory) = any_started(&mut random);
        while coprocessor.drawing.is_unfinished() {
            run(&mut coprocessor, &mut memory, random.below(12));
        }
        assert_eq!(run(&mut coprocessor, &mut memory, 9), (0, 0));
    }
}

#[test]
fn an_allowance_of_0_and_an_idle_state_leave_everything() {
    let mut random = Random::new(3);
    for _ in 0..1_000 {
        let (mut coprocessor, mut memory) = any_started(&mut random);
        let before = (coprocessor.clone(), memory.clone());
        assert_eq!(run(&mut coprocessor, &mut memory, 0), (0, 0));
        assert_eq!((coprocessor, memory), before);
    }
    let (mut fresh, _) = Coprocessor::fresh(3);
    assert_eq!(run(&mut fresh, &mut vec![7; 3], 9), (0, 0));
}

#[test]
fn another_length_is_refused_with_9() {
    let mut random = Random::new(4);
    for _ in 0..1_000 {
        let (mut coprocessor, mut memory) = any_started(&mut random);
        let right = memory.len();
        for length in [right - 1, right + 1, 0] {
            memory.resize(length, 0);
            assert_eq!(run(&mut coprocessor, &mut memory, 9), (9, 0));
        }
    }
}

#[test]
fn states_that_only_an_image_reaches() {
    let mut random = Random::new(6);
    let mut drawn = 0;
    for _ in 0..4_000 {
        let (mut coprocessor, mut memory) = any_started(&mut random);
        coprocessor.run(&mut memory, random.below(30));
        let mut bytes = image::of(&coprocessor);
        for _ in 0..=random.below(3) {
            let place = random.below(image::LENGTH as u32) as usize;
            bytes[place] = random.word() as u8;
        }
        if coprocessor.load(&bytes) == 0 {
            let mut memory = vec![0x5A; coprocessor.size as usize];
            drawn += run(&mut coprocessor, &mut memory, 200).1;
        }
    }
    assert!(drawn > 10_000);
}

#[test]
fn damaged_records_are_refused_with_10_by_both() {
    let mut random = Random::new(5);
    let mut refused = 0;
    for _ in 0..10_000 {
        let (mut coprocessor, mut memory) = any_started(&mut random);
        run(&mut coprocessor, &mut memory, random.below(30));
        for _ in 0..=random.below(3) {
            damage(&mut random, &mut coprocessor);
        }
        if random.once_in(2) && coprocessor.size <= 1_048_576 {
            memory.resize(coprocessor.size as usize, 0);
        }
        let (refusal, _) = run(&mut coprocessor, &mut memory, random.below(40));
        refused += u32::from(refusal == 10);
    }
    assert!(refused > 3_000);
}

const MASK: u32 = 0;
const DESTINATION: u32 = 1;
const SOURCE: u32 = 2;
const PATTERN: u32 = 3;

/// Draws a block in a memory that is half as long as the state's, where only one map goes on behind its end.
///
/// A run refuses such a memory with 9, so only the loop inside it can be lent it.
fn draw_beyond(reaching: u32) {
    let (mut coprocessor, _) = Coprocessor::fresh(32);
    let size = (8, 2);
    let maps = [
        (MASK, BITS_1, 15),
        (DESTINATION, BITS_8, 13),
        (SOURCE, BITS_8, 13),
        (PATTERN, BITS_1, 15),
    ];
    let maps = maps.map(|(map, format, late)| {
        let base = if map == reaching { late } else { 0 };
        writes::map(map, base, size, format)
    });
    let block: [Write; 5] = [
        writes::mixes(MIX_SOURCE, 0),
        writes::no_compare(),
        writes::planes(0xFF),
        writes::dimensions(size),
        writes::operations(0x2821_3080),
    ];
    for (offset, length, value) in maps.concat().into_iter().chain(block) {
        assert_eq!(coprocessor.write(offset, length, value), 0);
    }
    fast::draw(&mut coprocessor, &mut [0xFF; 16], u32::MAX);
}

#[test]
#[should_panic(expected = "the source pixel (3, 0) reaches beyond a memory of 16 bytes")]
fn a_source_pixel_beyond_fails_loudly() {
    draw_beyond(SOURCE);
}

#[test]
#[should_panic(expected = "the pattern pixel (0, 1) reaches beyond a memory of 16 bytes")]
fn a_pattern_pixel_beyond_fails_loudly() {
    draw_beyond(PATTERN);
}

#[test]
#[should_panic(expected = "the mask pixel (0, 1) reaches beyond a memory of 16 bytes")]
fn a_mask_pixel_beyond_fails_loudly() {
    draw_beyond(MASK);
}

#[test]
#[should_panic(expected = "the destination pixel (3, 0) reaches beyond a memory of 16 bytes")]
fn a_destination_pixel_beyond_fails_loudly() {
    draw_beyond(DESTINATION);
}
