//! The independent program on random drawings, writes, images and damaged records: no call panics, and every record stays valid.

mod common;

use common::{any_started, damage};
use compare::random::Random;
use compare::random_drawings::{drawing, drawing_of_four_maps, started, FUNCTIONS};
use model::pixels::Order;
use model::{image, Coprocessor, Drawing};

#[test]
fn every_write_of_a_random_drawing_is_accepted() {
    let mut random = Random::new(1);
    for _ in 0..300 {
        for function in FUNCTIONS {
            let drawing = drawing(&mut random, function);
            let (mut coprocessor, _) = Coprocessor::fresh(drawing.memory.len() as u32);
            for (offset, length, value) in &drawing.writes {
                assert_eq!(coprocessor.write(*offset, *length, *value), 0);
                assert!(coprocessor.is_valid());
            }
            let is_begun = coprocessor.drawing.is_unfinished();
            assert!(is_begun || coprocessor.drawing == Drawing::Nothing { stopped: true });
        }
    }
}

#[test]
fn a_drawing_of_four_maps_uses_them_in_the_orders_of_its_mix() {
    let mut random = Random::new(7);
    for function in FUNCTIONS {
        for mix in 0..16 {
            let (coprocessor, _) = started(&drawing_of_four_maps(&mut random, function, mix));
            let registers = &coprocessor.registers;
            let fields = registers.fields();
            assert_eq!(fields.function, function);
            assert!(fields.uses_source() && fields.uses_pattern() && fields.uses_mask());
            let used = [fields.destination, fields.source, fields.pattern, 0];
            for (bit, map) in used.into_iter().enumerate() {
                let is_motorola = registers.map(map).order() == Order::Motorola;
                assert_eq!(is_motorola, mix >> bit & 1 == 1);
                assert!(!used[..bit].contains(&map));
            }
        }
    }
}

#[test]
fn random_drawings_keep_the_record_valid_and_count_their_positions() {
    let mut random = Random::new(2);
    for _ in 0..1_000 {
        let (mut coprocessor, mut memory) = any_started(&mut random);
        while coprocessor.drawing.is_unfinished() {
            let allowance = random.below(40);
            let expected = coprocessor.left().min(u64::from(allowance));
            let (refusal, done) = coprocessor.run(&mut memory, allowance);
            assert_eq!((refusal, u64::from(done)), (0, expected));
            assert!(coprocessor.is_valid());
        }
        assert_eq!((coprocessor.total(), coprocessor.left()), (0, 0));
    }
}

#[test]
fn a_drawing_changes_only_the_destination_map_and_the_registers_that_move() {
    let mut random = Random::new(3);
    for _ in 0..500 {
        let (mut coprocessor, mut memory) = any_started(&mut random);
        let (before, memory_before) = (coprocessor.clone(), memory.clone());
        coprocessor.run(&mut memory, u32::MAX);

        let map = before.registers.map(before.registers.fields().destination);
        let drawn = map.base as usize..map.end() as usize;
        for byte in (0..memory.len()).filter(|byte| !drawn.contains(byte)) {
            assert_eq!(memory[byte], memory_before[byte]);
        }
        let mut still = coprocessor.registers.clone();
        still.e = before.registers.e;
        still.source_x = before.registers.source_x;
        still.source_y = before.registers.source_y;
        still.pattern_x = before.registers.pattern_x;
        still.pattern_y = before.registers.pattern_y;
        still.destination_x = before.registers.destination_x;
        still.destination_y = before.registers.destination_y;
        assert_eq!(still, before.registers);
    }
}

#[test]
fn random_writes_keep_the_record_valid_and_refused_ones_leave_it() {
    let mut random = Random::new(4);
    for _ in 0..100 {
        let (mut coprocessor, mut memory) = any_started(&mut random);
        coprocessor.run(&mut memory, u32::MAX);
        for _ in 0..60 {
            let before = coprocessor.clone();
            let offset = random.below(0x84);
            let length = random.pick(&[1, 2, 4, 4, 3]);
            let refusal = coprocessor.write(offset, length, random.word());
            assert!(refusal <= 8);
            assert!(refusal == 0 || coprocessor == before);
            assert!(coprocessor.is_valid());
            let (refusal, value) = coprocessor.read(offset, length);
            assert!(refusal == 0 || (matches!(refusal, 1 | 3) && value == 0));
        }
    }
}

#[test]
fn a_changed_image_loads_to_a_valid_record_or_leaves_the_old_one() {
    let mut random = Random::new(5);
    let mut accepted = 0;
    for _ in 0..3_000 {
        let (mut coprocessor, mut memory) = any_started(&mut random);
        coprocessor.run(&mut memory, random.below(30));
        let mut bytes = [0; image::LENGTH];
        assert_eq!(coprocessor.save(&mut bytes), 0);
        for _ in 0..=random.below(2) {
            let place = random.below(image::LENGTH as u32) as usize;
            bytes[place] = random.word() as u8;
        }
        let before = coprocessor.clone();
        if coprocessor.load(&bytes) == 0 {
            accepted += 1;
            let mut again = [0; image::LENGTH];
            assert_eq!(coprocessor.save(&mut again), 0);
            assert_eq!(again, bytes);
            let mut memory = vec![0; coprocessor.size as usize];
            let expected = coprocessor.left().min(50);
            assert_eq!(coprocessor.run(&mut memory, 50), (0, expected as u32));
            assert!(coprocessor.is_valid());
        } else {
            assert_eq!(coprocessor, before);
        }
    }
    assert!(accepted > 300 && accepted < 2_700);
}

#[test]
fn damaged_records_are_refused_without_a_panic() {
    let mut random = Random::new(6);
    let mut refused = 0;
    for _ in 0..5_000 {
        let (mut coprocessor, mut memory) = any_started(&mut random);
        coprocessor.run(&mut memory, random.below(30));
        for _ in 0..=random.below(3) {
            damage(&mut random, &mut coprocessor);
        }
        coprocessor.total();
        coprocessor.left();
        if coprocessor.is_valid() {
            continue;
        }
        refused += 1;
        let before = coprocessor.clone();
        let written = coprocessor.write(random.below(0x80), 1, random.word());
        assert!((1..=10).contains(&written) && written != 9);
        let starting = coprocessor.write(0x7C, 4, before.registers.operations);
        assert!((1..=10).contains(&starting) && starting != 9);
        assert_eq!(coprocessor.read(0x7C, 4), (10, 0));
        let (refusal, done) = coprocessor.run(&mut memory, 9);
        assert!(matches!(refusal, 9 | 10) && done == 0);
        assert_eq!(coprocessor.save(&mut [0; image::LENGTH]), 10);
        assert_eq!(coprocessor, before);
    }
    assert!(refused > 2_000);
}

#[test]
fn the_same_seed_gives_the_same_numbers() {
    let numbers = |seed| {
        let mut random = Random::new(seed);
        [(); 4].map(|()| random.number())
    };
    assert_eq!(numbers(7), numbers(7));
    assert_ne!(numbers(7), numbers(8));
    assert_ne!(numbers(u64::MAX), [0; 4]);

    let mut random = Random::new(9);
    assert_eq!((random.below(0), random.pick(&[])), (0, 0));
    assert_eq!(random.between(5, 4), 5);
    for _ in 0..1_000 {
        assert!((-3..=3).contains(&random.between(-3, 3)));
        random.between(i32::MIN, i32::MAX);
    }
}
