//! In the independent program a drawing cut by save and load, or run by small allowances, ends as the uncut one (01, The functions; 01, State image).

use compare::random::Random;
use compare::random_drawings::{drawing, started, RandomDrawing, FUNCTIONS};
use model::{image, Coprocessor, Drawing};

/// The drawings of each function.
const DRAWINGS: usize = 48;

/// Random drawings of a function that have positions, in memories of several sizes.
fn drawings(function: u32) -> Vec<RandomDrawing> {
    let mut random = Random::new(u64::from(function));
    std::iter::repeat_with(|| drawing(&mut random, function))
        .filter(|drawing| started(drawing).0.total() > 0)
        .take(DRAWINGS)
        .collect()
}

/// Other coprocessors, each with a size of its own and in the middle of a drawing of its own.
fn others() -> Vec<Coprocessor> {
    let mut random = Random::new(100);
    let mut begun = |function| {
        let (mut other, mut memory) = started(&drawing(&mut random, function));
        other.run(&mut memory, 3);
        other
    };
    FUNCTIONS.into_iter().map(&mut begun).collect()
}

/// Another coprocessor after it has loaded this one's image.
fn moved(other: &Coprocessor, coprocessor: &Coprocessor) -> Coprocessor {
    let mut other = other.clone();
    assert_ne!(other, *coprocessor);
    let mut bytes = [0; image::LENGTH];
    assert_eq!(coprocessor.save(&mut bytes), 0);
    assert_eq!(other.load(&bytes), 0);
    assert_eq!(other, *coprocessor);
    other
}

/// The end of the uncut drawing, its memory and its positions.
fn uncut(drawing: &RandomDrawing) -> (Coprocessor, Vec<u8>, u32) {
    let (mut coprocessor, mut memory) = started(drawing);
    let total = coprocessor.total();
    let (refusal, done) = coprocessor.run(&mut memory, u32::MAX);
    assert_eq!((refusal, u64::from(done)), (0, total));
    assert!(!coprocessor.drawing.is_unfinished());
    (coprocessor, memory, done)
}

#[test]
fn cut_at_every_position_and_moved_to_another_coprocessor() {
    let others = others();
    let mut cuts_with_bit = [0; 2];
    for function in FUNCTIONS {
        for drawing in drawings(function) {
            let (end, end_memory, total) = uncut(&drawing);
            let (mut coprocessor, mut memory) = started(&drawing);
            for (cut, other) in (0..=total).zip(others.iter().cycle()) {
                assert_eq!(coprocessor.left(), u64::from(total - cut));
                match coprocessor.drawing {
                    Drawing::Line { rose: true, .. } => cuts_with_bit[0] += 1,
                    Drawing::Fill { inside: true, .. } => cuts_with_bit[1] += 1,
                    _ => {}
                }
                let mut resumed = moved(other, &coprocessor);
                let mut resumed_memory = memory.clone();
                let answer = resumed.run(&mut resumed_memory, u32::MAX);
                assert_eq!(answer, (0, total - cut));
                assert_eq!(resumed, end);
                assert_eq!(resumed_memory, end_memory);

                let on = coprocessor.run(&mut memory, 1);
                assert_eq!(on, (0, u32::from(cut < total)));
            }
        }
    }
    assert!(cuts_with_bit[0] > 50 && cuts_with_bit[1] > 500);
}

#[test]
fn an_allowance_of_1_all_the_way() {
    for function in FUNCTIONS {
        for drawing in drawings(function) {
            let (end, end_memory, total) = uncut(&drawing);
            let (mut coprocessor, mut memory) = started(&drawing);
            for done in 0..total {
                assert_eq!(coprocessor.left(), u64::from(total - done));
                assert_eq!(coprocessor.run(&mut memory, 1), (0, 1));
            }
            assert_eq!(coprocessor.run(&mut memory, 1), (0, 0));
            assert_eq!((coprocessor, memory), (end, end_memory));
        }
    }
}

#[test]
fn moved_before_every_run_of_any_allowance() {
    let others = others();
    let mut random = Random::new(200);
    for function in FUNCTIONS {
        for drawing in drawings(function) {
            let (end, end_memory, total) = uncut(&drawing);
            let (mut coprocessor, mut memory) = started(&drawing);
            let mut sum = 0;
            for other in others.iter().cycle() {
                if !coprocessor.drawing.is_unfinished() {
                    break;
                }
                let allowance = random.below(6);
                let expected = coprocessor.left().min(u64::from(allowance)) as u32;
                coprocessor = moved(other, &coprocessor);
                assert_eq!(coprocessor.run(&mut memory, allowance), (0, expected));
                sum += expected;
            }
            assert_eq!(sum, total);
            assert_eq!((coprocessor, memory), (end, end_memory));
        }
    }
}

#[test]
fn the_drawings_are_varied() {
    for function in FUNCTIONS {
        let drawings = drawings(function);
        let mut sizes: Vec<usize> = drawings
            .iter()
            .map(|drawing| drawing.memory.len())
            .collect();
        sizes.sort();
        sizes.dedup();
        assert!(sizes.len() >= 24);
        let changed = |drawing: &&RandomDrawing| uncut(drawing).1 != drawing.memory;
        assert!(drawings.iter().filter(changed).count() >= 8);
    }
}
