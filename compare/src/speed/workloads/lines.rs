//! Lines and step codes into 8-bit maps.

use super::{pixels, Drawings, Work, Workload, ALL, SOURCES, TO};
use crate::random::Random;
use crate::speed::limits::lines::{self as by_hand, Codes, Line};
use crate::writes::{self, map, Point, Write, BITS_8, BOUNDARY, CODES, LINE};
use model::codes::DIRECTIONS;

const LINES: &str = "lines of 4096";

/// A line and its colour.
#[derive(Clone, Copy)]
struct Drawn {
    from: Point,
    to: Point,
    colour: u8,
}

pub fn all() -> Vec<Workload> {
    vec![
        Workload::new(LINES, || long(LINE, by_hand::line)),
        Workload::new("mode 11 lines of 4096", || {
            long(LINE | BOUNDARY, by_hand::boundary)
        })
        .beside(LINES),
        Workload::new("step codes, four of 16", step_codes),
        Workload::new("lines of ten, run only", || short().run_only()).by_drawing(),
        Workload::new("lines of ten, with writes", || short().with_writes()).by_drawing(),
        Workload::new("lines of 10, any octant, run only", || {
            anywhere(10).run_only()
        })
        .by_drawing(),
        Workload::new("lines of 300, any octant, run only", || {
            anywhere(300).run_only()
        })
        .by_drawing(),
    ]
}

/// Lines across the whole width, of different slopes.
fn long(operations: u32, draw: fn(&mut [u8], &Line)) -> Work {
    let lines = (0..16).map(|number| Drawn {
        from: (0, 0),
        to: (4095, number * 17),
        colour: (0x80 + number * 17) as u8,
    });
    of_lines(lines.collect(), (4096, 256), operations, draw).run_only()
}

/// Lines of ten pixels anywhere in the map, to the right and down.
fn short() -> Drawings {
    let mut random = Random::new(3);
    let mut any_line = || {
        let mut between = |first, last| i64::from(random.between(first, last));
        let from = (between(10, 1000), between(10, 1000));
        let down = between(0, 9);
        Drawn {
            from,
            to: (from.0 + 9, from.1 + down),
            colour: (0x80 + down) as u8,
        }
    };
    let lines = (0..256).map(|_| any_line()).collect();
    of_lines(lines, (1024, 1024), LINE, by_hand::line)
}

/// Lines of so many pixels, in all directions.
fn anywhere(pixels: i32) -> Drawings {
    let mut random = Random::new(4);
    let mut any_line = || {
        let mut between = |first, last| i64::from(random.between(first, last));
        let far = i64::from(pixels - 1) * (2 * between(0, 1) - 1);
        let aside = between(1 - pixels, pixels - 1);
        let (x, y) = if between(0, 1) == 0 {
            (far, aside)
        } else {
            (aside, far)
        };
        let from = (between(300, 723), between(300, 723));
        Drawn {
            from,
            to: (from.0 + x, from.1 + y),
            colour: between(0, 255) as u8,
        }
    };
    let lines = (0..256).map(|_| any_line()).collect();
    of_lines(lines, (1024, 1024), LINE, by_hand::line)
}

/// Lines in a map; by hand too each is worked out from its ends.
fn of_lines(
    lines: Vec<Drawn>,
    size: Point,
    operations: u32,
    draw: fn(&mut [u8], &Line),
) -> Drawings {
    let mut common = map(TO, 0, size, BITS_8).to_vec();
    common.extend(pixels(SOURCES, ALL, (0, 0)));
    let each = lines.iter().map(|line| written(line, operations)).collect();
    Drawings::new(common, each, move |memory| {
        for line in &lines {
            let line = Line::between(line.from, line.to, size.0, line.colour);
            draw(memory, &line);
        }
    })
}

/// The seven writes of a line.
fn written(line: &Drawn, operations: u32) -> Vec<Write> {
    let (from, to) = (line.from, line.to);
    let operations = operations | TO << 16 | writes::octant(from, to);
    let mut writes = writes::line(from, to).to_vec();
    writes.push(writes::foreground(line.colour.into()));
    writes.push(writes::destination(from));
    writes.push(writes::operations(operations));
    writes
}

/// Four codes of 16 positions in each drawing.
fn step_codes() -> Work {
    const COLOUR: u8 = 0x3C;
    let mut random = Random::new(2);
    let words: Vec<u32> = (0..64).map(|_| random.word() | 0x1F1F_1F1F).collect();
    let mut common = map(TO, 0, (256, 256), BITS_8).to_vec();
    common.extend(pixels(SOURCES, ALL, (COLOUR, 0)));
    let written = |word: &u32| {
        vec![
            writes::destination((128, 128)),
            writes::operations(CODES | TO << 16),
            writes::codes(4, *word),
        ]
    };
    let each = words.iter().map(written).collect();
    let by_hand: Vec<Codes> = words.iter().map(|word| codes(*word, COLOUR)).collect();
    let limit = move |memory: &mut [u8]| {
        for codes in &by_hand {
            by_hand::codes(memory, codes);
        }
    };
    Drawings::new(common, each, limit).run_only()
}

/// The codes of a word, in the middle of a map of 256 pixels a row.
fn codes(word: u32, colour: u8) -> Codes {
    let step = |code: u8| {
        let (x, y) = DIRECTIONS[usize::from(code >> 5)];
        ((y * 256 + x) as isize, usize::from(code & 0xF))
    };
    Codes {
        at: 128 * 256 + 128,
        steps: word.to_le_bytes().map(step),
        colour,
    }
}
