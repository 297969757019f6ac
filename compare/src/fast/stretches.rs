//! A stretch: a line, a code or a row, and what holds all along it.

use super::pen::Pen;
use super::points::{Point, Step};
use super::setup::{Null, Pattern, Setup};
use super::surfaces::Surface;
use super::BOUNDARY;
use model::codes::{self, Code};
use model::drawing::Drawing;
use model::operations::Kind;

/// The stretch in hand.
pub(super) struct Stretch {
    /// The step while E is below 0, and the step otherwise.
    pub(super) steps: [Step; 2],
    /// The last position's number.
    pub(super) last: u32,
    /// The first position that is not nulled, and how many from it on are not, but for those that an area boundary keeps back.
    first_drawn: u32,
    drawn: u32,
    /// Whether the line or code goes up, and whether each of the two steps moves Y.
    is_up: bool,
    moves_y: [bool; 2],
    /// Rows or codes done.
    number: u32,
    /// Codes in the starting write.
    count: u32,
    /// X of source, pattern and destination where each row of a block or fill begins.
    row_start: [u32; 3],
}

impl Stretch {
    /// The stretch in hand, the positions done in it, and the bit after them.
    #[inline(always)]
    pub(super) fn of(setup: &Setup, drawing: Drawing) -> (Stretch, u32, bool) {
        let (done, number, count, bit) = match drawing {
            Drawing::Nothing { .. } => (0, 0, 0, false),
            Drawing::Line { done, rose } => (done, 0, 0, rose),
            // Every step of a code that goes up is a step in Y.
            Drawing::Codes { count, code, done } => (done, code, count, done > 0),
            Drawing::Block { column, row } => (column, row, 0, false),
            Drawing::Fill {
                column,
                row,
                inside,
            } => (column, row, 0, inside),
        };
        let mut stretch = Stretch {
            steps: [setup.step((0, 0), 0); 2],
            last: setup.dimensions.0,
            first_drawn: 0,
            drawn: 0,
            is_up: false,
            moves_y: [false; 2],
            number: number.into(),
            count: count.into(),
            row_start: [0; 3],
        };
        stretch.begin(setup);
        (stretch, done.into(), bit)
    }

    /// Sets the steps, the last position and those drawn.
    fn begin(&mut self, setup: &Setup) {
        let (x, y) = setup.signs;
        let (k1, k2) = setup.terms;
        let mut is_move = false;
        match setup.kind {
            Kind::Line => {
                let major = if setup.is_y_major { (0, y) } else { (x, 0) };
                self.steps = [setup.step(major, k1), setup.step((x, y), k2)];
                self.is_up = y < 0;
                self.moves_y = [setup.is_y_major, true];
            }
            Kind::Codes => {
                let code = Code::of(self.code(setup));
                let (x, y) = code.direction;
                self.steps = [setup.step((x as i32, y as i32), 0); 2];
                self.last = code.steps.into();
                self.is_up = y < 0;
                self.moves_y = [y != 0; 2];
                is_move = !code.draws;
            }
            Kind::Block | Kind::Fill => self.steps = [block_step((x, 0), (x, 0)); 2],
        }
        (self.first_drawn, self.drawn) = match setup.null {
            _ if is_move => (0, 0),
            Null::Nothing | Null::Boundary => (0, self.last + 1),
            Null::First => (1, self.last),
            Null::Last => (0, self.last),
        };
    }

    /// Finds where the rows of a block begin, from X and the column.
    #[inline(always)]
    pub(super) fn find_row_start(&mut self, setup: &Setup, pen: &Pen) {
        let back = -setup.signs.0 * pen.done as i32;
        let begun = |surface: &Surface, point: &Point| {
            (point.x as i32 + back).rem_euclid(surface.row_length as i32) as u32
        };
        let source = setup.source.as_ref().map(|map| begun(map, &pen.source));
        let pattern = match &setup.pattern {
            Pattern::Map(map) => begun(map, &pen.pattern),
            _ => pen.pattern.x,
        };
        let destination = pen.destination.moved_destination(back, 0).x;
        self.row_start = [source.unwrap_or(pen.source.x), pattern, destination];
    }

    /// Whether the position is neither nulled nor of a move code.
    #[inline(always)]
    pub(super) fn draws<const LOOP: u8>(&self, pen: &Pen, bit: bool) -> bool {
        let is_drawn = pen.done.wrapping_sub(self.first_drawn) < self.drawn;
        is_drawn && (LOOP != BOUNDARY || self.is_boundary(pen, bit))
    }

    /// Whether the next step goes down a row, or the last one came up.
    #[inline(always)]
    fn is_boundary(&self, pen: &Pen, bit: bool) -> bool {
        if self.is_up {
            bit
        } else {
            pen.done < self.last && self.moves_y[usize::from(pen.e >= 0)]
        }
    }

    /// Whether the next step goes up a row.
    #[inline(always)]
    pub(super) fn rises(&self, pen: &Pen) -> bool {
        self.is_up && self.moves_y[usize::from(pen.e >= 0)]
    }

    /// Passes from a stretch's last position to the next stretch: the pen, and the drawing's end if there is none.
    #[inline(never)]
    pub(super) fn pass(&mut self, setup: &Setup, pen: Pen) -> (Pen, Option<Drawing>) {
        let pen = Pen { done: 0, ..pen };
        let ended = Some(Drawing::Nothing { stopped: false });
        self.number += 1;
        match setup.kind {
            Kind::Line => (pen, ended),
            Kind::Codes if self.number == self.count => (pen, ended),
            Kind::Codes if self.code(setup) == codes::STOP => {
                (pen, Some(Drawing::Nothing { stopped: true }))
            }
            Kind::Codes => {
                self.begin(setup);
                (pen, None)
            }
            Kind::Block | Kind::Fill => {
                let is_last = self.number > setup.dimensions.1;
                (self.next_row(setup, pen), ended.filter(|_| is_last))
            }
        }
    }

    /// X returns and Y steps; inverting, the destination's Y goes the other way (docs/DIFFERENCES.md, D4).
    fn next_row(&self, setup: &Setup, pen: Pen) -> Pen {
        let y = setup.signs.1;
        let down = block_step((0, y), (0, if setup.is_inverting { -y } else { y }));
        let mut pen = pen.moved(setup, &down);
        [pen.source.x, pen.pattern.x, pen.destination.x] = self.row_start;
        pen
    }

    /// The byte of the code in hand.
    fn code(&self, setup: &Setup) -> u8 {
        (setup.steps >> (8 * (4 - self.count + self.number))) as u8
    }

    /// The drawing in hand after so many positions of the stretch, with its bit.
    pub(super) fn drawing(&self, setup: &Setup, done: u32, bit: bool) -> Drawing {
        let (done, number) = (done as u16, self.number as u16);
        match setup.kind {
            Kind::Line => Drawing::Line { done, rose: bit },
            Kind::Codes => Drawing::Codes {
                count: self.count as u8,
                code: number,
                done,
            },
            Kind::Block => Drawing::Block {
                column: done,
                row: number,
            },
            Kind::Fill => Drawing::Fill {
                column: done,
                row: number,
                inside: bit,
            },
        }
    }
}

/// A block's step, which leaves E.
fn block_step(map: (i32, i32), destination: (i32, i32)) -> Step {
    Step {
        map_x: map.0,
        map_y: map.1,
        destination_x: destination.0,
        destination_y: destination.1,
        term: 0,
    }
}

impl Setup {
    /// Read forms move the maps so and the destination's X by +1, write forms the reverse (docs/DIFFERENCES.md, D3).
    fn step(&self, (x, y): (i32, i32), term: i32) -> Step {
        let (map, destination) = if self.is_read_form {
            ((x, y), (1, 0))
        } else {
            ((1, 0), (x, y))
        };
        Step {
            term,
            ..block_step(map, destination)
        }
    }
}
