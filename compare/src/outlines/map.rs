//! A map of the outline's size, pixel by pixel and row after row.

use super::counts::Counts;
use super::crossings;
use super::edges::{Edge, Point};

/// A map of pixels that are 1 or 0.
pub struct Map {
    size: Point,
    pub values: Vec<bool>,
}

impl Map {
    /// A map of zeros.
    pub fn new(size: Point) -> Map {
        let values = vec![false; (size.0 * size.1) as usize];
        Map { size, values }
    }

    /// Each pixel and its value.
    pub fn pixels(&self) -> impl Iterator<Item = (Point, &bool)> {
        let (width, height) = self.size;
        let places = (0..height).flat_map(move |y| (0..width).map(move |x| (x, y)));
        places.zip(&self.values)
    }

    /// Turns the pixel of each of the edge's crossings, those left of the map in column 0, and leaves out what else lies outside.
    pub fn cross(&mut self, edge: &Edge, counts: &mut Counts) {
        let (width, height) = self.size;
        for row in 0..height {
            if let Some(crossing) = crossings::crossing(edge, row) {
                let column = crossing.column.max(0);
                if column < width {
                    let value = &mut self.values[(row * width + column) as usize];
                    *value = !*value;
                }
                counts.crossings += 1;
                counts.left_of_the_map += u64::from(crossing.column < 0);
                counts.ties += u64::from(crossing.is_tie);
            }
        }
    }

    /// What lies inside: pixels with an odd number of ones in their row, at their column or left of it.
    pub fn inside(&self) -> Map {
        let turned = |inside: &mut bool, is_one: &bool| {
            *inside ^= *is_one;
            Some(*inside)
        };
        let rows = self.values.chunks(self.size.0 as usize);
        Map {
            size: self.size,
            values: rows
                .flat_map(|row| row.iter().scan(false, turned))
                .collect(),
        }
    }
}
