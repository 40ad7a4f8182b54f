//! Document 01, "Frame, layout, border", and the layouts with two levels of Req 01.

use crate::border::reflect;

/// A layout of 4 to 7 means that layout less 4, with two levels.
pub fn has_two_levels(layout: u32) -> bool {
    layout >= 4
}

/// Red's parities in a layout: of its rows, and of its columns.
pub fn red_parities(layout: u32) -> (usize, usize) {
    match layout {
        0 => (0, 0),
        1 => (0, 1),
        2 => (1, 0),
        3 => (1, 1),
        4..=7 => red_parities(layout - 4),
        _ => panic!("no layout {layout}"),
    }
}

/// The layout with red at these parities and as many levels as another.
pub fn layout_of(red: (usize, usize), like: u32) -> u32 {
    (0..8).find(|&l| red_parities(l) == red && has_two_levels(l) == has_two_levels(like)).unwrap()
}

#[derive(Clone, Copy, Debug, PartialEq)]
pub enum Colour {
    Red,
    Green,
    Blue,
}

/// Samples row by row, each of the colour that the layout gives its place.
pub struct Mosaic<'a> {
    pub width: usize,
    pub height: usize,
    pub layout: u32,
    pub samples: &'a [u16],
}

impl Mosaic<'_> {
    /// What row i, column j holds, reflected where it lies outside.
    pub fn at(&self, i: i64, j: i64) -> i64 {
        i64::from(self.samples[reflect(self.height, i) * self.width + reflect(self.width, j)])
    }

    /// The colour of row i, column j. Reflection keeps parity, so this holds outside too.
    pub fn colour(&self, i: i64, j: i64) -> Colour {
        let (red_row, red_column) = red_parities(self.layout);
        match (i.rem_euclid(2) == red_row as i64, j.rem_euclid(2) == red_column as i64) {
            (true, true) => Colour::Red,
            (false, false) => Colour::Blue,
            _ => Colour::Green,
        }
    }
}

/// Questions 1 and 2.
pub fn size_refusal(width: usize, height: usize) -> Option<u32> {
    if !(2..=2048).contains(&width) {
        Some(1)
    } else if !(2..=2048).contains(&height) {
        Some(2)
    } else {
        None
    }
}

/// Questions 1, 2 and 3.
pub fn shape_refusal(width: usize, height: usize, layout: u32) -> Option<u32> {
    size_refusal(width, height).or((layout > 7).then_some(3))
}

/// Whether each value is at most 4,095, for questions 9 and 10.
pub fn in_range(samples: &[u16]) -> bool {
    samples.iter().all(|&sample| sample <= 4095)
}

#[cfg(test)]
mod tests {
    use super::*;

    /// The colours of two rows and two columns, in each layout: 4 more changes none.
    #[test]
    fn colours() {
        use Colour::{Blue, Green, Red};
        let due = [
            [Red, Green, Green, Blue],
            [Green, Red, Blue, Green],
            [Green, Blue, Red, Green],
            [Blue, Green, Green, Red],
        ];
        for (layout, due) in (0..8).zip(due.into_iter().cycle()) {
            let mosaic = Mosaic { width: 2, height: 2, layout, samples: &[0; 4] };
            for far in [-4, -2, 0, 2] {
                let found = [(0, 0), (0, 1), (1, 0), (1, 1)].map(|(i, j)| mosaic.colour(far + i, far + j));
                assert_eq!(found, due, "layout {layout}");
            }
        }
    }
}
