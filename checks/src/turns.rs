//! Document 01, "Turns".

use crate::mosaic::{self, layout_of, red_parities};

#[derive(Clone, Debug, PartialEq)]
pub struct Frame {
    pub width: usize,
    pub height: usize,
    pub layout: u32,
    pub samples: Vec<u16>,
}

impl Frame {
    fn at(&self, row: usize, column: usize) -> u16 {
        self.samples[row * self.width + column]
    }

    /// A frame whose row i, column j holds `held(i, j)`.
    fn filled(width: usize, height: usize, layout: u32, held: impl Fn(usize, usize) -> u16) -> Frame {
        let mut samples = Vec::new();
        for i in 0..height {
            for j in 0..width {
                samples.push(held(i, j));
            }
        }
        Frame { width, height, layout, samples }
    }

    fn exchanged(&self) -> Frame {
        let layout = match self.layout {
            1 => 2,
            2 => 1,
            5 => 6,
            6 => 5,
            other => other,
        };
        Frame::filled(self.height, self.width, layout, |i, j| self.at(j, i))
    }

    fn mirrored_left_right(&self) -> Frame {
        let (row, column) = red_parities(self.layout);
        let column = if self.width % 2 == 0 { 1 - column } else { column };
        Frame::filled(self.width, self.height, layout_of((row, column), self.layout), |i, j| {
            self.at(i, self.width - 1 - j)
        })
    }

    fn mirrored_top_bottom(&self) -> Frame {
        let (row, column) = red_parities(self.layout);
        let row = if self.height % 2 == 0 { 1 - row } else { row };
        Frame::filled(self.width, self.height, layout_of((row, column), self.layout), |i, j| {
            self.at(self.height - 1 - i, j)
        })
    }

    pub fn turned(&self, turn: u32) -> Frame {
        let first = if turn >= 4 { self.exchanged() } else { self.clone() };
        match turn % 4 {
            0 => first,
            1 => first.mirrored_left_right(),
            2 => first.mirrored_top_bottom(),
            _ => first.mirrored_left_right().mirrored_top_bottom(),
        }
    }
}

/// Question 16.
fn ask_turn(turn: u32) -> Result<(), u32> {
    if turn > 7 {
        Err(16)
    } else {
        Ok(())
    }
}

/// Question 16 of both turns; then the one turn that does what the two do, found by trying each on a frame that no turn
/// leaves as it is.
pub fn then_another(first: u32, second: u32) -> Result<u32, u32> {
    ask_turn(first)?;
    ask_turn(second)?;
    let frame = Frame { width: 3, height: 2, layout: 0, samples: (0..6).collect() };
    let both = frame.turned(first).turned(second);
    Ok((0..8).find(|&t| frame.turned(t) == both).unwrap())
}

/// Questions 16, 1, 2 and 3.
fn ask_shape(turn: u32, width: usize, height: usize, layout: u32) -> Result<(), u32> {
    ask_turn(turn)?;
    mosaic::shape_refusal(width, height, layout).map_or(Ok(()), Err)
}

/// The turned width, height and layout.
pub fn turned_shape(turn: u32, width: usize, height: usize, layout: u32) -> Result<(usize, usize, u32), u32> {
    ask_shape(turn, width, height, layout)?;
    let frame = Frame { width, height, layout, samples: vec![0; width * height] }.turned(turn);
    Ok((frame.width, frame.height, frame.layout))
}

/// The turning call: the shape's questions, then 6 of the samples and 7 of the second buffer.
pub fn turn_samples(
    turn: u32,
    width: usize,
    height: usize,
    layout: u32,
    samples: &[u16],
    out: &mut [u16],
) -> Result<(usize, usize, u32), u32> {
    ask_shape(turn, width, height, layout)?;
    if samples.len() != width * height {
        return Err(6);
    }
    if out.len() != width * height {
        return Err(7);
    }
    let frame = Frame { width, height, layout, samples: samples.to_vec() }.turned(turn);
    out.copy_from_slice(&frame.samples);
    Ok((frame.width, frame.height, frame.layout))
}

/// A turning call of demand 3's list: the turn, and how long the second buffer is.
pub type Turning = (u32, usize);

/// What stands after a list of turning calls, and the turns of the accepted ones. Each call is given what the last accepted
/// one before it left; a refused one changes nothing.
pub fn after_list(frame: &Frame, list: &[Turning]) -> (Frame, Vec<u32>) {
    let mut now = frame.clone();
    let mut accepted = Vec::new();
    for &(turn, length) in list {
        let mut second = vec![0; length];
        let answer = turn_samples(turn, now.width, now.height, now.layout, &now.samples, &mut second);
        if let Ok((width, height, layout)) = answer {
            now = Frame { width, height, layout, samples: second };
            accepted.push(turn);
        }
    }
    (now, accepted)
}

#[cfg(test)]
mod tests {
    use super::*;

    #[test]
    fn one_then_four_is_six() {
        assert_eq!(then_another(1, 4), Ok(6));
    }

    #[test]
    fn refused_in_order() {
        assert_eq!(then_another(8, 0), Err(16));
        assert_eq!(then_another(0, 256), Err(16));
        let shapes = [(256, 0, 0, 256, 16), (7, 0, 0, 256, 1), (7, 2, 0, 256, 2), (7, 2, 2, 256, 3)];
        for (turn, width, height, layout, number) in shapes {
            assert_eq!(turned_shape(turn, width, height, layout), Err(number));
            assert_eq!(turn_samples(turn, width, height, layout, &[0; 3], &mut [0; 3]), Err(number));
        }
        assert_eq!(turn_samples(7, 2, 2, 3, &[0; 3], &mut [0; 3]), Err(6));
        assert_eq!(turn_samples(7, 2, 2, 3, &[0; 4], &mut [0; 3]), Err(7));
        assert_eq!(turn_samples(7, 2, 2, 3, &[0; 4], &mut [0; 4]), Ok((2, 2, 0)));
        assert_eq!(turn_samples(7, 2, 2, 7, &[0; 4], &mut [0; 4]), Ok((2, 2, 4)));
        assert_eq!(turned_shape(0, 2, 2, 8), Err(3));
    }

    #[test]
    fn refused_turning_calls_change_nothing() {
        let frame = Frame { width: 3, height: 2, layout: 1, samples: (0..6).collect() };
        let list = [(8, 6), (1, 6), (2, 5), (255, 7), (256, 6), (4, 6), (3, 7), (0, 0)];
        assert_eq!(after_list(&frame, &list), (frame.turned(6), vec![1, 4]));
        assert_eq!(after_list(&frame, &[]), (frame.clone(), vec![]));
        assert_eq!(after_list(&frame, &[(1, 4), (9, 6)]), (frame, vec![]));
    }

    /// The colour of a place, as document 01 tells it.
    fn colour(layout: u32, row: usize, column: usize) -> char {
        let (r, c) = red_parities(layout);
        match (row % 2 == r, column % 2 == c) {
            (true, true) => 'r',
            (false, false) => 'b',
            _ => 'g',
        }
    }

    #[test]
    fn a_turned_place_keeps_its_colour() {
        for (width, height) in [(2, 2), (3, 2), (2, 3), (5, 4), (7, 5)] {
            for layout in 0..8 {
                let colours = Frame::filled(width, height, layout, |i, j| colour(layout, i, j) as u16);
                for turn in 0..8 {
                    let turned = colours.turned(turn);
                    let expected = Frame::filled(turned.width, turned.height, turned.layout, |i, j| {
                        colour(turned.layout, i, j) as u16
                    });
                    assert_eq!(turned, expected, "{width} by {height}, layout {layout}, turn {turn}");
                    assert_eq!(turned.layout / 4, layout / 4, "a turn keeps the 4");
                }
            }
        }
    }
}
