//! Document 01, "First estimates".

use crate::mosaic::{in_range, shape_refusal, Colour, Mosaic};

/// Clipped to 0..4,095.
fn clipped(value: i64) -> u16 {
    value.clamp(0, 4095) as u16
}

/// Green at row i, column j: the sample there, or the method of Hamilton and Adams.
fn green(mosaic: &Mosaic, i: i64, j: i64) -> u16 {
    let c = mosaic.at(i, j);
    if mosaic.colour(i, j) == Colour::Green {
        return clipped(c);
    }
    let (left, right) = (mosaic.at(i, j - 1), mosaic.at(i, j + 1));
    let (up, down) = (mosaic.at(i - 1, j), mosaic.at(i + 1, j));
    let two_columns_away = mosaic.at(i, j - 2) + mosaic.at(i, j + 2);
    let two_rows_away = mosaic.at(i - 2, j) + mosaic.at(i + 2, j);
    let h = (left - right).abs() + (2 * c - two_columns_away).abs();
    let v = (up - down).abs() + (2 * c - two_rows_away).abs();
    let eightfold = if h < v {
        4 * (left + right) + 2 * (2 * c - two_columns_away)
    } else if v < h {
        4 * (up + down) + 2 * (2 * c - two_rows_away)
    } else {
        2 * (left + right + up + down) + 4 * c - two_columns_away - two_rows_away
    };
    clipped((eightfold + 4).div_euclid(8))
}

/// Red or blue at row i, column j: the sample there, or bilinear from the neighbours of that colour.
fn bilinear(mosaic: &Mosaic, colour: Colour, i: i64, j: i64) -> u16 {
    let at = |down, across| mosaic.at(i + down, j + across);
    let value = if mosaic.colour(i, j) == colour {
        at(0, 0)
    } else if mosaic.colour(i, j + 1) == colour {
        (at(0, -1) + at(0, 1) + 1).div_euclid(2)
    } else if mosaic.colour(i + 1, j) == colour {
        (at(-1, 0) + at(1, 0) + 1).div_euclid(2)
    } else {
        (at(-1, -1) + at(-1, 1) + at(1, -1) + at(1, 1) + 2).div_euclid(4)
    };
    clipped(value)
}

/// The first estimates: questions 1, 2, 3, 6 of the mosaic, 7 of the planes and 9; then it fills red, green and blue.
pub fn estimate(
    width: usize,
    height: usize,
    layout: u32,
    mosaic: &[u16],
    planes: [&mut [u16]; 3],
) -> Result<(), u32> {
    if let Some(number) = shape_refusal(width, height, layout) {
        return Err(number);
    }
    if mosaic.len() != width * height {
        return Err(6);
    }
    if planes.iter().any(|plane| plane.len() != width * height) {
        return Err(7);
    }
    if !in_range(mosaic) {
        return Err(9);
    }
    let mosaic = Mosaic { width, height, layout, samples: mosaic };
    for k in 0..width * height {
        let (i, j) = ((k / width) as i64, (k % width) as i64);
        planes[0][k] = bilinear(&mosaic, Colour::Red, i, j);
        planes[1][k] = green(&mosaic, i, j);
        planes[2][k] = bilinear(&mosaic, Colour::Blue, i, j);
    }
    Ok(())
}

/// Red, green and blue of a mosaic that the call accepts.
pub fn estimates_of(width: usize, height: usize, layout: u32, mosaic: &[u16]) -> [Vec<u16>; 3] {
    let mut planes = [(); 3].map(|_| vec![7; width * height]);
    estimate(width, height, layout, mosaic, planes.each_mut().map(|plane| &mut plane[..])).unwrap();
    planes
}

#[cfg(test)]
mod tests {
    use super::*;
    use crate::chance::Chance;
    use crate::turns::Frame;

    fn estimate_of(frame: &Frame) -> [Vec<u16>; 3] {
        estimates_of(frame.width, frame.height, frame.layout, &frame.samples)
    }

    #[test]
    fn cases_h_i_and_j() {
        for (by_columns, due) in [(100, 50), (60, 60), (90, 58)] {
            let mut samples = vec![0; 25];
            samples[2 * 5..][..5].copy_from_slice(&[by_columns, 40, 100, 60, by_columns]);
            for (row, value) in [(0, 80), (1, 50), (3, 50), (4, 80)] {
                samples[row * 5 + 2] = value;
            }
            for layout in [0, 3, 4, 7] {
                let frame = Frame { width: 5, height: 5, layout, samples: samples.clone() };
                let [_, green, _] = estimate_of(&frame);
                assert_eq!(green[12], due, "layout {layout}");
            }
        }
    }

    #[test]
    fn three_by_three_by_hand() {
        let samples = vec![7, 20, 1, 3, 9, 8, 4, 6, 100];
        let [red, green, blue] = estimate_of(&Frame { width: 3, height: 3, layout: 0, samples });
        assert_eq!(red, [7, 4, 1, 6, 28, 51, 4, 52, 100]);
        assert_eq!(green, [5, 20, 17, 3, 6, 8, 2, 6, 54]);
        assert_eq!(blue, [9; 9]);
    }

    /// Before it is divided and clipped, green at the first place is 49,140 in the one and −16,380 in the other.
    #[test]
    fn clipped_at_both_ends() {
        for (middle, away, due) in [(4095, 0, 4095), (0, 4095, 0)] {
            let samples = vec![middle, middle, away, middle, 9, 9, away, 9, 9];
            let [_, green, _] = estimate_of(&Frame { width: 3, height: 3, layout: 0, samples });
            assert_eq!(green[0], due);
        }
    }

    /// The estimates of a turned mosaic are the estimates turned.
    #[test]
    fn turned() {
        let chance = &mut Chance(0x9e37_79b9_7f4a_7c15);
        for (width, height) in [(2, 2), (3, 2), (2, 5), (5, 4), (7, 7)] {
            for layout in 0..8 {
                let frame = Frame { width, height, layout, samples: chance.samples(width * height) };
                for turn in 0..8 {
                    let turned_after = estimate_of(&frame)
                        .map(|samples| Frame { samples, ..frame.clone() }.turned(turn).samples);
                    assert_eq!(estimate_of(&frame.turned(turn)), turned_after, "turn {turn} of {frame:?}");
                }
            }
        }
    }
}
