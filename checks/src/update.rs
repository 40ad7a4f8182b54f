//! Document 01, "Green update".

use crate::bank;
use crate::mosaic::{in_range, shape_refusal, Colour, Mosaic};

/// The rows and the columns of a colour's places.
fn rows_and_columns(mosaic: &Mosaic, colour: Colour) -> (Vec<usize>, Vec<usize>) {
    let has = |i: usize, j: usize| mosaic.colour(i as i64, j as i64) == colour;
    let rows = (0..mosaic.height).filter(|&i| has(i, 0) || has(i, 1)).collect();
    let columns = (0..mosaic.width).filter(|&j| has(0, j) || has(1, j)).collect();
    (rows, columns)
}

/// The sums of band 1 of the small plane of green with bands 2 to 4 of the small plane of the colour.
fn joined(width: usize, height: usize, green: &[i32], coloured: &[i32]) -> Vec<i32> {
    let [green1, ..] = bank::bands_of(width, height, green);
    let [_, coloured2, coloured3, coloured4] = bank::bands_of(width, height, coloured);
    bank::sums_of(width, height, [&green1, &coloured2, &coloured3, &coloured4])
}

/// Puts the update into green at the places of red or of blue, from the first green.
fn update_at(mosaic: &Mosaic, colour: Colour, first: &[u16], green: &mut [u16]) {
    let (rows, columns) = rows_and_columns(mosaic, colour);
    let mut places = Vec::new();
    for i in &rows {
        for j in &columns {
            places.push(i * mosaic.width + j);
        }
    }
    let small = |plane: &[u16]| -> Vec<i32> { places.iter().map(|&place| plane[place].into()).collect() };
    let sums = joined(columns.len(), rows.len(), &small(first), &small(mosaic.samples));
    for (&place, &sum) in places.iter().zip(&sums) {
        green[place] = bank::bring_back(sum);
    }
}

/// The green update: questions 1, 2, 3, 6 of the mosaic and of green, 8, 9 and 10; then it rewrites green at the places of
/// blue and of red, and zeroes the first 8·w·h of the work buffer.
pub fn update(
    width: usize,
    height: usize,
    layout: u32,
    mosaic: &[u16],
    green: &mut [u16],
    work: &mut [i32],
) -> Result<(), u32> {
    if let Some(number) = shape_refusal(width, height, layout) {
        return Err(number);
    }
    let count = width * height;
    if mosaic.len() != count || green.len() != count {
        return Err(6);
    }
    if work.len() < 8 * count {
        return Err(8);
    }
    if !in_range(mosaic) {
        return Err(9);
    }
    if !in_range(green) {
        return Err(10);
    }
    let mosaic = Mosaic { width, height, layout, samples: mosaic };
    let first = green.to_vec();
    update_at(&mosaic, Colour::Blue, &first, green);
    update_at(&mosaic, Colour::Red, &first, green);
    work[..8 * count].fill(0);
    Ok(())
}

#[cfg(test)]
mod tests {
    use super::*;
    use crate::chance::Chance;
    use crate::low_band::mixed_sum;
    use crate::turns::Frame;

    /// Green after the update.
    fn update_of(frame: &Frame, green: &[u16]) -> Vec<u16> {
        let mut green = green.to_vec();
        let mut work = vec![7; 8 * green.len() + 1];
        update(frame.width, frame.height, frame.layout, &frame.samples, &mut green, &mut work).unwrap();
        assert!(work.iter().rev().eq([7].iter().chain(&vec![0; 8 * green.len()])));
        green
    }

    /// One value has no detail: bands 2 to 4 are 0, and band 1 of green gives green back.
    #[test]
    fn two_by_two() {
        for layout in 0..8 {
            let frame = Frame { width: 2, height: 2, layout, samples: vec![4095, 0, 17, 4095] };
            assert_eq!(update_of(&frame, &[1, 2, 3, 4]), [1, 2, 3, 4]);
        }
    }

    /// Case d as the row of blue: without band 1, which joins to 4,096 everywhere, the join gives −4096 4096 −4096.
    /// Band 1 of a green of 100 joins to 102,400 everywhere. Red is 60 everywhere and has no detail.
    #[test]
    fn the_detail_of_case_d() {
        let samples = vec![1, 0, 1, 8, 1, 0, 60, 1, 60, 1, 60, 1];
        let frame = Frame { width: 6, height: 2, layout: 2, samples };
        let green = [5, 100, 6, 100, 7, 100, 50, 8, 50, 9, 50, 10];
        assert_eq!(update_of(&frame, &green), [5, 96, 6, 104, 7, 96, 50, 8, 50, 9, 50, 10]);
        let low_green = green.map(|value| if value == 100 { 3 } else { value });
        assert_eq!(update_of(&frame, &low_green), [5, 0, 6, 7, 7, 0, 50, 8, 50, 9, 50, 10]);
        let high_green = green.map(|value| if value == 100 { 4092 } else { value });
        assert_eq!(update_of(&frame, &high_green), [5, 4088, 6, 4095, 7, 4088, 50, 8, 50, 9, 50, 10]);
    }

    #[test]
    fn by_the_low_band_of_the_difference() {
        let chance = &mut Chance(0x0123_4567_89ab_cdef);
        for width in 1..=9 {
            for height in 1..=9 {
                let [green, coloured] = [(); 2].map(|_| chance.samples(width * height));
                let signed =
                    |plane: &[u16]| -> Vec<i32> { plane.iter().map(|&sample| sample.into()).collect() };
                let sums = joined(width, height, &signed(&green), &signed(&coloured));
                for (k, &sum) in sums.iter().enumerate() {
                    let due = mixed_sum(false, width, height, k, &green, &coloured);
                    assert_eq!(i64::from(sum), due, "{width} by {height}, place {k}");
                }
            }
        }
    }

    /// The green update stays one-level: 4 more changes nothing.
    #[test]
    fn at_one_level_always() {
        let chance = &mut Chance(0x2545_f491_4f6c_dd1d);
        for layout in 0..4 {
            let frame = Frame { width: 9, height: 8, layout, samples: chance.samples(72) };
            let green = chance.samples(72);
            let two_levels = Frame { layout: layout + 4, ..frame.clone() };
            assert_eq!(update_of(&two_levels, &green), update_of(&frame, &green), "layout {layout}");
        }
    }

    /// The update of a turned mosaic and green is the update turned.
    #[test]
    fn turned() {
        let chance = &mut Chance(0x9e37_79b9_7f4a_7c15);
        for (width, height) in [(2, 2), (3, 2), (2, 5), (5, 4), (7, 7), (9, 12)] {
            for layout in 0..8 {
                let frame = Frame { width, height, layout, samples: chance.samples(width * height) };
                let green = Frame { samples: chance.samples(width * height), ..frame.clone() };
                let updated = Frame { samples: update_of(&frame, &green.samples), ..frame.clone() };
                for turn in 0..8 {
                    let found = update_of(&frame.turned(turn), &green.turned(turn).samples);
                    assert_eq!(found, updated.turned(turn).samples, "turn {turn} of {frame:?}");
                }
            }
        }
    }
}
