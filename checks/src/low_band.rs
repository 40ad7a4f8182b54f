//! Band 1 split and joined alone, by another route than the bank's: at one level, and band 1 of band 1 at two.

use crate::border::reflect;

/// Low split and low join together, centred.
const TAPS: [i64; 7] = [-1, 0, 9, 16, 9, 0, -1];

/// The taps of one level, or those of two together: the second's are spread to every second place.
fn taps(two_levels: bool) -> Vec<i64> {
    if !two_levels {
        return TAPS.to_vec();
    }
    let mut taps = vec![0; 19];
    for (k, second) in TAPS.iter().enumerate() {
        for (place, first) in taps[2 * k..].iter_mut().zip(TAPS) {
            *place += second * first;
        }
    }
    taps
}

/// How many times the paper's a sum is.
pub fn times(two_levels: bool) -> i64 {
    if two_levels {
        1_048_576
    } else {
        1024
    }
}

/// The weights that a plane's values have in the sum at row i, column j, if band 1 alone is joined.
pub fn weights(two_levels: bool, width: usize, height: usize, i: usize, j: usize) -> Vec<i64> {
    let taps = taps(two_levels);
    let reach = taps.len() as i64 / 2;
    let mut weights = vec![0; width * height];
    for (row, down) in (i as i64 - reach..).zip(&taps) {
        for (column, across) in (j as i64 - reach..).zip(&taps) {
            weights[reflect(height, row) * width + reflect(width, column)] += down * across;
        }
    }
    weights
}

/// The sum at place k of band 1 of one plane and the details of another. All bands of the other alone join to so many times
/// it; so what is left is band 1 of the difference.
pub fn mixed_sum(
    two_levels: bool,
    width: usize,
    height: usize,
    k: usize,
    low: &[impl Copy + Into<i64>],
    detail: &[u16],
) -> i64 {
    let weights = weights(two_levels, width, height, k / width, k % width);
    let differences = low.iter().zip(detail).map(|(&low, &detail)| low.into() - i64::from(detail));
    let of_the_low = weights.iter().zip(differences).map(|(weight, value)| weight * value).sum::<i64>();
    times(two_levels) * i64::from(detail[k]) + of_the_low
}

/// A colour and green at the ends of a sample's range, so that with T = 0 every value moves the sum at this place towards this
/// end as far as can be. The weights of green's values are those of the colour's with the other sign, and as many more at the
/// place itself as the sum is times the paper's.
pub fn towards(two_levels: bool, width: usize, height: usize, place: usize, end: u16) -> [Vec<u16>; 2] {
    let weights = weights(two_levels, width, height, place / width, place % width);
    let of_sign = |weight: i64| if weight < 0 { 4095 - end } else { end };
    let coloured = weights.iter().map(|&weight| of_sign(weight)).collect();
    let mut green: Vec<u16> = weights.iter().map(|&weight| of_sign(-weight)).collect();
    green[place] = of_sign(times(two_levels) - weights[place]);
    [coloured, green]
}

/// Every place of small square planes with each end of a sample's range: what is asserted of the largest sums there.
pub fn at_every_place(assert_clipped: impl Fn(usize, usize, usize, u16)) {
    for side in 2..=9 {
        for (i, j) in (0..side * side).map(|k| (k / side, k % side)) {
            assert_clipped(side, i, j, 4095);
            assert_clipped(side, i, j, 0);
        }
    }
}
