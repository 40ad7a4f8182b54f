//! Document 01, "Filter bank". The taps stand next to each other there; the second level of Req 01 has them further apart.

use crate::border::reflect;
use std::array;

/// The filters' taps in scaled whole numbers, each filter centred.
const LOW_SPLIT: [i64; 3] = [1, 2, 1];
const HIGH_SPLIT: [i64; 3] = [1, -2, 1];
const LOW_JOIN: [i64; 5] = [-1, 2, 6, 2, -1];
const HIGH_JOIN: [i64; 5] = [1, 2, -6, 2, 1];

/// A value to split lies within ± this, a value to join within ± 16 times this.
pub const SPLIT_LIMIT: i32 = 8_190;
pub const JOIN_LIMIT: i32 = 131_040;

/// A plane or a band, row by row. Numbers of 64 bits: nothing overflows.
pub struct Plane {
    width: usize,
    height: usize,
    pub values: Vec<i64>,
}

impl Plane {
    pub fn given<T: Copy + Into<i64>>(width: usize, height: usize, values: &[T]) -> Plane {
        Plane { width, height, values: values.iter().map(|&value| value.into()).collect() }
    }

    /// The taps run along each row, so many places apart.
    fn along_rows<const N: usize>(&self, spacing: i64, taps: &[i64; N]) -> Plane {
        let columns: Vec<[usize; N]> = (0..self.width).map(|j| under_taps(self.width, j, spacing)).collect();
        let mut values = Vec::with_capacity(self.values.len());
        for row in self.values.chunks(self.width) {
            values.extend(columns.iter().map(|columns| weighted(taps, |k| row[columns[k]])));
        }
        Plane { values, ..*self }
    }

    /// The taps run along each column, so many places apart.
    fn along_columns<const N: usize>(&self, spacing: i64, taps: &[i64; N]) -> Plane {
        let mut values = Vec::with_capacity(self.values.len());
        for i in 0..self.height {
            let rows: [&[i64]; N] =
                under_taps(self.height, i, spacing).map(|row| &self.values[row * self.width..][..self.width]);
            values.extend((0..self.width).map(|j| weighted(taps, |k| rows[k][j])));
        }
        Plane { values, ..*self }
    }

    /// What `of` makes of this plane and another, place by place.
    pub fn with(&self, other: &Plane, of: impl Fn(i64, i64) -> i64) -> Plane {
        let values = self.values.iter().zip(&other.values).map(|(&own, &other)| of(own, other)).collect();
        Plane { values, ..*self }
    }

    fn plus(&self, other: &Plane) -> Plane {
        self.with(other, |own, other| own + other)
    }

    /// Taken so many times.
    pub fn times(&self, times: i64) -> Plane {
        Plane { values: self.values.iter().map(|value| times * value).collect(), ..*self }
    }

    /// The four bands, with taps so many places apart.
    pub fn split(&self, spacing: i64) -> [Plane; 4] {
        let low = self.along_rows(spacing, &LOW_SPLIT);
        let high = self.along_rows(spacing, &HIGH_SPLIT);
        [
            low.along_columns(spacing, &LOW_SPLIT),
            high.along_columns(spacing, &LOW_SPLIT),
            low.along_columns(spacing, &HIGH_SPLIT),
            high.along_columns(spacing, &HIGH_SPLIT),
        ]
    }

    /// The sums of four bands, with taps so many places apart.
    pub fn join(spacing: i64, bands: [Plane; 4]) -> Plane {
        let [band1, band2, band3, band4] = bands;
        let joined1 = band1.along_rows(spacing, &LOW_JOIN).along_columns(spacing, &LOW_JOIN);
        let joined2 = band2.along_rows(spacing, &HIGH_JOIN).along_columns(spacing, &LOW_JOIN);
        let joined3 = band3.along_rows(spacing, &LOW_JOIN).along_columns(spacing, &HIGH_JOIN);
        let joined4 = band4.along_rows(spacing, &HIGH_JOIN).along_columns(spacing, &HIGH_JOIN);
        joined1.plus(&joined2).plus(&joined3).plus(&joined4)
    }

    fn copied_to(&self, buffer: &mut [i32]) {
        for (place, &value) in buffer.iter_mut().zip(&self.values) {
            *place = i32::try_from(value).unwrap();
        }
    }
}

/// The places under a filter's taps, so many places apart and centred at place i of a line of n: reflected where they lie
/// outside.
fn under_taps<const N: usize>(n: usize, i: usize, spacing: i64) -> [usize; N] {
    array::from_fn(|k| reflect(n, i as i64 + spacing * (k as i64 - N as i64 / 2)))
}

/// The sum of tap times value, where `value(k)` is the one under tap k.
fn weighted<const N: usize>(taps: &[i64; N], value: impl Fn(usize) -> i64) -> i64 {
    (0..N).map(|k| taps[k] * value(k)).sum()
}

/// Questions 1 and 2, from 1 for the bank alone.
fn size_refusal(width: usize, height: usize) -> Option<u32> {
    if !(1..=2048).contains(&width) {
        Some(1)
    } else if !(1..=2048).contains(&height) {
        Some(2)
    } else {
        None
    }
}

/// Whether each value lies within −limit..limit, for question 15.
fn in_range(values: &[i32], limit: i32) -> bool {
    values.iter().all(|value| (-limit..=limit).contains(value))
}

/// The split: questions 1, 2, 6 of the plane, 7 of the bands and 15; then it fills the four bands.
pub fn split(width: usize, height: usize, plane: &[i32], bands: [&mut [i32]; 4]) -> Result<(), u32> {
    if let Some(number) = size_refusal(width, height) {
        return Err(number);
    }
    if plane.len() != width * height {
        return Err(6);
    }
    if bands.iter().any(|band| band.len() != width * height) {
        return Err(7);
    }
    if !in_range(plane, SPLIT_LIMIT) {
        return Err(15);
    }
    for (band, buffer) in Plane::given(width, height, plane).split(1).iter().zip(bands) {
        band.copied_to(buffer);
    }
    Ok(())
}

/// The join: questions 1, 2, 6 of the bands, 7 of the sums and 15; then it fills the sums.
pub fn join(width: usize, height: usize, bands: [&[i32]; 4], sums: &mut [i32]) -> Result<(), u32> {
    if let Some(number) = size_refusal(width, height) {
        return Err(number);
    }
    if bands.iter().any(|band| band.len() != width * height) {
        return Err(6);
    }
    if sums.len() != width * height {
        return Err(7);
    }
    if !bands.iter().all(|band| in_range(band, JOIN_LIMIT)) {
        return Err(15);
    }
    Plane::join(1, bands.map(|band| Plane::given(width, height, band))).copied_to(sums);
    Ok(())
}

/// The four bands of a plane that the split accepts.
pub fn bands_of(width: usize, height: usize, plane: &[i32]) -> [Vec<i32>; 4] {
    let mut bands = [(); 4].map(|_| vec![0; width * height]);
    split(width, height, plane, bands.each_mut().map(|band| &mut band[..])).unwrap();
    bands
}

/// The sums of four bands that the join accepts.
pub fn sums_of(width: usize, height: usize, bands: [&[i32]; 4]) -> Vec<i32> {
    let mut sums = vec![0; width * height];
    join(width, height, bands, &mut sums).unwrap();
    sums
}

/// A sum that is so many times the paper's: half of that many added, whole-divided. Not yet clipped.
pub fn whole_divided(sum: i64, times: i64) -> i64 {
    (sum + times / 2).div_euclid(times)
}

/// A sum brought back to a sample.
pub fn bring_back(sum: i32) -> u16 {
    whole_divided(sum.into(), 1024).clamp(0, 4095) as u16
}

#[cfg(test)]
mod tests {
    use super::*;
    use crate::chance::Chance;

    /// The four bands of a plane.
    fn split_of(width: usize, height: usize, plane: &[i32]) -> Result<[Vec<i32>; 4], u32> {
        let mut bands = [(); 4].map(|_| vec![7; width * height]);
        split(width, height, plane, bands.each_mut().map(|band| &mut band[..]))?;
        Ok(bands)
    }

    /// The sums of four bands.
    fn join_of(width: usize, height: usize, bands: &[Vec<i32>; 4]) -> Result<Vec<i32>, u32> {
        let mut sums = vec![7; width * height];
        join(width, height, bands.each_ref().map(|band| &band[..]), &mut sums)?;
        Ok(sums)
    }

    #[test]
    fn case_d() {
        let bands = [vec![64, 64, 64], vec![64, -64, 64], vec![0; 3], vec![0; 3]];
        assert_eq!(split_of(3, 1, &[0, 8, 0]), Ok(bands.clone()));
        assert_eq!(join_of(3, 1, &bands), Ok(vec![0, 8192, 0]));
    }

    #[test]
    fn case_d_as_one_column() {
        let bands = [vec![64, 64, 64], vec![0; 3], vec![64, -64, 64], vec![0; 3]];
        assert_eq!(split_of(1, 3, &[0, 8, 0]), Ok(bands.clone()));
        assert_eq!(join_of(1, 3, &bands), Ok(vec![0, 8192, 0]));
    }

    /// Case d with a zero between its values, and taps two places apart: a reflected index keeps its parity, so that the
    /// even places are case d's and the odd ones stay zero.
    #[test]
    fn case_d_at_every_second_place() {
        let split = |width, height| Plane::given(width, height, &[0, 0, 8, 0, 0]).split(2);
        let due = [[64, 0, 64, 0, 64], [64, 0, -64, 0, 64], [0; 5], [0; 5]];
        assert_eq!(split(5, 1).map(|band| band.values), due);
        assert_eq!(split(1, 5).map(|band| band.values), [due[0], due[2], due[1], due[3]]);
        for (width, height) in [(5, 1), (1, 5)] {
            assert_eq!(Plane::join(2, split(width, height)).values, [0, 0, 8192, 0, 0]);
        }
    }

    #[test]
    fn joining_what_was_split_is_1024_times_the_plane() {
        let chance = &mut Chance(0x9e37_79b9_7f4a_7c15);
        for (width, height) in (1..=9).flat_map(|width| (1..=9).map(move |height| (width, height))) {
            let values: Vec<i32> = (0..width * height).map(|_| chance.within(131_070)).collect();
            let plane = Plane::given(width, height, &values);
            let due = plane.times(1024).values;
            for spacing in 1..=4 {
                let sums = Plane::join(spacing, plane.split(spacing));
                assert_eq!(sums.values, due, "{width} by {height}, taps {spacing} apart");
            }
        }
    }

    #[test]
    fn one_by_one() {
        assert_eq!(split_of(1, 1, &[-3]), Ok([vec![-48], vec![0], vec![0], vec![0]]));
        // the low taps add up to 8, the high ones to 0
        assert_eq!(join_of(1, 1, &[vec![-48], vec![5], vec![6], vec![7]]), Ok(vec![64 * -48]));
    }

    /// A spike in the middle of 7 by 7 shows the taps themselves: no reflection reaches it.
    #[test]
    fn a_spike_far_from_the_border() {
        let mut spike = vec![0; 49];
        spike[24] = 1;
        let bands = split_of(7, 7, &spike).unwrap();
        let rows_2_and_3 = bands.map(|band| band[14..28].to_vec());
        assert_eq!(rows_2_and_3[0], [0, 0, 1, 2, 1, 0, 0, 0, 0, 2, 4, 2, 0, 0]);
        assert_eq!(rows_2_and_3[1], [0, 0, 1, -2, 1, 0, 0, 0, 0, 2, -4, 2, 0, 0]);
        assert_eq!(rows_2_and_3[2], [0, 0, 1, 2, 1, 0, 0, 0, 0, -2, -4, -2, 0, 0]);
        assert_eq!(rows_2_and_3[3], [0, 0, 1, -2, 1, 0, 0, 0, 0, -2, 4, -2, 0, 0]);
        let rows_1_and_2 = [
            [0, 1, -2, -6, -2, 1, 0, 0, -2, 4, 12, 4, -2, 0],
            [0, -1, -2, 6, -2, -1, 0, 0, 2, 4, -12, 4, 2, 0],
            [0, -1, 2, 6, 2, -1, 0, 0, -2, 4, 12, 4, -2, 0],
            [0, 1, 2, -6, 2, 1, 0, 0, 2, 4, -12, 4, 2, 0],
        ];
        for (k, rows) in rows_1_and_2.iter().enumerate() {
            let mut bands = [(); 4].map(|_| vec![0; 49]);
            bands[k] = spike.clone();
            assert_eq!(join_of(7, 7, &bands).unwrap()[7..21], rows[..], "band {}", k + 1);
        }
    }

    #[test]
    fn brought_back() {
        assert_eq!([512, 511, -512, -513].map(|sum| whole_divided(sum, 1024)), [1, 0, 0, -1]);
        let sums = [524_288, 524_287, -524_288, -524_289, 1_572_864, -1_572_865];
        assert_eq!(sums.map(|sum| whole_divided(sum, 1_048_576)), [1, 0, 0, -1, 2, -2]);
        assert_eq!([512, 511, -512, -513, i32::MIN].map(bring_back), [1, 0, 0, 0, 0]);
        let most = 4095 * 1024;
        assert_eq!([most - 513, most - 512, most + 512, i32::MAX].map(bring_back), [4094, 4095, 4095, 4095]);
    }

    #[test]
    fn values_at_their_limits() {
        for (value, answer) in [(8190, 0), (-8190, 0), (8191, 15), (-8191, 15), (i32::MIN, 15)] {
            assert_eq!(split_of(2, 1, &[0, value]).err().unwrap_or(0), answer, "{value}");
        }
        for (value, answer) in [(131_040, 0), (-131_040, 0), (131_041, 15), (-131_041, 15), (i32::MIN, 15)] {
            let bands = [vec![0], vec![0], vec![0], vec![value]];
            assert_eq!(join_of(1, 1, &bands).err().unwrap_or(0), answer, "{value}");
        }
    }
}
