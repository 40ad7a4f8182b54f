//! Document 01, "Rounds", without the observed samples, and Req 01: a plane projected on green, at one level of the filter
//! bank and at two.

use crate::bank::{whole_divided, Plane};

/// The bands of green, which each round of either colour is held to.
pub struct Green {
    width: usize,
    height: usize,
    first: [Plane; 4],
    /// Those of its band 1, split again with the taps spread to every second place. Without them there is one level.
    second: Option<[Plane; 4]>,
}

/// A detail, held within green's ± limit.
fn held(value: i64, green: i64, limit: i64) -> i64 {
    value.clamp(green - limit, green + limit)
}

/// Bands of which the details, bands 2, 3 and 4, are held within green's ± limit.
fn details_held(bands: [Plane; 4], green: &[Plane; 4], limit: i64) -> [Plane; 4] {
    let [band1, band2, band3, band4] = bands;
    let held = |band: Plane, green: &Plane| band.with(green, |value, green| held(value, green, limit));
    [band1, held(band2, &green[1]), held(band3, &green[2]), held(band4, &green[3])]
}

/// The joined sums at one level, 1,024 times the paper's.
fn one_level_sums(own: &Plane, green: &[Plane; 4], limit: i64) -> Plane {
    Plane::join(1, details_held(own.split(1), green, limit))
}

/// The joined sums at two levels, 1,048,576 times the paper's: band 1 is split again, held and joined, with the taps spread
/// to every second place; the first level's details are taken 1,024 times.
fn two_level_sums(own: &Plane, green: [&[Plane; 4]; 2], limits: [i64; 2]) -> Plane {
    let [band1, band2, band3, band4] = details_held(own.split(1), green[0], limits[0]);
    let joined1 = Plane::join(2, details_held(band1.split(2), green[1], limits[1]));
    Plane::join(1, [joined1, band2.times(1024), band3.times(1024), band4.times(1024)])
}

impl Green {
    pub fn split(width: usize, height: usize, green: &[u16], two_levels: bool) -> Green {
        let first = Plane::given(width, height, green).split(1);
        let second = two_levels.then(|| first[0].split(2));
        Green { width, height, first, second }
    }

    /// A working plane, projected on green with this threshold: details are held within ± 16·T, those of the second level
    /// within ± 256·T; only the whole is brought back. Not yet clipped.
    pub fn projected(&self, plane: &[i64], threshold: u32) -> Vec<i64> {
        let own = Plane::given(self.width, self.height, plane);
        let threshold = i64::from(threshold);
        let (sums, times) = match &self.second {
            None => (one_level_sums(&own, &self.first, 16 * threshold), 1024),
            Some(second) => {
                let limits = [16 * threshold, 256 * threshold];
                (two_level_sums(&own, [&self.first, second], limits), 1_048_576)
            }
        };
        sums.values.iter().map(|&sum| whole_divided(sum, times)).collect()
    }
}

#[cfg(test)]
mod tests {
    use super::*;
    use crate::chance::Chance;

    /// More than any two details are apart.
    const NOTHING_HELD: i64 = 1 << 40;

    /// The sums at one level and at two.
    fn sums(own: &Plane, green: &Plane, limits: [i64; 2]) -> [Vec<i64>; 2] {
        let first = green.split(1);
        let second = first[0].split(2);
        [one_level_sums(own, &first, limits[0]), two_level_sums(own, [&first, &second], limits)]
            .map(|sums| sums.values)
    }

    fn random(chance: &mut Chance, width: usize, height: usize) -> Plane {
        let values: Vec<i32> = (0..width * height).map(|_| chance.within(131_070)).collect();
        Plane::given(width, height, &values)
    }

    #[test]
    fn cases_e_f_and_g() {
        assert_eq!([17, 16, -17].map(|value| held(value, 0, 16)), [16, 16, -16]);
        assert_eq!([17, 16, -17, 100].map(|value| held(value, 100, 16)), [84, 84, 84, 100]);
        assert_eq!([17, 0, -17].map(|value| held(value, 5, 0)), [5, 5, 5]);
    }

    #[test]
    fn with_nothing_held_the_plane_comes_back() {
        let chance = &mut Chance(0x9e37_79b9_7f4a_7c15);
        for (width, height) in (1..=9).flat_map(|width| (1..=9).map(move |height| (width, height))) {
            let [own, green] = [(); 2].map(|_| random(chance, width, height));
            let due = [1024, 1_048_576].map(|times| own.times(times).values);
            assert_eq!(sums(&own, &green, [NOTHING_HELD; 2]), due, "{width} by {height}");
        }
    }

    /// Up to two places wide and high, every second place is the place itself: there is no detail at the second level, and
    /// two levels give what one gives.
    #[test]
    fn two_places_have_no_second_detail() {
        let chance = &mut Chance(0x2545_f491_4f6c_dd1d);
        for (width, height) in [(1, 1), (1, 2), (2, 1), (2, 2)] {
            for limit in [0, 16, 320, 65_520] {
                let [own, green] = [(); 2].map(|_| random(chance, width, height));
                for second_limit in [0, 256, NOTHING_HELD] {
                    let [one, two] = sums(&own, &green, [limit, second_limit]);
                    let due: Vec<i64> = one.iter().map(|sum| 1024 * sum).collect();
                    assert_eq!(two, due, "{width} by {height}, {limit}, {second_limit}");
                }
            }
        }
    }

    /// A row 8 0 0 on a green of zeros. Band 1 is 64 32 0, and band 2 is −64 32 0. Band 1 split again: 512 512 512 and
    /// −512 0 512.
    ///
    /// With T = 1 these are held to −256 0 256, and join to 49,152 32,768 16,384. Band 2 is held to −16 16 0, 1,024 times
    /// that is −16,384 16,384 0. Joined: 8·(6·49,152 + 4·32,768 − 2·16,384 + 10·16,384), and so on.
    ///
    /// With T = 0 only what band 1 leaves in its own band 1 is joined, 32,768 everywhere.
    #[test]
    fn three_places_by_hand() {
        let cases = [
            ([0, 0], [2_097_152, 2_097_152, 2_097_152]),
            ([16, 256], [4_456_448, 1_310_720, 1_310_720]),
            ([16, NOTHING_HELD], [5_505_024, 1_310_720, 262_144]),
            ([NOTHING_HELD, 256], [7_340_032, 0, 1_048_576]),
            ([64, 512], [8_388_608, 0, 0]),
        ];
        for (limits, due) in cases {
            for (width, height) in [(3, 1), (1, 3)] {
                let [own, green] = [[8, 0, 0], [0; 3]].map(|row| Plane::given(width, height, &row));
                let [_, two] = sums(&own, &green, limits);
                assert_eq!(two, due, "{limits:?}");
            }
        }
    }

    /// The same on a green of 100, and brought back: the details are the same. A half goes up, below zero too. What a plane
    /// has more everywhere, it has more afterwards, be it below zero or above a sample.
    #[test]
    fn three_places_brought_back() {
        let cases = [
            ([108, 100, 100], 0, [102, 102, 102]),
            ([108, 100, 100], 1, [104, 101, 101]),
            ([108, 100, 100], 4, [108, 100, 100]),
            ([102, 100, 100], 0, [101, 101, 101]),
            ([94, 100, 100], 0, [99, 99, 99]),
            ([93, 100, 100], 0, [98, 98, 98]),
        ];
        for (own, threshold, due) in cases {
            for (width, height) in [(3, 1), (1, 3)] {
                let green = Green::split(width, height, &[100; 3], true);
                for more in [0, -200, -4195, 8082] {
                    let [own, due] = [own, due].map(|line| line.map(|value| value + more));
                    assert_eq!(green.projected(&own, threshold), due, "{own:?}, {threshold}");
                }
            }
        }
    }
}
