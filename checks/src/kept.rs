//! Whether frames tell what a working plane keeps between rounds from anything else that it might keep. Comparisons are blind
//! to it on all other frames.

use crate::mosaic::has_two_levels;
use crate::packet::Fields;
use crate::rounds::rounds_keeping;

/// A working plane is clipped to samples after every round.
pub const CLIPPED_AFTER_EVERY_ROUND: [i64; 2] = [0, 4095];

/// Clipped at one end only, and one more or one less at either end.
pub const OTHER_ENDS: [[i64; 2]; 6] =
    [[0, 8190], [-4094, 8190], [-4096, 8190], [-4095, 4095], [-4095, 8189], [-4095, 8191]];

/// How many frames there are, with one level and with two, and how many of them tell this range from the one that is kept.
#[derive(Debug)]
pub struct Told {
    kept: [i64; 2],
    frames: [usize; 2],
    told: [usize; 2],
}

impl Told {
    pub fn from(kept: [i64; 2]) -> Told {
        Told { kept, frames: [0; 2], told: [0; 2] }
    }

    /// One more frame, of which the rounds are given these planes and leave this red and this blue.
    pub fn add(&mut self, fields: &Fields, mosaic: &[u16], given: &[Vec<u16>; 3], left: [&[u16]; 2]) {
        let level = usize::from(has_two_levels(fields.layout));
        let other = rounds_keeping(self.kept, fields, mosaic, given.each_ref().map(|plane| &plane[..]));
        self.frames[level] += 1;
        self.told[level] += usize::from(other.each_ref().map(|plane| &plane[..]) != left);
    }

    /// With one level and with two, at least one frame in so many.
    pub fn assert_one_in(&self, part: usize, what: &str) {
        let enough = |level: usize| self.told[level] > 0 && part * self.told[level] >= self.frames[level];
        assert!(enough(0) && enough(1), "{what}: {self:?}, not one in {part}");
    }

    /// With one level and with two, ten frames or more.
    pub fn assert_often(&self, what: &str) {
        assert!(self.told.iter().all(|&told| told >= 10), "{what}: {self:?}");
    }
}

#[cfg(test)]
mod tests {
    use super::*;
    use crate::rounds::KEPT;

    /// The first round takes blue down to −5, and nothing above white: the second tells whether that is kept.
    #[test]
    fn told_by_case_k() {
        let (mosaic, given) = ([100, 60, 60, 5], [vec![100; 4], vec![40, 60, 60, 40], vec![5; 4]]);
        let cases =
            [(1, [0, 4095], 0), (2, [0, 4095], 1), (2, [0, 8190], 1), (2, [-5, 4095], 0), (2, KEPT, 0)];
        for (rounds, kept, told) in cases {
            let mut of_both = Told::from(kept);
            for layout in [0, 4] {
                let fields = Fields { width: 2, height: 2, layout, rounds, threshold: 0 };
                let [red, blue] =
                    rounds_keeping(KEPT, &fields, &mosaic, given.each_ref().map(|plane| &plane[..]));
                of_both.add(&fields, &mosaic, &given, [&red, &blue]);
            }
            assert_eq!((of_both.frames, of_both.told), ([1; 2], [told; 2]), "{rounds} rounds, {kept:?}");
        }
    }
}
