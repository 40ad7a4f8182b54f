//! Document 01, "Rounds", Req 01, the rounds with two levels, and Req 05, what a working plane keeps between rounds.

use crate::mosaic::{has_two_levels, in_range, Colour, Mosaic};
use crate::packet::{fields_refusal, Fields};
use crate::projection::Green;

/// The least and the most that a working plane keeps between rounds.
pub const KEPT: [i64; 2] = [-4095, 8190];

/// Puts the observed samples of a colour into its working plane.
fn put_observed(mosaic: &Mosaic, colour: Colour, plane: &mut [i64]) {
    for (k, value) in plane.iter_mut().enumerate() {
        if mosaic.colour((k / mosaic.width) as i64, (k % mosaic.width) as i64) == colour {
            *value = mosaic.samples[k].into();
        }
    }
}

/// Red and blue after the rounds, if a working plane keeps from `least` to `most` between them. After the last it is clipped
/// to 0..4,095.
pub fn rounds_keeping(
    [least, most]: [i64; 2],
    fields: &Fields,
    mosaic: &[u16],
    [red, green, blue]: [&[u16]; 3],
) -> [Vec<u16>; 2] {
    let Fields { width, height, layout, rounds, threshold } = *fields;
    let mosaic = Mosaic { width, height, layout, samples: mosaic };
    let green = Green::split(width, height, green, has_two_levels(layout));
    [(Colour::Red, red), (Colour::Blue, blue)].map(|(colour, given)| {
        let mut plane: Vec<i64> = given.iter().map(|&sample| sample.into()).collect();
        for _ in 0..rounds {
            let projected = green.projected(&plane, threshold);
            plane = projected.into_iter().map(|value| value.clamp(least, most)).collect();
            put_observed(&mosaic, colour, &mut plane);
        }
        plane.into_iter().map(|value| value.clamp(0, 4095) as u16).collect()
    })
}

/// How many numbers the wide work buffer has at least: 8·w·h with two levels; with one it is neither asked for nor touched.
pub fn wide_needed(fields: &Fields) -> usize {
    if has_two_levels(fields.layout) {
        8 * fields.width * fields.height
    } else {
        0
    }
}

/// Questions 1, 2, 3, 4, 5, 6 of the mosaic, 7 of the three planes' lengths, 8 and, with two levels, 18 of the work buffers'
/// lengths, and 9: the rounds ask 10 besides, finishing no more.
pub fn lent_refusal(
    fields: &Fields,
    mosaic: &[u16],
    planes: [usize; 3],
    work: usize,
    wide_work: usize,
) -> Option<u32> {
    if let Some(number) = fields_refusal(fields) {
        return Some(number);
    }
    let count = fields.width * fields.height;
    if mosaic.len() != count {
        Some(6)
    } else if planes != [count; 3] {
        Some(7)
    } else if work < 8 * count {
        Some(8)
    } else if wide_work < wide_needed(fields) {
        Some(18)
    } else if !in_range(mosaic) {
        Some(9)
    } else {
        None
    }
}

/// The rounds: their questions; then it rewrites red and blue, and zeroes the first 8·w·h of the work buffer, and with two
/// levels of the wide one.
pub fn rounds(
    fields: &Fields,
    mosaic: &[u16],
    red: &mut [u16],
    green: &[u16],
    blue: &mut [u16],
    work: &mut [i32],
    wide_work: &mut [i64],
) -> Result<(), u32> {
    let lengths = [red.len(), green.len(), blue.len()];
    if let Some(number) = lent_refusal(fields, mosaic, lengths, work.len(), wide_work.len()) {
        return Err(number);
    }
    if ![&*red, green, &*blue].into_iter().all(in_range) {
        return Err(10);
    }
    let [red_after, blue_after] = rounds_keeping(KEPT, fields, mosaic, [red, green, blue]);
    red.copy_from_slice(&red_after);
    blue.copy_from_slice(&blue_after);
    work[..8 * mosaic.len()].fill(0);
    wide_work[..wide_needed(fields)].fill(0);
    Ok(())
}

#[cfg(test)]
mod tests {
    use super::*;
    use crate::bank::whole_divided;
    use crate::chance::Chance;
    use crate::low_band::{mixed_sum, times, towards};
    use crate::mosaics::{opposite, OF_TWO};
    use crate::turns::Frame;

    /// Red, green and blue.
    type Planes = [Vec<u16>; 3];

    /// Red and blue after the rounds.
    fn rounds_of(fields: &Fields, mosaic: &[u16], planes: &Planes) -> [Vec<u16>; 2] {
        let [mut red, green, mut blue] = planes.clone();
        let (mut work, mut wide_work) = (vec![7; 8 * mosaic.len() + 1], vec![7; 8 * mosaic.len() + 1]);
        rounds(fields, mosaic, &mut red, &green, &mut blue, &mut work, &mut wide_work).unwrap();
        assert!(work.iter().rev().eq([7].iter().chain(&vec![0; 8 * mosaic.len()])));
        let zeroed = if fields.layout < 4 { 0 } else { 8 * mosaic.len() };
        assert_eq!(wide_work[..zeroed], vec![0; zeroed]);
        assert_eq!(wide_work[zeroed..], vec![7; 8 * mosaic.len() + 1 - zeroed]);
        [red, blue]
    }

    /// A working plane before the first round.
    fn working(plane: &[u16]) -> Vec<i64> {
        plane.iter().map(|&sample| sample.into()).collect()
    }

    fn random_planes(chance: &mut Chance, count: usize) -> Planes {
        [(); 3].map(|_| chance.samples(count))
    }

    /// The second round by hand: red adds up to 410, and blue, which the first leaves at −5 15 15 5, to 30; band 1 joins to
    /// 256 times that; green's band 4 joins to −10,240 at the first place and the last, to 10,240 at the others. Blue is then
    /// −2 18 18 5, which adds up to 39. 2 by 2 has no detail at the second level.
    #[test]
    fn case_k_and_more_rounds() {
        let planes = [vec![100; 4], vec![40, 60, 60, 40], vec![5; 4]];
        let due = [
            [[100, 100, 100, 100], [5, 5, 5, 5]],
            [[100, 110, 110, 90], [0, 15, 15, 5]],
            [[100, 113, 113, 93], [0, 18, 18, 5]],
            [[100, 115, 115, 95], [0, 20, 20, 5]],
        ];
        for (rounds, due) in (0..).zip(due) {
            for layout in [0, 4] {
                let fields = Fields { width: 2, height: 2, layout, rounds, threshold: 0 };
                assert_eq!(rounds_of(&fields, &[100, 60, 60, 5], &planes), due, "{rounds} rounds");
            }
        }
    }

    /// 2 by 2 of a and b: one band of detail, 8·(a − b) or its opposite, joins to 512·(a − b) and its opposite, and band 1
    /// to 512·(a + b). Held within ± 16·T, the detail joins to ± 1,024·T: half of a + b, plus or minus T, with a half
    /// rounded upward.
    #[test]
    fn detail_held_by_hand() {
        let cases = [
            (100, 110, 3, [102, 108]),
            (100, 110, 4, [101, 109]),
            (100, 110, 5, [100, 110]),
            (100, 109, 0, [105, 105]),
            (100, 109, 3, [102, 108]),
            (100, 109, 4, [101, 109]),
            (100, 109, 5, [100, 109]),
            (4095, 0, 2047, [4095, 1]),
            (4095, 0, 2048, [4095, 0]),
        ];
        for (a, b, threshold, [held_a, held_b]) in cases {
            for (layout, of_two) in (0..8).flat_map(|layout| OF_TWO.map(|of_two| (layout, of_two))) {
                let fields = Fields { width: 2, height: 2, layout, rounds: 1, threshold };
                let planes = [of_two(a, b).to_vec(), vec![50; 4], of_two(b, a).to_vec()];
                let mut due = [of_two(held_a, held_b), of_two(held_b, held_a)];
                // red sits at the place of the layout's number, less 4 with two levels, blue at the opposite one
                due[0][layout as usize % 4] = 7;
                due[1][3 - layout as usize % 4] = 7;
                assert_eq!(rounds_of(&fields, &[7; 4], &planes), due, "{a} and {b}, {fields:?}");
            }
        }
    }

    #[test]
    fn no_round_changes_nothing() {
        let chance = &mut Chance(0x2545_f491_4f6c_dd1d);
        for (width, height) in [(2, 2), (3, 2), (2, 5), (8, 7)] {
            let fields = Fields { rounds: 0, ..chance.few_rounds(width, height) };
            let planes = random_planes(chance, width * height);
            let [red, blue] = rounds_of(&fields, &chance.samples(width * height), &planes);
            assert_eq!([&red, &blue], [&planes[0], &planes[2]], "{fields:?}");
        }
    }

    /// Two planes' values of a band are 65,520 apart at most, which is 16 times 4,095, those of a band of the second level
    /// 256 times 4,095: nothing is held, so that the plane comes back and takes the observed samples.
    #[test]
    fn the_largest_threshold_holds_nothing() {
        let chance = &mut Chance(0xfedc_ba98_7654_3210);
        for (width, height) in [(2, 2), (3, 2), (2, 5), (8, 7)] {
            let fields = Fields { threshold: 4095, ..chance.few_rounds(width, height) };
            let samples = chance.samples(width * height);
            let planes = random_planes(chance, width * height);
            let mosaic = Mosaic { width, height, layout: fields.layout, samples: &samples };
            let due = [(Colour::Red, &planes[0]), (Colour::Blue, &planes[2])].map(|(colour, plane)| {
                let mut due = working(plane);
                put_observed(&mosaic, colour, &mut due);
                due
            });
            let found = rounds_of(&fields, &samples, &planes).map(|plane| working(&plane));
            assert_eq!(found, due, "{fields:?}");
        }
    }

    /// Red or blue after rounds with T = 0. The details are green's: what is joined is band 1 of the colour, of its band 1
    /// with two levels, and all else of green.
    fn by_the_low_band(
        mosaic: &Mosaic,
        colour: Colour,
        rounds: u32,
        first: &[u16],
        green: &[u16],
    ) -> Vec<u16> {
        let two_levels = mosaic.layout >= 4;
        let mut plane = working(first);
        for _ in 0..rounds {
            let sum = |k| mixed_sum(two_levels, mosaic.width, mosaic.height, k, &plane, green);
            let kept = |k| whole_divided(sum(k), times(two_levels)).clamp(-4095, 8190);
            plane = (0..plane.len()).map(kept).collect();
            put_observed(mosaic, colour, &mut plane);
        }
        plane.iter().map(|&value| value.clamp(0, 4095) as u16).collect()
    }

    /// The rounds of this frame with T = 0, by both ways.
    fn assert_by_the_low_band(fields: &Fields, samples: &[u16], planes: &Planes) {
        let Fields { width, height, layout, rounds, .. } = *fields;
        let mosaic = Mosaic { width, height, layout, samples };
        let due = [(Colour::Red, &planes[0]), (Colour::Blue, &planes[2])]
            .map(|(colour, plane)| by_the_low_band(&mosaic, colour, rounds, plane, &planes[1]));
        assert_eq!(rounds_of(fields, samples, planes), due, "{fields:?}");
    }

    #[test]
    fn without_a_threshold_by_the_low_band() {
        let chance = &mut Chance(0x0123_4567_89ab_cdef);
        for (width, height) in (2..=9).flat_map(|width| (2..=9).map(move |height| (width, height))) {
            for layout in [chance.between(0, 3) as u32, chance.between(4, 7) as u32] {
                let fields = Fields { layout, threshold: 0, ..chance.few_rounds(width, height) };
                let samples = chance.samples(width * height);
                let planes = random_planes(chance, width * height);
                assert_by_the_low_band(&fields, &samples, &planes);
            }
        }
    }

    /// 4 by 4 with T = 0 by hand. Along a line of four, band 1 alone has the weights 16 18 0 −2, 9 16 7 0, 0 7 16 9 and
    /// −2 0 18 16 by 32. The colours less green are −4,095·s·s, where s is 1 1 1 −1 along rows and along columns, but 0 at the
    /// first place. The weights make 36 32 14 0 of s, and 16 9 0 −2 of a one at the first place: so the first round leaves
    /// them apart by −4,095·(36·36 − 16·16), −4,095·(36·32 − 16·9) and so on, by 1,024. At the first place green is 0, and
    /// −4,159 comes back, of which −4,095 is kept. The layout observes neither colour there.
    ///
    /// At row 1, column 1, the second round joins, beside 1,024 times green's 4,095, 9 times (9·−4,095 + 16·−4,095 +
    /// 7·−2,016), 16 times (9·−4,031 + 16·−3,771 + 7·−1,792) and 7 times (9·−2,016 + 16·−4,095 + 7·−784), together
    /// −3,418,991. Brought back that is 756; if −4,159 were kept, 751. In the opposite planes 8,254 comes back, and 8,190 is
    /// kept.
    #[test]
    fn both_ends_of_what_is_kept() {
        let (w, b) = (4095, 0);
        let coloured = vec![b, b, b, w, b, b, b, w, b, b, b, w, w, w, w, b];
        let green = vec![b, w, w, b, w, w, w, b, w, w, w, b, b, b, b, w];
        let come_back = [-4159, 64, 2079, -128, 64, 324, 2303, -72, 2079, 2303, 3311, 0, -128, -72, 0, 4111];
        let projected = |coloured: &[u16], green: &[u16]| {
            Green::split(4, 4, green, false).projected(&working(coloured), 0)
        };
        assert_eq!(projected(&coloured, &green), come_back);
        let opposites = [opposite(&coloured), opposite(&green)];
        assert_eq!(projected(&opposites[0], &opposites[1]), come_back.map(|value| 4095 - value));
        let fields = Fields { width: 4, height: 4, layout: 1, rounds: 2, threshold: 0 };
        for ([coloured, green], due) in [([coloured, green], 756), (opposites, 4095 - 756)] {
            let [red, blue] = rounds_of(&fields, &coloured, &[coloured.clone(), green, coloured.clone()]);
            assert_eq!([red[5], blue[5]], [due; 2]);
        }
    }

    /// Planes that go beyond either end of what is kept, by both ways. If all were kept, each frame would end otherwise.
    #[test]
    fn beyond_both_ends_by_the_low_band() {
        let chance = &mut Chance(0x5851_f42d_4c95_7f2d);
        for (width, height) in (6..=9).flat_map(|width| (6..=9).map(move |height| (width, height))) {
            for (layout, end) in (0..8).flat_map(|layout| [(layout, 0), (layout, 4095)]) {
                let place = chance.one_of(&[0, width - 1, width * height - 1]);
                let [coloured, green] = towards(has_two_levels(layout), width, height, place, end);
                let rounds = chance.between(2, 5) as u32;
                let fields = Fields { width, height, layout, rounds, threshold: 0 };
                let planes = [coloured.clone(), green, coloured.clone()];
                assert_by_the_low_band(&fields, &coloured, &planes);
                let given = planes.each_ref().map(|plane| &plane[..]);
                let all_kept = rounds_keeping([i64::MIN, i64::MAX], &fields, &coloured, given);
                assert!(rounds_of(&fields, &coloured, &planes) != all_kept, "{fields:?}, place {place}");
            }
        }
    }

    /// The number of a refused call with these planes and work buffers of these lengths, which are as they were.
    fn refused(fields: &Fields, mosaic: &[u16], planes: [&[u16]; 3], work: usize, wide: usize) -> u32 {
        let [mut red, green, mut blue] = planes.map(|plane| plane.to_vec());
        let (mut lent, mut wide_lent) = (vec![7; work], vec![7; wide]);
        let answer = rounds(fields, mosaic, &mut red, &green, &mut blue, &mut lent, &mut wide_lent);
        assert_eq!([&red[..], &green, &blue], planes);
        assert_eq!((lent, wide_lent), (vec![7; work], vec![7; wide]));
        answer.unwrap_err()
    }

    /// Each question answered no, and those after it too.
    #[test]
    fn refused_in_order_and_untouched() {
        let sound = Fields { width: 2, height: 2, layout: 7, rounds: 64, threshold: 4095 };
        let of_fields = [
            (Fields { width: 1, height: 2049, layout: 8, rounds: 65, threshold: 4096 }, 1),
            (Fields { height: 2049, layout: 8, rounds: 65, threshold: 4096, ..sound }, 2),
            (Fields { layout: 8, rounds: 65, threshold: 4096, ..sound }, 3),
            (Fields { rounds: 65, threshold: 4096, ..sound }, 4),
            (Fields { threshold: 4096, ..sound }, 5),
        ];
        for (fields, number) in of_fields {
            assert_eq!(refused(&fields, &[4096; 3], [&[4096; 3]; 3], 31, 31), number);
        }
        assert_eq!(refused(&sound, &[4096; 3], [&[4096; 3]; 3], 31, 31), 6);
        for plane in 0..3 {
            let mut planes: [&[u16]; 3] = [&[4096; 4]; 3];
            planes[plane] = &[4096; 5];
            assert_eq!(refused(&sound, &[4096; 4], planes, 31, 31), 7);
        }
        assert_eq!(refused(&sound, &[4096; 4], [&[4096; 4]; 3], 31, 31), 8);
        assert_eq!(refused(&sound, &[4096; 4], [&[4096; 4]; 3], 32, 31), 18);
        assert_eq!(refused(&sound, &[0, 0, 0, 4096], [&[4096; 4]; 3], 32, 32), 9);
        let one_level = Fields { layout: 3, ..sound };
        assert_eq!(refused(&one_level, &[0, 0, 0, 4096], [&[4096; 4]; 3], 32, 0), 9);
        for plane in 0..3 {
            let mut planes: [&[u16]; 3] = [&[4095; 4]; 3];
            planes[plane] = &[0, 4096, 0, 0];
            assert_eq!(refused(&sound, &[4095; 4], planes, 32, 32), 10);
        }
    }

    /// The planes of a turned mosaic and turned planes are the planes turned.
    #[test]
    fn turned() {
        let chance = &mut Chance(0x9e37_79b9_7f4a_7c15);
        for (width, height) in [(2, 2), (3, 2), (2, 5), (5, 4), (7, 7), (9, 12)] {
            for layout in 0..8 {
                let fields = Fields { layout, ..chance.few_rounds(width, height) };
                let framed = |samples| Frame { width, height, layout, samples };
                let mosaic = framed(chance.samples(width * height));
                let planes = random_planes(chance, width * height);
                let after = rounds_of(&fields, &mosaic.samples, &planes).map(framed);
                for turn in 0..8 {
                    let Frame { width, height, layout, samples } = mosaic.turned(turn);
                    let turned = planes.clone().map(|plane| framed(plane).turned(turn).samples);
                    let found = rounds_of(&Fields { width, height, layout, ..fields }, &samples, &turned);
                    let due = after.each_ref().map(|plane| plane.turned(turn).samples);
                    assert_eq!(found, due, "turn {turn} of {fields:?}");
                }
            }
        }
    }
}
