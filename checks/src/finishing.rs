//! Document 01, the finishing call ("Rounds") and its tally ("Packet"); Req 01, finishing with two levels.

use crate::estimate::estimate;
use crate::packet::Fields;
use crate::rounds::{lent_refusal, rounds, wide_needed};
use crate::update::update;

/// The finishing call: its questions; then estimate, update and rounds fill red, green and blue, and the first 8·w·h of
/// the work buffer are zeroed, with two levels of the wide one too.
pub fn finish(
    fields: &Fields,
    mosaic: &[u16],
    planes: [&mut [u16]; 3],
    work: &mut [i32],
    wide_work: &mut [i64],
) -> Result<(), u32> {
    let lengths = planes.each_ref().map(|plane| plane.len());
    if let Some(number) = lent_refusal(fields, mosaic, lengths, work.len(), wide_work.len()) {
        return Err(number);
    }
    let Fields { width, height, layout, .. } = *fields;
    let [red, green, blue] = planes;
    // their questions are among those just asked, or about samples that they make themselves
    estimate(width, height, layout, mosaic, [&mut *red, &mut *green, &mut *blue]).unwrap();
    update(width, height, layout, mosaic, green, work).unwrap();
    rounds(fields, mosaic, red, green, blue, work, wide_work).unwrap();
    Ok(())
}

/// Red, green and blue of a frame that the call accepts.
pub fn finished_of(fields: &Fields, mosaic: &[u16]) -> [Vec<u16>; 3] {
    let mut planes = [(); 3].map(|_| vec![7; mosaic.len()]);
    let (mut work, mut wide_work) = (vec![7; 8 * mosaic.len()], vec![7; wide_needed(fields)]);
    let lent = planes.each_mut().map(|plane| &mut plane[..]);
    finish(fields, mosaic, lent, &mut work, &mut wide_work).unwrap();
    planes
}

/// Frames finished, frames refused and rounds run. Each stops at 4,294,967,295.
#[derive(Clone, Copy, Debug, Default, PartialEq)]
pub struct Tally {
    pub finished: u32,
    pub refused: u32,
    pub rounds: u32,
}

/// More, as far as 32 bits go.
fn stopping(count: u32, more: u32) -> u32 {
    (u64::from(count) + u64::from(more)).min(4_294_967_295) as u32
}

impl Tally {
    /// The next tally, after a finishing call with so many rounds that answered this number, 0 if it was accepted.
    pub fn next(self, number: u32, rounds: u32) -> Tally {
        if number == 0 {
            Tally { finished: stopping(self.finished, 1), rounds: stopping(self.rounds, rounds), ..self }
        } else {
            Tally { refused: stopping(self.refused, 1), ..self }
        }
    }

    /// The tally from zero after a whole list of finishing calls, each its number and its rounds: the list's own count.
    pub fn of(history: &[(u32, u32)]) -> Tally {
        let accepted = || history.iter().filter(|(number, _)| *number == 0);
        let finished = accepted().count() as u64;
        let rounds: u64 = accepted().map(|&(_, rounds)| u64::from(rounds)).sum();
        let counts = [finished, history.len() as u64 - finished, rounds];
        let [finished, refused, rounds] = counts.map(|count| count.min(4_294_967_295) as u32);
        Tally { finished, refused, rounds }
    }
}

#[cfg(test)]
mod tests {
    use super::*;
    use crate::bank::whole_divided;
    use crate::chance::Chance;

    #[test]
    fn the_printed_frame() {
        for layout in [0, 4] {
            let fields = Fields { width: 2, height: 2, layout, rounds: 8, threshold: 0 };
            let due = [100, 50, 20].map(|value| vec![value; 4]);
            assert_eq!(finished_of(&fields, &[100, 50, 50, 20]), due);
        }
    }

    /// A frame of one value has no detail, and each colour's estimate is that value.
    #[test]
    fn one_value_stays() {
        for (value, layout) in [0, 1, 2048, 4095].into_iter().flat_map(|value| [(value, 2), (value, 6)]) {
            let fields = Fields { width: 5, height: 4, layout, rounds: 3, threshold: 1 };
            assert_eq!(finished_of(&fields, &[value; 20]), [(); 3].map(|_| vec![value; 20]));
        }
    }

    /// 2 by 2 with T = 0 by hand. Red and blue are first the one sample everywhere. Green is the rounded mean at their
    /// places, and the update leaves it, since a small plane of one value has no detail. Band 1 joins to 256 times the
    /// four values together; so a round moves a colour's mean to green's details. There is no detail at a second level.
    fn two_by_two(layout: u32, rounds: u32, mosaic: [u16; 4]) -> [Vec<u16>; 3] {
        // red sits at the place of the layout's number, less 4 with two levels, blue at the opposite one
        let at = [layout as usize % 4, 3 - layout as usize % 4];
        let of_green = |k: &usize| !at.contains(k);
        let greens: u16 = (0..4).filter(of_green).map(|k| mosaic[k]).sum();
        let green = [0, 1, 2, 3].map(|k| if of_green(&k) { mosaic[k] } else { (greens + 1) / 2 });
        let [signed_mosaic, signed_green] = [mosaic, green].map(|plane| plane.map(i64::from));
        let total = |plane: [i64; 4]| plane.iter().sum::<i64>();
        let [red, blue] = at.map(|place| {
            let mut plane = [signed_mosaic[place]; 4];
            for _ in 0..rounds {
                let sum = |value: i64| 256 * (total(plane) - total(signed_green)) + 1024 * value;
                plane = signed_green.map(|value| whole_divided(sum(value), 1024).clamp(-4095, 8190));
                plane[place] = signed_mosaic[place];
            }
            plane.map(|value| value.clamp(0, 4095) as u16).to_vec()
        });
        [red, green.to_vec(), blue]
    }

    #[test]
    fn two_by_two_by_hand() {
        let chance = &mut Chance(0x2545_f491_4f6c_dd1d);
        let mut mosaics = vec![[0, 4095, 4095, 0], [4095, 0, 0, 4095], [100, 0, 4095, 7]];
        mosaics.extend((0..50).map(|_| <[u16; 4]>::try_from(chance.samples(4)).unwrap()));
        for (layout, mosaic) in (0..8).flat_map(|layout| mosaics.iter().map(move |&mosaic| (layout, mosaic)))
        {
            for rounds in [0, 1, 2, 3, 64] {
                let fields = Fields { width: 2, height: 2, layout, rounds, threshold: 0 };
                let found = finished_of(&fields, &mosaic);
                assert_eq!(found, two_by_two(layout, rounds, mosaic), "{fields:?}, {mosaic:?}");
            }
        }
    }

    /// The answer of a call whose planes and work buffers, of these lengths, hold 7; and whether they still do.
    fn answered(
        fields: &Fields,
        mosaic: &[u16],
        lengths: [usize; 3],
        [work, wide]: [usize; 2],
    ) -> (Result<(), u32>, bool) {
        let mut planes = lengths.map(|length| vec![7; length]);
        let (mut lent, mut wide_lent) = (vec![7; work], vec![7; wide]);
        let lent_planes = planes.each_mut().map(|plane| &mut plane[..]);
        let answer = finish(fields, mosaic, lent_planes, &mut lent, &mut wide_lent);
        let untouched = planes == lengths.map(|length| vec![7; length])
            && lent == vec![7; work]
            && wide_lent == vec![7; wide];
        (answer, untouched)
    }

    /// Each question answered no, and those after it too.
    #[test]
    fn refused_in_order_and_untouched() {
        let sound = Fields { width: 2, height: 2, layout: 7, rounds: 64, threshold: 4095 };
        let all_wrong = Fields { width: 1, height: 2049, layout: 8, rounds: 65, threshold: 4096 };
        let of_fields = [
            all_wrong,
            Fields { width: 2048, ..all_wrong },
            Fields { width: 2048, height: 2, ..all_wrong },
            Fields { rounds: 65, threshold: 4096, ..sound },
            Fields { threshold: 4096, ..sound },
        ];
        for (fields, number) in of_fields.iter().zip(1..) {
            assert_eq!(answered(fields, &[4096; 3], [3; 3], [31, 31]), (Err(number), true));
        }
        assert_eq!(answered(&sound, &[4096; 3], [3; 3], [31, 31]), (Err(6), true));
        for lengths in [[3, 4, 4], [4, 5, 4], [4, 4, 3]] {
            assert_eq!(answered(&sound, &[4096; 4], lengths, [31, 31]), (Err(7), true));
        }
        assert_eq!(answered(&sound, &[4096; 4], [4; 3], [31, 31]), (Err(8), true));
        assert_eq!(answered(&sound, &[4096; 4], [4; 3], [32, 31]), (Err(18), true));
        assert_eq!(answered(&sound, &[0, 0, 0, 4096], [4; 3], [32, 32]), (Err(9), true));
        assert_eq!(answered(&sound, &[0, 0, 0, 4095], [4; 3], [32, 32]), (Ok(()), false));
        let one_level = Fields { layout: 3, ..sound };
        assert_eq!(answered(&one_level, &[4096; 4], [4; 3], [31, 0]), (Err(8), true));
        assert_eq!(answered(&one_level, &[4096; 4], [4; 3], [32, 0]), (Err(9), true));
    }

    #[test]
    fn the_work_buffers_are_zeroed_and_their_rest_kept() {
        for (rounds, layout) in [(0, 1), (2, 1), (0, 5), (2, 5)] {
            let fields = Fields { width: 3, height: 2, layout, rounds, threshold: 20 };
            let mut planes = [[7; 6]; 3];
            let (mut work, mut wide_work) = ([7; 50], [7; 50]);
            let lent = planes.each_mut().map(|plane| &mut plane[..]);
            assert_eq!(finish(&fields, &[1, 2, 3, 4, 5, 6], lent, &mut work, &mut wide_work), Ok(()));
            assert_eq!((&work[..48], &work[48..]), (&[0; 48][..], &[7; 2][..]));
            let left = if layout == 1 { 7 } else { 0 };
            assert_eq!((&wide_work[..48], &wide_work[48..]), (&[left; 48][..], &[7; 2][..]));
        }
    }

    #[test]
    fn a_tally_by_hand() {
        let tally = Tally::default().next(0, 8).next(9, 8).next(0, 0).next(4, 255).next(1, 64).next(0, 64);
        assert_eq!(tally, Tally { finished: 3, refused: 3, rounds: 72 });
        assert_eq!(Tally::of(&[(0, 8), (9, 8), (0, 0), (4, 255), (1, 64), (0, 64)]), tally);
        assert_eq!(Tally::of(&[]), Tally::default());
        let near = Tally { finished: u32::MAX - 1, refused: u32::MAX - 1, rounds: u32::MAX - 63 };
        let ends = Tally { finished: u32::MAX, refused: u32::MAX, rounds: u32::MAX };
        assert_eq!(near.next(0, 63).next(5, 1), ends);
        assert_eq!(near.next(0, 64).next(5, 1), ends);
        assert_eq!(ends.next(0, 1).next(3, 1), ends);
        // rounds that no frame has are counted as they are
        let wide = Tally { rounds: 3, ..Tally::default() }.next(0, 320).next(7, 9).next(0, 65_536);
        assert_eq!(wide, Tally { finished: 2, refused: 1, rounds: 65_859 });
        assert_eq!(wide.next(0, u32::MAX - 65_859).rounds, u32::MAX);
        assert_eq!(wide.next(0, u32::MAX).rounds, u32::MAX);
        assert_eq!(Tally::of(&[(0, u32::MAX), (0, u32::MAX)]).rounds, u32::MAX);
    }
}
