//! The C calls of the tally count what the reference counts, and each count stops at 4,294,967,295.

use checks::chance::Chance;
use checks::finishing::{finish, Tally};
use checks::packet::Fields;

#[path = "../src/library.rs"]
mod library;

/// Where smaller numbers end, and where these do.
const BORDERS: [u32; 7] = [0, 1 << 7, 1 << 8, 1 << 15, 1 << 16, 1 << 24, 1 << 31];

/// A finishing call: its number, and its rounds.
type Finishing = (u32, u32);

/// Accepted or refused by chance. Only an accepted call has 64 rounds or less for sure.
fn random_call(chance: &mut Chance) -> Finishing {
    let accepted = (0, chance.between(0, 64) as u32);
    let refused = (chance.between(1, 18) as u32, chance.between(0, u32::MAX.into()) as u32);
    chance.one_of(&[accepted, accepted, refused])
}

/// The library's tally after one more call, which is the reference's.
fn compared(before: Tally, (number, rounds): Finishing) -> Tally {
    let found = library::next_tally(before, number, rounds);
    assert_eq!(found, before.next(number, rounds), "{number} with {rounds} rounds after {before:?}");
    found
}

/// Long lists from zero, empty and one-sided ones too.
#[test]
fn from_zero() {
    let chance = &mut Chance(0x9e37_79b9_7f4a_7c15);
    let mut histories = vec![vec![], vec![(0, 64); 5000], vec![(9, 64); 5000], vec![(0, 0); 5000]];
    for length in (1..40).chain([1000, 30_000, 100_000]) {
        histories.push((0..length).map(|_| random_call(chance)).collect());
    }
    for history in histories {
        let tally = history.iter().fold(Tally::default(), |tally, &call| compared(tally, call));
        assert_eq!(tally, Tally::of(&history), "{} calls", history.len());
    }
}

/// Every call, where the counts lie near their ends or near an end of smaller numbers.
#[test]
fn at_borders() {
    for count in beside(&BORDERS, 66) {
        let before = Tally { finished: count, refused: count, rounds: count };
        for rounds in 0..=64 {
            compared(before, (0, rounds));
        }
        for number in 1..=18 {
            compared(before, (number, 64));
        }
    }
}

/// Numbers beside these, up to so far away; beside 0, the largest too.
fn beside(borders: &[u32], far: u32) -> Vec<u32> {
    let both_sides =
        |&border: &u32| (0..far).flat_map(move |k| [border.wrapping_sub(k), border.wrapping_add(k)]);
    borders.iter().flat_map(both_sides).collect()
}

/// Nothing is asked of the rounds: after an accepted call any number of them is added, whatever fewer bits would make of it.
/// After a refused one none is, and every number but 0 is a refusal's.
#[test]
fn any_rounds_and_any_number() {
    let mut wide = beside(&BORDERS, 3);
    wide.extend([320, 65_536 + 20, (1 << 24) + 64, 0xffff_0000, 0xffff_ff00]);
    for &count in &wide {
        let before = Tally { finished: count, refused: count, rounds: count };
        for &rounds in &wide {
            // as far as the count goes, and one more
            for rounds in [rounds, u32::MAX - count, (u32::MAX - count).saturating_add(1)] {
                compared(before, (0, rounds));
            }
            for &number in &wide {
                compared(before, (number, rounds));
            }
        }
    }
    assert_eq!(library::next_tally(Tally::default(), 0, 320).rounds, 320);
    assert_eq!(library::next_tally(Tally::default(), 0, u32::MAX).rounds, u32::MAX);
    assert_eq!(library::next_tally(Tally::default(), 256, 320), Tally { refused: 1, ..Tally::default() });
}

/// Lists from zero in which rounds are any numbers, so that their count soon ends.
#[test]
fn from_zero_with_any_rounds() {
    let chance = &mut Chance(0xfedc_ba98_7654_3210);
    for most in [255, 256, 65_535, 65_536, 1 << 24, u32::MAX] {
        for length in [1, 2, 3, 10, 100, 1000] {
            let rounds = |chance: &mut Chance| chance.between(0, most.into()) as u32;
            let history: Vec<_> =
                (0..length).map(|_| (chance.one_of(&[0, 0, 4, 256]), rounds(chance))).collect();
            let tally = history.iter().fold(Tally::default(), |tally, &call| compared(tally, call));
            assert_eq!(tally, Tally::of(&history), "{length} calls of up to {most} rounds");
        }
    }
}

/// Lists that begin shortly before a count's end: it stops there, while the others go on.
#[test]
fn each_count_stops() {
    let chance = &mut Chance(0x2545_f491_4f6c_dd1d);
    for ending in 0..8 {
        let near = |k: u32| if ending >> k & 1 == 1 { u32::MAX - 500 } else { 3 };
        let mut tally = Tally { finished: near(0), refused: near(1), rounds: near(2) };
        for _ in 0..3000 {
            let next = compared(tally, random_call(chance));
            assert!(
                next.finished >= tally.finished
                    && next.refused >= tally.refused
                    && next.rounds >= tally.rounds
            );
            tally = next;
        }
        let counts = [tally.finished, tally.refused, tally.rounds];
        for (k, count) in (0..).zip(counts) {
            assert_eq!(count == u32::MAX, ending >> k & 1 == 1, "{counts:?}");
        }
    }
}

/// From zero, 64 rounds a frame: the count of rounds reaches its end with the frame 67,108,864, which would make it 0.
#[test]
fn the_rounds_stop_from_zero() {
    let mut tally = Tally::default();
    for _ in 0..67_108_863 {
        tally = library::next_tally(tally, 0, 64);
    }
    assert_eq!(tally, Tally { finished: 67_108_863, refused: 0, rounds: u32::MAX - 63 });
    for more in 1..=100 {
        tally = library::next_tally(tally, 0, 64);
        assert_eq!(tally, Tally { finished: 67_108_863 + more, refused: 0, rounds: u32::MAX });
    }
}

/// The tally of finishing calls, by what the library answers, is the count of what the reference answers.
#[test]
fn of_finishing_calls() {
    let chance = &mut Chance(0x0123_4567_89ab_cdef);
    let mut tally = Tally::default();
    let mut history = Vec::new();
    for _ in 0..500 {
        let fields = chance.small_fields();
        let rounds = chance.one_of(&[0, 1, 5, 64, 65]);
        let fields = Fields { rounds, ..fields };
        let mut mosaic = chance.samples(fields.width * fields.height);
        *chance.one_in(&mut mosaic) = chance.one_of(&[0, 4095, 4095, 4096]);
        // one number less is refused with two levels
        let wide = 8 * mosaic.len() - chance.place(2);
        let [number, due] = [library::finish, finish].map(|call| {
            let mut planes = [(); 3].map(|_| vec![0; mosaic.len()]);
            let lent = planes.each_mut().map(|plane| &mut plane[..]);
            let (mut work, mut wide_work) = (vec![0; 8 * mosaic.len()], vec![0; wide]);
            call(&fields, &mosaic, lent, &mut work, &mut wide_work).err().unwrap_or(0)
        });
        tally = library::next_tally(tally, number, rounds);
        history.push((due, rounds));
    }
    assert_eq!(tally, Tally::of(&history));
    assert!(tally.finished >= 100 && tally.refused >= 100, "{tally:?}");
}
