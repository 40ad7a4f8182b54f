//! The C call `demosaic_finish` answers what the reference answers, and leaves in every buffer, and beside it, what the
//! reference leaves, with one level of the filter bank and with two; and what it makes of a turned frame is what it makes of
//! the frame, turned.

use checks::buffers::{assert_same, Number};
use checks::chance::Chance;
use checks::estimate::estimates_of;
use checks::finishing::{finish, finished_of};
use checks::holes;
use checks::mosaic::has_two_levels;
use checks::mosaics::{kinds, longer_lengths, of_two, opposite, spike, SQUARES};
use checks::packet::Fields;
use checks::planes_call::{self, settings, Call, Planes, PlanesCall, COLOURS};
use checks::planes_call::{large_frames_refused, lengths_refused, samples_refused, work_refused};
use checks::refusals::{refusals, sets, wrong_lengths, wrong_number, Counts, FrameCall};
use checks::rounds::{rounds, wide_needed};
use checks::turns::{after_list, Frame, Turning};

#[path = "../src/library.rs"]
mod library;

#[derive(Clone)]
struct Finishing;

impl PlanesCall for Finishing {
    const NAME: &'static str = "finishing";
    const QUESTIONS: &'static [u32] = &[1, 2, 3, 4, 5, 6, 7, 8, 18, 9];
    const LIBRARY: Call = library::finish;
    const REFERENCE: Call = finish;

    /// The planes are filled: what they held before does not count, in range or not.
    fn plane(chance: &mut Chance, count: usize) -> Vec<u16> {
        chance.any_samples(count)
    }

    fn before_rounds(fields: &Fields, mosaic: &[u16], _: &Planes) -> Planes {
        finished_of(&Fields { rounds: 0, ..*fields }, mosaic)
    }

    fn of_two(chance: &mut Chance, fields: Fields, green: &[u16], coloured: &[u16]) -> Ask {
        let Fields { width, height, layout, .. } = fields;
        of_mosaic(chance, fields, &of_two(width, height, layout, green, coloured))
    }
}

type Ask = planes_call::Ask<Finishing>;

/// The mosaic, and planes that hold anything.
fn of_mosaic(chance: &mut Chance, fields: Fields, mosaic: &[u16]) -> Ask {
    Ask::of(fields, mosaic, [(); 3].map(|_| chance.any_samples(mosaic.len())))
}

/// A random frame of this size with these rounds and this threshold.
fn random(chance: &mut Chance, width: usize, height: usize, rounds: u32, threshold: u32) -> Ask {
    let ask = Ask::sound(chance, width, height);
    Ask { fields: Fields { rounds, threshold, ..ask.fields }, ..ask }
}

/// The widths and heights of all small frames.
fn small_sizes() -> impl Iterator<Item = (usize, usize)> {
    (2..=10).flat_map(|width| (2..=10).map(move |height| (width, height)))
}

/// All rounds and thresholds that are tried, with mosaics of kinds by chance.
fn all_settings(chance: &mut Chance, width: usize, height: usize, layout: u32) {
    let kinds = kinds(chance, width, height);
    for (rounds, threshold) in settings(chance) {
        let (kind, mosaic) = &kinds[chance.place(kinds.len())];
        let fields = Fields { width, height, layout, rounds, threshold };
        of_mosaic(chance, fields, mosaic).accepted(kind);
    }
}

/// Mosaics of every kind, rounds and thresholds by chance: as they are, and with the opposite at the places of red and blue.
fn all_kinds(chance: &mut Chance, width: usize, height: usize, layout: u32) {
    for (kind, samples) in kinds(chance, width, height) {
        let fields = Fields { layout, ..chance.few_rounds(width, height) };
        of_mosaic(chance, fields, &samples).accepted(&kind);
        let ask = Finishing::of_two(chance, fields, &samples, &opposite(&samples));
        ask.accepted(&format!("{kind}, red and blue the opposite"));
    }
}

/// One sample unlike all others, at every place.
fn spikes(chance: &mut Chance, width: usize, height: usize) {
    for place in 0..width * height {
        for (value, others) in [(4095, 0), (0, 4095), (1000, 1001)] {
            let fields = chance.few_rounds(width, height);
            let mosaic = spike(width * height, place, value, others);
            let kind = format!("{value} at place {place}, {others} at the others");
            of_mosaic(chance, fields, &mosaic).accepted(&kind);
        }
    }
}

#[test]
fn every_small_size_with_every_setting() {
    let chance = &mut Chance(0x9e37_79b9_7f4a_7c15);
    for (width, height) in small_sizes() {
        (0..8).for_each(|layout| all_settings(chance, width, height, layout));
    }
}

#[test]
fn every_small_size_with_every_kind() {
    let chance = &mut Chance(0x2545_f491_4f6c_dd1d);
    for (width, height) in small_sizes() {
        (0..4).for_each(|red| {
            let layout = chance.one_of(&[red, red + 4]);
            all_kinds(chance, width, height, layout);
        });
        spikes(chance, width, height);
    }
}

#[test]
fn longer_lines() {
    let chance = &mut Chance(0x0123_4567_89ab_cdef);
    for length in longer_lengths() {
        for other in [2, chance.between(3, 6) as usize] {
            for (width, height) in [(length, other), (other, length)] {
                let kinds = kinds(chance, width, height);
                for _ in 0..12 {
                    let (kind, mosaic) = &kinds[chance.place(kinds.len())];
                    let fields = chance.few_rounds(width, height);
                    of_mosaic(chance, fields, mosaic).accepted(kind);
                }
            }
        }
    }
}

#[test]
fn large_frames() {
    let chance = &mut Chance(0xfedc_ba98_7654_3210);
    for length in [2047, 2048] {
        for other in [2, 3, 5] {
            random(chance, length, other, 2, 300).accepted("random");
            random(chance, other, length, 3, 20).accepted("random");
        }
    }
    for (width, height, rounds) in [(1025, 300, 3), (127, 513, 5)] {
        let ask = random(chance, width, height, rounds, 20);
        let two_levels = Fields { layout: ask.fields.layout | 4, ..ask.fields };
        Ask { fields: two_levels, ..ask }.accepted("random");
    }
    let fields = Fields { width: 600, height: 401, layout: 2, rounds: 2, threshold: 20 };
    let mosaic = chance.samples(600 * 401);
    of_mosaic(chance, fields, &mosaic).accepted("random");
}

#[test]
fn holes_of_every_size() {
    holes::of_every_size::<Finishing>();
}

#[test]
fn holes_in_large_frames() {
    holes::in_the_largest_frames::<Finishing>([(2, SQUARES[1]), (5, SQUARES[2])]);
}

#[test]
fn holes_beyond_what_is_kept() {
    holes::beyond_what_is_kept::<Finishing>();
}

/// What a call leaves that skips a step, exchanges two, or takes the other number of levels.
fn shortcuts(fields: &Fields, mosaic: &[u16]) -> [(&'static str, Planes); 7] {
    let with_rounds = |rounds| finished_of(&Fields { rounds, ..*fields }, mosaic);
    let estimates = estimates_of(fields.width, fields.height, fields.layout, mosaic);
    let [mut red, green, mut blue] = estimates.clone();
    let (mut work, mut wide_work) = (vec![0; 8 * mosaic.len()], vec![0; wide_needed(fields)]);
    rounds(fields, mosaic, &mut red, &green, &mut blue, &mut work, &mut wide_work).unwrap();
    let [_, updated, _] = with_rounds(0);
    [
        ("the estimates", estimates),
        ("no round", with_rounds(0)),
        ("one round", with_rounds(1)),
        ("one round less", with_rounds(fields.rounds - 1)),
        ("no update", [red.clone(), green, blue.clone()]),
        ("the update after the rounds", [red, updated, blue]),
        ("the other levels", finished_of(&Fields { layout: fields.layout ^ 4, ..*fields }, mosaic)),
    ]
}

/// The finished planes are none of those that a shorter way leaves: so the comparisons with the reference tell them apart.
#[test]
fn no_step_is_left_out() {
    let chance = &mut Chance(0x5851_f42d_4c95_7f2d);
    for (width, height) in [(4, 4), (7, 5), (6, 9), (16, 11), (31, 18)] {
        for (rounds, threshold) in [2, 3, 8].into_iter().flat_map(|n| [0, 20, 300].map(|t| (n, t))) {
            let mut ask = random(chance, width, height, rounds, threshold);
            // with one level in a frame, with two in the next
            ask.fields.layout = ask.fields.layout % 4 + 4 * ((rounds + threshold / 20) % 2);
            let found = ask.accepted("random");
            for (name, planes) in shortcuts(&ask.fields, &ask.mosaic) {
                assert!(found != planes, "{:?}, {name}", ask.fields);
            }
        }
    }
}

/// Held within a hundred of green, planes by chance still change in the last of 64 rounds.
#[test]
fn many_rounds() {
    let chance = &mut Chance(0xda94_2042_e4dd_58b5);
    for (width, height) in [(31, 18), (40, 9), (16, 33)] {
        for (rounds, threshold) in [33, 63, 64].into_iter().flat_map(|n| [50, 100].map(|t| (n, t))) {
            let ask = random(chance, width, height, rounds, threshold);
            let found = ask.accepted("random");
            let one_less = finished_of(&Fields { rounds: rounds - 1, ..ask.fields }, &ask.mosaic);
            assert!(found != one_less, "{:?}", ask.fields);
        }
    }
}

/// The library's number and planes, where planes and work buffers held anything before.
fn finished(chance: &mut Chance, ask: &Ask) -> (u32, Planes) {
    let before = ask.planes.each_ref().map(|plane| chance.any_samples(plane.len()));
    let (work_before, wide_before) = (chance.any_numbers(ask.work), chance.any_wide_numbers(ask.wide_work));
    let (mut planes, mut work, mut wide_work) = (before.clone(), work_before.clone(), wide_before.clone());
    let lent = planes.each_mut().map(|plane| &mut plane[..]);
    let answer = library::finish(&ask.fields, &ask.mosaic, lent, &mut work, &mut wide_work);
    let number = answer.err().unwrap_or(0);
    let what = format!("finishing of {:?}, answered {number}", ask.fields);
    assert!(number == 0 || planes == before, "{what}: a plane touched");
    let zeroed = if number == 0 { 8 * ask.mosaic.len() } else { 0 };
    assert_zeroed(&work, &work_before, zeroed, &format!("{what}: work buffer"));
    let zeroed = if has_two_levels(ask.fields.layout) { zeroed } else { 0 };
    assert_zeroed(&wide_work, &wide_before, zeroed, &format!("{what}: wide work buffer"));
    (number, planes)
}

/// So many numbers are 0, and the rest are as before.
fn assert_zeroed<T: Number + Default>(after: &[T], before: &[T], zeroed: usize, what: &str) {
    assert!(after[..zeroed].iter().all(|&left| left == T::default()), "{what} not zeroed");
    assert_same(&after[zeroed..], &before[zeroed..], &format!("{what} from {zeroed} on"));
}

#[test]
fn whatever_the_buffers_held() {
    let chance = &mut Chance(0x9fb2_1c65_1e98_df25);
    for (width, height) in small_sizes().chain([(33, 17), (64, 40), (101, 3)]) {
        for (rounds, more) in [(0, 0), (1, 5), (3, 64)] {
            let mut ask = random(chance, width, height, rounds, 20);
            (ask.work, ask.wide_work) = (ask.work + more, ask.wide_work + 2 * more);
            let due = (0, ask.accepted("random"));
            for _ in 0..3 {
                assert!(finished(chance, &ask) == due, "{:?}, other contents before", ask.fields);
            }
        }
    }
}

/// Demand 3 of this frame and this list: both finishings are accepted, or both refused with the same number; accepted, the
/// planes are turned alike. Hands back the number.
fn assert_turned_alike(chance: &mut Chance, ask: &Ask, list: &[Turning]) -> u32 {
    let Fields { width, height, layout, .. } = ask.fields;
    let framed = |samples| Frame { width, height, layout, samples };
    let (number, first) = finished(chance, ask);
    let (Frame { width, height, layout, samples }, turns) = after_list(&framed(ask.mosaic.clone()), list);
    let fields = Fields { width, height, layout, ..ask.fields };
    let turned_ask = Ask { fields, mosaic: samples, ..ask.clone() };
    let (turned_number, found) = finished(chance, &turned_ask);
    assert_eq!(turned_number, number, "{:?} after {list:?}", ask.fields);
    if number == 0 {
        for ((plane, found), colour) in first.into_iter().zip(&found).zip(COLOURS) {
            let due = turns.iter().fold(framed(plane), |plane, &turn| plane.turned(turn));
            assert_same(found, &due.samples, &format!("{colour} of {:?} after {list:?}", ask.fields));
        }
    }
    number
}

/// Up to six turning calls on a frame of this size, some of them refused: by the turn, by the second buffer, by both.
fn random_list(chance: &mut Chance, width: usize, height: usize) -> Vec<Turning> {
    let wrong = wrong_lengths(width, height);
    let mut list = Vec::new();
    for _ in 0..chance.between(0, 6) {
        let (turn, no_turn) = (chance.between(0, 7) as u32, wrong_number(chance, 16));
        let turn = chance.one_of(&[turn, turn, turn, no_turn]);
        let length = chance.one_of(&wrong);
        list.push((turn, chance.one_of(&[width * height, width * height, width * height, length])));
    }
    list
}

/// A frame with a mosaic of a kind by chance and few rounds or none.
fn of_a_kind(chance: &mut Chance, width: usize, height: usize, layout: u32) -> Ask {
    let (rounds, threshold) = chance.one_of(&[(0, 0), (1, 4095), (2, 0), (3, 20), (3, 300), (8, 1)]);
    let kinds = kinds(chance, width, height);
    let mosaic = &kinds[chance.place(kinds.len())].1;
    of_mosaic(chance, Fields { width, height, layout, rounds, threshold }, mosaic)
}

#[test]
fn turned_frames() {
    let chance = &mut Chance(0xc2b2_ae3d_27d4_eb4f);
    for (width, height) in small_sizes().chain([(16, 16), (31, 18), (40, 9), (17, 66), (129, 2)]) {
        for (layout, turn) in (0..8).flat_map(|layout| (0..8).map(move |turn| (layout, turn))) {
            for _ in 0..2 {
                let ask = of_a_kind(chance, width, height, layout);
                assert_eq!(assert_turned_alike(chance, &ask, &[(turn, width * height)]), 0);
            }
        }
    }
}

#[test]
fn frames_turned_by_lists() {
    let chance = &mut Chance(0x1656_67b1_9e37_79f9);
    let (mut calls, mut accepted) = (0, 0);
    for (width, height) in small_sizes() {
        for layout in (0..8).flat_map(|layout| [layout; 4]) {
            let list = random_list(chance, width, height);
            let ask = of_a_kind(chance, width, height, layout);
            assert_eq!(assert_turned_alike(chance, &ask, &list), 0);
            calls += list.len();
            accepted += after_list(&Frame { width, height, layout, samples: ask.mosaic }, &list).1.len();
        }
    }
    // of four turns one is none, of four lengths one is wrong: nine of sixteen calls are accepted
    assert!(accepted > calls / 2 && accepted < calls * 5 / 8, "{accepted} of {calls} turning calls accepted");
}

/// Samples, rounds and a threshold out of range, planes and work buffers, wide ones too, of another length, alone and several
/// at once.
#[test]
fn turned_frames_refused_alike() {
    let chance = &mut Chance(0x27d4_eb2f_1656_67c5);
    let mut counts = Counts::default();
    for questions in sets(&[4, 5, 7, 8, 18, 9]) {
        for _ in 0..40 {
            let ask = Ask::wrong(chance, &questions);
            let list = random_list(chance, ask.fields.width, ask.fields.height);
            let number = assert_turned_alike(chance, &ask, &list);
            assert_eq!(number, questions.first().copied().unwrap_or(0), "{questions:?} answered no");
            counts.add(number);
        }
    }
    counts.assert_complete("finishing, turned", &[4, 5, 7, 8, 18, 9]);
}

#[test]
fn a_large_frame_turned() {
    let chance = &mut Chance(0x85eb_ca77_c2b2_ae63);
    let (width, height) = (501, 333);
    let mut ask = random(chance, width, height, 3, 20);
    ask.fields.layout = 5;
    ask.accepted("random");
    let count = width * height;
    for turn in 1..8 {
        assert_eq!(assert_turned_alike(chance, &ask, &[(turn, count)]), 0);
    }
    let list = [(5, count), (8, count), (2, count - 1), (3, count), (6, count + 1), (4, count)];
    assert_eq!(assert_turned_alike(chance, &ask, &list), 0);
    let mut above = ask.clone();
    above.mosaic[count - 1] = 4096;
    assert_eq!(assert_turned_alike(chance, &above, &list), 9);
    let short = Ask { work: 8 * count - 1, ..ask.clone() };
    assert_eq!(assert_turned_alike(chance, &short, &list), 8);
    assert_eq!(assert_turned_alike(chance, &Ask { wide_work: 8 * count - 1, ..ask }, &list), 18);
}

#[test]
fn the_printed_frame() {
    let chance = &mut Chance(0xff51_afd7_ed55_8ccd);
    for layout in [0, 4] {
        let fields = Fields { width: 2, height: 2, layout, rounds: 8, threshold: 0 };
        let found = of_mosaic(chance, fields, &[100, 50, 50, 20]).accepted("printed");
        assert_eq!(found, [[100; 4], [50; 4], [20; 4]]);
    }
}

/// As documents 01 and 02 write them.
#[test]
fn the_limits_in_words() {
    let chance = &mut Chance(0xc4ce_b9fe_1a85_ec53);
    for (length, of_width, of_height) in [(1, 1, 2), (2, 0, 0), (2048, 0, 0), (2049, 1, 2)] {
        assert_eq!(Ask::sound(chance, length, 2).number("a width"), of_width, "width {length}");
        assert_eq!(Ask::sound(chance, 2, length).number("a height"), of_height, "height {length}");
    }
    for (layout, number) in [(3, 0), (4, 0), (7, 0), (8, 3), (255, 3), (256 + 4, 3), (u32::MAX, 3)] {
        let mut ask = Ask::sound(chance, 3, 2);
        ask.fields.layout = layout;
        assert_eq!(ask.number("a layout"), number, "layout {layout}");
    }
    for (threshold, number) in [(4095, 0), (4096, 5)] {
        assert_eq!(random(chance, 3, 2, 1, threshold).number("a threshold"), number, "threshold {threshold}");
    }
    for (sample, number) in [(4095, 0), (4096, 9)] {
        let fields = chance.few_rounds(3, 2);
        let ask = of_mosaic(chance, fields, &spike(6, 4, sample, 7));
        assert_eq!(ask.number("a sample"), number, "sample {sample}");
    }
}

#[test]
fn refused() {
    refusals::<Ask>(|chance, counts| {
        lengths_refused::<Finishing>(chance, counts);
        work_refused::<Finishing>(chance, counts);
        samples_refused::<Finishing>(chance, counts);
        large_frames_refused::<Finishing>(counts);
    });
}
