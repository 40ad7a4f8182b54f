//! The C call `demosaic_rounds` answers what the reference answers, and leaves in every buffer, and beside it, what the
//! reference leaves, with one level of the filter bank and with two.

use checks::bank::Plane;
use checks::chance::Chance;
use checks::estimate::estimates_of;
use checks::holes;
use checks::kept::{Told, OTHER_ENDS};
use checks::low_band::{at_every_place, mixed_sum, times, towards, weights};
use checks::mosaic::{has_two_levels, Colour, Mosaic};
use checks::mosaics::{kinds, longer_lengths, opposite, spike, Kind, OF_TWO, SQUARES};
use checks::packet::Fields;
use checks::planes_call::{self, largest, settings, Call, Planes, PlanesCall, COLOURS};
use checks::planes_call::{large_frames_refused, lengths_refused, samples_refused, work_refused};
use checks::refusals::{
    answered, refusals, Counts, FrameCall, NO_SAMPLE, SHAPES, TRIES, TRIES_IN_THE_LARGEST,
};
use checks::rounds::rounds;
use checks::turns::Frame;

#[path = "../src/library.rs"]
mod library;

#[derive(Clone)]
struct Rounds;

impl PlanesCall for Rounds {
    const NAME: &'static str = "rounds";
    const QUESTIONS: &'static [u32] = &[1, 2, 3, 4, 5, 6, 7, 8, 18, 9, 10];
    const LIBRARY: Call = |fields, mosaic, [red, green, blue], work, wide_work| {
        library::rounds(fields, mosaic, red, green, blue, work, wide_work)
    };
    const REFERENCE: Call = |fields, mosaic, [red, green, blue], work, wide_work| {
        rounds(fields, mosaic, red, green, blue, work, wide_work)
    };

    fn plane(chance: &mut Chance, count: usize) -> Vec<u16> {
        chance.samples(count)
    }

    fn before_rounds(_: &Fields, _: &[u16], planes: &Planes) -> Planes {
        planes.clone()
    }

    fn of_two(_: &mut Chance, fields: Fields, green: &[u16], coloured: &[u16]) -> Ask {
        Ask::of(fields, coloured, [coloured, green, coloured].map(|plane| plane.to_vec()))
    }
}

type Ask = planes_call::Ask<Rounds>;

/// A layout with two levels.
fn two_levels(chance: &mut Chance) -> u32 {
    chance.between(4, 7) as u32
}

/// The mosaic with its estimates.
fn estimated(fields: Fields, mosaic: &[u16]) -> Ask {
    Ask::of(fields, mosaic, estimates_of(fields.width, fields.height, fields.layout, mosaic))
}

/// A mosaic with its estimates, and with planes of kinds by chance, which have nothing to do with it or with each other.
fn estimated_and_unrelated(chance: &mut Chance, fields: Fields, (kind, mosaic): &Kind, kinds: &[Kind]) {
    estimated(fields, mosaic).accepted(&format!("{kind}, its estimates"));
    let of_planes = [(); 3].map(|_| &kinds[chance.place(kinds.len())]);
    let names = of_planes.map(|(name, _)| name);
    let planes = of_planes.map(|(_, plane)| plane.clone());
    Ask::of(fields, mosaic, planes).accepted(&format!("{kind}, planes {names:?}"));
}

/// All rounds and thresholds that are tried, with mosaics of kinds by chance.
fn all_settings(chance: &mut Chance, width: usize, height: usize, layout: u32) {
    let kinds = kinds(chance, width, height);
    for (rounds, threshold) in settings(chance) {
        let fields = Fields { width, height, layout, rounds, threshold };
        let kind = &kinds[chance.place(kinds.len())];
        estimated_and_unrelated(chance, fields, kind, &kinds);
    }
}

/// Mosaics of every kind, rounds and thresholds by chance.
fn all_kinds(chance: &mut Chance, width: usize, height: usize) {
    let kinds = kinds(chance, width, height);
    for kind in &kinds {
        let fields = chance.few_rounds(width, height);
        estimated_and_unrelated(chance, fields, kind, &kinds);
    }
}

/// One value unlike all others, at every place, in the mosaic or in a plane.
fn spikes(chance: &mut Chance, width: usize, height: usize) {
    let count = width * height;
    for place in 0..count {
        for (value, others) in [(4095, 0), (0, 4095), (1000, 1001)] {
            let fields = chance.few_rounds(width, height);
            for buffer in 0..4 {
                let mut given = [(); 4].map(|_| vec![1500; count]);
                given[buffer] = spike(count, place, value, others);
                let [mosaic, planes @ ..] = given;
                let kind = format!("{value} at place {place} of buffer {buffer}, {others} at the others");
                Ask::of(fields, &mosaic, planes).accepted(&kind);
            }
        }
    }
}

/// Green of every kind, and its opposite in red and blue: their details lie as far apart as such details can.
fn opposites(chance: &mut Chance, width: usize, height: usize) {
    for (kind, green) in kinds(chance, width, height) {
        let fields = chance.few_rounds(width, height);
        let other = opposite(&green);
        let ask = Ask::of(fields, &green, [other.clone(), green.clone(), other]);
        ask.accepted(&format!("mosaic and green {kind}, red and blue the opposite"));
    }
}

#[test]
fn every_small_size_with_every_setting() {
    let chance = &mut Chance(0x9e37_79b9_7f4a_7c15);
    for width in 2..=10 {
        for height in 2..=10 {
            (0..8).for_each(|layout| all_settings(chance, width, height, layout));
        }
    }
}

#[test]
fn every_small_size_with_every_kind() {
    let chance = &mut Chance(0x2545_f491_4f6c_dd1d);
    for width in 2..=10 {
        for height in 2..=10 {
            all_kinds(chance, width, height);
            opposites(chance, width, height);
            spikes(chance, width, height);
        }
    }
}

/// The taps of two levels together reach nine places either way.
#[test]
fn larger_sizes_with_two_levels() {
    let chance = &mut Chance(0xda3e_39cb_94b9_5bdb);
    for (width, height) in (3..=21).flat_map(|width| (3..=21).map(move |height| (width, height))) {
        let kinds = kinds(chance, width, height);
        for kind in kinds.iter().skip(chance.place(9)).step_by(9) {
            let fields = Fields { layout: two_levels(chance), ..chance.few_rounds(width, height) };
            estimated_and_unrelated(chance, fields, kind, &kinds);
        }
    }
}

#[test]
fn longer_lines() {
    let chance = &mut Chance(0x0123_4567_89ab_cdef);
    for length in longer_lengths() {
        for other in [2, chance.between(3, 6) as usize] {
            all_kinds(chance, length, other);
            all_kinds(chance, other, length);
        }
    }
}

/// Lines of every length up to 300, and some up to the longest.
#[test]
fn lines_with_two_levels() {
    let chance = &mut Chance(0x6c07_8965_3c6e_f372);
    for length in (3..=300).chain((301..2047).step_by(13)).chain([2047, 2048]) {
        let other = chance.one_of(&[2, 3, 3, 4, 5]);
        for (width, height) in [(length, other), (other, length)] {
            let ask = Ask::sound(chance, width, height);
            Ask { fields: Fields { layout: two_levels(chance), rounds: 1, ..ask.fields }, ..ask }
                .accepted("random");
        }
    }
}

#[test]
fn large_frames() {
    let chance = &mut Chance(0xfedc_ba98_7654_3210);
    for length in [2047, 2048] {
        for other in [2, 3, 5] {
            for (width, height) in [(length, other), (other, length)] {
                let ask = Ask::sound(chance, width, height);
                ask.accepted("random");
                estimated(ask.fields, &ask.mosaic).accepted("random, its estimates");
            }
        }
    }
    let sizes = [(1025, 300, 2), (129, 511, 2), (1023, 33, 3)];
    for ((width, height, rounds), layout) in sizes.into_iter().flat_map(|size| [(size, 1), (size, 6)]) {
        let ask = Ask::sound(chance, width, height);
        let fields = Fields { layout, rounds, threshold: 20, ..ask.fields };
        Ask::of(fields, &ask.mosaic, ask.planes).accepted("random");
    }
}

/// Held within some hundreds of green, planes by chance still change in the last of 64 rounds.
#[test]
fn many_rounds() {
    let chance = &mut Chance(0x5851_f42d_4c95_7f2d);
    for (width, height) in [(31, 18), (40, 9), (16, 33)] {
        for rounds in [16, 33, 63, 64] {
            for threshold in [100, 300, 1000] {
                let ask = Ask::sound(chance, width, height);
                Ask { fields: Fields { rounds, threshold, ..ask.fields }, ..ask }.accepted("random");
            }
        }
    }
}

#[test]
fn holes_of_every_size() {
    holes::of_every_size::<Rounds>();
}

/// Small squares take one level beyond what is kept in the first round, large ones two levels.
#[test]
fn holes_in_large_frames() {
    holes::in_the_largest_frames::<Rounds>([(1, SQUARES[0]), (6, SQUARES[2])]);
}

#[test]
fn holes_beyond_what_is_kept() {
    holes::beyond_what_is_kept::<Rounds>();
}

/// Small planes that move the sum at a place beyond what is kept, nearly as far as can be.
#[test]
fn small_planes_beyond_what_is_kept() {
    let chance = &mut Chance(0x589d_f9bb_6a1c_e2a1);
    let mut others = OTHER_ENDS.map(Told::from);
    for (width, height) in (4..=10).flat_map(|width| (4..=10).map(move |height| (width, height))) {
        for (layout, end) in (0..8).flat_map(|layout| [(layout, 0), (layout, 4095)]) {
            let fields = Fields { layout, ..chance.several_rounds(width, height) };
            let place = chance.one_of(&[0, width - 1, width * (height / 2) + width / 2, width * height - 1]);
            let planes = towards(has_two_levels(layout), width, height, place, end);
            let [coloured, green] = planes.map(|plane| chance.nearly(&plane));
            let ask = Rounds::of_two(chance, fields, &green, &coloured);
            ask.accepted_and_told(&format!("towards {end} at place {place}"), &mut others);
        }
    }
    others.iter().for_each(|told| told.assert_often("small planes"));
}

/// 4 by 4 with T = 0, and two rounds. At the first place −4,159 comes back after the first, and −4,095 is kept: so red and blue
/// become 756 at row 1, column 1 (`rounds.rs`). And the opposite. Turned: so in every layout.
#[test]
fn both_ends_of_what_is_kept_by_hand() {
    let (w, b) = (4095, 0);
    let coloured = vec![b, b, b, w, b, b, b, w, b, b, b, w, w, w, w, b];
    let green = vec![b, w, w, b, w, w, w, b, w, w, w, b, b, b, b, w];
    let opposites = [opposite(&coloured), opposite(&green)];
    for ([coloured, green], due) in [([coloured, green], 756), (opposites, 4095 - 756)] {
        for turn in 0..8 {
            let turned = |samples: &[u16]| {
                Frame { width: 4, height: 4, layout: 1, samples: samples.to_vec() }.turned(turn)
            };
            let Frame { layout, samples, .. } = turned(&coloured);
            let fields = Fields { width: 4, height: 4, layout, rounds: 2, threshold: 0 };
            let ask = Rounds::of_two(&mut Chance(1), fields, &turned(&green).samples, &samples);
            let [red, _, blue] = ask.accepted("both ends");
            let place = turned(&spike(16, 5, 1, 0)).samples.iter().position(|&there| there == 1).unwrap();
            assert_eq!([red[place], blue[place]], [due; 2], "turn {turn}");
        }
    }
}

/// Values that move the sum at row i, column j towards this end, as far beyond what the clipping keeps as can be.
fn assert_clipped_at(layout: u32, side: usize, i: usize, j: usize, end: u16) {
    let place = i * side + j;
    let [coloured, green] = towards(has_two_levels(layout), side, side, place, end);
    let mosaic = vec![2000; side * side];
    let fields = Fields { width: side, height: side, layout, rounds: 1, threshold: 0 };
    let ask = Ask::of(fields, &mosaic, [coloured.clone(), green, coloured]);
    let [red, _, blue] = ask.accepted("the signs of the weights");
    let mosaic = Mosaic { width: side, height: side, layout, samples: &mosaic };
    let due = match mosaic.colour(i as i64, j as i64) {
        Colour::Red => [2000, end],
        Colour::Green => [end, end],
        Colour::Blue => [end, 2000],
    };
    assert_eq!([red[place], blue[place]], due, "{side} by {side}, layout {layout}, row {i}, column {j}");
}

fn assert_clipped(side: usize, i: usize, j: usize, end: u16) {
    (0..8).for_each(|layout| assert_clipped_at(layout, side, i, j, end));
}

#[test]
fn the_largest_sums() {
    at_every_place(assert_clipped);
    // so large that no weight is reflected at the middle place
    for (side, i, j) in [(19, 9, 9), (20, 10, 9), (21, 10, 11), (19, 0, 9), (20, 19, 19), (21, 3, 17)] {
        assert_clipped(side, i, j, 4095);
        assert_clipped(side, i, j, 0);
    }
}

/// Moves the plane's values, within a sample's range, so that their weighted sum grows by so much: the largest weights first.
fn move_by(plane: &mut [u16], weights: &[i64], more: i64) {
    let mut places: Vec<usize> = (0..plane.len()).filter(|&k| weights[k] != 0).collect();
    places.sort_by_key(|&k| -weights[k].abs());
    let mut rest = more;
    for k in places {
        let sample = i64::from(plane[k]);
        let by = (rest / weights[k]).clamp(-sample, 4095 - sample);
        plane[k] = (sample + by) as u16;
        rest -= weights[k] * by;
    }
    assert_eq!(rest, 0, "the weights do not reach that far");
}

/// With T = 0, sums at a place that are a half, as little less as the weights allow, and as little more: a half goes up.
fn assert_rounded(chance: &mut Chance, layout: u32, width: usize, height: usize, place: usize) {
    let count = width * height;
    let (i, j) = (place / width, place % width);
    let two_levels = has_two_levels(layout);
    let weights = weights(two_levels, width, height, i, j);
    let least = weights.iter().map(|weight| weight.abs()).filter(|&weight| weight > 0).min().unwrap();
    for (more, up) in [(-least, 0), (0, 1), (least, 1)] {
        let [mut own, green] =
            [(); 2].map(|_| (0..count).map(|_| chance.between(1500, 2500) as u16).collect::<Vec<_>>());
        let sample = chance.between(1500, 2500) as u16;
        let half = times(two_levels) * i64::from(sample) + times(two_levels) / 2;
        let sum = mixed_sum(two_levels, width, height, place, &own, &green);
        move_by(&mut own, &weights, half + more - sum);
        let fields = Fields { width, height, layout, rounds: 1, threshold: 0 };
        let ask = Ask::of(fields, &chance.samples(count), [own.clone(), green, own]);
        let [red, _, blue] = ask.accepted("a sum at a half");
        let colour = Mosaic { width, height, layout, samples: &[] }.colour(i as i64, j as i64);
        let what = format!("{fields:?}, row {i}, column {j}, {more} from a half");
        assert!(colour == Colour::Red || red[place] == sample + up, "red of {what}");
        assert!(colour == Colour::Blue || blue[place] == sample + up, "blue of {what}");
    }
}

/// From 20 places on, at least one of a place's weights along a line is not reflected onto another, or all are but the
/// middle one.
#[test]
fn sums_at_a_half() {
    let chance = &mut Chance(0x27d4_eb2f_1656_67c5);
    for layout in (0..8).flat_map(|layout| [layout; 30]) {
        let (width, height) = (chance.between(20, 28) as usize, chance.between(20, 28) as usize);
        let count = width * height;
        for place in [0, width - 1, count - 1, chance.place(count)] {
            assert_rounded(chance, layout, width, height, place);
        }
    }
}

/// Black and white, each value with the sign that it has in the sum: no plane of samples makes it larger.
fn with_the_signs_of(count: usize, sum: impl Fn(&[u16]) -> i64) -> Vec<u16> {
    (0..count).map(|k| if sum(&spike(count, k, 4095, 0)) > 0 { 4095 } else { 0 }).collect()
}

/// The plane and green its opposite, and the other way round, with two levels and these thresholds.
fn opposites_at_two_levels(width: usize, height: usize, plane: &[u16], thresholds: &[u32]) {
    let other = opposite(plane);
    for (layout, &threshold) in (4..8).flat_map(|layout| thresholds.iter().map(move |t| (layout, t))) {
        let fields = Fields { width, height, layout, rounds: 1, threshold };
        for [own, green] in [[plane, &other], [&other, plane]] {
            let planes = [own, green, own].map(|plane| plane.to_vec());
            Ask::of(fields, own, planes).accepted("opposites");
        }
    }
}

/// Small planes and larger ones, and some places of each.
fn some_places() -> impl Iterator<Item = (usize, usize, usize)> {
    let sizes = [(3, 2), (2, 19), (19, 2), (4, 5), (5, 5), (9, 9), (13, 8), (19, 19)];
    sizes.into_iter().flat_map(|(width, height)| {
        let count = width * height;
        [0, width - 1, count / 2, count - 1].map(|place| (width, height, place))
    })
}

/// The second level's bands of a plane.
fn second_bands(width: usize, height: usize, plane: &[u16]) -> [Plane; 4] {
    Plane::given(width, height, plane).split(1)[0].split(2)
}

/// What the second level hands to the first at a place, as large as samples make it.
#[test]
fn the_largest_sums_of_the_second_level() {
    for (width, height, place) in some_places() {
        let handed = |plane: &[u16]| {
            let [band1, band2, band3, band4] = second_bands(width, height, plane);
            Plane::join(2, [band1.times(0), band2, band3, band4]).values[place]
        };
        let plane = with_the_signs_of(width * height, handed);
        opposites_at_two_levels(width, height, &plane, &[0, 1, 1000]);
    }
}

/// A detail of the second level as far from green's as samples make it, and thresholds that hold it much, little and not.
#[test]
fn the_largest_details_of_the_second_level() {
    for (width, height, place) in some_places() {
        for band in 1..4 {
            let detail = |plane: &[u16]| second_bands(width, height, plane)[band].values[place];
            let plane = with_the_signs_of(width * height, detail);
            let apart = detail(&plane) - detail(&opposite(&plane));
            let reached = (apart / 256) as u32;
            let less = [1000, 100, 10, 1, 0].map(|less| reached.saturating_sub(less));
            opposites_at_two_levels(width, height, &plane, &less);
            opposites_at_two_levels(width, height, &plane, &[reached + 1]);
        }
    }
}

/// Red and blue by hand, of planes that are alike: in one of the layouts each place keeps what the round makes of it. All
/// else is the mosaic's 7.
fn assert_by_hand(width: usize, height: usize, threshold: u32, own: &[u16], green: &[u16], due: &[u16]) {
    let count = width * height;
    for layout in 4..8 {
        let fields = Fields { width, height, layout, rounds: 1, threshold };
        let ask = Ask::of(fields, &vec![7; count], [own.to_vec(), green.to_vec(), own.to_vec()]);
        let [red, _, blue] = ask.accepted("by hand");
        let mosaic = Mosaic { width, height, layout, samples: &[] };
        for (k, &due) in due.iter().enumerate() {
            let colour = mosaic.colour((k / width) as i64, (k % width) as i64);
            let due = [Colour::Red, Colour::Blue].map(|own| if colour == own { 7 } else { due });
            assert_eq!([red[k], blue[k]], due, "{own:?}, {fields:?}, place {k}");
        }
    }
}

/// Three places along the rows, or along the columns, and the same in each other line: across, there is no detail. Green is
/// 100. With T = 0 what is left is half the middle place and a quarter of each other, and a half goes up; for T = 1 see
/// `projection.rs`; with the largest thresholds nothing is held, black beside white neither.
#[test]
fn three_places_by_hand() {
    let cases = [
        ([108, 100, 100], 0, [102, 102, 102]),
        ([108, 100, 100], 1, [104, 101, 101]),
        ([108, 100, 100], 4, [108, 100, 100]),
        ([102, 100, 100], 0, [101, 101, 101]),
        ([101, 100, 100], 0, [100, 100, 100]),
        ([94, 100, 100], 0, [99, 99, 99]),
        ([93, 100, 100], 0, [98, 98, 98]),
        ([100, 103, 100], 0, [102, 102, 102]),
        ([0, 4095, 0], 4095, [0, 4095, 0]),
    ];
    for (line, threshold, due) in cases {
        for other in [2, 3, 4] {
            let rows = |line: [u16; 3]| line.repeat(other);
            let columns = |line: [u16; 3]| line.map(|value| vec![value; other]).concat();
            let green = vec![100; 3 * other];
            assert_by_hand(3, other, threshold, &rows(line), &green, &rows(due));
            assert_by_hand(other, 3, threshold, &columns(line), &green, &columns(due));
        }
    }
}

/// Every threshold, with two levels.
#[test]
fn every_threshold_with_two_levels() {
    let chance = &mut Chance(0x1405_7b7e_f767_814f);
    for threshold in 0..=4095 {
        let (width, height) = (chance.between(3, 11) as usize, chance.between(2, 11) as usize);
        let ask = Ask::sound(chance, width, height);
        let fields = Fields { layout: two_levels(chance), rounds: 1, threshold, ..ask.fields };
        let few = ask.planes.each_ref().map(|plane| plane.iter().map(|s| s / 1365 * 1365).collect());
        Ask { fields, planes: few, ..ask.clone() }.accepted("random among few");
        Ask { fields, ..ask }.accepted("random");
    }
}

/// A plane as far as T from green, and the observed samples in it: its details are at most 16·T, and 256·T, from green's, and
/// no number of rounds changes it.
#[test]
fn planes_close_to_green_stay() {
    let chance = &mut Chance(0x5851_f42d_4c95_7f2d);
    for (width, height) in (2..=14).flat_map(|width| (2..=14).map(move |height| (width, height))) {
        for layout in [two_levels(chance) - 4, two_levels(chance)] {
            let threshold = chance.one_of(&[0, 1, 20, 300, 2047]);
            let green = chance.samples(width * height);
            let [red, blue] = [(); 2].map(|_| close(chance, &green, threshold));
            let mosaic = Mosaic { width, height, layout, samples: &[] };
            let observed = |k: usize| match mosaic.colour((k / width) as i64, (k % width) as i64) {
                Colour::Red => red[k],
                Colour::Green => green[k],
                Colour::Blue => blue[k],
            };
            let samples: Vec<u16> = (0..width * height).map(observed).collect();
            let rounds = chance.one_of(&[1, 2, 8]);
            let fields = Fields { width, height, layout, rounds, threshold: threshold.into() };
            let planes = [red, green, blue];
            assert!(Ask::of(fields, &samples, planes.clone()).accepted("close") == planes, "{fields:?}");
        }
    }
}

/// A plane as far as this from green, often at the ends.
fn close(chance: &mut Chance, green: &[u16], far: u16) -> Vec<u16> {
    let near = |&sample: &u16| {
        let within = chance.within(far.into());
        let far = i32::from(far);
        (i32::from(sample) + chance.one_of(&[far, -far, within])).clamp(0, 4095) as u16
    };
    green.iter().map(near).collect()
}

/// The planes of a turned mosaic and turned planes are the planes turned, with two levels.
#[test]
fn turned_with_two_levels() {
    let chance = &mut Chance(0xfedc_ba98_7654_3210);
    let small = (2..=12).flat_map(|width| (2..=12).map(move |height| (width, height)));
    for (width, height) in small.chain([(37, 29), (64, 9), (9, 64), (127, 130), (2, 2048)]) {
        let ask = Ask::sound(chance, width, height);
        let fields = Fields { layout: two_levels(chance), ..ask.fields };
        let framed = |samples| Frame { width, height, layout: fields.layout, samples };
        let after = Ask { fields, ..ask.clone() }.accepted("not turned").map(framed);
        let [mosaic, planes @ ..] =
            [&ask.mosaic, &ask.planes[0], &ask.planes[1], &ask.planes[2]].map(|plane| framed(plane.clone()));
        for turn in 0..8 {
            let Frame { width, height, layout, samples } = mosaic.turned(turn);
            assert!(has_two_levels(layout), "turn {turn} of {fields:?}");
            let turned: Planes = planes.each_ref().map(|plane| plane.turned(turn).samples);
            let found =
                Ask::of(Fields { width, height, layout, ..fields }, &samples, turned).compared("turned");
            let due = after.each_ref().map(|plane| plane.turned(turn).samples);
            assert!(found == (0, due), "turn {turn} of {fields:?}");
        }
    }
}

/// As document 01 writes it, after 0 to 3 rounds, and turned: so in every layout. 2 by 2 has no detail at the second level.
#[test]
fn case_k() {
    let framed = |samples: [u16; 4]| Frame { width: 2, height: 2, layout: 0, samples: samples.to_vec() };
    let mosaic = framed([100, 60, 60, 5]);
    let planes = [[100; 4], [40, 60, 60, 40], [5; 4]].map(framed);
    let due = [
        [[100, 100, 100, 100], [5, 5, 5, 5]],
        [[100, 110, 110, 90], [0, 15, 15, 5]],
        [[100, 113, 113, 93], [0, 18, 18, 5]],
        [[100, 115, 115, 95], [0, 20, 20, 5]],
    ];
    for (rounds, due) in (0..).zip(due) {
        for turn in 0..8 {
            let turned = mosaic.turned(turn);
            let due = due.map(|plane| framed(plane).turned(turn).samples);
            for layout in [turned.layout, turned.layout + 4] {
                let fields = Fields { width: 2, height: 2, layout, rounds, threshold: 0 };
                let planes = planes.each_ref().map(|plane| plane.turned(turn).samples);
                let [red, _, blue] = Ask::of(fields, &turned.samples, planes).accepted("case k");
                assert_eq!([&red, &blue], due.each_ref(), "{fields:?}, turn {turn}");
            }
        }
    }
}

/// Black beside white in green, and the opposite in red and blue: one band of detail holds 32,760 in one and −32,760 in
/// the other, 65,520 apart, which is 16 times 4,095. Held, it is 16·T from green's, and 16 of it join to 1,024: where
/// green is white the colours become 4,095 − T, where it is black they become T.
#[test]
fn every_threshold_by_hand() {
    for threshold in 0..=4095_u16 {
        for of_two in OF_TWO {
            let layout = u32::from(threshold % 8);
            let fields = Fields { width: 2, height: 2, layout, rounds: 1, threshold: threshold.into() };
            let planes = [of_two(0, 4095), of_two(4095, 0), of_two(0, 4095)].map(|plane| plane.to_vec());
            let [red, _, blue] = Ask::of(fields, &[7; 4], planes).accepted("opposites");
            let mut due = [of_two(4095 - threshold, threshold); 2];
            // red sits at the place of the layout's number, less 4 with two levels, blue at the opposite one
            due[0][layout as usize % 4] = 7;
            due[1][3 - layout as usize % 4] = 7;
            assert_eq!([red, blue], due, "{fields:?}");
        }
    }
}

/// Question 10 alone, at every place of every plane: 4,095 is in range, more is not.
fn planes_refused(chance: &mut Chance, counts: &mut Counts) {
    for (width, height) in SHAPES {
        let sound = Ask::sound(chance, width, height);
        for (plane, colour) in COLOURS.iter().enumerate() {
            for (place, (value, in_range)) in (0..width * height).flat_map(|k| TRIES.map(|tried| (k, tried)))
            {
                let mut ask = sound.clone();
                ask.planes[plane][place] = value;
                let number = if in_range { 0 } else { 10 };
                answered(&ask, number, &format!("{colour}, {value} at place {place}"), counts);
            }
            for value in NO_SAMPLE {
                let mut ask = sound.clone();
                ask.planes[plane] = vec![value; width * height];
                answered(&ask, 10, "no value of a plane in range", counts);
            }
        }
    }
}

/// Question 10 in the largest frames.
fn planes_of_large_frames_refused(counts: &mut Counts) {
    let mut ask: Ask = largest(4);
    for (plane, (place, value)) in TRIES_IN_THE_LARGEST.into_iter().enumerate() {
        ask.planes[plane][place] = value;
        answered(&ask, 10, &format!("{}, {value} at place {place}", COLOURS[plane]), counts);
        ask.planes[plane][place] = 4095;
    }
}

#[test]
fn refused() {
    refusals::<Ask>(|chance, counts| {
        lengths_refused::<Rounds>(chance, counts);
        work_refused::<Rounds>(chance, counts);
        samples_refused::<Rounds>(chance, counts);
        planes_refused(chance, counts);
        large_frames_refused::<Rounds>(counts);
        planes_of_large_frames_refused(counts);
    });
}
