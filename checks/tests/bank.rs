//! The C calls `demosaic_split`, `demosaic_join` and `demosaic_bring_back` answer what the reference answers, and leave
//! in every buffer, and beside it, what the reference leaves.

use checks::bank::{self, JOIN_LIMIT, SPLIT_LIMIT};
use checks::border::reflect;
use checks::buffers::{assert_same, Buffer, Number};
use checks::chance::Chance;
use checks::refusals::{sets, wrong_lengths, Counts, NO_LENGTH};

#[path = "../src/library.rs"]
mod library;

type Buffers = Vec<Vec<i32>>;

/// Buffers with the places beside them.
type Handed = Vec<Buffer<i32>>;

/// A call over its given buffers and its lent ones.
type Asked = fn(usize, usize, Vec<&[i32]>, Vec<&mut [i32]>) -> Result<(), u32>;

/// One of the bank's two calls: how many buffers it is given and lent, and what bounds the given values.
struct Call {
    name: &'static str,
    given: usize,
    lent: usize,
    limit: i32,
    library: Asked,
    reference: Asked,
}

const SPLIT: Call = Call {
    name: "split",
    given: 1,
    lent: 4,
    limit: SPLIT_LIMIT,
    library: |width, height, given, lent| library::split(width, height, given[0], lent.try_into().unwrap()),
    reference: |width, height, given, lent| bank::split(width, height, given[0], lent.try_into().unwrap()),
};

const JOIN: Call = Call {
    name: "join",
    given: 4,
    lent: 1,
    limit: JOIN_LIMIT,
    library: |width, height, given, mut lent| {
        library::join(width, height, given.try_into().unwrap(), lent.remove(0))
    },
    reference: |width, height, given, mut lent| {
        bank::join(width, height, given.try_into().unwrap(), lent.remove(0))
    },
};

/// What a call is asked with: the size, the given values and the lengths of the lent buffers.
#[derive(Clone)]
struct Ask {
    width: usize,
    height: usize,
    given: Buffers,
    lent: Vec<usize>,
}

impl Ask {
    /// With these values, and each lent buffer as long as it has to be.
    fn of(call: &Call, width: usize, height: usize, given: Buffers) -> Ask {
        Ask { width, height, given, lent: vec![width * height; call.lent] }
    }

    /// With values by chance, and each buffer as long as it has to be.
    fn sound(call: &Call, chance: &mut Chance, width: usize, height: usize) -> Ask {
        let given = (0..call.given).map(|_| random(chance, width * height, call.limit)).collect();
        Ask::of(call, width, height, given)
    }
}

/// The answer, the given buffers after the call and the lent ones.
fn asked(call: Asked, ask: &Ask) -> (Result<(), u32>, Handed, Handed) {
    let given: Handed = ask.given.iter().map(|values| Buffer::given(values)).collect();
    let mut lent: Handed = ask.lent.iter().map(|&length| Buffer::lent(length)).collect();
    let answer = call(
        ask.width,
        ask.height,
        given.iter().map(|buffer| buffer.inside()).collect(),
        lent.iter_mut().map(|buffer| buffer.inside_mut()).collect(),
    );
    (answer, given, lent)
}

/// Asks the library and the reference alike, compares the answers and the buffers, and hands back the library's number
/// and lent buffers.
fn compared(call: &Call, ask: &Ask, kind: &str) -> (u32, Buffers) {
    let what = format!("{} of {} by {}, {kind}", call.name, ask.width, ask.height);
    let (answer, given, lent) = asked(call.library, ask);
    let (due_answer, _, due) = asked(call.reference, ask);
    assert_eq!(answer, due_answer, "{what}");
    for (k, values) in ask.given.iter().enumerate() {
        given[k].assert_holds(values, &format!("{what}: given buffer {}", k + 1));
    }
    for k in 0..call.lent {
        let what = format!("{what}: lent buffer {}", k + 1);
        lent[k].assert_holds(due[k].inside(), &what);
        if answer.is_err() {
            lent[k].assert_untouched(&format!("{what}, refused"));
        }
    }
    let lent = lent.iter().map(|buffer| buffer.inside().to_vec()).collect();
    (answer.err().unwrap_or(0), lent)
}

/// The library's lent buffers after an accepted call.
fn accepted(call: &Call, ask: &Ask, kind: &str) -> Buffers {
    let (number, lent) = compared(call, ask, kind);
    assert_eq!(number, 0, "{} of {} by {}, {kind}", call.name, ask.width, ask.height);
    lent
}

/// Splits the plane and joins its bands: 1,024 times the plane, which comes back where it holds samples.
fn split_then_joined(width: usize, height: usize, plane: &[i32], kind: &str) {
    let what = format!("join of the split of {width} by {height}, {kind}");
    let bands = accepted(&SPLIT, &Ask::of(&SPLIT, width, height, vec![plane.to_vec()]), kind);
    let mut sums: Vec<i32> = (0..plane.len()).map(Number::pattern).collect();
    let given = bands.iter().map(|band| &band[..]).collect();
    assert_eq!((JOIN.library)(width, height, given, vec![&mut sums]), Ok(()), "{what}");
    let due: Vec<i32> = plane.iter().map(|value| 1024 * value).collect();
    assert_same(&sums, &due, &what);
    let brought_back: Vec<i32> = sums.iter().map(|&sum| library::bring_back(sum).into()).collect();
    let samples: Vec<i32> = plane.iter().map(|&value| value.clamp(0, 4095)).collect();
    assert_same(&brought_back, &samples, &format!("{what}, brought back"));
}

/// Values from −limit to limit, both ends included.
fn random(chance: &mut Chance, count: usize, limit: i32) -> Vec<i32> {
    (0..count).map(|_| chance.within(limit)).collect()
}

/// limit where `plus(row, column)`, −limit elsewhere.
fn two_ends(width: usize, height: usize, limit: i32, plus: fn(usize, usize) -> bool) -> Vec<i32> {
    let value = |k| if plus(k / width, k % width) { limit } else { -limit };
    (0..width * height).map(value).collect()
}

/// Planes of the kinds that make bands and sums large.
fn kinds(chance: &mut Chance, width: usize, height: usize, limit: i32) -> Vec<(&'static str, Vec<i32>)> {
    let count = width * height;
    let two_ends = |plus| two_ends(width, height, limit, plus);
    let few = [limit, -limit, limit - 1, 1 - limit, 1, 0, -1];
    vec![
        ("random", random(chance, count, limit)),
        ("random ends", (0..count).map(|_| chance.one_of(&[limit, -limit])).collect()),
        ("random among few", (0..count).map(|_| chance.one_of(&few)).collect()),
        ("all at the upper end", vec![limit; count]),
        ("all at the lower end", vec![-limit; count]),
        ("checkerboard", two_ends(|i, j| (i + j) % 2 == 0)),
        ("checkerboard from the lower end", two_ends(|i, j| (i + j) % 2 == 1)),
        ("rows in turn", two_ends(|i, _| i % 2 == 0)),
        ("columns in turn", two_ends(|_, j| j % 2 == 0)),
    ]
}

/// Every kind of plane split and joined again; then every kind of band joined, each of the four with a sign by chance.
fn all_kinds(chance: &mut Chance, width: usize, height: usize) {
    for (kind, plane) in kinds(chance, width, height, SPLIT_LIMIT) {
        split_then_joined(width, height, &plane, kind);
    }
    let kinds = kinds(chance, width, height, JOIN_LIMIT);
    for (kind, band) in &kinds {
        let signed = |sign: i32| band.iter().map(|value| sign * value).collect();
        let bands = (0..4).map(|_| signed(chance.one_of(&[1, -1]))).collect();
        accepted(&JOIN, &Ask::of(&JOIN, width, height, bands), kind);
    }
    let bands = (0..4).map(|_| kinds[chance.place(kinds.len())].1.clone()).collect();
    accepted(&JOIN, &Ask::of(&JOIN, width, height, bands), "a kind for each band");
}

/// One value that is not 0, in each given buffer, at these places.
fn spikes(call: &Call, chance: &mut Chance, width: usize, height: usize, places: &[usize]) {
    for buffer in 0..call.given {
        for &place in places {
            let mut given = vec![vec![0; width * height]; call.given];
            given[buffer][place] = chance.one_of(&[call.limit, -call.limit, 1, -1]);
            accepted(call, &Ask::of(call, width, height, given), "a spike");
        }
    }
}

#[test]
fn every_small_size() {
    let chance = &mut Chance(0x9e37_79b9_7f4a_7c15);
    for width in 1..=17 {
        for height in 1..=17 {
            all_kinds(chance, width, height);
            let count = width * height;
            let every_place: Vec<usize> = (0..count).collect();
            let some = [0, width - 1, count / 2, chance.place(count), count - width, count - 1];
            let places = if width <= 9 && height <= 9 { &every_place[..] } else { &some[..] };
            spikes(&SPLIT, chance, width, height, places);
            spikes(&JOIN, chance, width, height, places);
        }
    }
}

/// Lengths around those that a machine takes at once.
#[test]
fn longer_lines() {
    let chance = &mut Chance(0x0123_4567_89ab_cdef);
    for length in (18..=40).chain([63, 64, 65, 127, 128, 129, 255, 256, 257]) {
        for other in [1, 2, 3, 5] {
            all_kinds(chance, length, other);
            all_kinds(chance, other, length);
        }
    }
}

#[test]
fn large_planes() {
    let chance = &mut Chance(0xfedc_ba98_7654_3210);
    for (width, height) in [(2048, 1), (1, 2048), (2047, 3), (3, 2047)] {
        all_kinds(chance, width, height);
    }
    let plane: Vec<i32> = (0..2048 * 2048)
        .map(|_| {
            let within = chance.within(SPLIT_LIMIT);
            chance.one_of(&[SPLIT_LIMIT, -SPLIT_LIMIT, within, within])
        })
        .collect();
    split_then_joined(2048, 2048, &plane, "random");
    accepted(&JOIN, &Ask::sound(&JOIN, chance, 2048, 2048), "random");
}

/// Four bands at the ends of their range, each value with the sign of its weight in the sum at row i, column j.
fn bands_with_the_signs_of(width: usize, height: usize, i: usize, j: usize) -> Buffers {
    let low = [-1, 1, 1, 1, -1];
    let high = [1, 1, -1, 1, 1];
    let mut bands = Vec::new();
    for (along_rows, along_columns) in [(low, low), (high, low), (low, high), (high, high)] {
        let mut band = vec![JOIN_LIMIT; width * height];
        for (row, down) in (i as i64 - 2..).zip(along_columns) {
            for (column, across) in (j as i64 - 2..).zip(along_rows) {
                band[reflect(height, row) * width + reflect(width, column)] = down * across * JOIN_LIMIT;
            }
        }
        bands.push(band);
    }
    bands
}

/// The corners from 3 by 3 on, and the middle from 5 by 5 on: there no value has weights of both signs.
#[test]
fn the_largest_sums() {
    for width in 3..=17 {
        for height in 3..=17 {
            let (right, bottom) = (width - 1, height - 1);
            let mut places = vec![(0, 0), (0, right), (bottom, 0), (bottom, right)];
            if width >= 5 && height >= 5 {
                places.push((height / 2, width / 2));
            }
            for (i, j) in places {
                let mut bands = bands_with_the_signs_of(width, height, i, j);
                for due in [75_479_040, -75_479_040] {
                    let ask = Ask::of(&JOIN, width, height, bands.clone());
                    let sums = accepted(&JOIN, &ask, "the signs of the weights").remove(0);
                    assert_eq!(sums[i * width + j], due, "{width} by {height}, row {i}, column {j}");
                    bands.iter_mut().flatten().for_each(|value| *value = -*value);
                }
            }
        }
    }
}

#[test]
fn case_d() {
    let bands = vec![vec![64, 64, 64], vec![64, -64, 64], vec![0; 3], vec![0; 3]];
    assert_eq!(accepted(&SPLIT, &Ask::of(&SPLIT, 3, 1, vec![vec![0, 8, 0]]), "case d"), bands);
    assert_eq!(accepted(&JOIN, &Ask::of(&JOIN, 3, 1, bands), "case d"), [[0, 8192, 0]]);
}

#[test]
fn sums_brought_back() {
    let by_hand = [(511, 0), (512, 1), (1536, 2), (-512, 0), (-513, 0), (4_192_767, 4094), (4_192_768, 4095)];
    for (sum, due) in by_hand {
        assert_eq!(library::bring_back(sum), due, "{sum}");
    }
    // every sum that the clipping keeps, and more on either side
    for sum in -10_000..=4_300_000 {
        assert_eq!(library::bring_back(sum), bank::bring_back(sum), "{sum}");
    }
    let middles = [i32::MIN, -75_479_040, -4095 * 1024, -65_536, 1 << 23, 1 << 26, 75_479_040, i32::MAX];
    for middle in middles {
        for sum in middle.saturating_sub(2000)..=middle.saturating_add(2000) {
            assert_eq!(library::bring_back(sum), bank::bring_back(sum), "{sum}");
        }
    }
    let chance = &mut Chance(0x2545_f491_4f6c_dd1d);
    for _ in 0..1_000_000 {
        for sum in [chance.within(75_479_040), chance.within(i32::MAX)] {
            assert_eq!(library::bring_back(sum), bank::bring_back(sum), "{sum}");
        }
    }
}

/// Asks, expects this number and counts it.
fn answered(call: &Call, ask: &Ask, number: u32, kind: &str, counts: &mut Counts) {
    let (found, _) = compared(call, ask, kind);
    assert_eq!(found, number, "{} of {} by {}, {kind}", call.name, ask.width, ask.height);
    counts.add(number);
}

/// Questions 1 and 2, each answered no alone; and the ends of their ranges.
fn sizes(call: &Call, chance: &mut Chance, counts: &mut Counts) {
    for length in NO_LENGTH {
        // as long as they would have to be, where that is not too long
        let count = if length <= 4096 { 3 * length } else { 9 };
        let ask = Ask::sound(call, chance, count, 1);
        answered(call, &Ask { width: length, height: 3, ..ask.clone() }, 1, "a width", counts);
        answered(call, &Ask { width: 3, height: length, ..ask }, 2, "a height", counts);
    }
    for (width, height) in [(1, 1), (1, 3), (3, 1), (2048, 1), (1, 2048), (2047, 2), (2, 2047)] {
        let ask = Ask::sound(call, chance, width, height);
        answered(call, &ask, 0, "an end of the range", counts);
    }
}

/// Questions 6 and 7, each answered no alone: of each buffer, and of two whose lengths together would be right.
fn lengths(call: &Call, chance: &mut Chance, counts: &mut Counts) {
    for (width, height) in [(1, 1), (1, 2), (2, 1), (3, 2), (7, 5), (16, 16), (17, 3), (64, 2)] {
        let sound = Ask::sound(call, chance, width, height);
        for length in wrong_lengths(width, height) {
            let rest = (2 * width * height).saturating_sub(length);
            for buffer in 0..call.given {
                let mut ask = sound.clone();
                ask.given[buffer] = random(chance, length, call.limit);
                answered(call, &ask, 6, "a given buffer's length", counts);
                if buffer > 0 {
                    ask.given[buffer - 1] = random(chance, rest, call.limit);
                    answered(call, &ask, 6, "two given buffers' lengths", counts);
                }
            }
            for buffer in 0..call.lent {
                let mut ask = sound.clone();
                ask.lent[buffer] = length;
                answered(call, &ask, 7, "a lent buffer's length", counts);
                if buffer > 0 {
                    ask.lent[buffer - 1] = rest;
                    answered(call, &ask, 7, "two lent buffers' lengths", counts);
                }
            }
        }
    }
}

/// Question 15 alone, at every place of each given buffer: the ends are in range, one beyond is not.
fn values(call: &Call, chance: &mut Chance, counts: &mut Counts) {
    let (limit, beyond) = (call.limit, call.limit + 1);
    let tries = [(limit, 0), (-limit, 0), (beyond, 15), (-beyond, 15), (i32::MIN, 15), (i32::MAX, 15)];
    for (width, height) in [(1, 1), (1, 2), (2, 1), (3, 2), (7, 5), (16, 8), (33, 2), (2, 35)] {
        let count = width * height;
        let sound = Ask::sound(call, chance, width, height);
        for buffer in 0..call.given {
            for place in 0..count {
                for (value, number) in tries {
                    let mut ask = sound.clone();
                    ask.given[buffer][place] = value;
                    answered(call, &ask, number, &format!("{value} at place {place}"), counts);
                }
            }
        }
    }
}

/// Question 15 in the largest planes, at the first, a middle and the last place.
fn values_in_large_planes(call: &Call, chance: &mut Chance, counts: &mut Counts) {
    let count = 2048 * 2048;
    let mut ask = Ask::of(call, 2048, 2048, vec![vec![call.limit; count]; call.given]);
    for place in [0, count / 2 + 77, count - 1] {
        let buffer = chance.place(call.given);
        ask.given[buffer][place] = chance.one_of(&[call.limit + 1, -call.limit - 1]);
        answered(call, &ask, 15, &format!("beyond the range at place {place}"), counts);
        ask.given[buffer][place] = call.limit;
    }
}

/// The questions in their order.
const QUESTIONS: [u32; 5] = [1, 2, 6, 7, 15];

/// A call of which these questions are answered no.
fn wrong(call: &Call, chance: &mut Chance, questions: &[u32]) -> Ask {
    let (width, height) = (chance.between(2, 9) as usize, chance.between(1, 9) as usize);
    let count = width * height;
    let mut ask = Ask::sound(call, chance, width, height);
    let given = chance.place(call.given);
    for question in questions {
        match question {
            1 => ask.width = chance.one_of(&NO_LENGTH),
            2 => ask.height = chance.one_of(&NO_LENGTH),
            6 => {
                let length = chance.one_of(&[count - 1, count + 1, 100]);
                ask.given[given] = random(chance, length, call.limit);
            }
            7 => ask.lent[chance.place(call.lent)] = chance.one_of(&[0, count - 1, count + 1]),
            _ => {
                let place = chance.place(ask.given[given].len());
                ask.given[given][place] = chance.one_of(&[call.limit + 1, -call.limit - 1, i32::MIN]);
            }
        }
    }
    ask
}

/// Every set of questions answered no at once, so that their order shows.
fn several_wrongs(call: &Call, chance: &mut Chance, counts: &mut Counts) {
    for questions in sets(&QUESTIONS) {
        let number = questions.first().copied().unwrap_or(0);
        for _ in 0..20 {
            let ask = wrong(call, chance, &questions);
            answered(call, &ask, number, &format!("{questions:?} answered no"), counts);
        }
    }
}

#[test]
fn refusals() {
    let chance = &mut Chance(0xda94_2042_e4dd_58b5);
    for call in [SPLIT, JOIN] {
        let mut counts = Counts::default();
        sizes(&call, chance, &mut counts);
        lengths(&call, chance, &mut counts);
        values(&call, chance, &mut counts);
        values_in_large_planes(&call, chance, &mut counts);
        several_wrongs(&call, chance, &mut counts);
        counts.assert_complete(call.name, &QUESTIONS);
    }
}
