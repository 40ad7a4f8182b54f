//! The C call `demosaic_spot` answers what the reference answers, and leaves behind each pointer, bit for bit, and beside it,
//! what the reference leaves; where it refuses, what stood there before. The planes stay.

use checks::buffers::{Buffer, Float};
use checks::chance::Chance;
use checks::mosaics::{filled, spike};
use checks::planes_call::{Planes, COLOURS};
use checks::refusals::{answer_no, answered, refusals, sets, wrong_lengths, Counts, FrameCall, SHAPES};
use checks::spot::{self, Kept, Reading, Spot, Sums, View, SIDE};

#[path = "../src/library.rs"]
mod library;

/// The sum of a window of samples of 65,535, the largest there is.
const WHITE: u64 = 67_107_840;

/// What the byte of the reading holds before a call, which is no reading, and what it holds after a lit frame.
const NO_READING: u8 = 0x5a;
const STEADY: u8 = 2;

/// What is kept, as C keeps it: every byte but 0 says that a lit frame has come.
#[derive(Clone, Copy, Debug)]
struct Held {
    spot: Spot,
    lit: u8,
}

/// Before the first frame.
const START: Held = Held { spot: [0.0; 3], lit: 0 };

/// What the call is asked with.
#[derive(Clone)]
struct Ask {
    view: View,
    planes: Planes,
    held: Held,
}

/// What the call is lent, with the places beside.
struct Lent {
    planes: [Buffer<u16>; 3],
    spot: [Buffer<Float>; 3],
    lit: Buffer<u8>,
    reading: Buffer<u8>,
}

/// To the bit; but of a NaN that smoothing gives, only that it is one counts.
fn assert_float(found: &Buffer<Float>, due: f64, smoothed: bool, what: &str) {
    let Float(float) = found.inside()[0];
    let any_nan = smoothed && due.is_nan() && float.is_nan();
    found.assert_holds(&[Float(if any_nan { float } else { due })], what);
}

impl Lent {
    /// The planes are as they were, this is kept, and this is the reading.
    fn assert_holds(&self, planes: &Planes, due: Held, reading: u8, what: &str) {
        for k in 0..3 {
            self.planes[k].assert_holds(&planes[k], &format!("{what}: {}", COLOURS[k]));
            let smoothed = reading == STEADY;
            assert_float(&self.spot[k], due.spot[k], smoothed, &format!("{what}: spot of {}", COLOURS[k]));
        }
        self.lit.assert_holds(&[due.lit], &format!("{what}: lit"));
        self.reading.assert_holds(&[reading], &format!("{what}: reading"));
    }

    fn held(&self) -> Held {
        Held { spot: self.spot.each_ref().map(|float| float.inside()[0].0), lit: self.lit.inside()[0] }
    }
}

impl Ask {
    fn slices(&self) -> [&[u16]; 3] {
        self.planes.each_ref().map(|plane| &plane[..])
    }

    fn reference(&self) -> Result<(Kept, Reading), u32> {
        let Held { spot, lit } = self.held;
        spot::spot(&self.view, self.slices(), Kept { spot, lit: lit != 0 })
    }

    /// The library's answer, and what it was lent, after the call.
    fn library(&self) -> (Result<(), u32>, Lent) {
        let planes = self.planes.each_ref().map(|plane| Buffer::given(plane));
        let mut spot = self.held.spot.map(|float| Buffer::given(&[Float(float)]));
        let [mut lit, mut reading] = [self.held.lit, NO_READING].map(|byte| Buffer::given(&[byte]));
        let answer = library::spot(
            &self.view,
            planes.each_ref().map(|plane| plane.inside()),
            spot.each_mut().map(|float| &mut float.number_mut().0),
            lit.number_mut(),
            reading.number_mut(),
        );
        (answer, Lent { planes, spot, lit, reading })
    }

    /// Asks the library and the reference alike, compares the answers and all that stands behind the pointers, and hands back
    /// what is kept from now on, and the reading.
    fn compared(&self, kind: &str) -> Result<(Held, Reading), u32> {
        let what = format!("spot of {:?} after {:?}, {kind}", self.view, self.held);
        let (answer, lent) = self.library();
        let due = self.reference();
        assert_eq!(answer, due.map(|_| ()), "{what}");
        let (held, number) = match due {
            Ok((Kept { spot, lit }, reading)) => (Held { spot, lit: lit.into() }, reading.number()),
            Err(_) => (self.held, NO_READING),
        };
        lent.assert_holds(&self.planes, held, number, &what);
        due.map(|(_, reading)| (lent.held(), reading))
    }
}

impl FrameCall for Ask {
    const NAME: &'static str = "spot";
    const QUESTIONS: &'static [u32] = &[1, 2, 6, 19];
    const OF_A_SMALL_FRAME: u32 = 19;

    /// Any samples, with anything kept. The window lies inside, if the frame has room for it.
    fn sound(chance: &mut Chance, width: usize, height: usize) -> Ask {
        let view = any_view(chance, width, height);
        let planes = [(); 3].map(|_| chance.any_samples(width * height));
        Ask { view, planes, held: any_held(chance) }
    }

    fn wrong(chance: &mut Chance, questions: &[u32]) -> Ask {
        let [width, height] = [(); 2].map(|_| chance.between(32, 40) as usize);
        let mut ask = Ask::sound(chance, width, height);
        for question in questions {
            let length = chance.one_of(&wrong_lengths(width, height));
            match question {
                6 => *chance.one_in(&mut ask.planes) = chance.any_samples(length),
                19 => ask.view = moved_outside(chance, ask.view),
                _ => answer_no(chance, &mut ask, *question),
            }
        }
        ask
    }

    fn size_mut(&mut self) -> [&mut usize; 2] {
        [&mut self.view.width, &mut self.view.height]
    }

    fn asked_mut(&mut self, question: u32) -> &mut u32 {
        panic!("no number of the spot has question {question}")
    }

    fn number(&self, kind: &str) -> u32 {
        self.compared(kind).err().unwrap_or(0)
    }
}

fn any_held(chance: &mut Chance) -> Held {
    let any = chance.between(0, 255) as u8;
    Held { spot: [(); 3].map(|_| chance.any_float()), lit: chance.one_of(&[0, 1, any]) }
}

/// A first row, or column, of a window that lies within so many, at an end more often than by chance; 0 where none does.
fn place(chance: &mut Chance, side: usize) -> usize {
    let last = side.saturating_sub(SIDE);
    let any = chance.place(last + 1);
    chance.one_of(&[0, last, any])
}

fn any_view(chance: &mut Chance, width: usize, height: usize) -> View {
    View { width, height, row: place(chance, height), column: place(chance, width) }
}

/// Rows and columns outside every frame of up to 255. In fewer bits, with a sign, or where a sum wraps, they would be inside.
fn far() -> impl Iterator<Item = usize> {
    let bits = [8, 16, 31, 32, 58, 59, 63].into_iter();
    let beside = |bit: usize| (0..10).flat_map(move |low| [(1 << bit) + low, (1 << bit) - low]);
    let last = (0..70).map(|k| usize::MAX - k);
    bits.flat_map(beside).filter(|&place| place >= 255).chain(last)
}

/// A first row, or column, of a window that does not lie within so many.
fn beyond(chance: &mut Chance, side: usize) -> usize {
    let first = side.saturating_sub(SIDE - 1);
    let near = first.saturating_add(chance.place(40));
    let far = chance.one_of(&far().collect::<Vec<_>>());
    chance.one_of(&[first, near, far])
}

/// Its rows, its columns or both begin too late.
fn moved_outside(chance: &mut Chance, view: View) -> View {
    let (row, column) = (beyond(chance, view.height), beyond(chance, view.width));
    chance.one_of(&[View { row, ..view }, View { column, ..view }, View { row, column, ..view }])
}

/// Every window of the frame, and those that begin one row or one column too late.
fn every_view(width: usize, height: usize) -> impl Iterator<Item = View> {
    let [rows, columns] = [height, width].map(|side| 0..=side - SIDE + 1);
    rows.flat_map(move |row| columns.clone().map(move |column| View { width, height, row, column }))
}

/// 0 or 19, by the sums of small numbers.
fn number_of(view: View) -> u32 {
    let inside = view.row + 32 <= view.height && view.column + 32 <= view.width;
    if inside {
        0
    } else {
        19
    }
}

/// How samples are chosen. Black ones come more often, so that many frames are unlit.
type Kind = fn(&mut Chance) -> u16;
const KINDS: [Kind; 6] = [
    |_| 0,
    |_| 0,
    |_| 65_535,
    |chance| chance.between(0, 2) as u16,
    |chance| chance.between(1, 65_535) as u16,
    |chance| chance.between(0, 65_535) as u16,
];

/// Which sample of the window row i, column j holds, if any.
fn place_in_window(view: View, i: usize, j: usize) -> Option<usize> {
    let inside = (view.row..view.row + SIDE).contains(&i) && (view.column..view.column + SIDE).contains(&j);
    inside.then(|| (i - view.row) * SIDE + j - view.column)
}

/// A plane with these samples in the window, and a kind by chance outside it.
fn around(chance: &mut Chance, view: View, window: &[u16]) -> Vec<u16> {
    let outside = chance.one_of(&KINDS);
    filled(view.width, view.height, |i, j| match place_in_window(view, i, j) {
        Some(place) => window[place],
        None => outside(chance),
    })
}

/// A plane of a kind in the window and of another outside. One of eight windows has a single sample above 0.
fn any_plane(chance: &mut Chance, view: View) -> Vec<u16> {
    let kind = chance.one_of(&KINDS);
    let mut window: Vec<u16> = (0..SIDE * SIDE).map(|_| kind(chance)).collect();
    if chance.place(8) == 0 {
        window.fill(0);
        *chance.one_in(&mut window) = 1;
    }
    around(chance, view, &window)
}

/// Sizes for lists of frames: some have no room for a window, long ones come seldom.
fn any_size(chance: &mut Chance) -> (usize, usize) {
    let [a, b] = [(); 2].map(|_| chance.between(32, 44) as usize);
    let usual = chance.one_of(&[(32, 32), (33, 47), (47, 33), (a, b)]);
    let small = chance.one_of(&[(2, 2), (31, a), (b, 31), (2, 2048), (2048, 2)]);
    let long = chance.one_of(&[(2048, 32), (33, 2048), (300, 200)]);
    match chance.place(40) {
        0 => long,
        1 => small,
        _ => usual,
    }
}

/// A call of which some questions are answered no, with this kept.
fn refused_ask(chance: &mut Chance, held: Held) -> Ask {
    let sets = sets(Ask::QUESTIONS);
    // the first set is empty
    let questions = &sets[1 + chance.place(sets.len() - 1)];
    Ask { held, ..Ask::wrong(chance, questions) }
}

/// A frame of a list: one of five is refused.
fn any_ask(chance: &mut Chance, held: Held) -> Ask {
    if chance.place(5) == 0 {
        return refused_ask(chance, held);
    }
    let (width, height) = any_size(chance);
    let view = any_view(chance, width, height);
    Ask { view, planes: [(); 3].map(|_| any_plane(chance, view)), held }
}

/// Each call is given what the one before left; each answer is the list's own too.
#[test]
fn lists_from_the_start() {
    let chance = &mut Chance(0x9e37_79b9_7f4a_7c15);
    let (mut refused, mut readings) = (Counts::default(), [0; 3]);
    for length in (0..3000).map(|k| 1 + k % 15) {
        let (mut held, mut history) = (START, Vec::new());
        for _ in 0..length {
            let ask = any_ask(chance, held);
            let answer = ask.compared("of a list");
            refused.add(answer.err().unwrap_or(0));
            if let Ok((next, reading)) = answer {
                history.push(spot::sums(&ask.view, ask.slices()).unwrap());
                assert_eq!(reading, Reading::of(&history), "{history:?}");
                readings[usize::from(reading.number())] += 1;
                held = next;
            }
        }
    }
    refused.assert_complete("spot, in lists", Ask::QUESTIONS);
    assert!(readings.iter().all(|&count| count > 1000), "{readings:?}");
}

/// The samples of a window, by chance, with this sum: evenly spread at first, then moved from one to another.
fn window_with_sum(chance: &mut Chance, sum: u64) -> Vec<u16> {
    let count = (SIDE * SIDE) as u64;
    let mut samples: Vec<u16> = (0..count).map(|k| ((sum + k) / count) as u16).collect();
    for _ in 0..chance.between(0, 2000) {
        let [from, to] = [(); 2].map(|_| chance.place(samples.len()));
        let moved = chance.between(0, samples[from].min(65_535 - samples[to]).into()) as u16;
        samples[from] -= moved;
        samples[to] += moved;
    }
    samples
}

/// A frame whose window has these sums.
fn frame_with_sums(chance: &mut Chance, held: Held, sums: Sums) -> Ask {
    let (width, height) = chance.one_of(&[(32, 32), (33, 47), (47, 33), (40, 36), (64, 32)]);
    let view = any_view(chance, width, height);
    let planes = sums.map(|sum| {
        let window = window_with_sum(chance, sum);
        around(chance, view, &window)
    });
    Ask { view, planes, held }
}

fn any_sum(chance: &mut Chance, least: u64) -> u64 {
    let any = chance.between(least, WHITE);
    chance.one_of(&[least, 1, 3, 65_535, (1 << 24) + 1, WHITE - 1, WHITE, any, any, any])
}

fn bits(spot: Spot) -> [u64; 3] {
    spot.map(f64::to_bits)
}

/// Where every lit frame has the same sums, whatever its samples, its size and its window, the spot is those sums from the
/// first lit one on, whatever is unlit or refused between.
#[test]
fn lists_of_the_same_sums() {
    let chance = &mut Chance(0x2545_f491_4f6c_dd1d);
    for length in (0..400).map(|k| 1 + k % 24) {
        let sums = [any_sum(chance, 0), any_sum(chance, 0), any_sum(chance, 1)];
        let same = sums.map(|sum| sum as f64);
        let mut held = START;
        for _ in 0..length {
            let unlit = [any_sum(chance, 0), any_sum(chance, 0), 0];
            let frame = chance.one_of(&[Some(sums), Some(sums), Some(unlit), None]);
            let ask = match frame {
                Some(sums) => frame_with_sums(chance, held, sums),
                None => refused_ask(chance, held),
            };
            let due = match frame {
                Some([_, _, 0]) if held.lit == 0 => Reading::Starting,
                Some([_, _, 0]) => Reading::Dark,
                _ => Reading::Steady(same),
            };
            if let Ok((next, reading)) = ask.compared("of a list with the same sums") {
                assert_eq!(reading, due, "{sums:?}");
                held = next;
            }
            let due = if held.lit == 0 { START.spot } else { same };
            assert_eq!(bits(held.spot), bits(due), "{sums:?}");
        }
    }
}

/// A frame of 32 by 32 with one value for each colour.
fn flat(samples: [u16; 3], held: Held) -> Ask {
    let view = View { width: SIDE, height: SIDE, row: 0, column: 0 };
    Ask { view, planes: samples.map(|sample| vec![sample; SIDE * SIDE]), held }
}

/// Red goes out: its spot falls from the largest sum there is to the smallest floats, and stays a little above 0.
#[test]
fn red_goes_out() {
    let (mut held, _) = flat([65_535, 65_535, 9], START).compared("white").unwrap();
    for frame in 0..6000 {
        let green = if frame % 3000 == 2999 { 65_535 } else { 0 };
        (held, _) = flat([0, green, 7], held).compared("red has gone out").unwrap();
    }
    assert_eq!(held.spot[0].to_bits(), 4);
}

/// The signs of these are tried too.
const FLOATS: [u64; 21] = [
    // no numbers, quiet ones and then others
    0x7ff8_0000_0000_0000,
    0x7ff8_0000_0000_0001,
    0x7ffc_dead_beef_5a5a,
    0x7fff_ffff_ffff_ffff,
    0x7ff0_0000_0000_0001,
    0x7ff4_0000_0000_0000,
    0x7ff7_ffff_ffff_ffff,
    // infinite, and the largest
    0x7ff0_0000_0000_0000,
    0x7fef_ffff_ffff_ffff,
    // 0, subnormal ones, and the least that are not
    0,
    1,
    4,
    5,
    0x000f_ffff_ffff_ffff,
    0x0010_0000_0000_0000,
    0x002f_ffff_ffff_ffff,
    // 0.1, 1, the largest sum and what comes after it, and the first odd number that no float is
    0x3fb9_9999_9999_999a,
    0x3ff0_0000_0000_0000,
    0x418f_ffe0_0000_0000,
    0x418f_ffe0_0000_0001,
    0x4340_0000_0000_0001,
];

/// Frames lit by blue, lit by blue alone, white, unlit, and refused by each question.
fn frames(chance: &mut Chance) -> Vec<Ask> {
    let mut frames: Vec<Ask> = [[300, 2, 1], [0, 0, 1], [65_535; 3], [65_535, 65_535, 0], [0; 3]]
        .map(|samples| flat(samples, START))
        .to_vec();
    frames.push(Ask::sound(chance, 33, 34));
    frames.extend(Ask::QUESTIONS.iter().map(|&question| Ask::wrong(chance, &[question])));
    frames
}

/// Each float in each colour's place, and after any byte: as a frame gives it, or to the bit what it was.
#[test]
fn whatever_was_kept() {
    let chance = &mut Chance(0x0123_4567_89ab_cdef);
    let frames = frames(chance);
    let signs = [0, 1 << 63];
    for float in FLOATS.into_iter().flat_map(|float| signs.map(|sign| f64::from_bits(float | sign))) {
        for (frame, lit) in frames.iter().flat_map(|frame| [0, 1, 2, 128, 255].map(|lit| (frame, lit))) {
            for colour in 0..3 {
                let mut held = Held { lit, ..any_held(chance) };
                held.spot[colour] = float;
                Ask { held, ..frame.clone() }.number("a special float");
            }
            let held = Held { spot: [float; 3], lit };
            Ask { held, ..frame.clone() }.number("three special floats");
        }
    }
}

#[test]
fn any_floats_and_any_byte() {
    let chance = &mut Chance(0xfedc_ba98_7654_3210);
    let frames = frames(chance);
    for (frame, lit) in frames.iter().flat_map(|frame| (0..=255).map(move |lit| (frame, lit))) {
        for _ in 0..12 {
            let held = Held { lit, ..any_held(chance) };
            Ask { held, ..frame.clone() }.number("any floats");
        }
    }
}

/// As document 02 writes it: the first lit frame gives its sums, though what was kept is no number.
#[test]
fn in_words() {
    let nan = f64::from_bits(0xfff4_0000_0000_0005);
    let no_numbers = Held { spot: [nan; 3], lit: 0 };
    let steady = |spot: Spot| Reading::Steady(spot);
    for held in [START, no_numbers] {
        let (held, reading) = flat([7, 8, 0], held).compared("unlit").unwrap();
        assert_eq!((reading, held.lit), (Reading::Starting, 0));
        let (held, reading) = flat([7, 8, 9], held).compared("the first lit one").unwrap();
        assert_eq!((reading, held.lit), (steady([7168.0, 8192.0, 9216.0]), 1));
        let (held, reading) = flat([15, 0, 1], held).compared("another").unwrap();
        assert_eq!((reading, held.lit), (steady([8192.0, 7168.0, 8192.0]), 1));
        let (held, reading) = flat([65_535, 1, 0], held).compared("unlit").unwrap();
        assert_eq!((reading, held.lit), (Reading::Dark, 1));
        assert_eq!(bits(held.spot), bits([8192.0, 7168.0, 8192.0]));
    }
    let (held, _) = flat([65_535; 3], START).compared("white").unwrap();
    assert_eq!(bits(held.spot), bits([67_107_840.0; 3]));
}

/// The sign of 0 does not stay: −0 + (0 − −0) · 0.125 is 0.
#[test]
fn the_sign_of_zero() {
    let (held, _) = flat([0, 0, 1], Held { spot: [-0.0; 3], lit: 1 }).compared("of zero").unwrap();
    assert_eq!(bits(held.spot), bits([0.0, 0.0, 128.0]));
}

/// Any samples, at every place of the window, and one beyond.
#[test]
fn every_place() {
    let chance = &mut Chance(0x5851_f42d_4c95_7f2d);
    for (width, height) in [(32, 32), (33, 47), (47, 33), (40, 36), (100, 34), (35, 64)] {
        for view in every_view(width, height) {
            let ask = Ask { view, held: START, ..Ask::sound(chance, width, height) };
            assert_eq!(ask.number("at every place"), number_of(view), "{view:?}");
        }
    }
}

/// One sample unlike all others, at every place of the frame and in every window: one that a window leaves out or takes in
/// wrongly shows.
#[test]
fn one_sample() {
    for (width, height) in [(34, 37), (36, 33)] {
        let count = width * height;
        for place in 0..count {
            let others = (place % 2) as u16;
            let planes = [
                spike(count, place, 1, 0),
                spike(count, count - 1 - place, 65_535, 1),
                spike(count, place, 3, others),
            ];
            let mut ask = Ask { planes, ..flat([0; 3], START) };
            for view in every_view(width, height) {
                ask.view = view;
                assert_eq!(ask.number("one sample unlike the others"), number_of(view), "{view:?}");
            }
        }
    }
}

/// A frame that is lit by blue's window alone, or by all but that.
#[test]
fn lit_by_the_window_of_blue() {
    let chance = &mut Chance(0xda94_2042_e4dd_58b5);
    for _ in 0..300 {
        let (width, height) = (chance.between(33, 50) as usize, chance.between(33, 50) as usize);
        let view = any_view(chance, width, height);
        let plane = |lit_inside: bool| {
            filled(width, height, |i, j| (place_in_window(view, i, j).is_some() == lit_inside).into())
        };
        let only_blue = Ask { view, planes: [plane(false), plane(false), plane(true)], held: START };
        let (_, reading) = only_blue.compared("lit by blue alone").unwrap();
        assert_eq!(reading, Reading::Steady([0.0, 0.0, 1024.0]));
        let not_blue = Ask { view, planes: [plane(true), plane(true), plane(false)], held: START };
        let (_, reading) = not_blue.compared("lit by all but blue").unwrap();
        assert_eq!(reading, Reading::Starting);
    }
}

/// Every size around the window's, and the first rows and columns: the exact fit is inside.
#[test]
fn sizes_around_the_windows() {
    let chance = &mut Chance(0x9fb2_1c65_1e98_df25);
    let sizes = || (2..=36).chain([63, 64, 65]);
    for (width, height) in sizes().flat_map(|width| sizes().map(move |height| (width, height))) {
        let mut ask = Ask::sound(chance, width, height);
        for (row, column) in [(0, 0), (0, 1), (1, 0), (2, 2), (height, 0), (0, width)] {
            ask.view = View { width, height, row, column };
            assert_eq!(ask.number("around the window's size"), number_of(ask.view), "{:?}", ask.view);
        }
    }
}

/// Rows and columns up to the largest there is, each alone and both.
#[test]
fn far_outside() {
    let chance = &mut Chance(0xc2b2_ae3d_27d4_eb4f);
    for (width, height) in [(32, 32), (40, 36), (64, 40), (33, 128)] {
        let mut ask = Ask::sound(chance, width, height);
        let inside = ask.view;
        for far in far() {
            let both = View { row: far, column: far, ..inside };
            for view in [View { row: far, ..inside }, View { column: far, ..inside }, both] {
                (ask.view, ask.held) = (view, any_held(chance));
                assert_eq!(ask.number("far outside"), 19, "{view:?}");
            }
        }
    }
}

/// Windows in every corner, in the middle, and beyond.
#[test]
fn large_frames() {
    let chance = &mut Chance(0x1656_67b1_9e37_79f9);
    for (width, height) in [(2048, 2048), (2048, 32), (32, 2048), (2047, 33), (1025, 300)] {
        let mut ask = Ask { held: START, ..Ask::sound(chance, width, height) };
        let [last_row, last_column] = [height, width].map(|side| side - SIDE);
        let corners = [(0, 0), (0, last_column), (last_row, 0), (last_row, last_column)];
        let others = [(last_row / 2, last_column / 2), (last_row + 1, 0), (0, last_column + 1)];
        for (row, column) in corners.into_iter().chain(others) {
            ask.view = View { width, height, row, column };
            assert_eq!(ask.number("of a large frame"), number_of(ask.view), "{:?}", ask.view);
        }
    }
}

/// No plane is written, so one may be all three.
#[test]
fn one_plane_for_three() {
    let chance = &mut Chance(0x27d4_eb2f_1656_67c5);
    let ask = Ask::sound(chance, 40, 36);
    let plane = &ask.planes[0][..];
    let ([mut red, mut green, mut blue], mut lit, mut reading) = (START.spot, START.lit, NO_READING);
    let floats = [&mut red, &mut green, &mut blue];
    assert_eq!(library::spot(&ask.view, [plane; 3], floats, &mut lit, &mut reading), Ok(()));
    let (due, _) = spot::spot(&ask.view, [plane; 3], Kept::START).unwrap();
    assert_eq!((bits([red, green, blue]), lit, reading), (bits(due.spot), 1, STEADY));
}

/// Question 6 answered no alone, and before 19: of each plane, of two whose lengths together would be right, of all three.
fn lengths_refused(chance: &mut Chance, counts: &mut Counts) {
    for (width, height) in SHAPES.into_iter().chain([(32, 32), (33, 47), (40, 36)]) {
        let sound = Ask::sound(chance, width, height);
        for length in wrong_lengths(width, height) {
            for plane in 0..3 {
                let mut ask = sound.clone();
                ask.planes[plane] = chance.any_samples(length);
                answered(&ask, 6, "a plane's length", counts);
                let rest = (2 * width * height).saturating_sub(length);
                ask.planes[(plane + 1) % 3] = chance.any_samples(rest);
                answered(&ask, 6, "two planes' lengths", counts);
            }
            let planes = [(); 3].map(|_| chance.any_samples(length));
            answered(&Ask { planes, ..sound.clone() }, 6, "the three planes' lengths", counts);
        }
    }
}

#[test]
fn refused() {
    refusals::<Ask>(lengths_refused);
}
