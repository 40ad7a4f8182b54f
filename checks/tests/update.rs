//! The C call `demosaic_update` answers what the reference answers, and leaves in every buffer, and beside it, what the
//! reference leaves.

use checks::buffers::Buffer;
use checks::chance::Chance;
use checks::estimate::estimates_of;
use checks::low_band::{at_every_place, weights};
use checks::mosaics::{filled, kinds, longer_lengths, spike};
use checks::refusals::{
    answer_no, answered, refusals, short_work, sufficient_work, wrong_lengths, Counts, FrameCall, LARGEST,
    NO_SAMPLE, SHAPES, TRIES, TRIES_IN_THE_LARGEST,
};
use checks::update::update;

#[path = "../src/library.rs"]
mod library;

type Call = fn(usize, usize, u32, &[u16], &mut [u16], &mut [i32]) -> Result<(), u32>;

/// What the call is asked with: the shape, the mosaic, green and the length of the work buffer.
#[derive(Clone)]
struct Ask {
    width: usize,
    height: usize,
    layout: u32,
    mosaic: Vec<u16>,
    green: Vec<u16>,
    work: usize,
}

impl Ask {
    /// With this mosaic and green, and a work buffer as long as it has to be.
    fn of(width: usize, height: usize, layout: u32, mosaic: &[u16], green: &[u16]) -> Ask {
        let (mosaic, green) = (mosaic.to_vec(), green.to_vec());
        Ask { width, height, layout, mosaic, green, work: 8 * width * height }
    }
}

/// The answer, and after the call the mosaic, green and the work buffer.
fn asked(call: Call, ask: &Ask) -> (Result<(), u32>, Buffer<u16>, Buffer<u16>, Buffer<i32>) {
    let mosaic = Buffer::given(&ask.mosaic);
    let mut green = Buffer::given(&ask.green);
    let mut work = Buffer::lent(ask.work);
    let answer =
        call(ask.width, ask.height, ask.layout, mosaic.inside(), green.inside_mut(), work.inside_mut());
    (answer, mosaic, green, work)
}

/// Asks the library and the reference alike, compares the answers and the buffers, and hands back the library's number and
/// green.
fn compared(ask: &Ask, kind: &str) -> (u32, Vec<u16>) {
    let what = format!("update of {} by {}, layout {}, {kind}", ask.width, ask.height, ask.layout);
    let (answer, mosaic, green, work) = asked(library::update, ask);
    let (due_answer, _, due_green, due_work) = asked(update, ask);
    assert_eq!(answer, due_answer, "{what}");
    mosaic.assert_holds(&ask.mosaic, &format!("{what}: mosaic"));
    green.assert_holds(due_green.inside(), &format!("{what}: green"));
    work.assert_holds(due_work.inside(), &format!("{what}: work buffer"));
    if answer.is_err() {
        green.assert_holds(&ask.green, &format!("{what}: green, refused"));
        work.assert_untouched(&format!("{what}: work buffer, refused"));
    }
    (answer.err().unwrap_or(0), green.inside().to_vec())
}

/// The library's green after an accepted call.
fn accepted(ask: &Ask, kind: &str) -> Vec<u16> {
    let (number, green) = compared(ask, kind);
    assert_eq!(number, 0, "update of {} by {}, {kind}", ask.width, ask.height);
    green
}

/// The estimate of green.
fn estimated_green(width: usize, height: usize, layout: u32, mosaic: &[u16]) -> Vec<u16> {
    let [_, green, _] = estimates_of(width, height, layout, mosaic);
    green
}

/// Mosaics of every kind: with the estimate of green, and with two greens of a kind by chance. The layout is of either level.
fn all_kinds(chance: &mut Chance, width: usize, height: usize, layout: u32) {
    let greens = kinds(chance, width, height);
    for (kind, mosaic) in kinds(chance, width, height) {
        let layout = chance.one_of(&[layout, layout ^ 4]);
        let green = estimated_green(width, height, layout, &mosaic);
        accepted(&Ask::of(width, height, layout, &mosaic, &green), &format!("{kind}, its estimate"));
        for _ in 0..2 {
            let (green_kind, green) = &greens[chance.place(greens.len())];
            let ask = Ask::of(width, height, layout, &mosaic, green);
            accepted(&ask, &format!("{kind}, green {green_kind}"));
        }
    }
}

/// One value unlike all others, at every place, in the mosaic or in green.
fn spikes(width: usize, height: usize, layout: u32) {
    let count = width * height;
    for place in 0..count {
        for (value, others) in [(4095, 0), (0, 4095), (1000, 1001)] {
            let spike = spike(count, place, value, others);
            let flat = vec![1500; count];
            let kind = format!("{value} at place {place}, {others} at the others");
            accepted(&Ask::of(width, height, layout, &spike, &flat), &format!("mosaic {kind}"));
            accepted(&Ask::of(width, height, layout, &flat, &spike), &format!("green {kind}"));
        }
    }
}

#[test]
fn every_small_size() {
    let chance = &mut Chance(0x9e37_79b9_7f4a_7c15);
    for width in 2..=12 {
        for height in 2..=12 {
            (0..4).for_each(|layout| all_kinds(chance, width, height, layout));
            spikes(width, height, chance.layout());
        }
    }
}

#[test]
fn longer_lines() {
    let chance = &mut Chance(0x0123_4567_89ab_cdef);
    for length in longer_lengths() {
        for other in [2, 3, 6] {
            let [one, another] = [(); 2].map(|_| chance.layout());
            all_kinds(chance, length, other, one);
            all_kinds(chance, other, length, another);
        }
    }
}

#[test]
fn large_frames() {
    let chance = &mut Chance(0xfedc_ba98_7654_3210);
    for (width, height) in [(2048, 2), (2, 2048), (2047, 3), (3, 2047)] {
        for _ in 0..4 {
            let ask = Ask::sound(chance, width, height);
            accepted(&ask, "random");
            let green = estimated_green(width, height, ask.layout, &ask.mosaic);
            accepted(&Ask { green, ..ask }, "random, its estimate");
        }
    }
    accepted(&Ask::sound(chance, 2048, 2048), "random");
    let ask = Ask::sound(chance, 2047, 1025);
    let green = estimated_green(2047, 1025, ask.layout, &ask.mosaic);
    accepted(&Ask { green, ..ask }, "random, its estimate");
}

/// Green and the colour at the ends of their range, so that every value moves the sum at row i, column j of the small
/// planes towards this end: as far beyond what the clipping keeps as can be. The weights of the colour's values are those
/// of green's with the other sign, and 1,024 more at the place itself.
fn assert_clipped(side: usize, i: usize, j: usize, end: u16) {
    let width = 2 * side;
    let weights = weights(false, side, side, i, j);
    let of_sign = |weight| if weight < 0 { 4095 - end } else { end };
    // the four places of a small row and column hold the same
    let green = filled(width, width, |row, column| of_sign(weights[row / 2 * side + column / 2]));
    let mosaic: Vec<u16> = green.iter().map(|value| 4095 - value).collect();
    for layout in 0..8 {
        let found = accepted(&Ask::of(width, width, layout, &mosaic, &green), "the signs of the weights");
        let found = [0, 1, width, width + 1].map(|k| found[2 * i * width + 2 * j + k]);
        assert_eq!(found, [end; 4], "{width} by {width}, layout {layout}, row {i}, column {j}");
    }
}

#[test]
fn the_largest_sums() {
    at_every_place(assert_clipped);
}

/// Case d as the row of blue, with a green of 100 or at an end of the range: bands 2 to 4 join to −4096 4096 −4096, and
/// band 1 of green to 1,024 times green. Red has no detail.
#[test]
fn the_detail_of_case_d() {
    let mosaic = [1, 0, 1, 8, 1, 0, 60, 1, 60, 1, 60, 1];
    let cases = [(100, 96, 104), (3, 0, 7), (0, 0, 4), (4092, 4088, 4095), (4095, 4091, 4095)];
    for (green, less, more) in cases {
        let first = [5, green, 6, green, 7, green, 50, 8, 50, 9, 50, 10];
        let due = [5, less, 6, more, 7, less, 50, 8, 50, 9, 50, 10];
        // the same with red and blue exchanged
        for layout in [2, 1, 6, 5] {
            assert_eq!(accepted(&Ask::of(6, 2, layout, &mosaic, &first), "case d"), due);
        }
    }
}

/// Questions 6 and 8, each answered no alone: of each buffer, and of two given ones whose lengths together would be right.
/// Then work buffers that suffice.
fn lengths(chance: &mut Chance, counts: &mut Counts) {
    for (width, height) in SHAPES {
        let count = width * height;
        let sound = Ask::sound(chance, width, height);
        for length in wrong_lengths(width, height) {
            let rest = (2 * count).saturating_sub(length);
            let [mosaic, green] = [(); 2].map(|_| chance.samples(length));
            let rest = chance.samples(rest);
            answered(&Ask { mosaic: mosaic.clone(), ..sound.clone() }, 6, "the mosaic's length", counts);
            answered(&Ask { green: green.clone(), ..sound.clone() }, 6, "green's length", counts);
            let ask = Ask { mosaic: mosaic.clone(), green, ..sound.clone() };
            answered(&ask, 6, "both lengths", counts);
            answered(&Ask { mosaic, green: rest, ..sound.clone() }, 6, "both lengths together right", counts);
        }
        for work in short_work(count) {
            answered(&Ask { work, ..sound.clone() }, 8, &format!("a work buffer of {work}"), counts);
        }
        for work in sufficient_work(count) {
            answered(&Ask { work, ..sound.clone() }, 0, &format!("a work buffer of {work}"), counts);
        }
    }
}

/// Questions 9 and 10, each answered no alone, at every place: 4,095 is in range, more is not.
fn samples(chance: &mut Chance, counts: &mut Counts) {
    for (width, height) in SHAPES {
        let sound = Ask::sound(chance, width, height);
        for place in 0..width * height {
            for (value, in_range) in TRIES {
                let kind = format!("{value} at place {place}");
                let mut ask = sound.clone();
                ask.mosaic[place] = value;
                answered(&ask, if in_range { 0 } else { 9 }, &format!("mosaic, {kind}"), counts);
                let mut ask = sound.clone();
                ask.green[place] = value;
                answered(&ask, if in_range { 0 } else { 10 }, &format!("green, {kind}"), counts);
            }
        }
        for value in NO_SAMPLE {
            let values = vec![value; width * height];
            let ask = Ask { mosaic: values.clone(), ..sound.clone() };
            answered(&ask, 9, "no sample in range", counts);
            let ask = Ask { green: values, ..sound.clone() };
            answered(&ask, 10, "no value of green in range", counts);
        }
    }
}

/// Questions 8, 9 and 10 in the largest frames.
fn large_frames_refused(counts: &mut Counts) {
    let white = vec![4095; LARGEST];
    let mut ask = Ask::of(2048, 2048, 0, &white, &white);
    for (place, value) in TRIES_IN_THE_LARGEST {
        let kind = format!("{value} at place {place}");
        ask.mosaic[place] = value;
        answered(&ask, 9, &format!("mosaic, {kind}"), counts);
        ask.mosaic[place] = 4095;
        ask.green[place] = value;
        answered(&ask, 10, &format!("green, {kind}"), counts);
        ask.green[place] = 4095;
    }
    answered(&Ask { work: 8 * LARGEST - 1, ..ask }, 8, "a work buffer of one less", counts);
}

impl FrameCall for Ask {
    const NAME: &'static str = "update";
    const QUESTIONS: &'static [u32] = &[1, 2, 3, 6, 8, 9, 10];

    fn sound(chance: &mut Chance, width: usize, height: usize) -> Self {
        let layout = chance.layout();
        let (mosaic, green) = (chance.samples(width * height), chance.samples(width * height));
        Ask::of(width, height, layout, &mosaic, &green)
    }

    fn wrong(chance: &mut Chance, questions: &[u32]) -> Self {
        let (width, height) = (chance.between(2, 9) as usize, chance.between(2, 9) as usize);
        let count = width * height;
        let mut ask = Ask::sound(chance, width, height);
        for question in questions {
            match question {
                1..=3 => answer_no(chance, &mut ask, *question),
                6 => {
                    let length = chance.one_of(&[count - 1, count + 1, 100]);
                    let buffer = if chance.between(0, 1) == 0 { &mut ask.mosaic } else { &mut ask.green };
                    *buffer = chance.samples(length);
                }
                8 => ask.work = chance.one_of(&[0, count, 8 * count - 1]),
                9 => *chance.one_in(&mut ask.mosaic) = chance.one_of(&NO_SAMPLE),
                _ => *chance.one_in(&mut ask.green) = chance.one_of(&NO_SAMPLE),
            }
        }
        ask
    }

    fn size_mut(&mut self) -> [&mut usize; 2] {
        [&mut self.width, &mut self.height]
    }

    fn asked_mut(&mut self, question: u32) -> &mut u32 {
        assert_eq!(question, 3);
        &mut self.layout
    }

    fn number(&self, kind: &str) -> u32 {
        compared(self, kind).0
    }
}

#[test]
fn refused() {
    refusals::<Ask>(|chance, counts| {
        lengths(chance, counts);
        samples(chance, counts);
        large_frames_refused(counts);
    });
}
