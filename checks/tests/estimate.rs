//! The C call `demosaic_estimate` answers what the reference answers, and leaves in every buffer, and beside it, what the
//! reference leaves.

use checks::buffers::Buffer;
use checks::chance::Chance;
use checks::estimate::estimate;
use checks::mosaics::{kinds, longer_lengths, spike};
use checks::refusals::{
    answer_no, answered, refusals, wrong_lengths, Counts, FrameCall, LARGEST, NO_SAMPLE, SHAPES, TRIES,
    TRIES_IN_THE_LARGEST,
};

#[path = "../src/library.rs"]
mod library;

type Call = fn(usize, usize, u32, &[u16], [&mut [u16]; 3]) -> Result<(), u32>;

/// Red, green and blue.
type Planes = [Buffer<u16>; 3];

/// What the call is asked with: the shape, the mosaic and the lengths of the three planes.
#[derive(Clone)]
struct Ask {
    width: usize,
    height: usize,
    layout: u32,
    mosaic: Vec<u16>,
    lent: [usize; 3],
}

impl Ask {
    /// With this mosaic, and each plane as long as it has to be.
    fn of(width: usize, height: usize, layout: u32, mosaic: &[u16]) -> Ask {
        Ask { width, height, layout, mosaic: mosaic.to_vec(), lent: [width * height; 3] }
    }
}

/// The answer, the mosaic after the call and the planes.
fn asked(call: Call, ask: &Ask) -> (Result<(), u32>, Buffer<u16>, Planes) {
    let mosaic = Buffer::given(&ask.mosaic);
    let mut planes = ask.lent.map(Buffer::lent);
    let lent = planes.each_mut().map(|plane| plane.inside_mut());
    let answer = call(ask.width, ask.height, ask.layout, mosaic.inside(), lent);
    (answer, mosaic, planes)
}

/// Asks the library and the reference alike, compares the answers and the buffers, and hands back the library's number and
/// planes.
fn compared(ask: &Ask, kind: &str) -> (u32, Planes) {
    let what = format!("estimate of {} by {}, layout {}, {kind}", ask.width, ask.height, ask.layout);
    let (answer, mosaic, planes) = asked(library::estimate, ask);
    let (due_answer, _, due) = asked(estimate, ask);
    assert_eq!(answer, due_answer, "{what}");
    mosaic.assert_holds(&ask.mosaic, &format!("{what}: mosaic"));
    for ((plane, due), colour) in planes.iter().zip(&due).zip(["red", "green", "blue"]) {
        let what = format!("{what}: {colour}");
        plane.assert_holds(due.inside(), &what);
        if answer.is_err() {
            plane.assert_untouched(&format!("{what}, refused"));
        }
    }
    (answer.err().unwrap_or(0), planes)
}

/// The library's red, green and blue after an accepted call.
fn accepted(ask: &Ask, kind: &str) -> [Vec<u16>; 3] {
    let (number, planes) = compared(ask, kind);
    assert_eq!(number, 0, "estimate of {} by {}, {kind}", ask.width, ask.height);
    planes.map(|plane| plane.inside().to_vec())
}

/// Mosaics of every kind with red at every place, in layouts of either level.
fn all_kinds(chance: &mut Chance, width: usize, height: usize) {
    for red in 0..4 {
        for (kind, mosaic) in kinds(chance, width, height) {
            accepted(&Ask::of(width, height, chance.one_of(&[red, red + 4]), &mosaic), &kind);
        }
    }
}

/// One sample unlike all others, at every place, in every layout.
fn spikes(width: usize, height: usize) {
    let count = width * height;
    for layout in 0..4 {
        for place in 0..count {
            let layout = layout + 4 * (place as u32 % 2);
            for (value, others) in [(4095, 0), (0, 4095), (1, 0), (2001, 2000)] {
                let mosaic = spike(count, place, value, others);
                let kind = format!("{value} at place {place}, {others} at the others");
                accepted(&Ask::of(width, height, layout, &mosaic), &kind);
            }
        }
    }
}

#[test]
fn every_small_size() {
    let chance = &mut Chance(0x9e37_79b9_7f4a_7c15);
    for width in 2..=12 {
        for height in 2..=12 {
            all_kinds(chance, width, height);
            spikes(width, height);
        }
    }
}

#[test]
fn longer_lines() {
    let chance = &mut Chance(0x0123_4567_89ab_cdef);
    for length in longer_lengths() {
        for other in [2, 3, 4, 5] {
            all_kinds(chance, length, other);
            all_kinds(chance, other, length);
        }
    }
}

#[test]
fn large_frames() {
    let chance = &mut Chance(0xfedc_ba98_7654_3210);
    for (width, height) in [(2048, 2), (2, 2048), (2047, 3), (3, 2047)] {
        all_kinds(chance, width, height);
    }
    let ask = Ask::sound(chance, 2048, 2048);
    accepted(&ask, "random, often ends");
    let few = ask.mosaic.iter().map(|sample| sample % 4).collect();
    accepted(&Ask { mosaic: few, ..ask }, "random among few");
    accepted(&Ask::sound(chance, 2047, 2047), "random, often ends");
}

/// Two away, next, itself, next, two away.
type Line = [u16; 5];

/// Green is this wherever these lines cross: at every place of red and of blue whose 5 by 5 lies inside, in every layout.
/// The other samples are by chance.
fn assert_green(chance: &mut Chance, along_row: Line, along_column: Line, due: u16) {
    let (width, height) = (8, 7);
    for (i, j) in (2..height - 2).flat_map(|i| (2..width - 2).map(move |j| (i, j))) {
        let mut mosaic = chance.samples(width * height);
        for k in 0..5 {
            mosaic[i * width + j + k - 2] = along_row[k];
            mosaic[(i + k - 2) * width + j] = along_column[k];
        }
        // the layouts in which green is not here
        for layout in if i % 2 == j % 2 { [0, 3, 4, 7] } else { [1, 2, 5, 6] } {
            let [_, green, _] = accepted(&Ask::of(width, height, layout, &mosaic), "a lettered case");
            assert_eq!(green[i * width + j], due, "layout {layout}, row {i}, column {j}");
        }
    }
}

/// As document 01 writes them, mirrored, and with rows and columns exchanged.
#[test]
fn cases_h_i_and_j() {
    let chance = &mut Chance(0x2545_f491_4f6c_dd1d);
    for (two_columns_away, due) in [(100, 50), (60, 60), (90, 58)] {
        let column = [80, 50, 100, 50, 80];
        let row = [two_columns_away, 40, 100, 60, two_columns_away];
        let mirrored = [two_columns_away, 60, 100, 40, two_columns_away];
        for row in [row, mirrored] {
            assert_green(chance, row, column, due);
            assert_green(chance, column, row, due);
        }
    }
}

/// 2 by 2: a place reads one sample of each other colour only, or both greens twice, and H = V = 0.
#[test]
fn two_by_two_by_hand() {
    let chance = &mut Chance(0xda94_2042_e4dd_58b5);
    let mut mosaics = vec![vec![100, 50, 50, 20], vec![0, 4095, 4095, 0], vec![4095, 0, 1, 2]];
    mosaics.extend((0..200).map(|_| chance.samples(4)));
    // the places of red, of the two greens and of blue
    let places = [[0, 1, 2, 3], [1, 0, 3, 2], [2, 0, 3, 1], [3, 1, 2, 0]];
    for (layout, [red, one, other, blue]) in (0..8).zip(places.into_iter().cycle()) {
        for mosaic in &mosaics {
            let mut green = mosaic.clone();
            green[red] = (mosaic[one] + mosaic[other] + 1) / 2;
            green[blue] = green[red];
            let found = accepted(&Ask::of(2, 2, layout, mosaic), "by hand");
            let due = [vec![mosaic[red]; 4], green, vec![mosaic[blue]; 4]];
            assert_eq!(found, due, "layout {layout}, {mosaic:?}");
        }
    }
}

#[test]
fn three_by_three_by_hand() {
    let mosaic = [7, 20, 1, 3, 9, 8, 4, 6, 100];
    let red = [7, 4, 1, 6, 28, 51, 4, 52, 100];
    let green = [5, 20, 17, 3, 6, 8, 2, 6, 54];
    for more in [0, 4] {
        assert_eq!(accepted(&Ask::of(3, 3, more, &mosaic), "by hand"), [red, green, [9; 9]]);
        // red and blue exchanged
        assert_eq!(accepted(&Ask::of(3, 3, 3 + more, &mosaic), "by hand"), [[9; 9], green, red]);
    }
}

/// Questions 6 and 7, each answered no alone: of each buffer, and of two planes whose lengths together would be right.
fn lengths(chance: &mut Chance, counts: &mut Counts) {
    for (width, height) in SHAPES {
        let sound = Ask::sound(chance, width, height);
        for length in wrong_lengths(width, height) {
            let ask = Ask { mosaic: chance.samples(length), ..sound.clone() };
            answered(&ask, 6, "the mosaic's length", counts);
            for plane in 0..3 {
                let mut ask = sound.clone();
                ask.lent[plane] = length;
                answered(&ask, 7, "a plane's length", counts);
                ask.lent[(plane + 1) % 3] = (2 * width * height).saturating_sub(length);
                answered(&ask, 7, "two planes' lengths", counts);
            }
            answered(&Ask { lent: [length; 3], ..sound.clone() }, 7, "the three planes' lengths", counts);
        }
    }
}

/// Question 9 alone, at every place: 4,095 is in range, more is not.
fn samples(chance: &mut Chance, counts: &mut Counts) {
    for (width, height) in SHAPES {
        let sound = Ask::sound(chance, width, height);
        for place in 0..width * height {
            for (value, in_range) in TRIES {
                let mut ask = sound.clone();
                ask.mosaic[place] = value;
                let number = if in_range { 0 } else { 9 };
                answered(&ask, number, &format!("{value} at place {place}"), counts);
            }
        }
        for value in NO_SAMPLE {
            let ask = Ask { mosaic: vec![value; width * height], ..sound.clone() };
            answered(&ask, 9, "no sample in range", counts);
        }
    }
}

/// Question 9 in the largest frames.
fn samples_in_large_frames(counts: &mut Counts) {
    let mut ask = Ask::of(2048, 2048, 0, &vec![4095; LARGEST]);
    for (place, value) in TRIES_IN_THE_LARGEST {
        ask.mosaic[place] = value;
        answered(&ask, 9, &format!("{value} at place {place}"), counts);
        ask.mosaic[place] = 4095;
    }
}

impl FrameCall for Ask {
    const NAME: &'static str = "estimate";
    const QUESTIONS: &'static [u32] = &[1, 2, 3, 6, 7, 9];

    fn sound(chance: &mut Chance, width: usize, height: usize) -> Self {
        let layout = chance.layout();
        Ask::of(width, height, layout, &chance.samples(width * height))
    }

    fn wrong(chance: &mut Chance, questions: &[u32]) -> Self {
        let (width, height) = (chance.between(2, 9) as usize, chance.between(2, 9) as usize);
        let count = width * height;
        let mut ask = Ask::sound(chance, width, height);
        for question in questions {
            match question {
                1..=3 => answer_no(chance, &mut ask, *question),
                6 => {
                    let length = chance.one_of(&[count - 1, count + 1, 100]);
                    ask.mosaic = chance.samples(length);
                }
                7 => ask.lent[chance.place(3)] = chance.one_of(&[0, count - 1, count + 1]),
                _ => *chance.one_in(&mut ask.mosaic) = chance.one_of(&NO_SAMPLE),
            }
        }
        ask
    }

    fn size_mut(&mut self) -> [&mut usize; 2] {
        [&mut self.width, &mut self.height]
    }

    fn asked_mut(&mut self, question: u32) -> &mut u32 {
        assert_eq!(question, 3);
        &mut self.layout
    }

    fn number(&self, kind: &str) -> u32 {
        compared(self, kind).0
    }
}

#[test]
fn refused() {
    refusals::<Ask>(|chance, counts| {
        lengths(chance, counts);
        samples(chance, counts);
        samples_in_large_frames(counts);
    });
}
