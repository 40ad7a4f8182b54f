//! The C calls `demosaic_turn`, `demosaic_turned_shape` and `demosaic_then_another` answer and hand back what the reference
//! does, leave in every buffer, and beside it, what the reference leaves, and leave the numbers behind pointers where they
//! refuse.

use checks::buffers::{assert_same, Buffer};
use checks::chance::Chance;
use checks::mosaics::longer_lengths;
use checks::refusals::{
    above, answer_no, answered, refusals, wrong_lengths, FrameCall, LARGEST, SHAPES, TRIES_IN_THE_LARGEST,
};
use checks::turns::{after_list, then_another, turn_samples, turned_shape, Frame};
use library::{Shape, Turned};

#[path = "../src/library.rs"]
mod library;

/// The three numbers that the turning call and the call of the turned shape hand back, with the places beside them.
struct Handed {
    width: Buffer<usize>,
    height: Buffer<usize>,
    layout: Buffer<u32>,
}

impl Handed {
    fn lent() -> Handed {
        Handed { width: Buffer::lent(1), height: Buffer::lent(1), layout: Buffer::lent(1) }
    }

    fn turned(&mut self) -> Turned<'_> {
        Turned {
            width: self.width.number_mut(),
            height: self.height.number_mut(),
            layout: self.layout.number_mut(),
        }
    }

    /// They hold what is due; where the call is refused, what they held before.
    fn assert_due(&self, due: Result<(usize, usize, u32), u32>, what: &str) {
        match due {
            Ok((width, height, layout)) => {
                self.width.assert_holds(&[width], &format!("{what}: width"));
                self.height.assert_holds(&[height], &format!("{what}: height"));
                self.layout.assert_holds(&[layout], &format!("{what}: layout"));
            }
            Err(_) => {
                self.width.assert_untouched(&format!("{what}: width, refused"));
                self.height.assert_untouched(&format!("{what}: height, refused"));
                self.layout.assert_untouched(&format!("{what}: layout, refused"));
            }
        }
    }
}

/// What the turning call is asked with: the shape, the samples and the length of the second buffer.
#[derive(Clone)]
struct Turning {
    shape: Shape,
    samples: Vec<u16>,
    out: usize,
}

impl Turning {
    /// With a second buffer as long as it has to be.
    fn of(turn: u32, frame: &Frame) -> Turning {
        Turning { shape: Shape::of(turn, frame), samples: frame.samples.clone(), out: frame.samples.len() }
    }

    /// Asks the library and the reference alike, compares the answers, the buffers and the three numbers, and hands back
    /// the library's turned frame.
    fn compared(&self, kind: &str) -> Result<Frame, u32> {
        let Shape { turn, width, height, layout } = self.shape;
        let what = format!("turning of {:?}, {kind}", self.shape);
        let given = Buffer::given(&self.samples);
        let [mut out, mut due] = [(); 2].map(|_| Buffer::<u16>::lent(self.out));
        let mut handed = Handed::lent();
        let answer = library::turn(self.shape, given.inside(), out.inside_mut(), handed.turned());
        let due_answer = turn_samples(turn, width, height, layout, &self.samples, due.inside_mut());
        assert_eq!(answer, due_answer.map(|_| ()), "{what}");
        given.assert_holds(&self.samples, &format!("{what}: samples"));
        out.assert_holds(due.inside(), &format!("{what}: second buffer"));
        handed.assert_due(due_answer, &what);
        if answer.is_err() {
            out.assert_untouched(&format!("{what}: second buffer, refused"));
        }
        let (width, height, layout) = due_answer?;
        Ok(Frame { width, height, layout, samples: out.inside().to_vec() })
    }
}

impl FrameCall for Turning {
    const NAME: &'static str = "turn";
    const QUESTIONS: &'static [u32] = &[16, 1, 2, 3, 6, 7];

    fn sound(chance: &mut Chance, width: usize, height: usize) -> Turning {
        let turn = chance.between(0, 7) as u32;
        Turning::of(turn, &random(chance, width, height))
    }

    fn wrong(chance: &mut Chance, questions: &[u32]) -> Turning {
        let (width, height) = (chance.between(2, 9) as usize, chance.between(2, 9) as usize);
        let count = width * height;
        let mut ask = Turning::sound(chance, width, height);
        for question in questions {
            let length = chance.one_of(&[count - 1, count + 1, 100]);
            match question {
                6 => ask.samples = chance.any_samples(length),
                7 => ask.out = length,
                _ => answer_no(chance, &mut ask, *question),
            }
        }
        ask
    }

    fn size_mut(&mut self) -> [&mut usize; 2] {
        self.shape.size_mut()
    }

    fn asked_mut(&mut self, question: u32) -> &mut u32 {
        self.shape.asked_mut(question)
    }

    fn number(&self, kind: &str) -> u32 {
        self.compared(kind).err().unwrap_or(0)
    }
}

impl Shape {
    fn of(turn: u32, frame: &Frame) -> Shape {
        Shape { turn, width: frame.width, height: frame.height, layout: frame.layout }
    }

    /// Asks the library and the reference alike, compares the answers, the three numbers and the places beside them, and
    /// hands back the library's answer.
    fn compared(&self, kind: &str) -> Result<(usize, usize, u32), u32> {
        let what = format!("turned shape of {self:?}, {kind}");
        let mut handed = Handed::lent();
        let answer = library::turned_shape(*self, handed.turned());
        let due = turned_shape(self.turn, self.width, self.height, self.layout);
        assert_eq!(answer, due.map(|_| ()), "{what}");
        handed.assert_due(due, &what);
        due
    }
}

impl FrameCall for Shape {
    const NAME: &'static str = "turned shape";
    const QUESTIONS: &'static [u32] = &[16, 1, 2, 3];

    fn sound(chance: &mut Chance, width: usize, height: usize) -> Shape {
        let (turn, layout) = (chance.between(0, 7) as u32, chance.layout());
        Shape { turn, width, height, layout }
    }

    fn wrong(chance: &mut Chance, questions: &[u32]) -> Shape {
        let (width, height) = (chance.between(2, 9) as usize, chance.between(2, 9) as usize);
        let mut ask = Shape::sound(chance, width, height);
        questions.iter().for_each(|question| answer_no(chance, &mut ask, *question));
        ask
    }

    fn size_mut(&mut self) -> [&mut usize; 2] {
        [&mut self.width, &mut self.height]
    }

    fn asked_mut(&mut self, question: u32) -> &mut u32 {
        match question {
            16 => &mut self.turn,
            3 => &mut self.layout,
            _ => panic!("no number of a shape has question {question}"),
        }
    }

    fn number(&self, kind: &str) -> u32 {
        self.compared(kind).err().unwrap_or(0)
    }
}

/// A frame of any 16-bit samples.
fn random(chance: &mut Chance, width: usize, height: usize) -> Frame {
    let layout = chance.layout();
    Frame { width, height, layout, samples: chance.any_samples(width * height) }
}

/// The frame turned by the library, which is the reference's turned frame. Both calls hand back its shape.
fn turned(turn: u32, frame: &Frame, kind: &str) -> Frame {
    let turned = Turning::of(turn, frame).compared(kind).unwrap();
    let shape = Shape::of(turn, frame).compared(kind);
    assert_eq!(shape, Ok((turned.width, turned.height, turned.layout)), "turn {turn}, {kind}");
    assert_eq!(turned.layout / 4, frame.layout / 4, "turn {turn} keeps the 4, {kind}");
    turned
}

/// The library's one turn for two, which is the reference's.
fn compared_then_another(turn: u32, next: u32) -> Result<u32, u32> {
    let what = format!("turn {turn}, then {next}");
    let mut single = Buffer::lent(1);
    let answer = library::then_another(turn, next, single.number_mut());
    let due = then_another(turn, next);
    assert_eq!(answer, due.map(|_| ()), "{what}");
    match due {
        Ok(due) => single.assert_holds(&[due], &what),
        Err(_) => single.assert_untouched(&format!("{what}, refused")),
    }
    answer.map(|()| *single.number_mut())
}

/// All turns and all layouts, and many numbers that are neither: those of eight bits, and of up to 32.
fn any_number() -> impl Iterator<Item = u32> {
    (0..=255).chain(above(7))
}

/// All pairs of these.
fn any_two() -> impl Iterator<Item = (u32, u32)> {
    any_number().flat_map(|first| any_number().map(move |second| (first, second)))
}

/// The turn that turns back, in the header's words.
fn back(turn: u32) -> u32 {
    match turn {
        5 => 6,
        6 => 5,
        itself => itself,
    }
}

/// The widths and heights of all small frames.
fn small_sizes() -> impl Iterator<Item = (usize, usize)> {
    (2..=9).flat_map(|width| (2..=9).map(move |height| (width, height)))
}

#[test]
fn every_small_size() {
    let chance = &mut Chance(0x9e37_79b9_7f4a_7c15);
    for (width, height) in small_sizes() {
        for (layout, turn) in (0..8).flat_map(|layout| (0..8).map(move |turn| (layout, turn))) {
            for _ in 0..2 {
                let frame = Frame { layout, ..random(chance, width, height) };
                turned(turn, &frame, "random");
            }
        }
    }
}

#[test]
fn longer_lines() {
    let chance = &mut Chance(0x2545_f491_4f6c_dd1d);
    for length in longer_lengths().chain([1000, 1023, 1024, 1025, 2046, 2047, 2048]) {
        for other in [2, 3, chance.between(4, 40) as usize] {
            for (width, height) in [(length, other), (other, length)] {
                for turn in 0..8 {
                    turned(turn, &random(chance, width, height), "random");
                }
            }
        }
    }
}

/// All 65,536 samples, each once: none is refused, changed or mistaken for another.
#[test]
fn every_sample() {
    for (width, height) in [(256, 256), (2048, 32), (32, 2048)] {
        for (turn, layout) in (0..8).zip([0, 5, 2, 7, 4, 1, 6, 3]) {
            let frame = Frame { width, height, layout, samples: (0..=65_535).collect() };
            turned(turn, &frame, "every sample");
        }
    }
}

#[test]
fn the_largest_frame() {
    let chance = &mut Chance(0x0123_4567_89ab_cdef);
    let mut frame = random(chance, 2048, 2048);
    for (place, value) in TRIES_IN_THE_LARGEST {
        frame.samples[place] = value;
    }
    for turn in 0..8 {
        turned(turn, &frame, "the largest frame");
    }
    let one_more = Turning { out: LARGEST + 1, ..Turning::of(5, &frame) };
    assert_eq!(one_more.number("a second buffer of one more"), 7);
    frame.samples.pop();
    assert_eq!(Turning { out: LARGEST, ..Turning::of(5, &frame) }.number("a sample missing"), 6);
}

#[test]
fn every_turn_with_every_layout() {
    let chance = &mut Chance(0xfedc_ba98_7654_3210);
    for (width, height) in [(2, 2), (3, 2), (4, 5)] {
        let frame = random(chance, width, height);
        for (turn, layout) in any_two() {
            let due = if turn > 7 {
                16
            } else if layout > 7 {
                3
            } else {
                0
            };
            let shape = Shape { turn, width, height, layout };
            assert_eq!(shape.number("every turn and layout"), due, "{shape:?}");
            let ask = Turning { shape, ..Turning::of(turn, &frame) };
            assert_eq!(ask.number("every turn and layout"), due, "{shape:?}");
        }
    }
}

#[test]
fn every_turn_then_every_other() {
    for (turn, next) in any_two() {
        let found = compared_then_another(turn, next);
        assert_eq!(found.is_ok(), turn < 8 && next < 8, "turn {turn}, then {next}");
    }
    assert_eq!(compared_then_another(1, 4), Ok(6));
}

/// Turning by the one turn is turning by the two, one after the other.
#[test]
fn one_turn_for_two() {
    let chance = &mut Chance(0x5851_f42d_4c95_7f2d);
    for (turn, next) in (0..8).flat_map(|turn| (0..8).map(move |next| (turn, next))) {
        let single = compared_then_another(turn, next).unwrap();
        for (width, height) in [(2, 2), (3, 2), (2, 5), (4, 4), (5, 7), (8, 3), (33, 18)] {
            for layout in 0..4 {
                let frame = Frame { layout, ..random(chance, width, height) };
                let by_two = turned(next, &turned(turn, &frame, "the first"), "the second");
                let what = format!("{turn}, then {next}, of {width} by {height}, layout {layout}");
                assert_eq!(turned(single, &frame, "the one"), by_two, "{what}");
            }
        }
    }
}

#[test]
fn there_and_back() {
    let chance = &mut Chance(0xda94_2042_e4dd_58b5);
    for turn in 0..8 {
        assert_eq!(compared_then_another(turn, back(turn)), Ok(0), "turn {turn}");
        for (width, height) in small_sizes().chain([(64, 33), (2, 2048), (500, 333)]) {
            let frame = random(chance, width, height);
            let there = turned(turn, &frame, "there");
            let again = turned(back(turn), &there, "and back");
            assert_same(&again.samples, &frame.samples, &format!("turn {turn} of {width} by {height}"));
            assert_eq!(again, frame, "turn {turn}");
        }
    }
}

/// Demand 3's list: each call is given what the last accepted one before it left, with the turned width, height and layout.
#[test]
fn lists_of_turning_calls() {
    let chance = &mut Chance(0x9fb2_1c65_1e98_df25);
    for (width, height) in small_sizes().flat_map(|size| [size; 8]) {
        let frame = random(chance, width, height);
        let mut now = frame.clone();
        let mut list = Vec::new();
        for _ in 0..8 {
            let any = chance.between(0, u32::MAX.into()) as u32;
            let turn = chance.one_of(&[any, any % 8, any % 8, any % 8]);
            let wrong = chance.one_of(&wrong_lengths(width, height));
            let out = chance.one_of(&[wrong, width * height, width * height, width * height]);
            list.push((turn, out));
            let ask = Turning { out, ..Turning::of(turn, &now) };
            if let Ok(turned) = ask.compared("of a list") {
                now = turned;
            }
        }
        assert_eq!(now, after_list(&frame, &list).0, "{width} by {height}, {list:?}");
    }
}

#[test]
fn refused_turning_calls() {
    refusals::<Turning>(|chance, counts| {
        for (width, height) in SHAPES {
            let sound = Turning::sound(chance, width, height);
            for length in wrong_lengths(width, height) {
                let ask = Turning { samples: chance.any_samples(length), ..sound };
                answered(&ask, 6, "the samples' length", counts);
                answered(&Turning { out: length, ..ask }, 6, "both lengths", counts);
                answered(&Turning { out: length, ..sound.clone() }, 7, "the second buffer's length", counts);
            }
        }
    });
}

#[test]
fn refused_shapes() {
    refusals::<Shape>(|_, _| ());
}
