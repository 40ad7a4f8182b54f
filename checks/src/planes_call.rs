//! What the tests of the rounds call and of the finishing call share: both are given a frame's fields and its mosaic, three
//! planes, a work buffer and a wide one.

use crate::buffers::Buffer;
use crate::chance::Chance;
use crate::kept::Told;
use crate::mosaic::has_two_levels;
use crate::packet::Fields;
use crate::refusals::{
    answer_no, answered, field_mut, short_work, sufficient_work, wrong_lengths, Counts, FrameCall, LARGEST,
    NO_SAMPLE, SHAPES, TRIES, TRIES_IN_THE_LARGEST,
};
use crate::rounds::wide_needed;
use std::marker::PhantomData;

/// Red, green and blue.
pub type Planes = [Vec<u16>; 3];
pub const COLOURS: [&str; 3] = ["red", "green", "blue"];

/// A call over the fields, the mosaic, the planes and both work buffers.
pub type Call = fn(&Fields, &[u16], [&mut [u16]; 3], &mut [i32], &mut [i64]) -> Result<(), u32>;

/// One of the two calls, of the library and of the reference.
pub trait PlanesCall: Clone {
    const NAME: &'static str;
    /// Its questions in their order.
    const QUESTIONS: &'static [u32];
    const LIBRARY: Call;
    const REFERENCE: Call;

    /// A plane of so many samples, as the call takes it.
    fn plane(chance: &mut Chance, count: usize) -> Vec<u16>;

    /// The planes that the rounds begin with, of an accepted call.
    fn before_rounds(fields: &Fields, mosaic: &[u16], planes: &Planes) -> Planes;

    /// A frame with this green, and this red and blue.
    fn of_two(chance: &mut Chance, fields: Fields, green: &[u16], coloured: &[u16]) -> Ask<Self>;
}

/// What the call is asked with: the fields, the mosaic, the three planes and the lengths of the work buffers.
#[derive(Clone)]
pub struct Ask<C> {
    pub fields: Fields,
    pub mosaic: Vec<u16>,
    pub planes: Planes,
    pub work: usize,
    pub wide_work: usize,
    pub call: PhantomData<C>,
}

/// The buffers of a call, with the places beside them.
struct Handed {
    mosaic: Buffer<u16>,
    planes: [Buffer<u16>; 3],
    work: Buffer<i32>,
    wide_work: Buffer<i64>,
}

impl<C: PlanesCall> Ask<C> {
    /// With this mosaic and these planes, and work buffers as long as they have to be: with one level the wide one is empty.
    pub fn of(fields: Fields, mosaic: &[u16], planes: Planes) -> Ask<C> {
        let (work, wide_work) = (8 * fields.width * fields.height, wide_needed(&fields));
        Ask { fields, mosaic: mosaic.to_vec(), planes, work, wide_work, call: PhantomData }
    }

    /// The answer, and the buffers after the call.
    fn asked(&self, call: Call) -> (Result<(), u32>, Handed) {
        let mosaic = Buffer::given(&self.mosaic);
        let mut planes = self.planes.each_ref().map(|plane| Buffer::given(plane));
        let (mut work, mut wide_work) = (Buffer::lent(self.work), Buffer::lent(self.wide_work));
        let lent = planes.each_mut().map(|plane| plane.inside_mut());
        let answer = call(&self.fields, mosaic.inside(), lent, work.inside_mut(), wide_work.inside_mut());
        (answer, Handed { mosaic, planes, work, wide_work })
    }

    /// Asks the library and the reference alike, compares the answers and the buffers, and hands back the library's number
    /// and planes.
    pub fn compared(&self, kind: &str) -> (u32, Planes) {
        let what = format!("{} of {:?}, {kind}", C::NAME, self.fields);
        let (answer, found) = self.asked(C::LIBRARY);
        let (due_answer, due) = self.asked(C::REFERENCE);
        assert_eq!(answer, due_answer, "{what}");
        found.mosaic.assert_holds(&self.mosaic, &format!("{what}: mosaic"));
        for k in 0..3 {
            let what = format!("{what}: {}", COLOURS[k]);
            found.planes[k].assert_holds(due.planes[k].inside(), &what);
            if answer.is_err() {
                found.planes[k].assert_holds(&self.planes[k], &format!("{what}, refused"));
            }
        }
        found.work.assert_holds(due.work.inside(), &format!("{what}: work buffer"));
        found.wide_work.assert_holds(due.wide_work.inside(), &format!("{what}: wide work buffer"));
        if answer.is_err() {
            found.work.assert_untouched(&format!("{what}: work buffer, refused"));
        }
        if answer.is_err() || !has_two_levels(self.fields.layout) {
            found.wide_work.assert_untouched(&format!("{what}: wide work buffer, refused or one level"));
        }
        (answer.err().unwrap_or(0), found.planes.map(|plane| plane.inside().to_vec()))
    }

    /// The library's planes after an accepted call.
    pub fn accepted(&self, kind: &str) -> Planes {
        let (number, planes) = self.compared(kind);
        assert_eq!(number, 0, "{} of {:?}, {kind}", C::NAME, self.fields);
        planes
    }

    /// An accepted call, and whether it tells each of these ranges from what a working plane keeps.
    pub fn accepted_and_told(&self, kind: &str, others: &mut [Told]) {
        let [red, _, blue] = self.accepted(kind);
        let given = C::before_rounds(&self.fields, &self.mosaic, &self.planes);
        others.iter_mut().for_each(|told| told.add(&self.fields, &self.mosaic, &given, [&red, &blue]));
    }
}

/// Rounds and thresholds: few rounds with every threshold, and the most rounds with a threshold by chance.
pub fn settings(chance: &mut Chance) -> Vec<(u32, u32)> {
    let thresholds = [0, 1, 20, 300, 4095];
    let few = (0..=8).flat_map(|rounds| thresholds.map(|threshold| (rounds, threshold)));
    few.chain([(64, chance.one_of(&thresholds))]).collect()
}

/// Questions 6 and 7, each answered no alone: of each buffer, and of two planes whose lengths together would be right.
pub fn lengths_refused<C: PlanesCall>(chance: &mut Chance, counts: &mut Counts) {
    for (width, height) in SHAPES {
        let count = width * height;
        let sound = Ask::<C>::sound(chance, width, height);
        for length in wrong_lengths(width, height) {
            let ask = Ask { mosaic: chance.samples(length), ..sound.clone() };
            answered(&ask, 6, "the mosaic's length", counts);
            for plane in 0..3 {
                let mut ask = sound.clone();
                ask.planes[plane] = C::plane(chance, length);
                answered(&ask, 7, "a plane's length", counts);
                ask.planes[(plane + 1) % 3] = C::plane(chance, (2 * count).saturating_sub(length));
                answered(&ask, 7, "two planes' lengths", counts);
            }
            let planes = [(); 3].map(|_| C::plane(chance, length));
            answered(&Ask { planes, ..sound.clone() }, 7, "the three planes' lengths", counts);
        }
    }
}

/// Work buffers and wide ones that are too short and that suffice, each with each, at every layout, without a round too. 8
/// is asked at either level and first, 18 with two levels alone.
pub fn work_refused<C: PlanesCall>(chance: &mut Chance, counts: &mut Counts) {
    for ((width, height), layout) in SHAPES.into_iter().flat_map(|size| (0..8).map(move |l| (size, l))) {
        let count = width * height;
        let lengths = || short_work(count).into_iter().chain(sufficient_work(count));
        let mut sound = Ask::<C>::sound(chance, width, height);
        (sound.fields.layout, sound.fields.rounds) = (layout, chance.between(0, 2) as u32);
        for (work, wide_work) in lengths().flat_map(|work| lengths().map(move |wide| (work, wide))) {
            let number = if work < 8 * count {
                8
            } else if layout >= 4 && wide_work < 8 * count {
                18
            } else {
                0
            };
            let kind = format!("work buffers of {work} and {wide_work}");
            answered(&Ask { work, wide_work, ..sound.clone() }, number, &kind, counts);
        }
    }
}

/// Question 9 alone, at every place: 4,095 is in range, more is not.
pub fn samples_refused<C: PlanesCall>(chance: &mut Chance, counts: &mut Counts) {
    for (width, height) in SHAPES {
        let sound = Ask::<C>::sound(chance, width, height);
        for (place, (value, in_range)) in (0..width * height).flat_map(|k| TRIES.map(|tried| (k, tried))) {
            let mut ask = sound.clone();
            ask.mosaic[place] = value;
            let number = if in_range { 0 } else { 9 };
            answered(&ask, number, &format!("mosaic, {value} at place {place}"), counts);
        }
        for value in NO_SAMPLE {
            let mosaic = vec![value; width * height];
            answered(&Ask { mosaic, ..sound.clone() }, 9, "no sample in range", counts);
        }
    }
}

/// The largest frame, white in the mosaic and in the planes.
pub fn largest<C: PlanesCall>(layout: u32) -> Ask<C> {
    let fields = Fields { width: 2048, height: 2048, layout, rounds: 1, threshold: 0 };
    let white = vec![4095; LARGEST];
    Ask::of(fields, &white, [(); 3].map(|_| white.clone()))
}

/// Questions 8, 18 and 9 in the largest frames.
pub fn large_frames_refused<C: PlanesCall>(counts: &mut Counts) {
    let mut ask = largest::<C>(0);
    for (place, value) in TRIES_IN_THE_LARGEST {
        ask.mosaic[place] = value;
        answered(&ask, 9, &format!("mosaic, {value} at place {place}"), counts);
        ask.mosaic[place] = 4095;
    }
    answered(&Ask { work: 8 * LARGEST - 1, ..ask }, 8, "a work buffer of one less", counts);
    let ask = Ask { wide_work: 8 * LARGEST - 1, ..largest::<C>(7) };
    answered(&ask, 18, "a wide work buffer of one less", counts);
}

impl<C: PlanesCall> FrameCall for Ask<C> {
    const NAME: &'static str = C::NAME;
    const QUESTIONS: &'static [u32] = C::QUESTIONS;

    /// Both work buffers suffice, the wide one whatever the layout becomes.
    fn sound(chance: &mut Chance, width: usize, height: usize) -> Self {
        let rounds = chance.between(0, 3) as u32;
        let fields = Fields { rounds, ..chance.few_rounds(width, height) };
        let mosaic = chance.samples(width * height);
        let ask = Ask::of(fields, &mosaic, [(); 3].map(|_| C::plane(chance, width * height)));
        Ask { wide_work: ask.work, ..ask }
    }

    fn wrong(chance: &mut Chance, questions: &[u32]) -> Self {
        let (width, height) = (chance.between(2, 9) as usize, chance.between(2, 9) as usize);
        let count = width * height;
        let mut ask = Ask::<C>::sound(chance, width, height);
        let short = chance.one_of(&[0, 1, count, 8 * count - 1]);
        if questions.contains(&18) {
            (ask.fields.layout, ask.wide_work) = (chance.between(4, 7) as u32, short);
        } else if !has_two_levels(ask.fields.layout) {
            ask.wide_work = chance.one_of(&[short, ask.work, ask.work + 9]);
        }
        for question in questions {
            let length = chance.one_of(&[count - 1, count + 1, 100]);
            let no_sample = chance.one_of(&NO_SAMPLE);
            let plane = chance.place(3);
            match question {
                1..=5 => answer_no(chance, &mut ask, *question),
                6 => ask.mosaic = chance.samples(length),
                7 => ask.planes[plane] = C::plane(chance, length),
                8 => ask.work = chance.one_of(&[0, count, 8 * count - 1]),
                // before the others
                18 => (),
                9 => *chance.one_in(&mut ask.mosaic) = no_sample,
                _ => *chance.one_in(&mut ask.planes[plane]) = no_sample,
            }
        }
        ask
    }

    fn size_mut(&mut self) -> [&mut usize; 2] {
        [&mut self.fields.width, &mut self.fields.height]
    }

    fn asked_mut(&mut self, question: u32) -> &mut u32 {
        field_mut(&mut self.fields, question)
    }

    fn number(&self, kind: &str) -> u32 {
        self.compared(kind).0
    }
}
