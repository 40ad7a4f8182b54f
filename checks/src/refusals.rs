//! What the tests of refused calls share.

use std::collections::BTreeMap;

use crate::chance::Chance;
use crate::packet::Fields;

/// No width and no height. Some of them would be in range, or give the right product, in fewer bits.
pub const NO_LENGTH: [usize; 10] =
    [0, 2049, 2050, 4096, 65_536, 65_539, 1 << 32, (1 << 32) + 3, (1 << 63) + 3, usize::MAX];

/// A width or a height that no frame has. Half of them are 1, which the bank alone takes.
pub fn no_side(chance: &mut Chance) -> usize {
    let no_length = chance.one_of(&NO_LENGTH);
    chance.one_of(&[1, no_length])
}

/// The questions about numbers that have 32 bits in C, and the largest number that each allows.
pub const LARGEST_ALLOWED: [(u32, u32); 4] = [(16, 7), (3, 7), (4, 64), (5, 4095)];

/// Numbers above `most`. Nearly all of them would be in range in fewer bits or with a sign: a bit or several above those of
/// `most`, and below them a number in range; of the layouts, of either level.
pub fn above(most: u32) -> Vec<u32> {
    let one_bit = (0..32).map(|bit| 1 << bit);
    let several = [768, 0xff00, 0x3_0000, 0xff_0000, 0xffff_0000, 0xffff_ff00];
    let upper = one_bit.chain(several).filter(|&upper| upper > most);
    let lower = [0, 1, most / 2, most / 2 + 1, most];
    upper.flat_map(|upper| lower.map(|lower| upper | lower)).chain([u32::MAX]).collect()
}

/// A number that this question refuses: one that a packet could hold, any of 32 bits, or one that fewer would hide.
pub fn wrong_number(chance: &mut Chance, question: u32) -> u32 {
    let (_, most) = LARGEST_ALLOWED.into_iter().find(|(other, _)| *other == question).expect("a number");
    let narrow = if most < 256 { 255 } else { 65_535 };
    let [held, any] = [narrow, u32::MAX].map(|end| chance.between(u64::from(most) + 1, end.into()) as u32);
    let hidden = chance.one_of(&above(most));
    chance.one_of(&[held, any, hidden])
}

/// Lengths that are not w·h.
pub fn wrong_lengths(width: usize, height: usize) -> Vec<usize> {
    let count = width * height;
    let near = [count - 1, count + 1, count + 2, count + width, count + height, count - width];
    let far = [0, 1, 2 * count, 4 * count, count / 2, 1000];
    near.into_iter().chain(far).filter(|&length| length != count).collect()
}

/// Widths and heights of the frames whose lengths and samples are tried.
pub const SHAPES: [(usize, usize); 9] =
    [(2, 2), (3, 2), (2, 3), (7, 5), (16, 16), (17, 3), (64, 2), (33, 2), (2, 35)];

/// Work buffers, the wide ones too, that are too short for so many samples.
pub fn short_work(count: usize) -> [usize; 9] {
    [0, 1, count - 1, count, count + 1, 2 * count, 4 * count, 7 * count, 8 * count - 1]
}

/// Work buffers, the wide ones too, that suffice for so many samples.
pub fn sufficient_work(count: usize) -> [usize; 8] {
    [0, 1, 2, 3, 8, count, 8 * count, 1000].map(|more| 8 * count + more)
}

/// No samples.
pub const NO_SAMPLE: [u16; 3] = [4096, 32_768, 65_535];

/// What is tried at a place of a mosaic or of a plane, and whether it is in range.
pub const TRIES: [(u16, bool); 6] =
    [(4095, true), (4096, false), (4097, false), (8191, false), (32_768, false), (65_535, false)];

/// How many samples the largest frame has.
pub const LARGEST: usize = 2048 * 2048;

/// The first, a middle and the last place of the largest frame, and what is tried there.
pub const TRIES_IN_THE_LARGEST: [(usize, u16); 3] =
    [(0, 65_535), (LARGEST / 2 + 77, 4096), (LARGEST - 1, 4096)];

/// The field that question 3, 4 or 5 asks about.
pub fn field_mut(fields: &mut Fields, question: u32) -> &mut u32 {
    match question {
        3 => &mut fields.layout,
        4 => &mut fields.rounds,
        5 => &mut fields.threshold,
        _ => panic!("no field of 32 bits has question {question}"),
    }
}

/// Every set of the questions, each in their order.
pub fn sets(questions: &[u32]) -> Vec<Vec<u32>> {
    let chosen = |set: usize| (0..questions.len()).filter(move |k| set >> k & 1 == 1);
    (0..1 << questions.len()).map(|set| chosen(set).map(|k| questions[k]).collect()).collect()
}

/// How often each number was answered.
#[derive(Default)]
pub struct Counts(BTreeMap<u32, usize>);

impl Counts {
    pub fn add(&mut self, number: u32) {
        *self.0.entry(number).or_insert(0) += 1;
    }

    /// 0 and the numbers of these questions were answered, each 20 times or more, and no others.
    pub fn assert_complete(mut self, call: &str, questions: &[u32]) {
        for number in [0].iter().chain(questions) {
            let count = self.0.remove(number).unwrap_or(0);
            assert!(count >= 20, "{call}: the number {number} occurs {count} times only");
        }
        assert!(self.0.is_empty(), "{call}: numbers that no question has: {:?}", self.0);
    }
}

/// A call that is given a width, a height, a layout and buffers.
pub trait FrameCall: Clone {
    const NAME: &'static str;
    /// Its questions in their order.
    const QUESTIONS: &'static [u32];
    /// What a sound call is answered where a side of the frame is 2 or 3.
    const OF_A_SMALL_FRAME: u32 = 0;

    /// A call of which every question is answered yes.
    fn sound(chance: &mut Chance, width: usize, height: usize) -> Self;

    /// A call of which these questions are answered no.
    fn wrong(chance: &mut Chance, questions: &[u32]) -> Self;

    /// Width and height.
    fn size_mut(&mut self) -> [&mut usize; 2];

    /// The number of 32 bits that this question asks about.
    fn asked_mut(&mut self, question: u32) -> &mut u32;

    /// Its number, where the library and the reference agree on all that it leaves.
    fn number(&self, kind: &str) -> u32;
}

/// Answers one of questions 16 and 1 to 5 no.
pub fn answer_no<C: FrameCall>(chance: &mut Chance, call: &mut C, question: u32) {
    let [width, height] = call.size_mut();
    match question {
        1 => *width = no_side(chance),
        2 => *height = no_side(chance),
        of_a_number => *call.asked_mut(of_a_number) = wrong_number(chance, of_a_number),
    }
}

/// Asks, expects this number and counts it.
pub fn answered<C: FrameCall>(call: &C, number: u32, kind: &str, counts: &mut Counts) {
    assert_eq!(call.number(kind), number, "{}, {kind}", C::NAME);
    counts.add(number);
}

/// Questions 1 and 2, each answered no alone; and the ends of their ranges.
fn sizes<C: FrameCall>(chance: &mut Chance, counts: &mut Counts) {
    for length in NO_LENGTH.into_iter().chain([1]) {
        for other in [2, 3] {
            // as long as they would have to be, where that is not too long, and as far as the product fits
            let product = length.wrapping_mul(other);
            let count = if product <= 3 * 4096 { product } else { 6 };
            let call = &mut C::sound(chance, count, 1);
            for (size, number) in [([length, other], 1), ([other, length], 2)] {
                call.size_mut().into_iter().zip(size).for_each(|(side, length)| *side = length);
                answered(call, number, &format!("{size:?}"), counts);
            }
        }
    }
    for (width, height) in [(2, 2), (2, 3), (3, 2), (2048, 2), (2, 2048), (2047, 2), (2, 2047)] {
        let call = C::sound(chance, width, height);
        answered(&call, C::OF_A_SMALL_FRAME, "an end of the range", counts);
    }
}

/// The call's questions about numbers of 32 bits, and the largest number that each allows.
fn of_numbers<C: FrameCall>() -> impl Iterator<Item = (u32, u32)> {
    LARGEST_ALLOWED.into_iter().filter(|(question, _)| C::QUESTIONS.contains(question))
}

/// Each question about a number, alone: of every number that it allows, of every byte, and of wider ones.
fn numbers<C: FrameCall>(chance: &mut Chance, counts: &mut Counts) {
    for (question, most) in of_numbers::<C>() {
        for number in (0..=most.max(255)).chain(above(most)) {
            let mut call = C::sound(chance, 5, 4);
            *call.asked_mut(question) = number;
            let due = if number <= most { 0 } else { question };
            answered(&call, due, &format!("{number} for question {question}"), counts);
        }
    }
}

/// Each number out of range with other questions answered no, before its own and after it: it is asked neither too early nor
/// too late, however wide it is.
fn numbers_in_their_place<C: FrameCall>(chance: &mut Chance, counts: &mut Counts) {
    for questions in sets(C::QUESTIONS).iter().filter(|set| set.len() <= 3) {
        for (question, most) in of_numbers::<C>().filter(|(question, _)| questions.contains(question)) {
            for number in above(most) {
                let mut call = C::wrong(chance, questions);
                *call.asked_mut(question) = number;
                let kind = format!("{questions:?} answered no, {question} of {number}");
                answered(&call, questions[0], &kind, counts);
            }
        }
    }
}

/// Every set of questions answered no at once, so that their order shows.
fn several_wrongs<C: FrameCall>(chance: &mut Chance, counts: &mut Counts) {
    for questions in sets(C::QUESTIONS) {
        let number = questions.first().copied().unwrap_or(0);
        for _ in 0..20 {
            let call = C::wrong(chance, &questions);
            answered(&call, number, &format!("{questions:?} answered no"), counts);
        }
    }
}

/// The refusals that every such call has, and between them its own; each number has to be answered often enough.
pub fn refusals<C: FrameCall>(own: impl FnOnce(&mut Chance, &mut Counts)) {
    let chance = &mut Chance(0xda94_2042_e4dd_58b5);
    let mut counts = Counts::default();
    sizes::<C>(chance, &mut counts);
    numbers::<C>(chance, &mut counts);
    numbers_in_their_place::<C>(chance, &mut counts);
    own(chance, &mut counts);
    several_wrongs::<C>(chance, &mut counts);
    counts.assert_complete(C::NAME, C::QUESTIONS);
}
