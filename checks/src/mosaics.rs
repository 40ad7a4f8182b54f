//! The mosaics, and the planes of samples, that the tests try.

use crate::chance::Chance;
use crate::mosaic::{Colour, Mosaic};

/// A name and the samples.
pub type Kind = (String, Vec<u16>);

/// 2 by 2 of two values: columns in turn, rows in turn, checkerboard. Each has one band of detail.
pub const OF_TWO: [fn(u16, u16) -> [u16; 4]; 3] =
    [|a, b| [a, b, a, b], |a, b| [a, a, b, b], |a, b| [a, b, b, a]];

/// Lengths around those that a machine takes at once, and of which it takes every other place.
pub fn longer_lengths() -> impl Iterator<Item = usize> {
    (11..=40).chain([63, 64, 65, 66, 127, 128, 129, 130, 255, 256, 257])
}

/// Samples whose row i, column j holds `held(i, j)`.
pub fn filled(width: usize, height: usize, held: impl FnMut(usize, usize) -> u16) -> Vec<u16> {
    let mut held = held;
    (0..width * height).map(|k| held(k / width, k % width)).collect()
}

/// White where `white(i, j)`, black elsewhere.
fn black_and_white(width: usize, height: usize, white: impl Fn(usize, usize) -> bool) -> Vec<u16> {
    filled(width, height, |i, j| if white(i, j) { 4095 } else { 0 })
}

/// Every value, the ends more often, or few values: then many differences are equal.
fn random(chance: &mut Chance, width: usize, height: usize) -> Vec<Kind> {
    let count = width * height;
    let any = (0..count).map(|_| chance.between(0, 4095) as u16).collect();
    let often_ends = chance.samples(count);
    let mut kinds = vec![("random".to_string(), any), ("random, often ends".to_string(), often_ends)];
    let few: [&[u16]; 6] =
        [&[0, 4095], &[0, 1], &[0, 1, 2], &[4094, 4095], &[0, 2047, 2048, 4095], &[100, 101, 102, 110]];
    for values in few {
        kinds.push((format!("random among {values:?}"), (0..count).map(|_| chance.one_of(values)).collect()));
    }
    kinds
}

/// Lines and squares in turn, of one place and of two: a colour's own places are two apart.
fn in_turn(width: usize, height: usize) -> Vec<Kind> {
    let patterns: [(&str, fn(usize, usize) -> usize); 6] = [
        ("checkerboard", |i, j| i + j),
        ("rows in turn", |i, _| i),
        ("columns in turn", |_, j| j),
        ("checkerboard of two by two", |i, j| i / 2 + j / 2),
        ("pairs of rows in turn", |i, _| i / 2),
        ("pairs of columns in turn", |_, j| j / 2),
    ];
    let mut kinds = Vec::new();
    for (name, number) in patterns {
        for parity in [0, 1] {
            let samples = black_and_white(width, height, |i, j| number(i, j) % 2 == parity);
            kinds.push((format!("{name}, white from {parity} on"), samples));
        }
    }
    kinds
}

/// Black on one side, white on the other.
fn steps(width: usize, height: usize) -> Vec<Kind> {
    let mut kinds = Vec::new();
    for white in [true, false] {
        let left = black_and_white(width, height, |_, j| (j < width / 2) == white);
        kinds.push((format!("left half white: {white}"), left));
        let upper = black_and_white(width, height, |i, _| (i < height / 2) == white);
        kinds.push((format!("upper half white: {white}"), upper));
        let corner = black_and_white(width, height, |i, j| (i * width < j * height) == white);
        kinds.push((format!("right upper corner white: {white}"), corner));
    }
    kinds
}

/// Each of the four parities of row and column black or white: in every layout, each colour.
fn by_parities(width: usize, height: usize) -> Vec<Kind> {
    let white = |set: usize| black_and_white(width, height, |i, j| set >> (2 * (i % 2) + j % 2) & 1 == 1);
    (0..16).map(|set| (format!("white at the parities {set:04b}"), white(set))).collect()
}

/// How many places a square with a hole has each way, and how many lie between two.
pub const SQUARES: [[usize; 2]; 3] = [[3, 2], [7, 4], [9, 4]];

/// White squares on black, one of them in the middle. In the middle of each stands this.
fn squares(width: usize, height: usize, [side, apart]: [usize; 2], middle: u16) -> Vec<u16> {
    let step = side + apart;
    // the place in its square, or behind it, of place i in a line of n
    let inside = |n: usize, i: usize| (step * n + i - n / 2 + side / 2) % step;
    filled(width, height, |i, j| {
        let (i, j) = (inside(height, i), inside(width, j));
        match (i.max(j) < side, [i, j] == [side / 2; 2]) {
            (true, true) => middle,
            (true, false) => 4095,
            (false, _) => 0,
        }
    })
}

/// A name, green, and red or blue.
pub type Holed = (String, [Vec<u16>; 2]);

/// Green with black holes in white squares, and for red and blue the squares' opposite, without a hole: rounds pull them below
/// zero there. And the opposite of both, where rounds pull them above white.
pub fn holed(width: usize, height: usize, squares_of: [usize; 2]) -> [Holed; 2] {
    let green = squares(width, height, squares_of, 0);
    let coloured = opposite(&squares(width, height, squares_of, 4095));
    let opposites = [opposite(&green), opposite(&coloured)];
    let [side, _] = squares_of;
    [
        (format!("white squares of {side} with black holes"), [green, coloured]),
        (format!("black squares of {side} with white holes"), opposites),
    ]
}

/// The holes of every square.
pub fn all_holed(width: usize, height: usize) -> impl Iterator<Item = Holed> {
    SQUARES.into_iter().flat_map(move |squares_of| holed(width, height, squares_of))
}

/// The mosaic of a green, and of a plane that red and blue share.
pub fn of_two(width: usize, height: usize, layout: u32, green: &[u16], coloured: &[u16]) -> Vec<u16> {
    let mosaic = Mosaic { width, height, layout, samples: &[] };
    filled(width, height, |i, j| match mosaic.colour(i as i64, j as i64) {
        Colour::Green => green[i * width + j],
        _ => coloured[i * width + j],
    })
}

/// At each of the four parities of row and column the samples of a kind by chance.
fn mixed(chance: &mut Chance, width: usize, height: usize, kinds: &[Kind]) -> Vec<u16> {
    let chosen = [(); 4].map(|_| &kinds[chance.place(kinds.len())].1);
    filled(width, height, |i, j| chosen[2 * (i % 2) + j % 2][i * width + j])
}

/// Samples of every kind.
pub fn kinds(chance: &mut Chance, width: usize, height: usize) -> Vec<Kind> {
    let mut kinds = random(chance, width, height);
    kinds.extend(in_turn(width, height));
    kinds.extend(steps(width, height));
    kinds.extend(all_holed(width, height).map(|(name, [green, _])| (name, green)));
    let unmixed = kinds.clone();
    kinds.extend(by_parities(width, height));
    for _ in 0..12 {
        kinds.push(("a kind for each parity".to_string(), mixed(chance, width, height, &unmixed)));
    }
    kinds
}

/// Black for white, and white for black.
pub fn opposite(samples: &[u16]) -> Vec<u16> {
    samples.iter().map(|sample| 4095 - sample).collect()
}

/// These samples and random ones in turn, in squares of 26 places each way.
pub fn beside_random(chance: &mut Chance, width: usize, height: usize, samples: &[u16]) -> Vec<u16> {
    let random = chance.samples(samples.len());
    let of = |i: usize, j: usize| if (i / 26 + j / 26) % 2 == 0 { samples } else { &random };
    filled(width, height, |i, j| of(i, j)[i * width + j])
}

/// One value at a place, another at all others.
pub fn spike(count: usize, place: usize, value: u16, others: u16) -> Vec<u16> {
    let mut samples = vec![others; count];
    samples[place] = value;
    samples
}
