//! Frames with holes, black beside white, which the tests of the rounds call and of the finishing call share: between rounds
//! their working planes go below zero and above white.

use crate::chance::Chance;
use crate::kept::{Told, CLIPPED_AFTER_EVERY_ROUND, OTHER_ENDS};
use crate::mosaic::has_two_levels;
use crate::mosaics::{all_holed, beside_random, holed, longer_lengths, SQUARES};
use crate::packet::Fields;
use crate::planes_call::{Ask, PlanesCall};

/// Frames of this size with holes, black beside white, in these layouts. One in four tells that a working plane is not clipped
/// after every round.
fn clipping_told<C: PlanesCall>(chance: &mut Chance, width: usize, height: usize, layouts: &[u32]) {
    let mut told = [Told::from(CLIPPED_AFTER_EVERY_ROUND)];
    for (kind, [green, coloured]) in all_holed(width, height) {
        for &layout in layouts {
            let fields = Fields { layout, ..chance.several_rounds(width, height) };
            C::of_two(chance, fields, &green, &coloured).accepted_and_told(&kind, &mut told);
        }
    }
    told[0].assert_one_in(4, &format!("{} of {width} by {height} with holes", C::NAME));
}

/// Frames with holes of every small size in every layout, and lines of some lengths up to the longest at each level.
pub fn of_every_size<C: PlanesCall>() {
    let chance = &mut Chance(0x8cb9_2ba7_2f3d_8dd7);
    for (width, height) in (2..=10).flat_map(|width| (2..=10).map(move |height| (width, height))) {
        clipping_told::<C>(chance, width, height, &[0, 1, 2, 3, 4, 5, 6, 7]);
    }
    for length in longer_lengths().step_by(3).chain([2047, 2048]) {
        let other = chance.between(2, 5) as usize;
        for (width, height) in [(length, other), (other, length)] {
            let layout = chance.layout();
            clipping_told::<C>(chance, width, height, &[layout, layout ^ 4]);
        }
    }
}

/// A square frame with holes of these squares, and two rounds. Random samples beside them make its parts unlike.
fn beside_random_samples<C: PlanesCall>(
    chance: &mut Chance,
    side: usize,
    layout: u32,
    squares_of: [usize; 2],
) -> Ask<C> {
    let fields = Fields { width: side, height: side, layout, rounds: 2, threshold: 20 };
    let [(_, planes), _] = holed(side, side, squares_of);
    let [green, coloured] = planes.map(|plane| beside_random(chance, side, side, &plane));
    C::of_two(chance, fields, &green, &coloured)
}

/// The largest frames with holes, at one level and at two, each a layout and its squares. Smaller ones of the same make tell
/// that a working plane is not clipped after every round.
pub fn in_the_largest_frames<C: PlanesCall>(frames: [(u32, [usize; 2]); 2]) {
    let chance = &mut Chance(0x2b99_2ddf_a232_49d6);
    let mut told = [Told::from(CLIPPED_AFTER_EVERY_ROUND)];
    for (layout, squares_of) in frames {
        let kind = format!("squares of {squares_of:?} with holes, beside random");
        beside_random_samples::<C>(chance, 101, layout, squares_of).accepted_and_told(&kind, &mut told);
        beside_random_samples::<C>(chance, 2048, layout, squares_of).accepted(&kind);
    }
    told[0].assert_one_in(1, C::NAME);
}

/// Frames with holes, nearly black beside nearly white: so large squares that working planes go beyond both ends of what is
/// kept. Two levels need larger ones.
fn beyond_both_ends<C: PlanesCall>(chance: &mut Chance, fields: Fields, others: &mut [Told]) {
    let squares_of = SQUARES[if has_two_levels(fields.layout) { 2 } else { 1 }];
    for (kind, planes) in holed(fields.width, fields.height, squares_of) {
        let [green, coloured] = planes.map(|plane| chance.nearly(&plane));
        C::of_two(chance, fields, &green, &coloured).accepted_and_told(&kind, others);
    }
}

/// Such frames of some sizes in every layout. Often enough they tell other ends from those that are kept.
pub fn beyond_what_is_kept<C: PlanesCall>() {
    let chance = &mut Chance(0xa076_1d64_78bd_642f);
    let mut others = OTHER_ENDS.map(Told::from);
    for (width, height) in [(26, 20), (31, 18), (23, 29)] {
        for (layout, threshold) in (0..8).flat_map(|layout| [0, 1, 20].map(|threshold| (layout, threshold))) {
            let rounds = chance.between(4, 8) as u32;
            let fields = Fields { width, height, layout, rounds, threshold };
            beyond_both_ends::<C>(chance, fields, &mut others);
        }
    }
    others.iter().for_each(|told| told.assert_often(C::NAME));
}
