//! The C calls of packets, turns, the filter bank, the first estimates, the green update, the rounds, finishing, the tally
//! and the spot.
//!
//! This is no module of the crate: what links the crate would then need the static library. The tests of these calls and the
//! benchmark take the file in by its path.

// a test makes its own calls only
#![allow(dead_code)]

use checks::finishing::Tally;
use checks::frame_calls::answer;
use checks::packet::Fields;

#[link(name = "demosaic_c", kind = "static")]
unsafe extern "C" {
    fn demosaic_packet_fields(
        store: *const u8,
        store_len: usize,
        width: *mut usize,
        height: *mut usize,
        layout: *mut u32,
        rounds: *mut u32,
        threshold: *mut u32,
    ) -> u32;

    fn demosaic_packet_samples(
        store: *const u8,
        store_len: usize,
        samples: *mut u16,
        samples_len: usize,
    ) -> u32;

    fn demosaic_packet_write(
        width: usize,
        height: usize,
        layout: u32,
        rounds: u32,
        threshold: u32,
        samples: *const u16,
        samples_len: usize,
        out: *mut u8,
        out_len: usize,
        written: *mut usize,
    ) -> u32;

    fn demosaic_packet_repeats(a: *const u8, a_len: usize, b: *const u8, b_len: usize, same: *mut u8) -> u32;

    fn demosaic_turn(
        turn: u32,
        width: usize,
        height: usize,
        layout: u32,
        samples: *const u16,
        samples_len: usize,
        out: *mut u16,
        out_len: usize,
        turned_width: *mut usize,
        turned_height: *mut usize,
        turned_layout: *mut u32,
    ) -> u32;

    fn demosaic_turned_shape(
        turn: u32,
        width: usize,
        height: usize,
        layout: u32,
        turned_width: *mut usize,
        turned_height: *mut usize,
        turned_layout: *mut u32,
    ) -> u32;

    fn demosaic_then_another(turn: u32, next: u32, single: *mut u32) -> u32;

    safe fn demosaic_bring_back(sum: i32) -> u16;

    safe fn demosaic_tally_finished(before: u32, number: u32) -> u32;

    safe fn demosaic_tally_refused(before: u32, number: u32) -> u32;

    safe fn demosaic_tally_rounds(before: u32, number: u32, rounds: u32) -> u32;
}

checks::frame_calls!(
    demosaic_split,
    demosaic_join,
    demosaic_estimate,
    demosaic_update,
    demosaic_rounds,
    demosaic_finish,
    demosaic_spot
);

pub fn packet_fields(
    store: &[u8],
    width: &mut usize,
    height: &mut usize,
    layout: &mut u32,
    rounds: &mut u32,
    threshold: &mut u32,
) -> Result<(), u32> {
    // each pointer and length are those of one slice or number, and none that is written overlaps another
    answer(unsafe {
        demosaic_packet_fields(store.as_ptr(), store.len(), width, height, layout, rounds, threshold)
    })
}

pub fn packet_samples(store: &[u8], samples: &mut [u16]) -> Result<(), u32> {
    // as in the fields
    answer(unsafe {
        demosaic_packet_samples(store.as_ptr(), store.len(), samples.as_mut_ptr(), samples.len())
    })
}

pub fn packet_write(
    fields: &Fields,
    samples: &[u16],
    out: &mut [u8],
    written: &mut usize,
) -> Result<(), u32> {
    // as in the fields
    answer(unsafe {
        demosaic_packet_write(
            fields.width,
            fields.height,
            fields.layout,
            fields.rounds,
            fields.threshold,
            samples.as_ptr(),
            samples.len(),
            out.as_mut_ptr(),
            out.len(),
            written,
        )
    })
}

pub fn packet_repeats(a: &[u8], b: &[u8], same: &mut u8) -> Result<(), u32> {
    // as in the fields; the two stores may overlap, since neither is written
    answer(unsafe { demosaic_packet_repeats(a.as_ptr(), a.len(), b.as_ptr(), b.len(), same) })
}

/// What both calls that are given a turn and a shape are asked with.
#[derive(Clone, Copy, Debug)]
pub struct Shape {
    pub turn: u32,
    pub width: usize,
    pub height: usize,
    pub layout: u32,
}

/// Where both hand the turned width, height and layout back.
pub struct Turned<'a> {
    pub width: &'a mut usize,
    pub height: &'a mut usize,
    pub layout: &'a mut u32,
}

pub fn turn(shape: Shape, samples: &[u16], out: &mut [u16], turned: Turned) -> Result<(), u32> {
    // as in the fields
    answer(unsafe {
        demosaic_turn(
            shape.turn,
            shape.width,
            shape.height,
            shape.layout,
            samples.as_ptr(),
            samples.len(),
            out.as_mut_ptr(),
            out.len(),
            turned.width,
            turned.height,
            turned.layout,
        )
    })
}

pub fn turned_shape(shape: Shape, turned: Turned) -> Result<(), u32> {
    let Shape { turn, width, height, layout } = shape;
    // as in the fields
    answer(unsafe {
        demosaic_turned_shape(turn, width, height, layout, turned.width, turned.height, turned.layout)
    })
}

pub fn then_another(turn: u32, next: u32, single: &mut u32) -> Result<(), u32> {
    // as in the fields
    answer(unsafe { demosaic_then_another(turn, next, single) })
}

pub fn bring_back(sum: i32) -> u16 {
    demosaic_bring_back(sum)
}

/// The next tally, after a finishing call with so many rounds that answered this number.
pub fn next_tally(before: Tally, number: u32, rounds: u32) -> Tally {
    Tally {
        finished: demosaic_tally_finished(before.finished, number),
        refused: demosaic_tally_refused(before.refused, number),
        rounds: demosaic_tally_rounds(before.rounds, number, rounds),
    }
}
