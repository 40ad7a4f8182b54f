//! Times the library's calls: `cargo run --release --features bench --bin bench`.
//!
//! Beside each stands plain C of the same form (`c/plain_*.c`), by clang and by gcc. Before calls are timed
//! they must give the same. Each time is told on standard error, and at last docs/SPEED.md's tables are printed.

use bank::Bank;
use calls::PROGRAMS;
use checks::chance::Chance;
use checks::mosaic::has_two_levels;
use checks::mosaics::{all_holed, of_two};
use clock::least_times;
use frame::Frame;
use picture::picture;
use spot::Spot;
use table::{Table, Times, SIDES};

mod bank;
mod calls;
mod clock;
mod frame;
#[path = "../../library.rs"]
mod library;
mod picture;
mod spot;
mod table;

/// The rounds and thresholds that finishing is timed with. Without rounds the threshold has nothing to do. Two levels settle
/// in fewer rounds.
fn finished(layout: u32) -> &'static [(u32, u32)] {
    if has_two_levels(layout) {
        &[(0, 20), (4, 0), (4, 20), (64, 20)]
    } else {
        &[(0, 20), (8, 0), (8, 20), (64, 0), (64, 20)]
    }
}

/// A round's time is that of so many rounds less that of one: what a call does once does not count in it.
const MORE: u32 = 5;

/// Small frames of every layout, pictures, chance and holes, the bank's smallest planes, and those with room for a spot.
fn check_small(chance: &mut Chance) {
    for (width, height) in [(1, 1), (1, 6), (7, 1), (2, 2), (3, 2), (37, 29)] {
        let mut bank = Bank::new(width, height, &chance.samples(width * height));
        bank.check();
        bank.check_refused();
    }
    for (width, height) in [(2, 2), (3, 2), (2, 5), (4, 7), (5, 5), (9, 6), (37, 29)] {
        for layout in 0..8 {
            let mosaics = [picture(chance, width, height, layout), chance.samples(width * height)];
            let holes = all_holed(width, height)
                .map(|(_, [green, coloured])| of_two(width, height, layout, &green, &coloured));
            for mosaic in mosaics.into_iter().chain(holes) {
                let mut frame = Frame::new(width, height, layout, mosaic);
                frame.check();
                frame.check_refused();
            }
        }
    }
    for (width, height) in [(32, 32), (33, 47), (40, 36)] {
        let mut spot = Spot::new(width, height, [(); 3].map(|_| chance.any_samples(width * height)));
        spot.check();
        spot.check_refused();
    }
}

/// The time of one round of both colours.
fn round_times(frame: &mut Frame, threshold: u32) -> Times {
    let [library, clang, gcc] = PROGRAMS;
    let calls = [(library, 1), (clang, 1), (gcc, 1), (library, MORE), (clang, MORE), (gcc, MORE)];
    let times = least_times(calls, |(calls, rounds)| frame.rounds(calls, rounds, threshold));
    [0, 1, 2].map(|k| times[3 + k].saturating_sub(times[k]) / (MORE - 1))
}

fn time_bank(table: &mut Table, side: usize, samples: &[u16]) {
    let mut bank = Bank::new(side, side, samples);
    bank.check();
    table.add("split", side, least_times(PROGRAMS, |calls| bank.split(calls)));
    table.add("join", side, least_times(PROGRAMS, |calls| bank.join(calls)));
}

/// The rounds and finishing, which the layout's levels count for.
fn time_rounds(table: &mut Table, frame: &mut Frame) {
    let side = frame.width;
    let levels = if has_two_levels(frame.layout) { " at two levels" } else { "" };
    for threshold in [0, 20] {
        let call = format!("a round{levels}, T = {threshold}");
        table.add(&call, side, round_times(frame, threshold));
    }
    for &(rounds, threshold) in finished(frame.layout) {
        let call = match rounds {
            0 => format!("finishing{levels}, 0 rounds"),
            _ => format!("finishing{levels}, {rounds} rounds, T = {threshold}"),
        };
        table.add(&call, side, least_times(PROGRAMS, |calls| frame.finish(calls, rounds, threshold)));
    }
}

fn time_frame(table: &mut Table, side: usize, mosaic: Vec<u16>) {
    let mut frame = Frame::new(side, side, 0, mosaic.clone());
    frame.check();
    table.add("estimate", side, least_times(PROGRAMS, |calls| frame.estimate(calls)));
    table.add("update", side, least_times(PROGRAMS, |calls| frame.update(calls)));
    time_rounds(table, &mut frame);
    let mut frame = Frame::new(side, side, 4, mosaic);
    frame.check();
    time_rounds(table, &mut frame);
}

/// The mosaic for want of planes.
fn time_spot(table: &mut Table, side: usize, mosaic: &[u16]) {
    let mut spot = Spot::new(side, side, [(); 3].map(|_| mosaic.to_vec()));
    spot.check();
    table.add("the spot", side, least_times(PROGRAMS, |calls| spot.read_many(calls)));
}

fn main() {
    let chance = &mut Chance(0x9e37_79b9_7f4a_7c15);
    check_small(chance);
    let (mut table, mut per_frame) = (Table::per_pixel(), Table::per_frame());
    for side in SIDES {
        let mosaic = picture(chance, side, side, 0);
        time_bank(&mut table, side, &mosaic);
        time_spot(&mut per_frame, side, &mosaic);
        time_frame(&mut table, side, mosaic);
    }
    table.print();
    println!();
    per_frame.print();
}
