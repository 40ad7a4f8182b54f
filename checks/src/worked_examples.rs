//! What the program `worked_examples` must write: its worked examples, computed by the reference.

use crate::border;
use crate::turns;
use std::fmt::Write;

fn number<T: std::fmt::Display>(answer: Result<T, u32>) -> String {
    match answer {
        Ok(value) => value.to_string(),
        Err(refusal) => format!("refused {refusal}"),
    }
}

/// The border: the places that the indices −9 to 9 mean, in lines of 1 to 6.
fn reflections(out: &mut String) {
    for n in 1..7 {
        write!(out, "line of {n}, from -9 to 9:").unwrap();
        for i in -9..=9 {
            write!(out, " {}", border::reflect(n, i)).unwrap();
        }
        out.push('\n');
    }
}

/// Each turn of 0 to 8, then each other.
fn compositions(out: &mut String) {
    for first in 0..9 {
        write!(out, "turn {first} then 0 to 8:").unwrap();
        for second in 0..9 {
            write!(out, " {}", number(turns::then_another(first, second))).unwrap();
        }
        out.push('\n');
    }
}

/// A line: what is given, what the turn's operations answer, what the turning call answers, and the second buffer after it.
fn example(
    out: &mut String,
    turn: u32,
    width: usize,
    height: usize,
    layout: u32,
    samples: &[u16],
    buffer: &mut [u16],
) {
    let shape = || turns::turned_shape(turn, width, height, layout);
    write!(
        out,
        "turn {turn} of {width} by {height} layout {layout}: {} by {} layout {}; ",
        number(shape().map(|s| s.0)),
        number(shape().map(|s| s.1)),
        number(shape().map(|s| s.2)),
    )
    .unwrap();
    match turns::turn_samples(turn, width, height, layout, samples, buffer) {
        Ok((w, h, l)) => write!(out, "{w} by {h} layout {l};").unwrap(),
        Err(refusal) => write!(out, "refused {refusal};").unwrap(),
    }
    for sample in buffer.iter() {
        write!(out, " {sample}").unwrap();
    }
    out.push('\n');
}

/// Each question answered no: turn, width, height, layout, how many samples, and the second buffer's length.
fn refusals(out: &mut String) {
    let most = usize::MAX;
    let calls: [(u32, usize, usize, u32, usize, usize); 17] = [
        // at both ends of their ranges
        (8, 2, 2, 0, 4, 4),
        (0, 0, 2, 0, 4, 4),
        (2, 2049, 2, 0, 4, 4),
        (4, 2, 1, 0, 4, 4),
        (6, 2, 65535, 0, 4, 4),
        (0, 2, 2, 255, 4, 4),
        // first among several
        (255, 0, 0, 8, 3, 3),
        (3, most, most, 255, 3, 3),
        (1, 1, 2049, 8, 3, 3),
        (5, 2, 2049, 8, 3, 3),
        (7, 2, 2, 8, 3, 3),
        (2, 2, 2, 2, 3, 3),
        // the buffers
        (1, 2, 2, 3, 3, 4),
        (5, 2, 2, 0, 5, 4),
        (4, 2048, 2048, 0, 4, 4),
        (3, 2, 2, 1, 4, 3),
        (6, 2, 2, 0, 4, 5),
    ];
    for (turn, width, height, layout, given, room) in calls {
        let samples: Vec<u16> = (0..given as u16).collect();
        example(out, turn, width, height, layout, &samples, &mut vec![7; room]);
    }
}

/// Small frames by every turn in every layout; each sample is the number of its place.
fn frames(out: &mut String) {
    for (width, height) in [(2, 2), (3, 2), (2, 3), (5, 4)] {
        let samples: Vec<u16> = (0..(width * height) as u16).collect();
        for turn in 0..8 {
            for layout in 0..8 {
                example(out, turn, width, height, layout, &samples, &mut vec![7; width * height]);
            }
        }
    }
}

pub fn text() -> String {
    let mut out = String::new();
    reflections(&mut out);
    compositions(&mut out);
    refusals(&mut out);
    frames(&mut out);
    out
}
