//! A buffer may be NULL where its length is 0: every call that has buffers answers then what it answers of an empty buffer
//! with a pointer to numbers, by the question about its length, and writes nothing. With one level no question is asked about
//! the wide work buffer. A C program makes the calls.

use checks::compiled::compiled;
use checks::header::Header;
use checks::mosaic::has_two_levels;
use checks::text::assert_same;
use std::collections::BTreeMap;
use std::fmt::Write;
use std::process::Command;

/// The call that 19 refuses in so small a frame, where no buffer is empty.
const SPOT: &str = "demosaic_spot";

/// Each call that has buffers, and of each buffer the question that refuses it empty. In every call these stand in the
/// order of asking.
const CALLS: [(&str, &[u32]); 13] = [
    ("demosaic_packet_refusal", &[11]),
    ("demosaic_packet_fields", &[11]),
    ("demosaic_packet_samples", &[11, 7]),
    ("demosaic_packet_write", &[6, 14]),
    ("demosaic_packet_repeats", &[11, 11]),
    ("demosaic_turn", &[6, 7]),
    ("demosaic_finish", &[6, 7, 7, 7, 8, 18]),
    (SPOT, &[6, 6, 6]),
    ("demosaic_estimate", &[6, 7, 7, 7]),
    ("demosaic_update", &[6, 6, 8]),
    ("demosaic_rounds", &[6, 7, 7, 7, 8, 18]),
    ("demosaic_split", &[6, 7, 7, 7, 7]),
    ("demosaic_join", &[6, 6, 6, 6, 7]),
];

#[test]
fn no_call_and_no_buffer_is_left_out() {
    let buffers = |prototype: &String| prototype.matches("_len").count();
    let prototypes = Header::read().prototypes();
    let with_buffers = prototypes.iter().map(|(name, prototype)| (&name[..], buffers(prototype)));
    let found: BTreeMap<&str, usize> = with_buffers.filter(|(_, buffers)| *buffers > 0).collect();
    assert_eq!(found, CALLS.map(|(name, questions)| (name, questions.len())).into());
}

/// The number of a call of which the buffers of this set are empty. A frame of no samples is refused by its width, though
/// its empty buffers are as long as they have to be; a reader is told no width.
fn number(name: &str, questions: &[u32], set: usize, side: usize, layout: u32) -> u32 {
    if side == 0 && questions[0] != 11 {
        return 1;
    }
    let refused = |k: &usize| set >> k & 1 == 1 && (questions[*k] != 18 || has_two_levels(layout));
    let otherwise = if name == SPOT { 19 } else { 0 };
    (0..questions.len()).find(refused).map_or(otherwise, |first| questions[first])
}

#[test]
fn null_is_an_empty_buffer() {
    let program = compiled("checks/c/null.c", env!("CARGO_TARGET_TMPDIR"));
    let output = Command::new(program).output().unwrap();
    let mut due = String::new();
    for (name, questions) in CALLS {
        for set in 0..1 << questions.len() {
            for (side, layout) in [(0, 1), (0, 5), (2, 1), (2, 5)] {
                let number = number(name, questions, set, side, layout);
                writeln!(due, "{name}, side {side}, layout {layout}, set {set}: {number} {number}").unwrap();
            }
        }
    }
    assert_same(&String::from_utf8_lossy(&output.stdout), &due, "empty buffers");
    assert_eq!(output.status.code(), Some(0));
}
