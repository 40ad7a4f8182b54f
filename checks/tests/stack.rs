//! No call needs more stack than the header speaks of: a C program runs each on a stack of its own, and says how much of it
//! was written.

use checks::compiled::{compile, in_repository};
use checks::header::file;
use std::path::Path;
use std::process::Command;

/// In the header's words: so many kilobytes for a call, and so many for the rounds or the finishing with two levels.
const OF_A_CALL: usize = 160;
const OF_TWO_LEVELS: usize = 512;

#[test]
fn the_header_says_so() {
    let words = file("include/demosaic.h").replace(" *", "").split_whitespace().collect::<Vec<_>>().join(" ");
    let due = format!(
        "a call may need {OF_A_CALL} KiB of stack, and the rounds or the finishing of a two-level frame {OF_TWO_LEVELS} KiB"
    );
    assert!(words.contains(&due), "{due}");
}

#[test]
fn no_call_needs_more() {
    let program = Path::new(env!("CARGO_TARGET_TMPDIR")).join("stack");
    compile(&["cc", "-O2", "-std=c11", "-pthread"], &in_repository("checks/c/stack.c"), &program);
    let output = Command::new(&program).output().unwrap();
    let text = String::from_utf8(output.stdout).unwrap();
    assert!(output.status.success(), "{} fails, {}: {text}", program.display(), output.status);
    assert_eq!(text.lines().count(), 14, "{text}");
    for line in text.lines() {
        let [call, layout, bytes] = line.split(' ').collect::<Vec<_>>()[..] else { panic!("{line}") };
        let two_levels = layout == "7" && ["finish", "rounds"].contains(&call);
        let most = if two_levels { OF_TWO_LEVELS } else { OF_A_CALL };
        let bytes: usize = bytes.parse().unwrap();
        assert!(bytes <= 1024 * most, "{call} with layout {layout}: {bytes} bytes, more than {most} KiB");
    }
}
