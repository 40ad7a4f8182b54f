//! Programs that the tests run.

use std::io;
use std::path::Path;
use std::process::{ChildStdin, Command, Output, Stdio};
use std::thread;

/// Runs the program while `hand_over` writes its input: what the program left, and what became of the writing.
pub fn run(
    program: &Path,
    hand_over: impl FnOnce(ChildStdin) -> io::Result<()> + Send,
) -> (Output, io::Result<()>) {
    let mut child = Command::new(program)
        .stdin(Stdio::piped())
        .stdout(Stdio::piped())
        .stderr(Stdio::piped())
        .spawn()
        .unwrap_or_else(|error| panic!("{} does not start: {error}", program.display()));
    let input = child.stdin.take().unwrap();
    // at once, so that neither waits for the other with a full pipe
    thread::scope(|scope| {
        let writer = scope.spawn(move || hand_over(input));
        (child.wait_with_output().unwrap(), writer.join().unwrap())
    })
}
