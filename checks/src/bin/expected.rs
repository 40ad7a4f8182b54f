//! Writes what a program of examples must write, the file `stdout` of its crate: `expected packet_examples`.

use std::process::ExitCode;

fn main() -> ExitCode {
    let name = std::env::args().nth(1).unwrap_or_default();
    match checks::EXAMPLES.iter().find(|(program, _)| *program == name) {
        Some((_, text)) => {
            print!("{}", text());
            ExitCode::SUCCESS
        }
        None => {
            eprintln!("expected: no program is called {name:?}");
            ExitCode::FAILURE
        }
    }
}
