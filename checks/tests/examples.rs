//! The files that the programs of examples are held against are what the reference program computes.

use checks::text::assert_same;
use std::path::Path;

#[test]
fn the_held_outputs_are_the_references() {
    for (program, text) in checks::EXAMPLES {
        let file = Path::new(env!("CARGO_MANIFEST_DIR")).join("../crates").join(program).join("stdout");
        let held = std::fs::read_to_string(&file).unwrap_or_else(|e| panic!("{}: {e}", file.display()));
        assert_same(&held, &text(), program);
    }
}
