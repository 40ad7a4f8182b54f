//! How the programs write.

use std::fmt::Display;

/// A line of numbers or words, parted by one space.
pub fn line<T: Display>(out: &mut String, words: &[T]) {
    let words: Vec<String> = words.iter().map(T::to_string).collect();
    out.push_str(&words.join(" "));
    out.push('\n');
}

pub fn refused(out: &mut String, number: u32) {
    line(out, &[format!("refused {number}")]);
}

/// Fails at the first line where the two differ; whole texts would be too long to read.
pub fn assert_same(found: &str, due: &str, what: &str) {
    for (k, (found, due)) in found.lines().zip(due.lines()).enumerate() {
        assert_eq!(found, due, "{what}, line {}", k + 1);
    }
    assert_eq!(found, due, "{what}");
}
