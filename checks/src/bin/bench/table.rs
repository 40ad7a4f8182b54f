//! The tables of times, in Markdown.

use crate::spot::CALLS;
use std::time::Duration;

/// How wide and high the timed planes are, each a column of the table.
pub const SIDES: [usize; 3] = [256, 1024, 2048];

/// The library's time of a call, clang's and gcc's.
pub type Times = [Duration; 3];

/// A number with two digits or more: 0.08, 1.3, 23, 1,468.
fn shown(number: f64) -> String {
    if number < 0.995 {
        return format!("{number:.2}");
    }
    if number < 9.95 {
        return format!("{number:.1}");
    }
    let whole = number.round() as u64;
    match whole / 1000 {
        0 => whole.to_string(),
        thousands => format!("{thousands},{:03}", whole % 1000),
    }
}

/// What a table's times are given for, and how many of them a time at this side is of.
struct Unit {
    name: &'static str,
    count: fn(usize) -> usize,
}

impl Unit {
    /// Nanoseconds for one of them.
    fn nanoseconds(&self, side: usize, time: Duration) -> String {
        format!("{} ns", shown(time.as_nanos() as f64 / (self.count)(side) as f64))
    }

    /// The milliseconds of all that was timed too.
    fn told(&self, side: usize, time: Duration) -> String {
        format!("{}, {} ms", self.nanoseconds(side, time), shown(time.as_nanos() as f64 / 1e6))
    }

    /// The library's time, and its ratios to clang's and to gcc's.
    fn cell(&self, side: usize, times: Times) -> String {
        format!("{} ({})", self.nanoseconds(side, times[0]), ratios(times).join(", "))
    }
}

/// How many times clang's time, and gcc's, the library takes.
fn ratios([library, clang, gcc]: Times) -> [String; 2] {
    [clang, gcc].map(|time| format!("{:.2}", library.as_secs_f64() / time.as_secs_f64()))
}

/// A call's times at each side.
struct Row {
    call: String,
    times: Vec<(usize, Times)>,
}

impl Row {
    fn text(&self, unit: &Unit) -> String {
        let mut cells = vec![self.call.clone()];
        cells.extend(self.times.iter().map(|&(side, times)| unit.cell(side, times)));
        format!("| {} |", cells.join(" | "))
    }
}

/// A row for each call, in the order in which they were first timed.
pub struct Table {
    unit: Unit,
    rows: Vec<Row>,
}

impl Table {
    /// Each time is that of a call on the whole plane or frame.
    pub fn per_pixel() -> Table {
        Table { unit: Unit { name: "pixel", count: |side| side * side }, rows: Vec::new() }
    }

    /// Each time is that of many calls on one frame.
    pub fn per_frame() -> Table {
        Table { unit: Unit { name: "frame", count: |_| CALLS }, rows: Vec::new() }
    }

    /// Adds what was timed, and tells it on standard error.
    pub fn add(&mut self, call: &str, side: usize, times: Times) {
        let [library, clang, gcc] = times.map(|time| self.unit.told(side, time));
        let [of_clang, of_gcc] = ratios(times);
        eprintln!(
            "{call}, {side} by {side}: {library}; clang {clang}, ratio {of_clang}; gcc {gcc}, ratio {of_gcc}"
        );
        match self.rows.iter_mut().find(|row| row.call == call) {
            Some(row) => row.times.push((side, times)),
            None => self.rows.push(Row { call: call.to_string(), times: vec![(side, times)] }),
        }
    }

    pub fn print(&self) {
        let sides = SIDES.map(|side| shown(side as f64)).map(|side| format!("{side} by {side}"));
        let mut heads = vec![format!("ns per {} (times clang's, times gcc's)", self.unit.name)];
        heads.extend(sides);
        println!("| {} |", heads.join(" | "));
        println!("|{}", "---|".repeat(heads.len()));
        self.rows.iter().for_each(|row| println!("{}", row.text(&self.unit)));
    }
}
