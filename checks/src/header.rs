//! The header `include/demosaic.h`, read as text.

use crate::compiled::in_repository;
use std::collections::BTreeMap;
use std::fs::read_to_string;

/// Each function's name, and its prototype in C with one space between words.
pub type Prototypes = BTreeMap<String, String>;

/// The names of the numbers, in the documents' order of asking, and their texts.
pub const REFUSALS: [(&str, u32, &str); 20] = [
    ("DEMOSAIC_ACCEPTED", 0, "accepted"),
    ("DEMOSAIC_REFUSED_TURN", 16, "turn out of range"),
    ("DEMOSAIC_REFUSED_STORE_LENGTH", 11, "store too short for a packet"),
    ("DEMOSAIC_REFUSED_WIDTH", 1, "width out of range"),
    ("DEMOSAIC_REFUSED_HEIGHT", 2, "height out of range"),
    ("DEMOSAIC_REFUSED_LAYOUT", 3, "layout out of range"),
    ("DEMOSAIC_REFUSED_ROUNDS", 4, "rounds out of range"),
    ("DEMOSAIC_REFUSED_THRESHOLD", 5, "threshold out of range"),
    ("DEMOSAIC_REFUSED_DISTANCE", 12, "distance back does not match width and height"),
    ("DEMOSAIC_REFUSED_DISTANCE_OUTSIDE", 13, "distance back reaches outside the store"),
    ("DEMOSAIC_REFUSED_GIVEN_LENGTH", 6, "a given buffer's length is not width * height"),
    ("DEMOSAIC_REFUSED_FILLED_LENGTH", 7, "a filled buffer's length is not width * height"),
    ("DEMOSAIC_REFUSED_WINDOW", 19, "window not wholly inside the frame"),
    ("DEMOSAIC_REFUSED_WORK_LENGTH", 8, "work buffer too short"),
    ("DEMOSAIC_REFUSED_WIDE_WORK_LENGTH", 18, "wide work buffer too short"),
    ("DEMOSAIC_REFUSED_SAMPLE", 9, "a sample out of range"),
    ("DEMOSAIC_REFUSED_PLANE_SAMPLE", 10, "a plane's sample out of range"),
    ("DEMOSAIC_REFUSED_BANK_VALUE", 15, "a value out of the filter bank's range"),
    ("DEMOSAIC_REFUSED_PACKET_ROOM", 14, "buffer too short for the packet"),
    ("DEMOSAIC_REFUSED_PROGRAM_INPUT", 17, "input too long for the program"),
];

/// The text of every other number.
const NO_REFUSAL: &str = "no number of a refusal";

pub fn refusal_text(number: u32) -> &'static str {
    REFUSALS.iter().find(|(_, other, _)| *other == number).map_or(NO_REFUSAL, |(_, _, text)| text)
}

/// The text of a file of the repository.
pub fn file(path: &str) -> String {
    read_to_string(in_repository(path)).unwrap_or_else(|error| panic!("{path}: {error}"))
}

/// One space between words.
fn words(text: &str) -> String {
    text.replace('*', " * ").split_whitespace().collect::<Vec<_>>().join(" ")
}

/// What has braces: the words before them, and what stands inside.
pub type Block = (String, String);

/// The header in parts, comments left out.
pub struct Header {
    /// The declarations of the library's functions.
    pub declarations: String,
    /// Enums, and functions that the header itself defines.
    pub blocks: Vec<Block>,
    /// What is behind each `#define`.
    pub macros: Vec<String>,
}

impl Header {
    pub fn read() -> Header {
        let text = without_comments(&file("include/demosaic.h"));
        let (directives, code): (Vec<&str>, Vec<&str>) =
            outside_c_plus_plus(&text).partition(|line| line.starts_with('#'));
        let (declarations, blocks) = parted(&code.join("\n"));
        let defined = directives.iter().filter_map(|line| line.strip_prefix("#define "));
        Header { declarations, blocks, macros: defined.map(|line| line.trim_end().to_string()).collect() }
    }

    /// The prototypes of the library's functions.
    pub fn prototypes(&self) -> Prototypes {
        prototypes(&self.declarations)
    }

    /// An enum's names and numbers, in their order.
    pub fn numbers_of(&self, name: &str) -> Vec<(String, u32)> {
        let head = format!("enum {name}");
        let (_, inside) = self.blocks.iter().find(|(found, _)| *found == head).expect("the enum");
        let numbers = inside.split(',').map(|entry| {
            let (name, number) = entry.split_once('=').expect("a name and a number");
            (name.trim().to_string(), number.trim().parse().expect("a number"))
        });
        numbers.collect()
    }
}

fn without_comments(header: &str) -> String {
    let mut text = String::new();
    for (k, part) in header.split("/*").enumerate() {
        text.push_str(if k == 0 { part } else { part.split_once("*/").expect("a comment's end").1 });
    }
    text
}

/// The lines that C reads: those that only C++ reads hold the braces of its `extern "C"`.
fn outside_c_plus_plus(text: &str) -> impl Iterator<Item = &str> {
    let mut inside = false;
    text.lines().filter(move |line| {
        let was_inside = inside;
        inside = *line == "#ifdef __cplusplus" || inside && *line != "#endif";
        !inside && !was_inside
    })
}

/// What has no braces, and apart from it what has some. A block's head begins behind the last semicolon.
fn parted(code: &str) -> (String, Vec<Block>) {
    let (mut plain, mut blocks, mut rest) = (String::new(), Vec::new(), code);
    while let Some((before, after)) = rest.split_once('{') {
        let head = before.rfind(';').map_or(0, |place| place + 1);
        plain.push_str(&before[..head]);
        let end = end_of_block(after);
        blocks.push((words(&before[head..]), after[..end].to_string()));
        rest = &after[end + 1..];
        rest = rest.strip_prefix(';').unwrap_or(rest);
    }
    (plain + rest, blocks)
}

/// Where the brace stands that closes the one before this text.
fn end_of_block(text: &str) -> usize {
    let mut open = 1;
    let closes = |(_, letter): &(usize, char)| {
        open += match letter {
            '{' => 1,
            '}' => -1,
            _ => 0,
        };
        open == 0
    };
    text.char_indices().find(closes).expect("a closing brace").0
}

/// A function's name, and its prototype.
pub fn prototype(result: &str, name: &str, parameters: &[String]) -> (String, String) {
    (name.to_string(), format!("{result} {name}({})", parameters.join(", ")))
}

/// The prototypes that these declarations of C have.
pub fn prototypes(declarations: &str) -> Prototypes {
    let declarations = declarations.split(';').map(str::trim).filter(|declaration| !declaration.is_empty());
    let prototypes = declarations.map(|declaration| {
        let (head, parameters) = declaration.split_once('(').expect("a function");
        let (result, name) = head.rsplit_once(char::is_whitespace).expect("a result and a name");
        let parameters = parameters.strip_suffix(')').expect("the last parameter");
        prototype(&words(result), name, &parameters.split(',').map(words).collect::<Vec<_>>())
    });
    prototypes.collect()
}
