//! What the header `include/demosaic.h` has beside its prototypes, as a program in C and one in C++ find it: the refusal
//! numbers by name and their texts, the layouts and the readings by name, limits, lengths and version.

use checks::compiled::{compile, Language, C, C_PLUS_PLUS};
use checks::header::{refusal_text, Header, REFUSALS};
use checks::mosaic::{has_two_levels, Colour, Mosaic};
use std::collections::BTreeSet;
use std::process::Command;

/// Each colour's letter is that of its place in rows 0 and 1.
const LAYOUTS: [(&str, u32); 8] = [
    ("DEMOSAIC_RGGB", 0),
    ("DEMOSAIC_GRBG", 1),
    ("DEMOSAIC_GBRG", 2),
    ("DEMOSAIC_BGGR", 3),
    ("DEMOSAIC_RGGB_TWO_LEVELS", 4),
    ("DEMOSAIC_GRBG_TWO_LEVELS", 5),
    ("DEMOSAIC_GBRG_TWO_LEVELS", 6),
    ("DEMOSAIC_BGGR_TWO_LEVELS", 7),
];

const READINGS: [(&str, u32); 3] = [("DEMOSAIC_STARTING", 0), ("DEMOSAIC_DARK", 1), ("DEMOSAIC_STEADY", 2)];

const LIMITS: [(&str, u32); 7] = [
    ("DEMOSAIC_VERSION_MAJOR", 4),
    ("DEMOSAIC_VERSION_MINOR", 5),
    ("DEMOSAIC_MIN_SIDE", 2),
    ("DEMOSAIC_MAX_SIDE", 2048),
    ("DEMOSAIC_MAX_ROUNDS", 64),
    ("DEMOSAIC_MAX_SAMPLE", 4095),
    ("DEMOSAIC_SPOT_SIDE", 32),
];

/// What a program prints that has this before its `main`, and inside it this.
fn printed(language: &Language, name: &str, before: &str, inside: &str) -> String {
    let text = format!(
        "#include \"demosaic.h\"\n#include <stdio.h>\n\n{before}\n\
         int main(void)\n{{\n{inside}    return 0;\n}}\n"
    );
    let source = language.write(env!("CARGO_TARGET_TMPDIR"), &format!("names_{name}"), &text);
    let program = source.with_extension(format!("{}.bin", language.extension));
    compile(&language.compilers()[0], &source, &program);
    let output = Command::new(&program).output().unwrap();
    assert!(output.status.success(), "{} fails, {}", program.display(), output.status);
    String::from_utf8(output.stdout).unwrap()
}

/// The values of these expressions, in C and in C++.
fn assert_values(name: &str, before: &str, due: &[(String, u64)]) {
    let print = |(expression, _): &(String, u64)| {
        format!("    printf(\"%llu\\n\", (unsigned long long)({expression}));\n")
    };
    let inside: String = due.iter().map(print).collect();
    for language in [C, C_PLUS_PLUS] {
        let text = printed(&language, name, before, &inside);
        let found: Vec<u64> = text.lines().map(|line| line.parse().unwrap()).collect();
        assert_eq!(found.len(), due.len(), "{name}: {text}");
        for (found, (expression, due)) in found.into_iter().zip(due) {
            assert_eq!(found, *due, "{expression}, {}", language.extension);
        }
    }
}

fn sorted<'a>(names: impl Iterator<Item = &'a str>) -> Vec<&'a str> {
    let mut names: Vec<&str> = names.collect();
    names.sort();
    names
}

/// All that the header has: a name that is in none of these lists is tried by no test.
#[test]
fn there_is_nothing_else() {
    let header = Header::read();
    let heads: Vec<&str> = header.blocks.iter().map(|(head, _)| &head[..]).collect();
    let text = "static inline const char * demosaic_refusal_text(uint32_t number)";
    assert_eq!(heads, ["enum demosaic_refusal", text, "enum demosaic_layout", "enum demosaic_reading"]);
    let named = |name: &str, number: u32| (name.to_string(), number);
    assert_eq!(header.numbers_of("demosaic_refusal"), REFUSALS.map(|(name, number, _)| named(name, number)));
    assert_eq!(header.numbers_of("demosaic_layout"), LAYOUTS.map(|(name, number)| named(name, number)));
    assert_eq!(header.numbers_of("demosaic_reading"), READINGS.map(|(name, number)| named(name, number)));
    let macros = header.macros.iter().map(|behind| behind.split([' ', '(']).next().unwrap());
    let others =
        ["DEMOSAIC_H", "DEMOSAIC_PACKET_BYTES", "DEMOSAIC_WORK_LEN", "DEMOSAIC_WIDE_WORK_LEN"].into_iter();
    assert_eq!(sorted(macros), sorted(others.chain(LIMITS.map(|(name, _)| name))));
}

/// Alone, and as part of a larger expression.
#[test]
fn the_numbers_by_name() {
    let refusals = REFUSALS.map(|(name, number, _)| (name, number));
    let named = refusals.into_iter().chain(LAYOUTS).chain(READINGS).chain(LIMITS);
    let values = |(name, number): (&str, u32)| {
        [(name.to_string(), number.into()), (format!("3 * {name} * 3"), 9 * u64::from(number))]
    };
    assert_values("numbers", "", &named.flat_map(values).collect::<Vec<_>>());
}

/// Where the preprocessor asks, too.
#[test]
fn the_limits_for_the_preprocessor() {
    let asked = LIMITS.map(|(name, number)| format!("#if {name} != {number}\n#error {name}\n#endif\n"));
    assert_values("preprocessor", &asked.concat(), &[]);
}

/// Every number to 1,000, some that are a refusal's in fewer bits, and the largest.
#[test]
fn a_text_for_every_number() {
    let wide = [8, 16, 24, 31].into_iter().flat_map(|bit| (0..21).map(move |low| (1 << bit) + low));
    let numbers: Vec<u32> = (0..=1000).chain(wide).chain(u32::MAX - 20..=u32::MAX).collect();
    let list: String = numbers.iter().map(|number| format!("UINT32_C({number}), ")).collect();
    let before = format!("static const uint32_t numbers[] = {{{list}}};\n");
    let inside = "    for (size_t k = 0; k < sizeof numbers / sizeof numbers[0]; k++) {\n        \
                  puts(demosaic_refusal_text(numbers[k]));\n    }\n";
    for language in [C, C_PLUS_PLUS] {
        let text = printed(&language, "texts", &before, inside);
        assert_eq!(text.lines().count(), numbers.len());
        for (found, &number) in text.lines().zip(&numbers) {
            assert_eq!(found, refusal_text(number), "{number}");
        }
    }
    // a text of its own for each, and a common one
    let texts: BTreeSet<&str> = (0..=20).map(refusal_text).collect();
    assert_eq!(texts.len(), 21);
    assert!(numbers.iter().all(|&number| number <= 19 || refusal_text(number) == refusal_text(20)));
}

/// A name says the colours of rows 0 and 1 at columns 0 and 1, and whether there are two levels; these are the reference's.
#[test]
fn the_layouts_say_where_red_is() {
    for (name, layout) in LAYOUTS {
        let (colours, two_levels) = match name.strip_suffix("_TWO_LEVELS") {
            Some(colours) => (colours, true),
            None => (name, false),
        };
        assert_eq!(has_two_levels(layout), two_levels, "{name}");
        let letters = colours.strip_prefix("DEMOSAIC_").unwrap().chars();
        let mosaic = Mosaic { width: 2, height: 2, layout, samples: &[0; 4] };
        let places = [(0, 0), (0, 1), (1, 0), (1, 1)];
        let due = places.map(|(i, j)| match mosaic.colour(i, j) {
            Colour::Red => 'R',
            Colour::Green => 'G',
            Colour::Blue => 'B',
        });
        assert!(letters.eq(due), "{name}: {due:?}");
    }
}

/// Of numbers, of other expressions, and of types in which the product would overflow.
#[test]
fn the_lengths() {
    let before = "static const uint8_t byte = 255;\n\
                  static const uint16_t sixteen = 65535;\n\
                  static const uint32_t thirty_two = 100000;\n\
                  static const int number = 50000;\n";
    let sides: [(&str, u64, u64); 12] = [
        ("2, 2", 2, 2),
        ("3, 2", 3, 2),
        ("2048, 2047", 2048, 2047),
        ("DEMOSAIC_MAX_SIDE, DEMOSAIC_MIN_SIDE", 2048, 2),
        ("1 + 2, 4 - 1", 3, 3),
        ("1 ? 2 : 3, 0 ? 2 : 5", 2, 5),
        ("byte, byte", 255, 255),
        ("sixteen, sixteen", 65_535, 65_535),
        ("thirty_two, thirty_two", 100_000, 100_000),
        ("number, number", 50_000, 50_000),
        ("number, thirty_two", 50_000, 100_000),
        ("(size_t)1 << 20, 1 << 20", 1 << 20, 1 << 20),
    ];
    let lengths = |(text, width, height): (&str, u64, u64)| {
        let (packet, work) = (2 * width * height + 12, 8 * width * height);
        [("PACKET_BYTES", packet), ("WORK_LEN", work), ("WIDE_WORK_LEN", work)]
            .map(|(name, length)| (format!("DEMOSAIC_{name}({text})"), length))
    };
    assert_values("lengths", before, &sides.into_iter().flat_map(lengths).collect::<Vec<_>>());
}

/// As part of a larger expression, as an array's length, and as a `size_t`: 0 less 1 is its largest number.
#[test]
fn the_lengths_as_numbers() {
    let before = "typedef uint8_t packet[DEMOSAIC_PACKET_BYTES(3, 2)];\n\
                  typedef int32_t work[DEMOSAIC_WORK_LEN(3, 2)];\n\
                  typedef int64_t wide_work[DEMOSAIC_WIDE_WORK_LEN(3, 2)];\n";
    let due = [
        ("1000 / DEMOSAIC_PACKET_BYTES(2, 2)", 50),
        ("DEMOSAIC_PACKET_BYTES(2, 2) * 3", 60),
        ("1000 / DEMOSAIC_WORK_LEN(2, 2)", 31),
        ("1000 % DEMOSAIC_WORK_LEN(3, 2)", 40),
        ("1000 / DEMOSAIC_WIDE_WORK_LEN(2, 2)", 31),
        ("1000 % DEMOSAIC_WIDE_WORK_LEN(3, 2)", 40),
        ("sizeof(packet)", 24),
        ("sizeof(work)", 4 * 48),
        ("sizeof(wide_work)", 8 * 48),
        ("sizeof(DEMOSAIC_PACKET_BYTES(2, 2)) == sizeof(size_t)", 1),
        ("sizeof(DEMOSAIC_WORK_LEN(2, 2)) == sizeof(size_t)", 1),
        ("sizeof(DEMOSAIC_WIDE_WORK_LEN(2, 2)) == sizeof(size_t)", 1),
        ("DEMOSAIC_PACKET_BYTES(0, 0) - 13 == SIZE_MAX", 1),
        ("DEMOSAIC_WORK_LEN(0, 0) - 1 == SIZE_MAX", 1),
        ("DEMOSAIC_WIDE_WORK_LEN(0, 0) - 1 == SIZE_MAX", 1),
    ];
    assert_values("as_numbers", before, &due.map(|(expression, value)| (expression.to_string(), value)));
}

/// Each argument of a length is evaluated once.
#[test]
fn the_lengths_ask_once() {
    let before = "static int asked;\n\nstatic int side(int value)\n{\n    asked++;\n    return value;\n}\n";
    let due = [
        ("DEMOSAIC_PACKET_BYTES(side(3), 2)", 24),
        ("asked", 1),
        ("DEMOSAIC_PACKET_BYTES(3, side(2))", 24),
        ("asked", 2),
        ("DEMOSAIC_WORK_LEN(side(3), 2)", 48),
        ("asked", 3),
        ("DEMOSAIC_WORK_LEN(3, side(2))", 48),
        ("asked", 4),
        ("DEMOSAIC_WIDE_WORK_LEN(side(3), 2)", 48),
        ("asked", 5),
        ("DEMOSAIC_WIDE_WORK_LEN(3, side(2))", 48),
        ("asked", 6),
    ];
    assert_values("asked", before, &due.map(|(expression, value)| (expression.to_string(), value)));
}
