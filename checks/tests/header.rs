//! The header `include/demosaic.h` declares the functions that the library's source has, no others, with the same types and
//! names; so do `src/library.rs` and `src/frame_calls.rs`. The header stands by itself, in every C and C++ that it is for, and
//! the library has what it declares.

use checks::compiled::{compile, Language, C, C_PLUS_PLUS};
use checks::header::{file, prototype, prototypes, Header, Prototypes};

/// A number's type in C.
fn number(name: &str) -> &'static str {
    match name {
        "usize" => "size_t",
        "u8" => "uint8_t",
        "u16" => "uint16_t",
        "u32" => "uint32_t",
        "i32" => "int32_t",
        "i64" => "int64_t",
        "f64" => "double",
        _ => panic!("{name} has no type in C here"),
    }
}

/// What one parameter of Rattle is in C: a slice is a pointer and a length.
fn of_rattle(name: &str, kind: &str) -> Vec<String> {
    let slice = |start| Some(number(kind.strip_prefix(start)?.strip_suffix(']')?));
    let length = format!("size_t {name}_len");
    if let Some(element) = slice("&mut [") {
        vec![format!("{element} * {name}"), length]
    } else if let Some(element) = slice("&[") {
        vec![format!("const {element} * {name}"), length]
    } else if let Some(value) = kind.strip_prefix("&mut ") {
        vec![format!("{} * {name}", number(value))]
    } else {
        vec![format!("{} {name}", number(kind))]
    }
}

/// What one parameter of a Rust declaration is in C.
fn of_rust(name: &str, kind: &str) -> Vec<String> {
    let of_c = if let Some(value) = kind.strip_prefix("*const ") {
        format!("const {} * {name}", number(value))
    } else if let Some(value) = kind.strip_prefix("*mut ") {
        format!("{} * {name}", number(value))
    } else {
        format!("{} {name}", number(kind))
    };
    vec![of_c]
}

/// The functions that these words start, each parameter as it is in C.
fn functions(source: &str, start: &str, in_c: fn(&str, &str) -> Vec<String>) -> Prototypes {
    let prototypes = source.split(start).skip(1).map(|function| {
        let (name, rest) = function.split_once('(').expect("parameters");
        let (parameters, rest) = rest.split_once(')').expect("the parameters' end");
        let result = rest.split_whitespace().nth(1).expect("a result").trim_end_matches(';');
        let parameters = parameters.split(',').filter_map(|parameter| parameter.trim().split_once(": "));
        let parameters: Vec<_> = parameters.flat_map(|(name, kind)| in_c(name, kind)).collect();
        prototype(number(result), name, &parameters)
    });
    prototypes.collect()
}

fn of_the_source() -> Prototypes {
    functions(&file("crates/demosaic_c/src/lib.rt"), "pub extern \"C\" fn ", of_rattle)
}

/// A function that only one of the two has, or that they declare otherwise.
fn difference(found: &Prototypes, due: &Prototypes) -> Option<String> {
    let name = found.keys().chain(due.keys()).find(|&name| found.get(name) != due.get(name))?;
    Some(format!("{:?} in place of {:?}", found.get(name), due.get(name)))
}

#[test]
fn the_header_declares_what_the_source_has() {
    let header = Header::read().prototypes();
    assert_eq!(difference(&header, &of_the_source()), None);
    // neither list is empty: two of the prototypes in full
    let refusal = "uint32_t demosaic_packet_refusal(const uint8_t * store, size_t store_len)";
    assert_eq!(header["demosaic_packet_refusal"], refusal);
    assert_eq!(header["demosaic_bring_back"], "uint16_t demosaic_bring_back(int32_t sum)");
}

/// Turn, layout, rounds and threshold, given or handed back: fewer bits in one call would hide a value from its question.
#[test]
fn the_numbers_that_are_asked_about_have_32_bits() {
    let names = ["turn", "next", "single", "layout", "turned_layout", "rounds", "threshold"];
    let mut found = 0;
    for (function, prototype) in Header::read().prototypes() {
        let (_, parameters) = prototype.strip_suffix(')').unwrap().split_once('(').unwrap();
        for parameter in parameters.split(", ") {
            let (kind, name) = parameter.rsplit_once(' ').unwrap();
            if names.contains(&name) {
                assert!(["uint32_t", "uint32_t *"].contains(&kind), "{parameter} of {function}");
                found += 1;
            }
        }
    }
    // seven calls have three each, three have one
    assert_eq!(found, 24);
}

/// Every edit of this kind, wherever the header's declarations have its words, is noticed.
#[test]
fn a_wrong_prototype_is_noticed() {
    let (right, source) = (Header::read().declarations, of_the_source());
    let edits = [
        ("const ", ""),
        ("*", ""),
        ("*", "**"),
        ("(", "(const "),
        ("size_t", "uint32_t"),
        ("uint8_t", "uint16_t"),
        ("uint16_t", "int16_t"),
        ("uint32_t", "size_t"),
        ("uint32_t", "uint8_t"),
        ("int32_t", "int64_t"),
        ("int64_t", "int32_t"),
        ("double", "float"),
        ("double", "uint64_t"),
        ("wide_", ""),
        ("_len", ""),
        ("width, size_t height", "height, size_t width"),
        ("red", "green"),
        ("demosaic_", "demosaic_c_"),
        (")", ", size_t more)"),
        (";", "; uint32_t demosaic_more(size_t width);"),
    ];
    for (from, to) in edits {
        let places: Vec<usize> = right.match_indices(from).map(|(place, _)| place).collect();
        assert!(places.len() >= 2, "{from:?} occurs {} times only", places.len());
        for place in places {
            let wrong = format!("{}{to}{}", &right[..place], &right[place + from.len()..]);
            let noticed = difference(&prototypes(&wrong), &source);
            assert!(noticed.is_some(), "{to:?} in place of {from:?} at {place}");
        }
    }
    for declaration in right.split_inclusive(';').filter(|declaration| declaration.contains('(')) {
        let noticed = difference(&prototypes(&right.replace(declaration, "")), &source);
        assert!(noticed.is_some(), "less {declaration}");
    }
}

/// The functions that a file of these tests declares, in its one block. A macro's names stand behind a `$`.
fn declared(path: &str) -> Prototypes {
    let source = file(path).replace('$', "");
    let (_, block) = source.split_once("unsafe extern \"C\" {\n").expect("the declarations");
    let (block, _) = block.split_once('}').expect("the declarations' end");
    functions(block, "fn ", of_rust)
}

/// No Rust test makes the call of the packet's refusal: a C program does.
#[test]
fn the_tests_declare_what_the_header_declares() {
    let mut found = declared("checks/src/library.rs");
    found.extend(declared("checks/src/frame_calls.rs"));
    let mut header = Header::read().prototypes();
    header.remove("demosaic_packet_refusal").expect("the packet's refusal");
    assert_eq!(difference(&found, &header), None);
}

/// Compiles and links a program that has the address of every function and takes in the header twice, and nothing before it.
fn stands_by_itself(language: &Language) {
    let names: Vec<String> = of_the_source().into_keys().map(|name| format!("    (any){name},\n")).collect();
    let text = format!(
        "#include \"demosaic.h\"\n#include \"demosaic.h\"\n\ntypedef void (*any)(void);\n\
         extern any all[];\nany all[] = {{\n{}}};\n\nint main(void)\n{{\n    return 0;\n}}\n",
        names.concat()
    );
    let source = language.write(env!("CARGO_TARGET_TMPDIR"), "header", &text);
    for compiler in language.compilers() {
        compile(&compiler, &source, &source.with_extension(format!("{}.bin", language.extension)));
    }
}

#[test]
fn in_c() {
    stands_by_itself(&C);
}

#[test]
fn in_c_plus_plus() {
    stands_by_itself(&C_PLUS_PLUS);
}
