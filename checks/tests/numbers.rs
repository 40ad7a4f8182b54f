//! A C program hands numbers of 32 bits to every call that takes a turn, a layout, rounds or a threshold, without a cast:
//! each is refused by its own question in its own place, and what is handed back is whole. Every C compiler that is found
//! takes the program without a warning.

use checks::chance::Chance;
use checks::child;
use checks::compiled::{compile, in_repository, C};
use checks::estimate::estimate;
use checks::finishing::{finish, Tally};
use checks::packet::{self, Fields};
use checks::refusals::{field_mut, no_side, sets, wrong_number, LARGEST_ALLOWED};
use checks::rounds::rounds;
use checks::text::assert_same;
use checks::turns::{then_another, turn_samples, turned_shape};
use checks::update::update;
use std::fmt::Write as _;
use std::io::Write as _;
use std::path::Path;

const MOSAIC: [u16; 4] = [100, 50, 50, 20];

/// The numbers of a line: the turn, and the others.
type Line = (u32, Fields);

/// A line of which these questions are answered no.
fn line(chance: &mut Chance, questions: &[u32]) -> Line {
    let [turn, layout, rounds, threshold] =
        LARGEST_ALLOWED.map(|(_, most)| chance.between(0, most.into()) as u32);
    let (mut turn, mut fields) = (turn, Fields { width: 2, height: 2, layout, rounds, threshold });
    for &question in questions {
        match question {
            16 => turn = wrong_number(chance, 16),
            1 => fields.width = no_side(chance),
            2 => fields.height = no_side(chance),
            _ => *field_mut(&mut fields, question) = wrong_number(chance, question),
        }
    }
    (turn, fields)
}

/// The reference's number of each call, with buffers that suffice for 2 by 2.
fn numbers((turn, fields): Line) -> [u32; 8] {
    let Fields { width, height, layout, .. } = fields;
    let [mut red, mut green, mut blue] = [[7; 4]; 3];
    let (mut packet, mut work, mut wide_work) = ([7; 20], [7; 32], [7; 32]);
    let answers = [
        turn_samples(turn, width, height, layout, &MOSAIC, &mut red).map(|_| ()),
        turned_shape(turn, width, height, layout).map(|_| ()),
        then_another(turn, fields.rounds).map(|_| ()),
        packet::write(&fields, &MOSAIC, &mut packet).map(|_| ()),
        finish(&fields, &MOSAIC, [&mut red, &mut green, &mut blue], &mut work, &mut wide_work),
        estimate(width, height, layout, &MOSAIC, [&mut red, &mut green, &mut blue]),
        update(width, height, layout, &MOSAIC, &mut green, &mut work),
        rounds(&fields, &MOSAIC, &mut red, &green, &mut blue, &mut work, &mut wide_work),
    ];
    answers.map(|answer| answer.err().unwrap_or(0))
}

/// What the program has to print of a line.
fn due(line: Line) -> String {
    let numbers = numbers(line);
    let Fields { width, height, layout, rounds, threshold } = line.1;
    let mut out: String = numbers.iter().map(|number| format!("{number} ")).collect();
    let tally = Tally { rounds: threshold, ..Tally::default() }.next(0, rounds);
    write!(out, "{} ", tally.rounds).unwrap();
    let [.., written, finished, _, _, _] = numbers;
    if written == 0 {
        write!(out, "0 {width} {height} {layout} {rounds} {threshold} {finished} ").unwrap();
    }
    out + "\n"
}

/// What the program prints of these lines.
fn printed(program: &Path, lines: &[Line]) -> String {
    let mut input = String::new();
    for (turn, Fields { width, height, layout, rounds, threshold }) in lines {
        writeln!(input, "{turn} {width} {height} {layout} {rounds} {threshold}").unwrap();
    }
    let (output, written) = child::run(program, |mut stdin| stdin.write_all(input.as_bytes()));
    written.expect("the program does not read all its input");
    assert!(output.status.success(), "{} fails, {}", program.display(), output.status);
    String::from_utf8(output.stdout).unwrap()
}

/// Every set of questions answered no at once.
#[test]
fn as_a_c_program_holds_them() {
    let chance = &mut Chance(0x9e37_79b9_7f4a_7c15);
    let sets = sets(&[16, 1, 2, 3, 4, 5]);
    let lines: Vec<Line> = sets.iter().flat_map(|set| [&set[..]; 300]).map(|set| line(chance, set)).collect();
    let due: String = lines.iter().map(|&line| due(line)).collect();
    for (k, compiler) in C.compilers().iter().enumerate() {
        let program = Path::new(env!("CARGO_TARGET_TMPDIR")).join(format!("numbers_{k}"));
        compile(compiler, &in_repository("checks/c/numbers.c"), &program);
        assert_same(&printed(&program, &lines), &due, &compiler.join(" "));
    }
}
