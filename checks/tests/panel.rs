//! The example of a panel's program, `examples/panel.c`, prints what the reference computes of its files: refusals, repeats,
//! turned and finished frames, the bed's spot from frame to frame, the tally, and what was refused before a finishing call.

use checks::chance::Chance;
use checks::compiled::{compile, compiled, C, C_PLUS_PLUS};
use checks::finishing::{finished_of, Tally};
use checks::header::{file, refusal_text};
use checks::mosaics::{filled, kinds};
use checks::packet::{self, Fields, PRINTED};
use checks::planes_call::Planes;
use checks::spot::{spot, Kept, Reading, View, SIDE};
use checks::stores::{damaged, sound, wrong, QUESTIONS};
use checks::text::assert_same;
use checks::turns::{turn_samples, Frame};
use std::fmt::Write;
use std::fs::{self, File};
use std::path::{Path, PathBuf};
use std::process::{Command, Output};
use std::sync::LazyLock;

const DIRECTORY: &str = env!("CARGO_TARGET_TMPDIR");

static PANEL: LazyLock<PathBuf> = LazyLock::new(|| compiled("examples/panel.c", DIRECTORY));

/// A call's refusal of what the engine accepts, by the fields that it is told.
type Refusal = fn(&Fields) -> Result<(), u32>;

/// Refusals beyond the engine's: of the call that reads the samples, and of the finishing call.
#[derive(Clone, Copy)]
struct Beyond {
    samples: Refusal,
    finish: Refusal,
}

/// The engine as it is.
const NONE: Beyond = Beyond { samples: |_| Ok(()), finish: |_| Ok(()) };

/// The call that refuses a frame.
enum Call {
    Reading,
    Turning,
    Finishing,
}

/// A frame as the panel is to finish it, and its finished planes; or which call refuses it.
fn finished(beyond: Beyond, turn: u32, store: &[u8]) -> Result<(Fields, Planes), (Call, u32)> {
    let (fields, part) = packet::read(store).map_err(|number| (Call::Reading, number))?;
    (beyond.samples)(&fields).map_err(|number| (Call::Reading, number))?;
    let samples = packet::samples_of(part);
    let mut mosaic = vec![0; samples.len()];
    let shape = turn_samples(turn, fields.width, fields.height, fields.layout, &samples, &mut mosaic);
    let (width, height, layout) = shape.map_err(|number| (Call::Turning, number))?;
    let fields = Fields { width, height, layout, ..fields };
    (beyond.finish)(&fields).map_err(|number| (Call::Finishing, number))?;
    Ok((fields, finished_of(&fields, &mosaic)))
}

fn mean(plane: &[u16]) -> u64 {
    plane.iter().map(|&value| u64::from(value)).sum::<u64>() / plane.len() as u64
}

/// What the line of a finished frame says of the bed, which is read in the middle of the frame.
fn bed_text(bed: &mut Kept, fields: &Fields, planes: &Planes) -> String {
    let Fields { width, height, .. } = *fields;
    let [row, column] = [height, width].map(|side| side.saturating_sub(SIDE) / 2);
    let view = View { width, height, row, column };
    let (next, reading) = match spot(&view, planes.each_ref().map(|plane| &plane[..]), *bed) {
        Ok(answer) => answer,
        Err(number) => return format!("bed refused {number}, {}", refusal_text(number)),
    };
    *bed = next;
    match reading {
        Reading::Starting => "bed starting".to_string(),
        Reading::Dark => "bed dark".to_string(),
        Reading::Steady([red, green, blue]) => {
            format!("bed red {red:.3}, green {green:.3}, blue {blue:.3}")
        }
    }
}

/// A file's name, and the store that it holds.
type Store = (String, Vec<u8>);

/// What the panel has to print of these stores.
fn due(beyond: Beyond, turn: u32, stores: &[Store]) -> String {
    let mut out = String::new();
    let (mut tally, mut not_read, mut not_turned) = (Tally::default(), 0, 0);
    let (mut last, mut bed): (Option<&[u8]>, Kept) = (None, Kept::START);
    for (name, store) in stores {
        if last.is_some_and(|last| packet::repeats(store, last) == Ok(true)) {
            writeln!(out, "{name}: repeats the one before").unwrap();
            continue;
        }
        match finished(beyond, turn, store) {
            Ok((fields, planes)) => {
                let Fields { width, height, rounds, .. } = fields;
                let [red, blue] = [0, 2].map(|colour| mean(&planes[colour]));
                let bed = bed_text(&mut bed, &fields, &planes);
                writeln!(out, "{name}: {width} by {height}, red {red}, blue {blue}; {bed}").unwrap();
                tally = tally.next(0, rounds);
                last = Some(store);
            }
            Err((call, number)) => {
                writeln!(out, "{name}: refused {number}, {}", refusal_text(number)).unwrap();
                match call {
                    Call::Reading => not_read += 1,
                    Call::Turning => not_turned += 1,
                    Call::Finishing => tally = tally.next(number, 0),
                }
            }
        }
    }
    let Tally { finished, refused, rounds } = tally;
    write!(out, "finished {finished}, refused {refused}, rounds {rounds}; ").unwrap();
    writeln!(out, "not read {not_read}, not turned {not_turned}").unwrap();
    out
}

/// A directory of a test's own with these files, each named by its number.
fn directory(test: &str, stores: Vec<Vec<u8>>) -> (PathBuf, Vec<Store>) {
    let directory = Path::new(DIRECTORY).join(format!("panel_{test}"));
    fs::create_dir_all(&directory).unwrap();
    let named: Vec<Store> = (1..).map(|k: usize| format!("file {k}")).zip(stores).collect();
    for (name, store) in &named {
        fs::write(directory.join(name), store).unwrap();
    }
    (directory, named)
}

fn panel() -> Command {
    Command::new(&*PANEL)
}

fn run(mut command: Command, directory: &Path, arguments: &[&str]) -> Output {
    command.current_dir(directory).args(arguments).output().expect("the panel's program does not start")
}

/// Has the program read these stores, compares what it leaves with the reference, and hands back its lines.
fn compared_with(
    command: Command,
    beyond: Beyond,
    test: &str,
    turn: u32,
    stores: Vec<Vec<u8>>,
) -> Vec<String> {
    let (directory, stores) = directory(test, stores);
    let number = turn.to_string();
    let arguments: Vec<&str> =
        [&number[..]].into_iter().chain(stores.iter().map(|(name, _)| &name[..])).collect();
    let output = run(command, &directory, &arguments);
    let (text, what) = (String::from_utf8_lossy(&output.stdout), format!("{test}, turn {turn}"));
    assert_eq!(String::from_utf8_lossy(&output.stderr), "", "{what}");
    assert_same(&text, &due(beyond, turn, &stores), &what);
    assert_eq!(output.status.code(), Some(0), "{what}");
    text.lines().map(str::to_string).collect()
}

fn compared(test: &str, turn: u32, stores: Vec<Vec<u8>>) -> Vec<String> {
    compared_with(panel(), NONE, test, turn, stores)
}

/// A frame of a kind by chance, with few rounds.
fn frame(chance: &mut Chance, width: usize, height: usize) -> (Fields, Vec<u16>) {
    let kinds = kinds(chance, width, height);
    (chance.few_rounds(width, height), kinds[chance.place(kinds.len())].1.clone())
}

/// Packets of many sizes, in turn with one level and with two, after older bytes too.
fn packets(chance: &mut Chance) -> Vec<Vec<u8>> {
    let small = [(2, 2), (3, 2), (2, 3), (3, 3), (5, 4), (4, 7), (9, 9), (31, 18), (2, 257), (300, 3)];
    // with room for the bed's window
    let sizes = small.into_iter().chain([(32, 32), (45, 34)]);
    let first = chance.place(2) as u32;
    let packets = (first..).zip(sizes).map(|(k, (width, height))| {
        let (fields, samples) = frame(chance, width, height);
        let fields = Fields { layout: fields.layout % 4 + 4 * (k % 2), ..fields };
        packet::bytes(&fields, &samples)
    });
    let packets: Vec<_> = packets.collect();
    packets.iter().map(|packet| chance.after_older_bytes(packet)).collect()
}

/// Every turn, in range or not: packets of many sizes, and a store refused by each of the reader's questions.
#[test]
fn every_turn() {
    let chance = &mut Chance(0x9e37_79b9_7f4a_7c15);
    for turn in (0..12).chain([16, 128, 255, 256, 263, 65_539, 1 << 31, u32::MAX]) {
        let mut stores = packets(chance);
        stores.push(chance.bytes(11));
        for question in QUESTIONS {
            let fields = chance.small_fields();
            stores.push(wrong(chance, &fields, &[question]));
        }
        let last = compared("every_turn", turn, stores).pop().unwrap();
        if turn < 8 {
            assert!(last.starts_with("finished 12, refused 0, rounds "), "turn {turn}: {last}");
            assert!(last.ends_with("; not read 9, not turned 0"), "turn {turn}: {last}");
        } else {
            assert_eq!(last, "finished 0, refused 0, rounds 0; not read 9, not turned 12", "turn {turn}");
        }
    }
}

/// Some of the stores that the reader is tried with, sound and damaged in turn.
#[test]
fn stores_of_every_kind() {
    let chance = &mut Chance(0x2545_f491_4f6c_dd1d);
    let [sound, damaged] = [sound(chance), damaged(chance)];
    let sound = sound.into_iter().step_by(5).map(|(_, store)| store);
    let damaged: Vec<_> = damaged.into_iter().step_by(29).map(|(_, store)| store).collect();
    let mixed: Vec<_> = sound.zip(damaged).flat_map(|(sound, damaged)| [sound, damaged]).collect();
    for (turn, stores) in (0..9).zip(mixed.chunks(60)) {
        compared("stores_of_every_kind", turn, stores.to_vec());
    }
}

/// A packet is skipped where it repeats the last finished one, whatever was refused or skipped between; it is finished where
/// anything in it differs, and where another was finished between.
#[test]
fn repeats() {
    let chance = &mut Chance(0x0123_4567_89ab_cdef);
    for turn in 0..9 {
        let (width, height) = chance.one_of(&[(3, 2), (4, 5), (2, 6)]);
        let (fields, mut samples) = frame(chance, width, height);
        let packet = packet::bytes(&fields, &samples);
        let other_fields = [
            Fields { threshold: fields.threshold ^ 1, ..fields },
            Fields { rounds: fields.rounds ^ 1, ..fields },
            Fields { layout: fields.layout ^ 4, ..fields },
            Fields { layout: fields.layout ^ 3, ..fields },
            Fields { width: height, height: width, ..fields },
        ];
        let mut others = other_fields.map(|other| packet::bytes(&other, &samples)).to_vec();
        samples[width * height - 1] ^= 1;
        others.push(packet::bytes(&fields, &samples));
        let [refused, cut] = [[&packet[..], &[255]].concat(), packet[1..].to_vec()];
        let older_too = [&others[0][..], &packet].concat();
        let mut stores =
            [&refused, &packet, &packet, &refused, &older_too, &cut, &packet].map(Clone::clone).to_vec();
        for other in others {
            stores.extend([other.clone(), [&packet[..], &other].concat(), packet.clone()]);
        }
        let lines = compared("repeats", turn, stores);
        let skipped: Vec<usize> =
            (1..).zip(&lines).filter(|(_, l)| l.contains("repeats")).map(|(k, _)| k).collect();
        let due: &[usize] = if turn < 8 { &[3, 5, 7, 9, 12, 15, 18, 21, 24] } else { &[] };
        assert_eq!(skipped, due, "turn {turn}");
    }
}

/// What a line says of its file.
fn after_name(line: &str) -> String {
    line.split_once(": ").unwrap().1.to_string()
}

/// A setting is changed, and nothing else: the next packet is finished with it, and its line is that of another picture. The
/// packets that repeat are skipped, whatever bytes precede them.
#[test]
fn a_changed_setting() {
    let chance = &mut Chance(0x27d4_eb2f_1656_67c5);
    let (width, height) = (12, 9);
    for turn in 0..8 {
        let fields = Fields { width, height, layout: chance.layout(), rounds: 3, threshold: 20 };
        let samples = chance.samples(width * height);
        for changed in [
            Fields { threshold: fields.threshold + 256, ..fields },
            Fields { rounds: fields.rounds + 16, ..fields },
            Fields { layout: fields.layout ^ 4, ..fields },
        ] {
            let [before, after] = [fields, changed].map(|fields| packet::bytes(&fields, &samples));
            let [before_again, after_again] =
                [&before, &after].map(|packet| chance.after_older_bytes(packet));
            let lines = compared("a_changed_setting", turn, vec![before, before_again, after, after_again]);
            let [old, skipped, new, skipped_too] = [0, 1, 2, 3].map(|k| after_name(&lines[k]));
            assert_eq!([skipped, skipped_too], ["repeats the one before"; 2], "{changed:?}");
            assert_ne!(old, new, "{changed:?}");
            let rounds = fields.rounds + changed.rounds;
            let tally = format!("finished 2, refused 0, rounds {rounds}; not read 0, not turned 0");
            assert_eq!(lines[4], tally, "{changed:?}");
        }
    }
}

/// A mirrored head's frame, turned upright, gives the line of the frame itself; turned otherwise, it gives the same red and
/// blue, and the same bed where the window stands in the very middle.
#[test]
fn a_mirrored_head() {
    let chance = &mut Chance(0xfedc_ba98_7654_3210);
    for (width, height) in [(2, 2), (3, 2), (5, 4), (4, 4), (16, 9), (40, 33), (36, 50)] {
        let (fields, samples) = (chance.few_rounds(width, height), chance.samples(width * height));
        let in_the_middle = width % 2 == 0 && height % 2 == 0;
        let upright = Frame { width, height, layout: fields.layout, samples };
        let line = after_name(&compared("a_head", 0, vec![packet::bytes(&fields, &upright.samples)])[0]);
        for head in 0..8 {
            let Frame { width, height, layout, samples } = upright.turned(head);
            let packet = packet::bytes(&Fields { width, height, layout, ..fields }, &samples);
            for turn in 0..8 {
                let found = after_name(&compared("a_mirrored_head", turn, vec![packet.clone()])[0]);
                let [same, due] = [&found, &line].map(|line| line.split_once(", ").unwrap().1);
                let [colours, due_colours] = [same, due].map(|text| text.split_once(';').unwrap().0);
                assert_eq!(colours, due_colours, "head {head}, turn {turn}");
                assert!(same == due || !in_the_middle, "head {head}, turn {turn}: {same}");
                if upright.turned(head).turned(turn) == upright {
                    assert_eq!(found, line, "head {head}, turn {turn}");
                }
            }
        }
    }
}

/// A packet of a frame with one value everywhere: its planes have that value too.
fn flat(width: usize, height: usize, value: u16) -> Vec<u8> {
    let fields = Fields { width, height, layout: 6, rounds: 2, threshold: 20 };
    packet::bytes(&fields, &vec![value; width * height])
}

/// What the lines of finished frames say of the bed.
fn beds(lines: &[String]) -> Vec<&str> {
    let of_files = &lines[..lines.len() - 1];
    of_files.iter().filter_map(|line| Some(line.split_once("; ")?.1)).collect()
}

/// The window's sum is 1,024 times the value, and each lit frame takes the spot an eighth of the way to it.
#[test]
fn the_bed_by_hand() {
    let steady = |spot: &str| format!("bed red {spot}, green {spot}, blue {spot}");
    let small = "bed refused 19, window not wholly inside the frame".to_string();
    let frames = [
        ((40, 36, 0), "bed starting".to_string()),
        ((31, 40, 100), small.clone()),
        ((40, 36, 0), "bed starting".to_string()),
        ((32, 32, 100), steady("102400.000")),
        ((33, 47, 200), steady("115200.000")),
        ((40, 31, 300), small),
        ((47, 33, 0), "bed dark".to_string()),
        ((47, 33, 200), steady("126400.000")),
        ((36, 40, 1), steady("110728.000")),
        ((36, 41, 4095), steady("621047.000")),
        ((32, 33, 1), steady("543544.125")),
        ((32, 33, 0), "bed dark".to_string()),
        ((32, 33, 2), steady("475857.109")),
    ];
    for turn in 0..8 {
        let stores = frames.each_ref().map(|((width, height, value), _)| flat(*width, *height, *value));
        let lines = compared("the_bed_by_hand", turn, stores.to_vec());
        assert_eq!(beds(&lines), frames.each_ref().map(|(_, bed)| &bed[..]), "turn {turn}");
    }
}

/// White all around, and black in the middle, farther than finishing without a round reaches into the window.
fn black_in_the_middle(chance: &mut Chance) -> Vec<u8> {
    let (width, height) = (70, 66);
    let black = |i: usize, j: usize| (8..58).contains(&i) && (8..62).contains(&j);
    let samples = filled(width, height, |i, j| if black(i, j) { 0 } else { 4095 });
    packet::bytes(&Fields { rounds: 0, ..chance.few_rounds(width, height) }, &samples)
}

/// A frame with room for the window.
fn with_room(chance: &mut Chance) -> Vec<u8> {
    let (width, height) = chance.one_of(&[(32, 32), (33, 47), (47, 33), (40, 36), (64, 35)]);
    let (fields, samples) = frame(chance, width, height);
    packet::bytes(&fields, &samples)
}

/// Frames of every kind in a row, unlit ones and small ones among them. The bed starts when the first lit one comes, and is
/// dark in the unlit ones after it.
#[test]
fn the_bed_from_frame_to_frame() {
    let chance = &mut Chance(0xc2b2_ae3d_27d4_eb4f);
    for turn in 0..8 {
        let black = flat(35, 40, 0);
        let mut stores = vec![black.clone(), black_in_the_middle(chance)];
        for _ in 0..3 {
            stores.extend([with_room(chance), with_room(chance), with_room(chance), chance.small_packet()]);
            stores.extend([black_in_the_middle(chance), with_room(chance), black.clone()]);
        }
        let lines = compared("the_bed_from_frame_to_frame", turn, stores);
        let beds = beds(&lines);
        assert_eq!(beds[..2], ["bed starting"; 2], "turn {turn}");
        for k in [6, 8, 13, 15, 20, 22] {
            assert_eq!(beds[k], "bed dark", "turn {turn}, file {}", k + 1);
        }
    }
}

/// Packets that are refused or skipped, and frames without room for the window, leave the bed: without them it is the same.
#[test]
fn what_leaves_the_bed() {
    let chance = &mut Chance(0xc4ce_b9fe_1a85_ec53);
    for turn in 0..8 {
        let frames: Vec<_> = (0..8).map(|_| with_room(chance)).collect();
        let mut stores = Vec::new();
        for frame in &frames {
            let refused = [&frame[..], &[255]].concat();
            let small = flat(31, 2 + stores.len(), 4095);
            stores.extend([frame.clone(), refused, frame.clone(), small]);
        }
        let lines = compared("what_leaves_the_bed", turn, stores);
        let others = compared("what_leaves_the_bed_alone", turn, frames);
        let without_small = beds(&lines).into_iter().filter(|bed| !bed.contains("refused"));
        assert_eq!(without_small.collect::<Vec<_>>(), beds(&others), "turn {turn}");
        assert_eq!(lines.iter().filter(|line| line.contains("repeats")).count(), 8, "turn {turn}");
        assert!(lines[32].ends_with("not read 8, not turned 0"), "turn {turn}: {}", lines[32]);
        assert!(beds(&others).iter().any(|bed| bed.starts_with("bed red")), "turn {turn}: {others:?}");
    }
}

/// Files of lengths at which a reader may stop too early, a larger frame, an empty file, and no file at all.
#[test]
fn files_of_every_length() {
    let chance = &mut Chance(0x5851_f42d_4c95_7f2d);
    let mut stores = vec![vec![]];
    for length in [1, 4095, 4096, 4097, 65_535, 65_536, 65_537, 131_072, 196_608, 262_145, 1_000_000] {
        let packet = chance.small_packet();
        let older = usize::saturating_sub(length, packet.len());
        stores.push([chance.bytes(older), packet].concat());
        stores.push(chance.bytes(length));
    }
    let (fields, samples) = frame(chance, 301, 200);
    stores.push(packet::bytes(&fields, &samples));
    compared("files_of_every_length", 5, stores);
    let nothing = "finished 0, refused 0, rounds 0; not read 0, not turned 0";
    assert_eq!(compared("files_of_every_length", 0, vec![]), [nothing]);
}

/// More files than may be open at once: none stays open.
#[test]
fn many_files() {
    let mut limited = Command::new("sh");
    limited.args(["-c", "ulimit -n 16 && exec \"$0\" \"$@\""]).arg(&*PANEL);
    let lines = compared_with(limited, NONE, "many_files", 3, vec![PRINTED.to_vec(); 100]);
    assert_eq!(lines.len(), 101);
}

/// Status 2 for what is no turn, 1 for what cannot be read, and a word about it each time.
#[test]
fn what_it_cannot_do() {
    let (directory, _) = directory("what_it_cannot_do", vec![PRINTED.to_vec()]);
    fs::create_dir_all(directory.join("directory")).unwrap();
    let no_turns = ["", "x", "-1", "+1", "1x", "x1", "1.0", "0x1", "1 2", " 1", "file 1"];
    let too_large = ["4294967296", "4294967299", "18446744073709551616", "18446744073709551619"];
    for turn in no_turns.into_iter().chain(too_large) {
        let output = run(panel(), &directory, &[turn, "file 1"]);
        assert_eq!((output.status.code(), &output.stdout[..]), (Some(2), &[][..]), "turn {turn:?}");
        assert_ne!(output.stderr, [], "turn {turn:?}");
    }
    let none = run(panel(), &directory, &[]);
    assert_eq!((none.status.code(), &none.stdout[..], none.stderr.is_empty()), (Some(2), &[][..], false));
    for file in ["missing", "directory"] {
        for files in [&["0", file][..], &["0", "file 1", file], &["0", file, "file 1"]] {
            let output = run(panel(), &directory, files);
            assert_eq!(output.status.code(), Some(1), "{files:?}");
            assert!(String::from_utf8_lossy(&output.stderr).contains(file), "{files:?}");
            assert!(!String::from_utf8_lossy(&output.stdout).contains("finished"), "{files:?}");
        }
    }
    // a disc without room
    if let Ok(full) = File::options().write(true).open("/dev/full") {
        let status = panel().current_dir(&directory).args(["0", "file 1"]).stdout(full).status().unwrap();
        assert_eq!(status.code(), Some(1));
    }
}

/// At every standard of C and C++ that the header is for, no compiler that is found warns, and the program is the same.
#[test]
fn at_every_standard() {
    let chance = &mut Chance(0x9fb2_1c65_1e98_df25);
    let text = file("examples/panel.c");
    for language in [C, C_PLUS_PLUS] {
        let source = language.write(DIRECTORY, "panel_at_every_standard", &text);
        let program = source.with_extension(format!("{}.bin", language.extension));
        for [compiler, standard] in language.compilers() {
            compile(&[compiler, standard, "-O2"], &source, &program);
            let [sound, other, refused] = [chance.small_packet(), chance.small_packet(), chance.bytes(20)];
            let stores = vec![sound.clone(), sound, other, refused];
            compared_with(Command::new(&program), NONE, "at_every_standard", 6, stores);
        }
    }
}

/// The program, compiled for a test with this before it, and with these words for the compiler.
fn compiled_behind(test: &str, before: &str, words: &[&str]) -> PathBuf {
    let source =
        C.write(DIRECTORY, &format!("panel_{test}"), &format!("{before}{}", file("examples/panel.c")));
    let program = source.with_extension("bin");
    compile(&[&["cc", "-std=c11"], words].concat(), &source, &program);
    program
}

/// Calls that refuse what the engine accepts: reading 35 samples, and finishing an odd height.
const BEYOND: Beyond = Beyond {
    samples: |fields| if fields.width * fields.height == 35 { Err(7) } else { Ok(()) },
    finish: |fields| if fields.height % 2 == 1 { Err(8) } else { Ok(()) },
};

/// The same before the program in C. A macro does not expand its own name: else, these make the engine's calls.
const BEYOND_IN_C: &str = r#"
#include "demosaic.h"

#define demosaic_packet_samples(store, store_len, samples, samples_len) \
    ((samples_len) == 35 ? UINT32_C(7) : demosaic_packet_samples(store, store_len, samples, samples_len))

#define demosaic_finish(width, height, ...) \
    ((height) % 2 == 1 ? UINT32_C(8) : demosaic_finish(width, height, __VA_ARGS__))

"#;

/// A frame is counted by the call that refuses it. The tally counts what the finishing call refuses, though the engine's
/// refuses no frame of a packet that was read and turned.
#[test]
fn whoever_refuses() {
    let chance = &mut Chance(0x1656_67b1_9e37_79f9);
    let program = compiled_behind("whoever_refuses", BEYOND_IN_C, &["-O2"]);
    for turn in 0..9 {
        let mut stores = packets(chance);
        for (width, height) in [(5, 7), (7, 5), (4, 3), (3, 4), (6, 6)] {
            let (fields, samples) = frame(chance, width, height);
            // twice, which is a repeat where the first one is finished
            stores.extend([(); 2].map(|_| packet::bytes(&fields, &samples)));
        }
        stores.push(chance.bytes(30));
        let command = Command::new(&program);
        let last = compared_with(command, BEYOND, "whoever_refuses", turn, stores).pop().unwrap();
        assert_eq!(last.contains(" refused 0,"), turn == 8, "turn {turn}: {last}");
        assert!(last.contains("not read 5,"), "turn {turn}: {last}");
    }
}

/// The compiler's own checks of addresses, leaks and undefined behaviour.
const SANITIZERS: [&str; 3] = ["-g", "-fsanitize=address,undefined", "-fno-sanitize-recover=all"];

/// Before the program in C: no more blocks of memory than the environment says.
const FEW_BLOCKS_IN_C: &str = r#"
#include <inttypes.h>
#include <stdio.h>
#include <stdlib.h>
#include <string.h>

static int taken;

#define malloc(size) (taken++ < atoi(getenv("BLOCKS")) ? malloc(size) : NULL)
#define realloc(block, size) (taken++ < atoi(getenv("BLOCKS")) ? realloc(block, size) : NULL)

"#;

/// A file takes seven blocks: its store, two mosaics, three planes and the work; with two levels eight. Wherever they end,
/// the program says so and leaves nothing behind.
#[test]
fn without_memory() {
    let program = compiled_behind("without_memory", FEW_BLOCKS_IN_C, &SANITIZERS);
    let of_layout = |layout| [&PRINTED[..12], &[layout], &PRINTED[13..]].concat();
    let (directory, _) = directory("without_memory", vec![of_layout(0), of_layout(4), of_layout(3)]);
    for blocks in 0..=22 {
        let mut command = Command::new(&program);
        command.env("BLOCKS", blocks.to_string());
        let output = run(command, &directory, &["0", "file 1", "file 2", "file 3"]);
        let [out, told] = [&output.stdout, &output.stderr].map(|text| String::from_utf8_lossy(text));
        let (due, lines) = match blocks {
            0..7 => ("panel: file 1: no memory\n", 0),
            7..15 => ("panel: file 2: no memory\n", 1),
            15..22 => ("panel: file 3: no memory\n", 2),
            _ => ("", 4),
        };
        assert_eq!(told, due, "{blocks} blocks");
        assert_eq!(output.status.code(), Some(i32::from(blocks < 22)), "{blocks} blocks");
        assert_eq!(out.lines().count(), lines, "{blocks} blocks: {out}");
    }
}

/// With the compiler's own checks in the program around the calls.
#[test]
fn under_the_sanitizers() {
    let chance = &mut Chance(0xda94_2042_e4dd_58b5);
    let program = compiled_behind("under_the_sanitizers", "", &SANITIZERS);
    for turn in [0, 6, 8] {
        let packets = packets(chance);
        let refused = packets.iter().map(|packet| packet[packet.len() - 13..].to_vec());
        let twice = packets.iter().flat_map(|packet| [packet.clone(), packet.clone()]);
        let stores = twice.chain(refused).collect();
        compared_with(Command::new(&program), NONE, "under_the_sanitizers", turn, stores);
    }
}
