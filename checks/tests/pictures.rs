//! The examples `examples/scene.c`, which makes a frame of the burning zone, and `examples/picture.c`, which writes two
//! pictures of a packet's frame: the scene is the one that is meant, and the pictures hold what the reference computes.

use checks::buffers::assert_same;
use checks::chance::Chance;
use checks::compiled::compiled;
use checks::estimate::estimates_of;
use checks::finishing::finished_of;
use checks::header::refusal_text;
use checks::mosaic::{Colour, Mosaic};
use checks::mosaics::{filled, kinds};
use checks::packet::{self, Fields};
use checks::planes_call::Planes;
use checks::stores::{wrong, QUESTIONS};
use std::fs::{self, File};
use std::path::{Path, PathBuf};
use std::process::{Command, Output};
use std::sync::LazyLock;

const DIRECTORY: &str = env!("CARGO_TARGET_TMPDIR");

static PICTURE: LazyLock<PathBuf> = LazyLock::new(|| compiled("examples/picture.c", DIRECTORY));

static SCENE: LazyLock<Vec<u8>> = LazyLock::new(|| {
    let output = Command::new(compiled("examples/scene.c", DIRECTORY)).output().unwrap();
    assert_eq!((output.status.code(), &output.stderr[..]), (Some(0), &[][..]));
    output.stdout
});

/// A sound packet and nothing before it; in one of its rows a black place lies close to a white one, so that a colour may
/// fall below zero between them.
#[test]
fn the_scene() {
    let (fields, part) = packet::read(&SCENE).expect("a sound packet");
    assert_eq!(part.len() + 12, SCENE.len(), "no older bytes");
    assert!(fields.rounds > 0, "{fields:?}");
    let samples = packet::samples_of(part);
    for value in [0, 4095] {
        let count = samples.iter().filter(|&&sample| sample == value).count();
        assert!(count >= samples.len() / 50, "{count} of {} samples are {value}", samples.len());
    }
    let beside = |near: &[u16]| near.contains(&0) && near.contains(&4095);
    assert!(samples.chunks(fields.width).any(|row| row.windows(8).any(beside)), "black beside white");
}

/// Each colour from its own neighbours: red and blue as first estimated, green from four.
fn averaged(fields: &Fields, samples: &[u16]) -> Planes {
    let Fields { width, height, layout, .. } = *fields;
    let mosaic = Mosaic { width, height, layout, samples };
    let [red, _, blue] = estimates_of(width, height, layout, samples);
    let green = filled(width, height, |i, j| {
        let (i, j) = (i as i64, j as i64);
        if mosaic.colour(i, j) == Colour::Green {
            return mosaic.at(i, j) as u16;
        }
        let sum = mosaic.at(i - 1, j) + mosaic.at(i + 1, j) + mosaic.at(i, j - 1) + mosaic.at(i, j + 1);
        ((sum + 2) / 4) as u16
    });
    [red, green, blue]
}

/// The bytes of a picture: 12 bits of a sample as 16, so that 4,095 becomes 65,535, high byte first.
fn ppm(fields: &Fields, planes: &Planes) -> Vec<u8> {
    let mut bytes = format!("P6\n{} {}\n65535\n", fields.width, fields.height).into_bytes();
    for k in 0..planes[0].len() {
        bytes.extend(planes.iter().flat_map(|plane| (16 * plane[k] + plane[k] / 256).to_be_bytes()));
    }
    bytes
}

/// What the program leaves of a store: its output, and where the two pictures are or would be.
fn pictured(test: &str, store: &[u8]) -> (Output, [PathBuf; 2]) {
    let [input, averaged, finished] = ["packet", "averaged.ppm", "finished.ppm"]
        .map(|name| Path::new(DIRECTORY).join(format!("{test}_{name}")));
    fs::write(&input, store).unwrap();
    for picture in [&averaged, &finished] {
        if picture.exists() {
            fs::remove_file(picture).unwrap();
        }
    }
    let mut command = Command::new(&*PICTURE);
    let output = command.args([&averaged, &finished]).stdin(File::open(&input).unwrap()).output().unwrap();
    (output, [averaged, finished])
}

/// Both pictures of this store's frame are the reference's.
fn compared(test: &str, store: &[u8]) {
    let (fields, part) = packet::read(store).unwrap();
    let samples = packet::samples_of(part);
    let (output, [of_averaged, of_finished]) = pictured(test, store);
    assert_eq!((output.status.code(), &output.stderr[..]), (Some(0), &[][..]), "{fields:?}");
    let Fields { width, height, rounds, threshold, .. } = fields;
    let due = format!("{width} by {height} pixels, rounds {rounds}, threshold {threshold}: finished in ");
    let line = String::from_utf8_lossy(&output.stdout);
    assert!(line.starts_with(&due) && line.ends_with('\n'), "{line:?} in place of {due:?}");
    let found = fs::read(of_averaged).unwrap();
    assert_same(&found, &ppm(&fields, &averaged(&fields, &samples)), &format!("{fields:?}, averaged"));
    let found = fs::read(of_finished).unwrap();
    assert_same(&found, &ppm(&fields, &finished_of(&fields, &samples)), &format!("{fields:?}, finished"));
}

#[test]
fn the_pictures_of_the_scene() {
    compared("scene", &SCENE);
}

/// Small and odd frames in every layout, after older bytes too.
#[test]
fn the_pictures_of_small_frames() {
    let chance = &mut Chance(0x9e37_79b9_7f4a_7c15);
    for (width, height) in [(2, 2), (3, 2), (2, 3), (3, 3), (5, 4), (8, 9), (31, 18), (2, 100), (257, 3)] {
        for layout in 0..8 {
            let fields = Fields { layout, ..chance.few_rounds(width, height) };
            let kinds = kinds(chance, width, height);
            let packet = packet::bytes(&fields, &kinds[chance.place(kinds.len())].1);
            compared("small", &chance.after_older_bytes(&packet));
        }
    }
}

/// A refused packet's number is told, and there is no picture.
#[test]
fn no_picture_of_a_refused_packet() {
    let chance = &mut Chance(0x2545_f491_4f6c_dd1d);
    let mut stores = vec![(11, vec![]), (11, chance.bytes(11)), (13, SCENE[1..].to_vec())];
    for question in QUESTIONS {
        let fields = chance.small_fields();
        stores.push((question, wrong(chance, &fields, &[question])));
    }
    for (number, store) in stores {
        let (output, pictures) = pictured("refused", &store);
        let told = String::from_utf8_lossy(&output.stderr);
        assert!(
            told.ends_with(&format!("refused: {number}, {}\n", refusal_text(number))),
            "{told:?}, {number}"
        );
        assert_eq!((output.status.code(), &output.stdout[..]), (Some(1), &[][..]), "{number}");
        assert!(!pictures.iter().any(|picture| picture.exists()), "{number}");
    }
}
