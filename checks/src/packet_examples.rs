//! What the program `packet_examples` must write: examples of the packet's calls, computed by the reference.

use crate::packet::{self, Fields, PRINTED};
use crate::text::{line, refused};

/// The frame that the writer is given.
const WRITTEN: Fields = Fields { width: 3, height: 2, layout: 1, rounds: 64, threshold: 4095 };
const WRITTEN_SAMPLES: [u16; 6] = [0, 1, 255, 256, 4094, 4095];

/// The printed packet with one byte replaced.
fn with(place: usize, byte: u8) -> Vec<u8> {
    let mut store = PRINTED.to_vec();
    store[place] = byte;
    store
}

/// The printed packet after three older bytes.
fn after_older_bytes() -> Vec<u8> {
    let mut store = vec![255; 3];
    store.extend(PRINTED);
    store
}

/// Width, height, layout, rounds and threshold.
fn fields_line(out: &mut String, fields: &Fields) {
    let Fields { width, height, layout, rounds, threshold } = *fields;
    line(out, &[width as u64, height as u64, layout.into(), rounds.into(), threshold.into()]);
}

/// What the reader answers: the fields, and the bytes of the part that holds the samples; or the refusal.
fn show(out: &mut String, store: &[u8]) {
    match packet::read(store) {
        Ok((fields, part)) => {
            fields_line(out, &fields);
            line(out, part);
        }
        Err(number) => refused(out, number),
    }
}

/// The refusal numbers of the printed packet's last bytes, and of the packet with one byte replaced.
fn refusals(out: &mut String) {
    for n in 0..=20 {
        line(out, &[n, packet::refusal(&PRINTED[20 - n as usize..])]);
    }
    for place in 0..20 {
        line(out, &[0, 1, 2, 3, 4, 7, 8, 16, 65, 255].map(|byte| packet::refusal(&with(place, byte))));
    }
}

/// What the writer answers, and all bytes of the lent buffer after it.
fn write(out: &mut String, fields: Fields, samples: &[u16], room: usize) {
    let mut buffer = vec![255; room];
    match packet::write(&fields, samples, &mut buffer) {
        Ok(count) => line(out, &[format!("wrote {count}")]),
        Err(number) => refused(out, number),
    }
    line(out, &buffer);
}

fn writings(out: &mut String) {
    for room in [23, 24, 26] {
        write(out, WRITTEN, &WRITTEN_SAMPLES, room);
    }
    write(out, Fields { layout: 7, ..WRITTEN }, &WRITTEN_SAMPLES, 24);
    let refused_fields = [
        Fields { width: 1, ..WRITTEN },
        Fields { width: 2049, ..WRITTEN },
        Fields { height: 1, ..WRITTEN },
        Fields { height: 2049, ..WRITTEN },
        Fields { layout: 8, ..WRITTEN },
        Fields { rounds: 65, ..WRITTEN },
        Fields { threshold: 4096, ..WRITTEN },
        // six samples are not 2 by 2
        Fields { width: 2, ..WRITTEN },
    ];
    for fields in refused_fields {
        write(out, fields, &WRITTEN_SAMPLES, 26);
    }
    for room in [26, 23] {
        write(out, WRITTEN, &[0, 1, 255, 256, 4094, 4096], room);
    }
}

/// What the reader with a mosaic to fill answers, and the mosaic after it.
fn read_mosaic(out: &mut String, store: &[u8], length: usize) {
    let mut mosaic = vec![9; length];
    match packet::read_mosaic(store, &mut mosaic) {
        Ok(fields) => fields_line(out, &fields),
        Err(number) => refused(out, number),
    }
    line(out, &mosaic);
}

fn mosaics(out: &mut String) {
    for length in [3, 4, 5] {
        read_mosaic(out, &PRINTED, length);
    }
    for length in [3, 4] {
        read_mosaic(out, &with(1, 16), length);
    }
}

/// What the repeat call answers.
fn repeats(a: &[u8], b: &[u8]) -> String {
    match packet::repeats(a, b) {
        Ok(true) => "yes".to_string(),
        Ok(false) => "no".to_string(),
        Err(number) => format!("refused {number}"),
    }
}

fn repetitions(out: &mut String) {
    for place in 0..20 {
        let other = with(place, 1);
        line(out, &[repeats(&PRINTED, &other), repeats(&other, &PRINTED)]);
    }
    line(out, &[repeats(&after_older_bytes(), &PRINTED)]);
    line(out, &[repeats(&PRINTED, &packet::bytes(&WRITTEN, &WRITTEN_SAMPLES))]);
    line(out, &[repeats(&PRINTED, &with(12, 4))]);
    // both refused: the first store's number
    line(out, &[repeats(&with(8, 1), &with(12, 8))]);
    line(out, &[repeats(&with(12, 8), &with(8, 1))]);
    line(out, &[repeats(&PRINTED[9..], &with(8, 1))]);
}

pub fn text() -> String {
    let mut out = String::new();
    show(&mut out, &PRINTED);
    show(&mut out, &after_older_bytes());
    refusals(&mut out);
    writings(&mut out);
    mosaics(&mut out);
    repetitions(&mut out);
    out
}
