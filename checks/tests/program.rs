//! The engine's program prints what the reference prints, whatever it reads, writes nothing else and ends with status 0.

use checks::chance::Chance;
use checks::child;
use checks::mosaics::kinds;
use checks::packet::{self, Fields, PRINTED};
use checks::program::{refusal, text, MOST_BYTES, MOST_SAMPLES};
use checks::refusals::sets;
use checks::stores::{damaged, described, sound, wrong, QUESTIONS};
use checks::text::assert_same;
use std::io::{ErrorKind, Write};
use std::path::{Path, PathBuf};
use std::thread;
use std::time::Duration;

fn program() -> PathBuf {
    let program = Path::new(env!("CARGO_MANIFEST_DIR")).join("../target/bin/demosaic");
    assert!(program.is_file(), "the program {} is missing: build it first", program.display());
    program
}

/// Runs the program on an input that is handed over in these pieces, compares what it leaves with the reference, and hands
/// back the number of the refusal, 0 where it printed a frame.
fn compared_in_pieces(pieces: &[&[u8]], kind: &str) -> u32 {
    let input = pieces.concat();
    let what = format!("{kind}, {}", described(&input));
    let (output, written) = child::run(&program(), |mut handed| {
        for (k, piece) in pieces.iter().enumerate() {
            if k > 0 {
                // so that the program reads what there is before more comes
                thread::sleep(Duration::from_millis(1));
            }
            handed.write_all(piece)?;
        }
        Ok(())
    });
    if let Err(error) = written {
        // once there are too many bytes, the program need not read the others
        let stopped = error.kind() == ErrorKind::BrokenPipe && input.len() > MOST_BYTES;
        assert!(stopped, "{what}: {error}");
    }
    assert_eq!(String::from_utf8_lossy(&output.stderr), "", "{what}");
    assert_same(&String::from_utf8_lossy(&output.stdout), &text(&input), &what);
    assert_eq!(output.status.code(), Some(0), "{what}");
    refusal(&input)
}

fn compared(input: &[u8], kind: &str) -> u32 {
    compared_in_pieces(&[input], kind)
}

/// A packet with a mosaic of a kind by chance.
fn packet_of(chance: &mut Chance, fields: &Fields) -> Vec<u8> {
    let kinds = kinds(chance, fields.width, fields.height);
    packet::bytes(fields, &kinds[chance.place(kinds.len())].1)
}

/// A packet of a random frame of this size.
fn random_packet(chance: &mut Chance, width: usize, height: usize) -> Vec<u8> {
    let fields = Fields { width, height, ..chance.small_fields() };
    packet::bytes(&fields, &chance.samples(width * height))
}

/// The packet after so many older bytes that there are `length` bytes in all.
fn lengthened(chance: &mut Chance, packet: &[u8], length: usize) -> Vec<u8> {
    [chance.bytes(length - packet.len()), packet.to_vec()].concat()
}

/// As document 01 prints it: alone, after older bytes, and in pieces.
#[test]
fn the_printed_packet() {
    let due = "2 2\n100 100\n100 100\n50 50\n50 50\n20 20\n20 20\n";
    assert_eq!(text(&PRINTED), due);
    assert_eq!(compared(&PRINTED, "printed"), 0);
    assert_eq!(compared(&[&[255; 77], &PRINTED[..]].concat(), "printed, after older bytes"), 0);
    // 2 by 2 has no detail at the second level
    let two_levels = [&PRINTED[..12], &[4], &PRINTED[13..]].concat();
    assert_eq!((compared(&two_levels, "printed, two levels"), text(&two_levels)), (0, due.to_string()));
    let bytes: Vec<&[u8]> = PRINTED.chunks(1).collect();
    assert_eq!(compared_in_pieces(&bytes, "printed, byte by byte"), 0);
    for place in 0..=PRINTED.len() {
        let (first, last) = PRINTED.split_at(place);
        assert_eq!(compared_in_pieces(&[first, last], "printed, in two pieces"), 0);
    }
}

#[test]
fn every_layout_of_many_sizes() {
    let chance = &mut Chance(0x9e37_79b9_7f4a_7c15);
    let mut sizes = vec![(2, 2), (2, 3), (3, 2), (9, 9), (31, 33), (32, 32), (33, 31), (16, 64), (341, 3)];
    sizes.extend([(3, 341), (2, 512), (512, 2), (4, 256), (256, 4), (146, 7), (10, 102), (100, 10)]);
    for _ in 0..25 {
        let width = chance.between(2, 512) as usize;
        sizes.push((width, chance.between(2, (MOST_SAMPLES / width) as u64) as usize));
    }
    for (width, height) in sizes {
        for layout in 0..8 {
            let fields = Fields { layout, ..chance.few_rounds(width, height) };
            let packet = packet_of(chance, &fields);
            let store = chance.after_older_bytes(&packet);
            assert_eq!(compared(&store, &format!("{fields:?}")), 0);
        }
    }
}

#[test]
fn every_number_of_rounds() {
    let chance = &mut Chance(0x2545_f491_4f6c_dd1d);
    for rounds in 0..=64 {
        for threshold in [0, 300, chance.one_of(&[1, 20, 4094, 4095])] {
            let fields = Fields { rounds, threshold, ..chance.small_fields() };
            let packet = packet_of(chance, &fields);
            assert_eq!(compared(&packet, &format!("{fields:?}")), 0);
        }
    }
    for (width, height) in [(32, 32), (512, 2), (2, 512), (27, 37)] {
        for layout in [chance.between(0, 3) as u32, chance.between(4, 7) as u32] {
            let fields = Fields { width, height, layout, rounds: 64, threshold: 300 };
            let packet = packet_of(chance, &fields);
            assert_eq!(compared(&packet, &format!("{fields:?}")), 0);
        }
    }
}

/// Some of the stores that the reader is tried with.
#[test]
fn stores_of_every_kind() {
    let chance = &mut Chance(0x0123_4567_89ab_cdef);
    for (kind, store) in sound(chance).iter().step_by(11).chain(damaged(chance).iter().step_by(19)) {
        compared(store, kind);
    }
    for length in 0..=12 {
        assert_eq!(compared(&vec![0; length], "zeroes"), if length < 12 { 11 } else { 1 });
    }
    let packet = random_packet(chance, 3, 2);
    for length in 0..packet.len() {
        assert_ne!(compared(&packet[packet.len() - length..], "truncated at the front"), 0);
        compared(&packet[..length], "truncated at the end");
    }
}

/// The first question, 17 of the bytes: alone, and before all others.
#[test]
fn bytes_at_their_limit() {
    let chance = &mut Chance(0xfedc_ba98_7654_3210);
    let lengths = [4000, 4094, 4095, 4096, 4097, 4098, 4099, 5000, 8192, 65_536, 65_537, 100_000, 300_000];
    for length in lengths {
        for (width, height) in [(2, 2), (7, 5), (32, 32), (2, 512)] {
            let packet = random_packet(chance, width, height);
            let input = lengthened(chance, &packet, length);
            let number = if length <= 4096 { 0 } else { 17 };
            assert_eq!(compared(&input, "after older bytes"), number, "{length} bytes");
        }
        assert_ne!(compared(&chance.bytes(length), "random bytes"), 0);
    }
    // the first 4,096 bytes alone would be accepted
    let packet = random_packet(chance, 6, 5);
    let first = lengthened(chance, &packet, 4096);
    for more in [1, 2, 12, 20, 4096, 100_000] {
        assert_eq!(compared(&[&first[..], &chance.bytes(more)].concat(), "before later bytes"), 17);
    }
    assert_eq!(compared(&[first, packet].concat(), "before the packet again"), 17);
}

/// The last question, 17 of the samples.
#[test]
fn samples_at_their_limit() {
    let chance = &mut Chance(0x5851_f42d_4c95_7f2d);
    let accepted = [(31, 33), (93, 11), (32, 32), (2, 512), (512, 2), (128, 8), (3, 341), (511, 2)];
    let refused = [(41, 25), (25, 41), (5, 205), (205, 5), (2, 513), (513, 2), (3, 342), (33, 33), (45, 45)];
    let numbered = accepted.map(|size| (size, 0)).into_iter().chain(refused.map(|size| (size, 17)));
    for ((width, height), number) in numbered {
        let packet = random_packet(chance, width, height);
        assert_eq!(compared(&packet, "a size"), number, "{width} by {height}");
        let input = lengthened(chance, &packet, 4096);
        assert_eq!(compared(&input, "a size, 4,096 bytes"), number, "{width} by {height}");
    }
    // 2,042 samples are as many as 4,096 bytes hold
    assert_eq!(compared(&random_packet(chance, 2, 1021), "4,096 bytes"), 17);
    assert_eq!(compared(&random_packet(chance, 1021, 2), "4,096 bytes"), 17);
    for (width, height) in [(3, 681), (681, 3), (2, 1022), (2048, 2), (2, 2048), (100, 100)] {
        let packet = random_packet(chance, width, height);
        assert_eq!(compared(&packet, "too many bytes"), 17, "{width} by {height}");
        let cut = &packet[packet.len() - 4096..];
        assert_eq!(compared(cut, "the last 4,096 bytes"), 13, "{width} by {height}");
    }
}

/// Every set of the reader's questions answered no at once: with few samples, with more than 1,024 of them, and with more
/// than 4,096 bytes.
#[test]
fn every_set_of_questions() {
    let chance = &mut Chance(0xda94_2042_e4dd_58b5);
    for questions in sets(&QUESTIONS) {
        let kind = format!("{questions:?} answered no");
        let first = questions.first().copied();
        let fields = chance.small_fields();
        let few = wrong(chance, &fields, &questions);
        assert_eq!(compared(&few, &kind), first.unwrap_or(0), "{kind}");
        let length = chance.one_of(&[4097, 4098, 5000, 70_000]);
        let long = lengthened(chance, &few, length);
        assert_eq!(compared(&long, &kind), 17, "{kind}, too many bytes");
        let (width, height) = chance.one_of(&[(41, 25), (2, 513), (40, 50), (999, 2)]);
        let many = wrong(chance, &Fields { width, height, ..fields }, &questions);
        assert_eq!(compared(&many, &kind), first.unwrap_or(17), "{kind}, too many samples");
    }
}

/// The program reads on until the input ends, however it comes.
#[test]
fn in_pieces() {
    let chance = &mut Chance(0xc2b2_ae3d_27d4_eb4f);
    let packets = [(2, 2), (9, 8), (32, 32), (2, 512), (41, 25)].map(|(w, h)| random_packet(chance, w, h));
    for packet in packets {
        for length in [packet.len(), 4095, 4096, 4097, 10_000] {
            let input = lengthened(chance, &packet, length);
            let piece = length / chance.between(3, 20) as usize + 1;
            let pieces: Vec<&[u8]> = input.chunks(piece).collect();
            compared_in_pieces(&pieces, &format!("pieces of {piece}"));
            // the last byte alone, and the trailer alone
            for last in [1, 12] {
                let (first, last) = input.split_at(length - last);
                compared_in_pieces(&[first, last], "in two pieces");
            }
        }
    }
}
