//! The C call `demosaic_packet_refusal`, from a C program, answers the reference's number for every store.

use checks::chance::Chance;
use checks::child;
use checks::compiled::compiled;
use checks::packet::{self, Fields};
use checks::refusals::Counts;
use checks::stores::{damaged, described, sound, Stores};
use std::io::{BufWriter, Write};
use std::path::Path;

/// The largest packets.
fn long(chance: &mut Chance, stores: &mut Stores) {
    let fields = Fields { width: 2048, height: 2048, ..chance.small_fields() };
    let mut samples = chance.samples(2048 * 2048);
    let sound = packet::bytes(&fields, &samples);
    let one_missing = sound[1..].to_vec();
    let one_older = [&[255], &sound[..]].concat();
    let last_place = samples.len() - 1;
    let last = std::mem::replace(&mut samples[last_place], 4096);
    let last_above = packet::bytes(&fields, &samples);
    samples[last_place] = last;
    samples[0] = 4096;
    let first_above = packet::bytes(&fields, &samples);
    let line_pair = chance.samples(2048 * 2);
    let wide = packet::bytes(&Fields { width: 2048, height: 2, ..fields }, &line_pair);
    let high = packet::bytes(&Fields { width: 2, height: 2048, ..fields }, &line_pair);
    stores.push(("2048 by 2048", sound));
    stores.push(("2048 by 2048 after an older byte", one_older));
    stores.push(("2048 by 2048, the last sample 4096", last_above));
    stores.push(("2048 by 2048, the first sample 4096", first_above));
    stores.push(("2048 by 2048, one byte missing", one_missing));
    stores.push(("2048 by 2", wide));
    stores.push(("2 by 2048", high));
}

/// The numbers that the C program prints for the stores.
fn answers(program: &Path, stores: &Stores) -> Vec<u32> {
    let (output, written) = child::run(program, |input| {
        let mut input = BufWriter::new(input);
        for (_, store) in stores {
            input.write_all(&(store.len() as u64).to_le_bytes())?;
            input.write_all(store)?;
        }
        input.flush()
    });
    assert!(
        output.status.success(),
        "the C program fails, {}:\n{}",
        output.status,
        String::from_utf8_lossy(&output.stderr)
    );
    written.expect("the C program does not read all its input");
    let text = String::from_utf8(output.stdout).unwrap();
    text.lines().map(|line| line.parse().unwrap()).collect()
}

#[test]
fn the_c_call_answers_the_references_number() {
    let program = compiled("checks/c/packet_refusal.c", env!("CARGO_TARGET_TMPDIR"));
    let chance = &mut Chance(0x9e37_79b9_7f4a_7c15);
    let mut stores = sound(chance);
    let sound_ones = stores.len();
    stores.extend(damaged(chance));
    assert!(stores.len() >= 6000, "{} stores", stores.len());
    let long_ones = stores.len();
    long(chance, &mut stores);

    let numbers: Vec<u32> = stores.iter().map(|(_, store)| packet::refusal(store)).collect();
    assert!(numbers[..sound_ones].iter().all(|&number| number == 0));
    assert_eq!(numbers[long_ones..], [0, 0, 9, 9, 13, 0, 0]);
    let answers = answers(&program, &stores);
    assert_eq!(answers.len(), stores.len(), "one number for each store");
    let mut counts = Counts::default();
    for (k, (kind, store)) in stores.iter().enumerate() {
        assert_eq!(answers[k], numbers[k], "store {k}, {kind}: {}", described(store));
        counts.add(numbers[k]);
    }
    counts.assert_complete("packet", &[11, 1, 2, 3, 4, 5, 12, 13, 9]);
}
