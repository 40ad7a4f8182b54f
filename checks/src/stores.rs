//! The stores that the tests hand to the reader: sound packets, after older bytes too, and damaged ones.

use crate::chance::Chance;
use crate::packet::{self, Fields};
use crate::refusals::sets;

/// Stores, each with the name of its kind.
pub type Stores = Vec<(&'static str, Vec<u8>)>;

/// The reader's questions in their order, but the first, 11: a store of less than 12 bytes answers no other.
pub const QUESTIONS: [u32; 8] = [1, 2, 3, 4, 5, 12, 13, 9];

/// Sound packets, most of them after older bytes.
pub fn sound(chance: &mut Chance) -> Stores {
    let mut stores = Stores::new();
    for _ in 0..1000 {
        let packet = chance.small_packet();
        stores.push(("sound", chance.after_older_bytes(&packet)));
    }
    for layout in 0..8 {
        for rounds in 0..=64 {
            let fields = Fields { layout, rounds, ..chance.small_fields() };
            let samples = chance.samples(fields.width * fields.height);
            let packet = packet::bytes(&fields, &samples);
            stores.push(("sound, every layout and rounds", chance.after_older_bytes(&packet)));
        }
    }
    stores
}

/// A sound packet with one byte of the trailer, or of the samples, replaced.
fn one_byte_replaced(chance: &mut Chance, stores: &mut Stores) {
    for _ in 0..1500 {
        let packet = chance.small_packet();
        let older_too = chance.after_older_bytes(&packet);
        let first_sample = older_too.len() - packet.len();
        let trailer = older_too.len() - 12;
        let in_samples = first_sample + chance.place(trailer - first_sample);
        let in_trailer = trailer + chance.place(12);
        let places = [("a sample byte replaced", in_samples), ("a trailer byte replaced", in_trailer)];
        for (kind, place) in places {
            let mut store = older_too.clone();
            let any = chance.bytes(1)[0];
            store[place] = chance.one_of(&[0, 1, 16, 255, any, any]);
            stores.push((kind, store));
        }
    }
}

/// A sound packet's last bytes, and its first bytes, at every length.
fn truncated(chance: &mut Chance, stores: &mut Stores) {
    for _ in 0..8 {
        let packet = chance.small_packet();
        for length in 0..=packet.len() {
            stores.push(("truncated at the front", packet[packet.len() - length..].to_vec()));
            stores.push(("truncated at the end", packet[..length].to_vec()));
        }
    }
}

/// Each field at its limits and just beyond them, the distance as it should be: with the samples that the
/// fields speak of (20,000 at most, which is more than 2,048 by 9), and with 81 samples.
fn fields_at_their_limits(chance: &mut Chance, stores: &mut Stores) {
    let lengths = [0, 1, 2, 3, 255, 256, 257, 2047, 2048, 2049, 4096, 32768, 65535];
    for _ in 0..3 {
        let mut all = Vec::new();
        let fields = chance.small_fields();
        for length in lengths {
            all.push(Fields { width: length, ..fields });
            all.push(Fields { height: length, ..fields });
            all.push(Fields { width: length, height: 2, ..fields });
            all.push(Fields { width: 2, height: length, ..fields });
        }
        for layout in (0..=9).chain([11, 12, 15, 16, 127, 128, 132, 255]) {
            all.push(Fields { layout, ..fields });
        }
        for rounds in [0, 1, 63, 64, 65, 66, 127, 128, 255] {
            all.push(Fields { rounds, ..fields });
        }
        for threshold in [0, 1, 255, 256, 4094, 4095, 4096, 4097, 32767, 32768, 65535] {
            all.push(Fields { threshold, ..fields });
        }
        for fields in all {
            let samples = chance.samples((fields.width * fields.height).min(20_000));
            let packet = packet::bytes(&fields, &samples);
            stores.push(("a field at its limits", chance.after_older_bytes(&packet)));
            let packet = packet::bytes(&fields, &chance.samples(81));
            stores.push(("a field at its limits, 81 samples", packet));
        }
    }
    // two fields at once
    for width in lengths {
        for height in lengths {
            let fields = Fields { width, height, ..chance.small_fields() };
            stores.push(("width and height at their limits", packet::bytes(&fields, &chance.samples(81))));
        }
    }
}

/// A sound packet with another distance back, after older bytes and with the first bytes missing.
fn distances(chance: &mut Chance, stores: &mut Stores) {
    for _ in 0..40 {
        let packet = chance.small_packet();
        let missing = chance.between(1, packet.len() as u64 - 12) as usize;
        for store in [packet.clone(), chance.after_older_bytes(&packet), packet[missing..].to_vec()] {
            let exact = packet.len() as u32;
            let length = store.len() as u32;
            let small = [0, 1, 11, 12, 13];
            let near = [exact - 1, exact, exact + 1, length - 1, length, length + 1];
            let large = [exact + (1 << 16), exact + (1 << 24), exact + (1 << 31), u32::MAX];
            for distance in small.into_iter().chain(near).chain(large) {
                let mut store = store.clone();
                let place = store.len() - 4;
                store[place..].copy_from_slice(&distance.to_le_bytes());
                stores.push(("a distance", store));
            }
        }
    }
}

/// Sizes so large that 2·w·h + 12 does not fit four bytes; the distance is cut to them.
fn cut_distances(chance: &mut Chance, stores: &mut Stores) {
    for (width, height) in [(65535, 65535), (65535, 32769), (32768, 65535), (65535, 2048), (2048, 65535)] {
        for count in [0, 1, 4, 81] {
            let fields = Fields { width, height, ..chance.small_fields() };
            stores.push(("a distance cut to four bytes", packet::bytes(&fields, &chance.samples(count))));
        }
    }
}

/// 4,095, 4,096 and other values at the first, a middle and the last place.
fn samples_at_their_limit(chance: &mut Chance, stores: &mut Stores) {
    for _ in 0..25 {
        let fields = chance.small_fields();
        let count = fields.width * fields.height;
        for place in [0, count / 2, chance.place(count), count - 1] {
            for value in [4095, 4096, 4097, 4351, 8192, 32768, 65535] {
                let mut samples = chance.samples(count);
                samples[place] = value;
                let packet = packet::bytes(&fields, &samples);
                stores.push(("a sample at its limit", chance.after_older_bytes(&packet)));
            }
        }
    }
}

/// A packet of a frame with such fields, of which these questions are answered no.
pub fn wrong(chance: &mut Chance, fields: &Fields, questions: &[u32]) -> Vec<u8> {
    let mut samples = chance.samples(fields.width * fields.height);
    let mut fields = *fields;
    for question in questions {
        match question {
            1 => fields.width = chance.one_of(&[0, 1, 2049, 65535]),
            2 => fields.height = chance.one_of(&[0, 1, 2049, 65535]),
            3 => fields.layout = chance.one_of(&[8, 12, 255]),
            4 => fields.rounds = chance.one_of(&[65, 255]),
            5 => fields.threshold = chance.one_of(&[4096, 65535]),
            9 => *chance.one_in(&mut samples) = chance.one_of(&[4096, 65535]),
            // of the bytes
            _ => (),
        }
    }
    let mut store = packet::bytes(&fields, &samples);
    if questions.contains(&12) {
        let place = store.len() - 4 + chance.place(4);
        store[place] ^= chance.one_of(&[1, 128, 255]);
    }
    if questions.contains(&13) {
        let missing = chance.between(1, store.len() as u64 - 12) as usize;
        store.split_off(missing)
    } else {
        chance.after_older_bytes(&store)
    }
}

/// Every set of questions answered no at once, so that their order shows.
fn several_wrongs(chance: &mut Chance, stores: &mut Stores) {
    for questions in sets(&QUESTIONS) {
        for _ in 0..6 {
            let fields = chance.small_fields();
            stores.push(("several wrongs", wrong(chance, &fields, &questions)));
        }
    }
}

/// Stores of 0 to 12 bytes.
fn short(chance: &mut Chance, stores: &mut Stores) {
    for length in 0..=12 {
        stores.push(("a short store", vec![0; length]));
        stores.push(("a short store", vec![255; length]));
        stores.push(("a short store", chance.bytes(length)));
    }
    for _ in 0..20 {
        let packet = chance.small_packet();
        stores.push(("a trailer less one byte", packet[packet.len() - 11..].to_vec()));
        stores.push(("a trailer alone", packet[packet.len() - 12..].to_vec()));
    }
}

/// Two packets end to end: the second one counts, sound or not, whatever the first is.
fn two_packets(chance: &mut Chance, stores: &mut Stores) {
    for _ in 0..100 {
        let first = chance.small_packet();
        let second = chance.small_packet();
        let mut spoilt_first = first.clone();
        let place = chance.place(first.len());
        spoilt_first[place] = 255;
        let mut spoilt_second = second.clone();
        let place = chance.place(second.len());
        spoilt_second[place] = 255;
        let missing = chance.between(1, second.len() as u64) as usize;
        stores.push(("two packets", [first.clone(), second.clone()].concat()));
        stores.push(("two packets, the first spoilt", [spoilt_first, second.clone()].concat()));
        stores.push(("two packets, the second spoilt", [first.clone(), spoilt_second].concat()));
        stores.push(("two packets, the second truncated", [&first[..], &second[missing..]].concat()));
    }
}

/// Random bytes, and random bytes whose trailer has small numbers.
fn random(chance: &mut Chance, stores: &mut Stores) {
    for _ in 0..500 {
        let length = chance.between(0, 60) as usize;
        stores.push(("random bytes", chance.bytes(length)));
    }
    for _ in 0..500 {
        let length = chance.between(12, 60) as usize;
        let mut store = chance.bytes(length);
        for byte in &mut store[length - 12..] {
            *byte = chance.one_of(&[0, 0, 0, 1, 2, 3, 4, 12, 20, 64]);
        }
        stores.push(("random bytes, a trailer of small numbers", store));
    }
}

/// Stores of every other kind, most of them damaged.
pub fn damaged(chance: &mut Chance) -> Stores {
    let mut stores = Stores::new();
    one_byte_replaced(chance, &mut stores);
    truncated(chance, &mut stores);
    fields_at_their_limits(chance, &mut stores);
    distances(chance, &mut stores);
    cut_distances(chance, &mut stores);
    samples_at_their_limit(chance, &mut stores);
    several_wrongs(chance, &mut stores);
    short(chance, &mut stores);
    two_packets(chance, &mut stores);
    random(chance, &mut stores);
    stores
}

/// A store in words: its length and its last bytes.
pub fn described(store: &[u8]) -> String {
    let shown = store.len().min(200);
    format!("{} bytes, the last {shown} are {:?}", store.len(), &store[store.len() - shown..])
}
