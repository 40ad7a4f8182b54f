//! The C calls `demosaic_packet_fields`, `demosaic_packet_samples`, `demosaic_packet_write` and `demosaic_packet_repeats`
//! answer what the reference answers, leave in every buffer, and beside it, what the reference leaves, and leave the numbers
//! behind pointers where they refuse.

use checks::buffers::{assert_same, Buffer};
use checks::chance::Chance;
use checks::packet::{self, Fields, PRINTED};
use checks::refusals::{
    answer_no, answered, field_mut, refusals, sets, wrong_lengths, Counts, FrameCall, LARGEST, NO_SAMPLE,
    SHAPES, TRIES, TRIES_IN_THE_LARGEST,
};
use checks::stores::{damaged, described, sound, wrong, Stores, QUESTIONS};

#[path = "../src/library.rs"]
mod library;

/// The reader's questions in their order.
const READER: [u32; 9] = [11, 1, 2, 3, 4, 5, 12, 13, 9];

/// Asks the library and the reference for a packet's fields, compares the answers, the five numbers and the places beside
/// them, and hands back the library's answer.
fn compared_fields(store: &[u8], kind: &str) -> Result<Fields, u32> {
    let what = format!("fields, {kind}: {}", described(store));
    let given = Buffer::given(store);
    let [mut width, mut height] = [(); 2].map(|_| Buffer::lent(1));
    let [mut layout, mut rounds, mut threshold] = [(); 3].map(|_| Buffer::lent(1));
    let answer = library::packet_fields(
        given.inside(),
        width.number_mut(),
        height.number_mut(),
        layout.number_mut(),
        rounds.number_mut(),
        threshold.number_mut(),
    );
    let due = packet::read(store).map(|(fields, _)| fields);
    assert_eq!(answer, due.map(|_| ()), "{what}");
    given.assert_holds(store, &what);
    match due {
        Ok(due) => {
            width.assert_holds(&[due.width], &format!("width, {what}"));
            height.assert_holds(&[due.height], &format!("height, {what}"));
            layout.assert_holds(&[due.layout], &format!("layout, {what}"));
            rounds.assert_holds(&[due.rounds], &format!("rounds, {what}"));
            threshold.assert_holds(&[due.threshold], &format!("threshold, {what}"));
        }
        Err(_) => {
            width.assert_untouched(&format!("width, refused, {what}"));
            height.assert_untouched(&format!("height, refused, {what}"));
            layout.assert_untouched(&format!("layout, refused, {what}"));
            rounds.assert_untouched(&format!("rounds, refused, {what}"));
            threshold.assert_untouched(&format!("threshold, refused, {what}"));
        }
    }
    answer.map(|()| Fields {
        width: *width.number_mut(),
        height: *height.number_mut(),
        layout: *layout.number_mut(),
        rounds: *rounds.number_mut(),
        threshold: *threshold.number_mut(),
    })
}

/// Asks the library and the reference to fill a buffer of this length with a packet's samples, compares the answers and the
/// buffers, and hands back the library's answer.
fn compared_samples(store: &[u8], length: usize, kind: &str) -> Result<Vec<u16>, u32> {
    let what = format!("{length} samples, {kind}: {}", described(store));
    let given = Buffer::given(store);
    let [mut samples, mut due] = [(); 2].map(|_| Buffer::lent(length));
    let answer = library::packet_samples(given.inside(), samples.inside_mut());
    let due_answer = packet::read_mosaic(store, due.inside_mut());
    assert_eq!(answer, due_answer.map(|_| ()), "{what}");
    given.assert_holds(store, &what);
    samples.assert_holds(due.inside(), &what);
    if answer.is_err() {
        samples.assert_untouched(&format!("refused, {what}"));
    }
    answer.map(|()| samples.inside().to_vec())
}

/// How many samples the trailer speaks of, sound or not; 20,000 at most, more than any of these stores holds.
fn told(store: &[u8]) -> usize {
    let number = |back: usize| match store.len().checked_sub(back) {
        Some(place) => usize::from(u16::from_le_bytes([store[place], store[place + 1]])),
        None => 2,
    };
    (number(12) * number(10)).min(20_000)
}

/// What the writer is asked with: the fields, the samples and the length of the lent buffer.
#[derive(Clone)]
struct Writing {
    fields: Fields,
    samples: Vec<u16>,
    out: usize,
}

impl Writing {
    /// With a buffer as long as it has to be.
    fn of(fields: &Fields, samples: &[u16]) -> Writing {
        Writing { fields: *fields, samples: samples.to_vec(), out: 2 * samples.len() + 12 }
    }

    /// Asks the library and the reference alike, compares the answers, the buffers and the number of bytes written, and
    /// hands back the packet.
    fn compared(&self, kind: &str) -> Result<Vec<u8>, u32> {
        let what = format!("writing of {:?} into {} bytes, {kind}", self.fields, self.out);
        let given = Buffer::given(&self.samples);
        let [mut out, mut due] = [(); 2].map(|_| Buffer::lent(self.out));
        let mut written = Buffer::lent(1);
        let answer =
            library::packet_write(&self.fields, given.inside(), out.inside_mut(), written.number_mut());
        let due_answer = packet::write(&self.fields, &self.samples, due.inside_mut());
        assert_eq!(answer, due_answer.map(|_| ()), "{what}");
        given.assert_holds(&self.samples, &format!("{what}: samples"));
        out.assert_holds(due.inside(), &what);
        match due_answer {
            Ok(due) => written.assert_holds(&[due], &format!("{what}: bytes written")),
            Err(_) => {
                out.assert_untouched(&format!("{what}, refused"));
                written.assert_untouched(&format!("{what}: bytes written, refused"));
            }
        }
        answer.map(|()| out.inside()[..*written.number_mut()].to_vec())
    }
}

impl FrameCall for Writing {
    const NAME: &'static str = "writer";
    const QUESTIONS: &'static [u32] = &[1, 2, 3, 4, 5, 6, 9, 14];

    /// Most of the buffers are longer than they have to be.
    fn sound(chance: &mut Chance, width: usize, height: usize) -> Writing {
        let fields = Fields { width, height, ..chance.small_fields() };
        let ask = Writing::of(&fields, &chance.samples(width * height));
        Writing { out: ask.out + chance.one_of(&[0, 1, 2, 7, 12, 100]), ..ask }
    }

    fn wrong(chance: &mut Chance, questions: &[u32]) -> Writing {
        let (width, height) = (chance.between(2, 9) as usize, chance.between(2, 9) as usize);
        let count = width * height;
        let mut ask = Writing::sound(chance, width, height);
        for question in questions {
            match question {
                1..=5 => answer_no(chance, &mut ask, *question),
                6 => {
                    let length = chance.one_of(&[count - 1, count + 1, 100]);
                    ask.samples = chance.samples(length);
                }
                9 => *chance.one_in(&mut ask.samples) = chance.one_of(&NO_SAMPLE),
                _ => ask.out = chance.one_of(&[0, 1, 12, count, 2 * count, 2 * count + 11]),
            }
        }
        ask
    }

    fn size_mut(&mut self) -> [&mut usize; 2] {
        [&mut self.fields.width, &mut self.fields.height]
    }

    fn asked_mut(&mut self, question: u32) -> &mut u32 {
        field_mut(&mut self.fields, question)
    }

    fn number(&self, kind: &str) -> u32 {
        self.compared(kind).err().unwrap_or(0)
    }
}

/// A sound store's packet alone. Its length is the distance back, 2·w·h + 12.
fn own_bytes(store: &[u8]) -> &[u8] {
    let distance = u32::from_le_bytes(store[store.len() - 4..].try_into().unwrap());
    &store[store.len() - distance as usize..]
}

/// Asks the library and the reference whether the packet of `a` repeats that of `b`, compares the answers, the number behind
/// the pointer and the places beside, and hands back the library's answer. It is a repeat where the packets' own bytes are
/// the same, and nowhere else.
fn compared_repeats(a: &[u8], b: &[u8], kind: &str) -> Result<bool, u32> {
    let what = || format!("repeats, {kind}: {}; {}", described(a), described(b));
    let [first, second] = [a, b].map(Buffer::given);
    let mut same = Buffer::lent(1);
    let answer = library::packet_repeats(first.inside(), second.inside(), same.number_mut());
    let answer = answer.map(|()| *same.number_mut());
    assert_eq!(answer, packet::repeats(a, b).map(u8::from), "{}", what());
    first.assert_holds(a, "the first store");
    second.assert_holds(b, "the second store");
    match answer {
        Ok(answer) => {
            same.assert_holds(&[answer], kind);
            assert_eq!(answer == 1, own_bytes(a) == own_bytes(b), "{}", what());
        }
        Err(_) => same.assert_untouched(kind),
    }
    answer.map(|answer| answer == 1)
}

/// As `compared_repeats`, both ways round: where neither is refused, the answers agree.
fn compared_both_ways(a: &[u8], b: &[u8], kind: &str) -> Result<bool, u32> {
    let answer = compared_repeats(a, b, kind);
    let other = compared_repeats(b, a, kind);
    if answer.is_ok() {
        assert_eq!(other, answer, "the other way round, {kind}");
    }
    answer
}

/// As `compared_both_ways`, of two packets alone and after older bytes: others before each, as many and not as many.
fn assert_repeats(chance: &mut Chance, a: &[u8], b: &[u8], due: bool, kind: &str) {
    let [few, more] = [(1, 10), (11, 20)].map(|(least, most)| chance.between(least, most) as usize);
    for (before_a, before_b) in [(0, 0), (few, 0), (0, few), (few, few), (few, more)] {
        let [first, second] =
            [(a, before_a), (b, before_b)].map(|(packet, count)| [&chance.bytes(count), packet].concat());
        assert_eq!(compared_both_ways(&first, &second, kind), Ok(due), "{kind}");
    }
}

fn all_stores(chance: &mut Chance) -> Stores {
    let mut stores = sound(chance);
    stores.extend(damaged(chance));
    stores
}

/// The fields, and the samples into buffers of the told length and of others.
#[test]
fn stores_of_every_kind() {
    let chance = &mut Chance(0x9e37_79b9_7f4a_7c15);
    let [mut fields, mut samples] = [(); 2].map(|_| Counts::default());
    for (kind, store) in &all_stores(chance) {
        fields.add(compared_fields(store, kind).err().unwrap_or(0));
        let told = told(store);
        for length in [told, told + 1, told.saturating_sub(1), chance.one_of(&[0, 1, 4, 2 * told])] {
            samples.add(compared_samples(store, length, kind).err().unwrap_or(0));
        }
    }
    fields.assert_complete("fields", &READER);
    samples.assert_complete("samples", &[11, 1, 2, 3, 4, 5, 12, 13, 7, 9]);
}

/// Every set of questions answered no at once, 7 among them.
#[test]
fn samples_refused_in_order() {
    let chance = &mut Chance(0x2545_f491_4f6c_dd1d);
    let mut counts = Counts::default();
    for questions in sets(&[1, 2, 3, 4, 5, 12, 13, 7, 9]) {
        let number = questions.first().copied().unwrap_or(0);
        let of_the_store: Vec<u32> = questions.iter().copied().filter(|&question| question != 7).collect();
        for _ in 0..20 {
            let fields = chance.small_fields();
            let store = wrong(chance, &fields, &of_the_store);
            let count = fields.width * fields.height;
            let length = if questions.contains(&7) {
                chance.one_of(&wrong_lengths(fields.width, fields.height))
            } else {
                count
            };
            let kind = format!("{questions:?} answered no");
            let found = compared_samples(&store, length, &kind).err().unwrap_or(0);
            assert_eq!(found, number, "{kind}");
            counts.add(found);
        }
    }
    counts.assert_complete("samples", &[1, 2, 3, 4, 5, 12, 13, 7, 9]);
}

/// The largest frames, sound and with a sample out of range; long lines.
#[test]
fn long_packets() {
    let chance = &mut Chance(0x0123_4567_89ab_cdef);
    for (width, height) in [(2048, 2), (2, 2048), (2047, 3), (3, 2047), (300, 200)] {
        let fields = Fields { width, height, ..chance.small_fields() };
        let samples = chance.samples(width * height);
        let packet = Writing::of(&fields, &samples).compared("long").unwrap();
        let store = chance.after_older_bytes(&packet);
        assert_eq!(compared_fields(&store, "long"), Ok(fields));
        assert_same(&compared_samples(&store, samples.len(), "long").unwrap(), &samples, "long");
        assert_repeats(chance, &packet, &packet, true, "long");
        for other in other_settings(&fields) {
            assert_repeats(chance, &packet, &packet::bytes(&other, &samples), false, "long, another setting");
        }
    }

    let fields = Fields { width: 2048, height: 2048, ..chance.small_fields() };
    let mut samples = chance.samples(LARGEST);
    let packet = Writing::of(&fields, &samples).compared("the largest").unwrap();
    assert_eq!(compared_fields(&packet, "the largest"), Ok(fields));
    assert_same(&compared_samples(&packet, LARGEST, "the largest").unwrap(), &samples, "the largest");
    assert_eq!(compared_samples(&packet, LARGEST - 1, "the largest, a short buffer"), Err(7));
    assert_eq!(compared_samples(&PRINTED, LARGEST + 1, "a buffer longer than any frame"), Err(7));
    assert_eq!(compared_samples(&PRINTED[9..], LARGEST + 1, "a buffer longer than any frame"), Err(11));
    assert_eq!(compared_fields(&packet[1..], "the largest, a byte missing"), Err(13));
    let older_too = [&[255; 5], &packet[..]].concat();
    assert_eq!(compared_repeats(&packet, &older_too, "the largest"), Ok(true));
    for other in [
        Fields { layout: fields.layout ^ 4, ..fields },
        Fields { rounds: (fields.rounds + 1) % 65, ..fields },
        Fields { threshold: fields.threshold ^ 1, ..fields },
    ] {
        let other = packet::bytes(&other, &samples);
        assert_eq!(compared_repeats(&older_too, &other, "the largest, another setting"), Ok(false));
    }
    let short = Writing { out: packet.len() - 1, ..Writing::of(&fields, &samples) };
    assert_eq!(short.number("the largest, a byte less"), 14);
    for (place, value) in TRIES_IN_THE_LARGEST {
        let kept = samples[place];
        samples[place] ^= 1;
        let other = packet::bytes(&fields, &samples);
        assert_eq!(compared_repeats(&older_too, &other, "the largest, another sample"), Ok(false));
        samples[place] = value;
        let above = packet::bytes(&fields, &samples);
        assert_eq!(compared_fields(&above, "the largest, a sample above"), Err(9));
        assert_eq!(compared_samples(&above, LARGEST, "the largest, a sample above"), Err(9));
        assert_eq!(compared_repeats(&packet, &above, "the largest, a sample above"), Err(9));
        assert_eq!(Writing::of(&fields, &samples).number("the largest, a sample above"), 9);
        samples[place] = kept;
    }
}

/// What is written reads back as the same frame, and after older bytes too.
#[test]
fn written_then_read() {
    let chance = &mut Chance(0xfedc_ba98_7654_3210);
    let limits = [(0, 0), (64, 4095), (1, 255), (63, 256), (32, 4094)];
    let sizes = (2..=9).flat_map(|width| (2..=9).map(move |height| (width, height)));
    for (width, height) in sizes.chain([(255, 2), (256, 3), (2, 257), (40, 50)]) {
        for (layout, (rounds, threshold)) in (0..8).flat_map(|layout| limits.map(|limit| (layout, limit))) {
            let fields = Fields { width, height, layout, rounds, threshold };
            let samples = chance.samples(width * height);
            let more = chance.one_of(&[0, 1, 13, 100]);
            let ask = Writing::of(&fields, &samples);
            let packet = Writing { out: ask.out + more, ..ask }.compared("written").unwrap();
            let store = chance.after_older_bytes(&packet);
            assert_eq!(compared_fields(&store, "read"), Ok(fields));
            assert_eq!(compared_samples(&store, samples.len(), "read"), Ok(samples));
        }
    }
}

/// What is read and written again is the same bytes.
#[test]
fn read_then_written() {
    let chance = &mut Chance(0x5851_f42d_4c95_7f2d);
    let mut count = 0;
    for (kind, store) in &all_stores(chance) {
        let Ok(fields) = compared_fields(store, kind) else { continue };
        let samples = compared_samples(store, fields.width * fields.height, kind).unwrap();
        let packet = Writing::of(&fields, &samples).compared(kind).unwrap();
        assert_same(&packet, &store[store.len() - packet.len()..], kind);
        count += 1;
    }
    assert!(count >= 2000, "{count} sound stores");
}

#[test]
fn the_printed_packet() {
    let fields = Fields { width: 2, height: 2, layout: 0, rounds: 8, threshold: 0 };
    assert_eq!(compared_fields(&PRINTED, "printed"), Ok(fields));
    assert_eq!(compared_samples(&PRINTED, 4, "printed"), Ok(vec![100, 50, 50, 20]));
    assert_eq!(Writing::of(&fields, &[100, 50, 50, 20]).compared("printed"), Ok(PRINTED.to_vec()));
    assert_eq!(compared_repeats(&PRINTED, &PRINTED, "printed"), Ok(true));
}

/// Questions 6 and 14, each answered no alone; and buffers that suffice.
fn lengths_refused(chance: &mut Chance, counts: &mut Counts) {
    for (width, height) in SHAPES {
        let sound = Writing::sound(chance, width, height);
        for length in wrong_lengths(width, height) {
            let ask = Writing { samples: chance.samples(length), ..sound.clone() };
            answered(&ask, 6, "the samples' length", counts);
        }
        let need = 2 * width * height + 12;
        for out in (0..need).step_by(5).chain([need - 12, need - 2, need - 1]) {
            answered(&Writing { out, ..sound.clone() }, 14, "a short buffer", counts);
        }
        for out in (need..need + 30).chain([2 * need, need + 1000]) {
            answered(&Writing { out, ..sound.clone() }, 0, "a buffer that suffices", counts);
        }
    }
}

/// Question 9 alone, at every place: 4,095 is in range, more is not.
fn samples_refused(chance: &mut Chance, counts: &mut Counts) {
    for (width, height) in SHAPES {
        let sound = Writing::sound(chance, width, height);
        for (place, (value, in_range)) in (0..width * height).flat_map(|k| TRIES.map(|tried| (k, tried))) {
            let mut ask = sound.clone();
            ask.samples[place] = value;
            answered(&ask, if in_range { 0 } else { 9 }, &format!("{value} at place {place}"), counts);
        }
    }
}

#[test]
fn refused_writings() {
    refusals::<Writing>(|chance, counts| {
        lengths_refused(chance, counts);
        samples_refused(chance, counts);
    });
}

/// Numbers up to `most` other than this one: by one, in one bit, in the low byte, in the high byte, and the ends.
fn others(number: u32, most: u32) -> impl Iterator<Item = u32> {
    let one_bit = (0..12).map(move |bit| number ^ 1 << bit);
    let further = [number + 1, number.wrapping_sub(1), number ^ 0xff, number ^ 0xf00, 0, most];
    one_bit.chain(further).filter(move |&other| other != number && other <= most)
}

/// These fields with another layout or level, with other rounds, or with another threshold.
fn other_settings(fields: &Fields) -> Vec<Fields> {
    let layouts = (0..8).filter(|&layout| layout != fields.layout);
    let of_layouts = layouts.map(|layout| Fields { layout, ..*fields });
    let of_rounds = others(fields.rounds, 64).map(|rounds| Fields { rounds, ..*fields });
    let of_thresholds = others(fields.threshold, 4095).map(|threshold| Fields { threshold, ..*fields });
    of_layouts.chain(of_rounds).chain(of_thresholds).collect()
}

/// Packets that differ in one thing only, and in nothing.
#[test]
fn repeats_but_for_one_thing() {
    let chance = &mut Chance(0xda94_2042_e4dd_58b5);
    for _ in 0..200 {
        let fields = chance.small_fields();
        let Fields { width, height, .. } = fields;
        let mut samples = chance.samples(width * height);
        let packet = packet::bytes(&fields, &samples);
        let mut against = |other: &Fields, samples: &[u16], due: bool, kind: &str| {
            let kind = format!("{kind}, {fields:?}, {other:?}");
            assert_repeats(chance, &packet, &packet::bytes(other, samples), due, &kind);
        };
        against(&fields, &samples, true, "nothing");
        for other in other_settings(&fields) {
            against(&other, &samples, false, "a setting");
        }
        let exchanged = Fields { width: height, height: width, ..fields };
        against(&exchanged, &samples, width == height, "width and height exchanged");
        // a row more, a column more: the first samples are the same, or the last ones
        let count = samples.len();
        let twice = samples.repeat(2);
        for (width, height) in [(width, height + 1), (width + 1, height)] {
            let longer = Fields { width, height, ..fields };
            against(&longer, &twice[..width * height], false, "a line more at the end");
            against(&longer, &twice[2 * count - width * height..], false, "a line more at the front");
        }
        for place in [0, count / 2, count - 1] {
            for bit in 0..12 {
                samples[place] ^= 1 << bit;
                against(&fields, &samples, false, "a sample");
                samples[place] ^= 1 << bit;
            }
        }
        // the same samples in another order
        for place in 1..count {
            samples.swap(place - 1, place);
            against(&fields, &samples, samples[place - 1] == samples[place], "two samples exchanged");
            samples.swap(place - 1, place);
        }
    }
}

/// Every byte of a store replaced: an older one does not count, each of the packet's own does.
#[test]
fn repeats_but_for_one_byte() {
    let chance = &mut Chance(0x5851_f42d_4c95_7f2d);
    let mut no_repeats = 0;
    for (kind, store) in sound(chance).iter().step_by(5) {
        let older = store.len() - own_bytes(store).len();
        for place in 0..store.len() {
            let mut other = store.clone();
            other[place] ^= 1 << chance.place(8);
            let answer = compared_both_ways(store, &other, kind);
            assert_eq!(answer == Ok(true), place < older, "{kind}, byte {place}");
            no_repeats += usize::from(answer == Ok(false));
        }
    }
    assert!(no_repeats >= 10_000, "{no_repeats} sound pairs that are no repeats");
}

/// Settings against each other over the same samples.
#[test]
fn repeats_of_every_setting() {
    let chance = &mut Chance(0x2545_f491_4f6c_dd1d);
    let samples = chance.samples(4);
    let compare = |a: [u32; 3], b: [u32; 3]| {
        let [first, second] = [a, b].map(|[layout, rounds, threshold]| {
            packet::bytes(&Fields { width: 2, height: 2, layout, rounds, threshold }, &samples)
        });
        assert_eq!(compared_repeats(&first, &second, "settings"), Ok(a == b), "{a:?}, {b:?}");
    };
    // every layout, and 0 to 2 in the other three bytes: also the same bytes in other places, and the same sums
    let small = (0..216).map(|set| [set % 8, set / 8 % 3, set / 24 % 3 + 256 * (set / 72)]);
    let rounds = (0..=64).map(|rounds| [5, rounds, 20]);
    for settings in [small.collect::<Vec<_>>(), rounds.collect()] {
        for &a in &settings {
            settings.iter().for_each(|&b| compare(a, b));
        }
    }
    for threshold in 0..=4095 {
        others(threshold, 4095).for_each(|other| compare([2, 8, threshold], [2, 8, other]));
    }
}

/// The same 24 samples in every shape and every layout.
#[test]
fn repeats_in_every_shape() {
    let chance = &mut Chance(0x9fb2_1c65_1e98_df25);
    let samples = chance.samples(24);
    let shaped = |width, layout| {
        let fields = Fields { width, height: 24 / width, layout, rounds: 8, threshold: 0 };
        packet::bytes(&fields, &samples)
    };
    let shapes =
        || [2, 3, 4, 6, 8, 12].into_iter().flat_map(|width| (0..8).map(move |layout| (width, layout)));
    for (width, layout) in shapes() {
        for (other_width, other_layout) in shapes() {
            let due = (width, layout) == (other_width, other_layout);
            let found =
                compared_repeats(&shaped(width, layout), &shaped(other_width, other_layout), "a shape");
            assert_eq!(found, Ok(due), "{width}, {layout}, {other_width}, {other_layout}");
        }
    }
}

/// As `compared_both_ways`, of two parts of one buffer, where they stand in it.
fn compared_in_place(a: &[u8], b: &[u8], kind: &str) -> Result<bool, u32> {
    for (a, b) in [(b, a), (a, b)] {
        let mut same = 7;
        let answer = library::packet_repeats(a, b, &mut same);
        let due = packet::repeats(a, b);
        assert_eq!((answer, same), (due.map(|_| ()), due.map_or(7, u8::from)), "{kind}: {}", described(a));
    }
    packet::repeats(a, b)
}

/// One store twice, and two that start or end alike: the second starts later, or ends earlier.
#[test]
fn repeats_within_one_store() {
    let chance = &mut Chance(0xc2b2_ae3d_27d4_eb4f);
    for (kind, store) in all_stores(chance).iter().step_by(3) {
        let due = match packet::refusal(store) {
            0 => Ok(true),
            number => Err(number),
        };
        assert_eq!(compared_in_place(store, store, kind), due, "{kind}");
        if due.is_ok() {
            let older_too = [&[9, 9, 9], &store[..]].concat();
            assert_eq!(compared_in_place(&older_too, &older_too[3..], kind), due, "{kind}");
        }
    }
    for _ in 0..200 {
        let fields = chance.small_fields();
        let samples = chance.samples(fields.width * fields.height);
        let packet = packet::bytes(&fields, &samples);
        let others = other_settings(&fields).into_iter().map(|other| packet::bytes(&other, &samples));
        for second in others.chain([packet.clone(), chance.small_packet()]) {
            let both = [&packet[..], &second].concat();
            let found = compared_in_place(&both, &both[..packet.len()], "two packets");
            assert_eq!(found, Ok(second == packet));
        }
    }
}

/// Two packets that overlap. The bytes come again after each trailer, so that the first one's trailer stands among the second
/// one's samples; the second one's is its own.
#[test]
fn repeats_that_overlap() {
    let chance = &mut Chance(0x0123_4567_89ab_cdef);
    for _ in 0..500 {
        // as the high byte of a sample, the rounds are at most 15
        let fields = Fields { rounds: chance.between(0, 15) as u32, ..chance.small_fields() };
        let packet = packet::bytes(&fields, &chance.samples(fields.width * fields.height));
        let period = 2 * chance.between(6, packet.len() as u64 / 2 - 1) as usize;
        let mut bytes = packet[packet.len() - period..].repeat(packet.len() / period + 2);
        let end = bytes.len();
        assert_eq!(compared_in_place(&bytes[..end - period], &bytes, "overlapping"), Ok(true));
        for setting in end - 8..end - 4 {
            bytes[setting] ^= 1;
            assert_eq!(compared_in_place(&bytes[..end - period], &bytes, "overlapping"), Ok(false));
            bytes[setting] ^= 1;
        }
    }
}

/// All questions of the first store come before those of the second.
#[test]
fn the_first_store_is_refused_first() {
    let chance = &mut Chance(0x1656_67b1_9e37_79f9);
    let mut counts = Counts::default();
    let store_with = |chance: &mut Chance, number: u32| {
        let fields = chance.small_fields();
        match number {
            11 => {
                let length = chance.place(12);
                chance.bytes(length)
            }
            0 => wrong(chance, &fields, &[]),
            _ => wrong(chance, &fields, &[number]),
        }
    };
    let numbers = || [0].into_iter().chain(READER);
    for (of_first, of_second) in numbers().flat_map(|first| numbers().map(move |second| (first, second))) {
        for _ in 0..10 {
            let (a, b) = (store_with(chance, of_first), store_with(chance, of_second));
            let due = if of_first == 0 { of_second } else { of_first };
            let kind = format!("{of_first}, then {of_second}");
            let found = compared_repeats(&a, &b, &kind).err().unwrap_or(0);
            assert_eq!(found, due, "{kind}");
            counts.add(found);
        }
    }
    // every set of questions, of both
    for questions in sets(&QUESTIONS) {
        let [a, b] = [(); 2].map(|_| {
            let fields = chance.small_fields();
            let kept = chance.between(0, 3) > 0;
            wrong(chance, &fields, if kept { &questions } else { &[] })
        });
        counts.add(compared_repeats(&a, &b, "several wrongs").err().unwrap_or(0));
    }
    counts.assert_complete("repeats", &READER);
}

/// Stores of every kind against each other, and each against its sound packet.
#[test]
fn repeats_among_stores_of_every_kind() {
    let chance = &mut Chance(0x27d4_eb2f_1656_67c5);
    let all = all_stores(chance);
    let chosen: Vec<_> = all.iter().step_by(all.len() / 100).collect();
    for (kind, a) in &chosen {
        for (_, b) in &chosen {
            let _ = compared_repeats(a, b, kind);
        }
    }
    for (kind, store) in &all {
        let _ = compared_both_ways(store, &PRINTED, kind);
    }
}
