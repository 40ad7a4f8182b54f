//! Document 01, "Packet".

/// What a packet's trailer, or a call of the rounds, says of its frame.
#[derive(Clone, Copy, Debug, PartialEq)]
pub struct Fields {
    pub width: usize,
    pub height: usize,
    pub layout: u32,
    pub rounds: u32,
    pub threshold: u32,
}

/// How many bytes the trailer has.
const TRAILER: usize = 12;

/// The packet that document 01 prints.
pub const PRINTED: [u8; 20] = [100, 0, 50, 0, 50, 0, 20, 0, 2, 0, 2, 0, 0, 8, 0, 0, 20, 0, 0, 0];

/// The number that the bytes hold, low byte first.
fn number(bytes: &[u8]) -> u64 {
    let mut value = 0;
    for &byte in bytes.iter().rev() {
        value = 256 * value + u64::from(byte);
    }
    value
}

/// The number in so many bytes, low byte first; what does not fit is cut off.
fn low_byte_first(value: u64, count: usize) -> Vec<u8> {
    let mut bytes = Vec::new();
    let mut rest = value;
    for _ in 0..count {
        bytes.push((rest % 256) as u8);
        rest /= 256;
    }
    bytes
}

/// The samples that the bytes hold.
pub fn samples_of(part: &[u8]) -> Vec<u16> {
    part.chunks(2).map(|pair| number(pair) as u16).collect()
}

/// From the packet's end to its first sample: 2·w·h + 12. Numbers of two bytes do not overflow it.
fn distance_back(width: u64, height: u64) -> u64 {
    2 * width * height + 12
}

/// A packet's bytes: the samples, low byte first, then the trailer. No question is asked; a number that is
/// too large for its bytes is cut.
pub fn bytes(fields: &Fields, samples: &[u16]) -> Vec<u8> {
    let width = low_byte_first(fields.width as u64, 2);
    let height = low_byte_first(fields.height as u64, 2);
    let distance = distance_back(number(&width), number(&height));
    let mut packet = Vec::new();
    for &sample in samples {
        packet.extend(low_byte_first(u64::from(sample), 2));
    }
    packet.extend(width);
    packet.extend(height);
    packet.extend(low_byte_first(fields.layout.into(), 1));
    packet.extend(low_byte_first(fields.rounds.into(), 1));
    packet.extend(low_byte_first(fields.threshold.into(), 2));
    packet.extend(low_byte_first(distance, 4));
    packet
}

/// Questions 1, 2, 3, 4 and 5.
pub fn fields_refusal(fields: &Fields) -> Option<u32> {
    if !(2..=2048).contains(&fields.width) {
        Some(1)
    } else if !(2..=2048).contains(&fields.height) {
        Some(2)
    } else if fields.layout > 7 {
        Some(3)
    } else if fields.rounds > 64 {
        Some(4)
    } else if fields.threshold > 4095 {
        Some(5)
    } else {
        None
    }
}

/// Question 9.
fn samples_refusal(samples: &[u16]) -> Option<u32> {
    if samples.iter().all(|&sample| sample <= 4095) {
        None
    } else {
        Some(9)
    }
}

/// Questions 11, 1, 2, 3, 4, 5, 12 and 13; then the fields and the part of the store that holds the samples.
fn trailer(store: &[u8]) -> Result<(Fields, &[u8]), u32> {
    if store.len() < TRAILER {
        return Err(11);
    }
    let end_of_samples = store.len() - TRAILER;
    let trailer = &store[end_of_samples..];
    let fields = Fields {
        width: number(&trailer[0..2]) as usize,
        height: number(&trailer[2..4]) as usize,
        layout: trailer[4].into(),
        rounds: trailer[5].into(),
        threshold: number(&trailer[6..8]) as u32,
    };
    let distance = number(&trailer[8..12]);
    if let Some(number) = fields_refusal(&fields) {
        return Err(number);
    }
    if distance != distance_back(fields.width as u64, fields.height as u64) {
        return Err(12);
    }
    if distance > store.len() as u64 {
        return Err(13);
    }
    let first_sample = store.len() - distance as usize;
    Ok((fields, &store[first_sample..end_of_samples]))
}

/// The reader: questions 11, 1, 2, 3, 4, 5, 12, 13 and 9; then the fields and the part of the store that
/// holds the samples.
pub fn read(store: &[u8]) -> Result<(Fields, &[u8]), u32> {
    let (fields, part) = trailer(store)?;
    match samples_refusal(&samples_of(part)) {
        Some(number) => Err(number),
        None => Ok((fields, part)),
    }
}

/// A packet's refusal number by the reader's questions, 0 for sound.
pub fn refusal(store: &[u8]) -> u32 {
    match read(store) {
        Ok(_) => 0,
        Err(number) => number,
    }
}

/// The reader with a mosaic to fill: questions 11, 1, 2, 3, 4, 5, 12, 13, then 7 of the mosaic, then 9.
pub fn read_mosaic(store: &[u8], mosaic: &mut [u16]) -> Result<Fields, u32> {
    let (fields, part) = trailer(store)?;
    if mosaic.len() != fields.width * fields.height {
        return Err(7);
    }
    let samples = samples_of(part);
    if let Some(number) = samples_refusal(&samples) {
        return Err(number);
    }
    mosaic.copy_from_slice(&samples);
    Ok(fields)
}

/// The writer: questions 1, 2, 3, 4, 5, 6, 9 and 14; then it fills the first bytes of the lent buffer, leaves
/// the rest and answers how many.
pub fn write(fields: &Fields, samples: &[u16], out: &mut [u8]) -> Result<usize, u32> {
    if let Some(number) = fields_refusal(fields) {
        return Err(number);
    }
    if samples.len() != fields.width * fields.height {
        return Err(6);
    }
    if let Some(number) = samples_refusal(samples) {
        return Err(number);
    }
    let packet = bytes(fields, samples);
    if out.len() < packet.len() {
        return Err(14);
    }
    out[..packet.len()].copy_from_slice(&packet);
    Ok(packet.len())
}

/// The repeat call: all questions of the first store, then of the second; then whether width, height, layout,
/// rounds, threshold and samples agree.
pub fn repeats(a: &[u8], b: &[u8]) -> Result<bool, u32> {
    let (of_a, samples_of_a) = read(a)?;
    let (of_b, samples_of_b) = read(b)?;
    Ok(of_a == of_b && samples_of_a == samples_of_b)
}

#[cfg(test)]
mod tests {
    use super::*;

    const PRINTED_FIELDS: Fields = Fields { width: 2, height: 2, layout: 0, rounds: 8, threshold: 0 };

    /// The bytes, with those from `place` on replaced.
    fn with(packet: &[u8], place: usize, new: &[u8]) -> Vec<u8> {
        let mut packet = packet.to_vec();
        packet[place..place + new.len()].copy_from_slice(new);
        packet
    }

    /// A packet of these fields whose samples are all 7.
    fn sevens(fields: Fields) -> Vec<u8> {
        bytes(&fields, &vec![7; fields.width * fields.height])
    }

    #[test]
    fn the_documents_packet() {
        assert_eq!(bytes(&PRINTED_FIELDS, &[100, 50, 50, 20]), PRINTED);
        assert_eq!(read(&PRINTED), Ok((PRINTED_FIELDS, &PRINTED[..8])));
        let mut mosaic = [9; 4];
        assert_eq!(read_mosaic(&PRINTED, &mut mosaic), Ok(PRINTED_FIELDS));
        assert_eq!(mosaic, [100, 50, 50, 20]);
    }

    #[test]
    fn older_bytes_may_precede() {
        for older in 0..5 {
            let mut store = vec![255; older];
            store.extend(PRINTED);
            assert_eq!(read(&store), Ok((PRINTED_FIELDS, &store[older..older + 8])));
            assert_eq!(repeats(&store, &PRINTED), Ok(true));
        }
    }

    #[test]
    fn widths_and_heights_at_their_limits() {
        for (length, of_width, of_height) in [(1, 1, 2), (2, 0, 0), (2048, 0, 0), (2049, 1, 2)] {
            let wide = sevens(Fields { width: length, ..PRINTED_FIELDS });
            let high = sevens(Fields { height: length, ..PRINTED_FIELDS });
            assert_eq!((refusal(&wide), refusal(&high)), (of_width, of_height), "{length}");
        }
        assert_eq!(refusal(&sevens(Fields { width: 2048, height: 2048, ..PRINTED_FIELDS })), 0);
    }

    #[test]
    fn layouts_rounds_and_thresholds_at_their_limits() {
        for (layout, number) in [(0, 0), (3, 0), (4, 0), (7, 0), (8, 3), (255, 3)] {
            assert_eq!(refusal(&sevens(Fields { layout, ..PRINTED_FIELDS })), number, "layout {layout}");
        }
        for (rounds, number) in [(0, 0), (64, 0), (65, 4), (255, 4)] {
            assert_eq!(refusal(&sevens(Fields { rounds, ..PRINTED_FIELDS })), number, "rounds {rounds}");
        }
        for (threshold, number) in [(0, 0), (4095, 0), (4096, 5), (65535, 5)] {
            let packet = sevens(Fields { threshold, ..PRINTED_FIELDS });
            assert_eq!(refusal(&packet), number, "threshold {threshold}");
        }
    }

    #[test]
    fn samples_at_their_limit() {
        for place in 0..4 {
            assert_eq!(refusal(&with(&PRINTED, 2 * place, &[255, 15])), 0, "4095 at {place}");
            assert_eq!(refusal(&with(&PRINTED, 2 * place, &[0, 16])), 9, "4096 at {place}");
        }
    }

    #[test]
    fn the_distance_back() {
        for distance in [0, 11, 12, 19, 21, 255, u32::MAX] {
            assert_eq!(refusal(&with(&PRINTED, 16, &distance.to_le_bytes())), 12, "distance {distance}");
        }
        assert_eq!(refusal(&PRINTED[1..]), 13);
        assert_eq!(refusal(&PRINTED[8..]), 13);
        assert_eq!(refusal(&PRINTED[9..]), 11);
        assert_eq!(refusal(&[]), 11);
        // the largest that two bytes hold: nothing overflows, and the distance is cut to four bytes
        let largest = bytes(&Fields { width: 65535, height: 65535, ..PRINTED_FIELDS }, &[]);
        assert_eq!(number(&largest[8..12]), (2 * 65535 * 65535 + 12) % 4294967296);
        assert_eq!(refusal(&largest), 1);
    }

    #[test]
    fn written_then_read() {
        for (width, height) in [(2, 2), (3, 2), (2, 5), (7, 4)] {
            for layout in 0..8 {
                let fields = Fields { width, height, layout, rounds: 64 - layout, threshold: 4095 };
                let samples: Vec<u16> = (0..width * height).map(|k| (k * 997 % 4096) as u16).collect();
                let mut out = vec![255; 2 * width * height + 15];
                let written = 2 * width * height + 12;
                assert_eq!(write(&fields, &samples, &mut out), Ok(written));
                assert_eq!(out[written..], [255; 3]);
                let mut mosaic = vec![9; width * height];
                assert_eq!(read_mosaic(&out[..written], &mut mosaic), Ok(fields));
                assert_eq!(mosaic, samples);
                let mut exact = vec![255; written];
                assert_eq!(write(&fields, &samples, &mut exact), Ok(written));
                assert_eq!(exact, out[..written]);
                let mut short = vec![255; written - 1];
                assert_eq!(write(&fields, &samples, &mut short), Err(14));
                assert_eq!(short, vec![255; written - 1]);
            }
        }
    }

    #[test]
    fn a_refused_call_leaves_its_buffer() {
        let mut mosaic = [9; 3];
        assert_eq!(read_mosaic(&PRINTED, &mut mosaic), Err(7));
        assert_eq!(read_mosaic(&with(&PRINTED, 1, &[16]), &mut mosaic), Err(7));
        assert_eq!(mosaic, [9; 3]);
        let mut mosaic = [9; 4];
        assert_eq!(read_mosaic(&with(&PRINTED, 1, &[16]), &mut mosaic), Err(9));
        assert_eq!(mosaic, [9; 4]);
        let mut out = [255; 19];
        assert_eq!(write(&PRINTED_FIELDS, &[1, 2, 3], &mut out), Err(6));
        assert_eq!(write(&PRINTED_FIELDS, &[1, 2, 3, 4096], &mut out), Err(9));
        assert_eq!(write(&PRINTED_FIELDS, &[1, 2, 3, 4095], &mut out), Err(14));
        let largest = Fields { width: usize::MAX, height: usize::MAX, ..PRINTED_FIELDS };
        assert_eq!(write(&largest, &[], &mut out), Err(1));
        assert_eq!(out, [255; 19]);
    }

    #[test]
    fn a_repeat_agrees_in_every_field_and_sample() {
        let no_repeat = |place: usize, new: &[u8]| {
            let other = with(&PRINTED, place, new);
            assert_eq!(repeats(&PRINTED, &other), Ok(false), "{new:?} at {place}");
            assert_eq!(repeats(&other, &PRINTED), Ok(false), "{new:?} at {place}, the other way round");
        };
        assert_eq!(repeats(&PRINTED, &PRINTED), Ok(true));
        for layout in 1..8 {
            no_repeat(12, &[layout]);
        }
        for rounds in [0, 7, 9, 64] {
            no_repeat(13, &[rounds]);
        }
        for threshold in [1_u16, 255, 256, 4095] {
            no_repeat(14, &threshold.to_le_bytes());
        }
        for place in 0..4 {
            no_repeat(2 * place, &[21]);
            no_repeat(2 * place + 1, &[15]);
        }
        // the same samples in another shape
        let wide = bytes(&Fields { width: 3, height: 2, ..PRINTED_FIELDS }, &[1, 2, 3, 4, 5, 6]);
        let high = bytes(&Fields { width: 2, height: 3, ..PRINTED_FIELDS }, &[1, 2, 3, 4, 5, 6]);
        assert_eq!(repeats(&wide, &high), Ok(false));
    }

    #[test]
    fn the_first_stores_refusal_comes_first() {
        assert_eq!(repeats(&with(&PRINTED, 12, &[8]), &[]), Err(3));
        assert_eq!(repeats(&[], &with(&PRINTED, 12, &[8])), Err(11));
        assert_eq!(repeats(&PRINTED, &with(&PRINTED, 12, &[8])), Err(3));
    }
}
