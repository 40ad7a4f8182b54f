//! Document 01, the program.

use crate::finishing::finished_of;
use crate::packet::{self, Fields};
use crate::text::{line, refused};

/// Question 17: how many bytes the input has at most, and how many samples its frame.
pub const MOST_BYTES: usize = 4096;
pub const MOST_SAMPLES: usize = 1024;

/// Question 17 of the bytes, the reader's questions, then 17 of the samples; then the fields and the mosaic.
fn frame(input: &[u8]) -> Result<(Fields, Vec<u16>), u32> {
    if input.len() > MOST_BYTES {
        return Err(17);
    }
    let (fields, part) = packet::read(input)?;
    if fields.width * fields.height > MOST_SAMPLES {
        return Err(17);
    }
    Ok((fields, packet::samples_of(part)))
}

/// The program's refusal number for this input, 0 where it prints a frame.
pub fn refusal(input: &[u8]) -> u32 {
    frame(input).err().unwrap_or(0)
}

/// What the program prints for this input: width and height, then the rows of red, green and blue; or the refusal.
pub fn text(input: &[u8]) -> String {
    let mut out = String::new();
    match frame(input) {
        Ok((fields, mosaic)) => {
            line(&mut out, &[fields.width, fields.height]);
            for plane in finished_of(&fields, &mosaic) {
                plane.chunks(fields.width).for_each(|row| line(&mut out, row));
            }
        }
        Err(number) => refused(&mut out, number),
    }
    out
}

#[cfg(test)]
mod tests {
    use super::*;
    use crate::packet::PRINTED;

    #[test]
    fn the_printed_text() {
        let due = "2 2\n100 100\n100 100\n50 50\n50 50\n20 20\n20 20\n";
        assert_eq!(text(&PRINTED), due);
        assert_eq!(text(&[&[255; 4076], &PRINTED[..]].concat()), due);
    }

    /// The rows are as long as the width, and there are as many as the height says.
    #[test]
    fn rows_of_three() {
        let fields = Fields { width: 3, height: 2, layout: 0, rounds: 8, threshold: 0 };
        assert_eq!(text(&packet::bytes(&fields, &[7; 6])), format!("3 2\n{}", "7 7 7\n".repeat(6)));
    }

    #[test]
    fn seventeen_first_and_last() {
        let frame = |width, height, sample| {
            let fields = Fields { width, height, layout: 0, rounds: 0, threshold: 0 };
            packet::bytes(&fields, &vec![sample; width * height])
        };
        let after = |older: usize, packet: &[u8]| [&vec![0; older], packet].concat();
        assert_eq!(refusal(&frame(32, 32, 7)), 0);
        assert_eq!(refusal(&frame(41, 25, 7)), 17);
        assert_eq!(refusal(&frame(41, 25, 4096)), 9);
        // 2,042 samples are as many as 4,096 bytes hold
        assert_eq!(refusal(&frame(2, 1021, 7)), 17);
        assert_eq!(refusal(&frame(2, 1022, 7)), 17);
        assert_eq!(refusal(&frame(2, 1022, 7)[4..]), 13);
        assert_eq!(refusal(&after(4076, &frame(2, 2, 7))), 0);
        assert_eq!(refusal(&after(4077, &frame(2, 2, 7))), 17);
        assert_eq!(refusal(&after(4076, &frame(2, 2, 4096))), 9);
        assert_eq!(refusal(&after(4077, &frame(2, 2, 4096))), 17);
        assert_eq!(text(&[]), "refused 11\n");
    }
}
