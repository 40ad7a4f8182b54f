//! What the program `finishing_examples` must write: frames finished as given and after a list of turning calls, computed by
//! the reference.

use crate::finishing::finish;
use crate::packet::Fields;
use crate::text::line;
use crate::turns::turn_samples;

/// The samples, of which a frame takes the first ones. An example may have another at place 1.
const SAMPLES: [u16; 12] = [100, 4095, 0, 20, 3000, 7, 700, 1200, 64, 2500, 2048, 9];

/// Width and height.
type Size = [usize; 2];

/// Layout, rounds and threshold.
type Settings = (u32, u32, u32);

/// A frame's fields, its sample at place 1, and how long the buffers are: both mosaics, and red, green, blue, the work buffer
/// and the wide one of each finishing.
#[derive(Clone, Copy)]
struct Example {
    fields: Fields,
    sample: u16,
    mosaics: [usize; 2],
    planes: [usize; 3],
    work: usize,
    wide: usize,
}

/// A frame with buffers that suffice for so many samples.
fn example(count: usize, [width, height]: Size, (layout, rounds, threshold): Settings) -> Example {
    let fields = Fields { width, height, layout, rounds, threshold };
    Example { fields, sample: 4095, mosaics: [count; 2], planes: [count; 3], work: 8 * count, wide: 8 * count }
}

/// A frame with buffers that suffice.
fn sufficient(size: Size, settings: Settings) -> Example {
    example(size[0] * size[1], size, settings)
}

/// How many of the numbers are this one.
fn count<T: PartialEq>(value: T, numbers: &[T]) -> usize {
    numbers.iter().filter(|&number| *number == value).count()
}

/// What a finishing answers, 0 for accepted, and leaves of planes that held `before` and of work buffers that held 5: of these
/// how many zeros and how many fives the first has, and then the wide one.
fn finished(fields: &Fields, mosaic: &[u16], e: &Example, before: u16) -> (u32, [Vec<u16>; 3], [usize; 4]) {
    let mut planes = e.planes.map(|length| vec![before; length]);
    let (mut work, mut wide) = (vec![5; e.work], vec![5; e.wide]);
    let lent = planes.each_mut().map(|plane| &mut plane[..]);
    let number = finish(fields, mosaic, lent, &mut work, &mut wide).err().unwrap_or(0);
    (number, planes, [count(0, &work), count(5, &work), count(0, &wide), count(5, &wide)])
}

/// Demand 3's list of turning calls, from the one mosaic into the other and back. Hands back the fields of what stands after
/// it, and which mosaic has its samples.
fn turn_all(turns: &[u32], mut fields: Fields, mosaics: &mut [Vec<u16>; 2]) -> (Fields, usize) {
    let mut place = 0;
    for &turn in turns {
        let Fields { width, height, layout, .. } = fields;
        let given = mosaics[place].clone();
        let second = &mut mosaics[1 - place];
        if let Ok(shape) = turn_samples(turn, width, height, layout, &given, second) {
            (fields.width, fields.height, fields.layout) = shape;
            place = 1 - place;
        }
    }
    (fields, place)
}

/// The turns; both numbers; both mosaics; then of each finishing red, green, blue, and how many zeros and how many fives its
/// work buffers hold.
fn show(out: &mut String, turns: &[u32], e: &Example) {
    let mut samples = SAMPLES;
    samples[1] = e.sample;
    let mut mosaics = [samples[..e.mosaics[0]].to_vec(), vec![3; e.mosaics[1]]];
    let first = finished(&e.fields, &mosaics[0], e, 7);
    let (fields, place) = turn_all(turns, e.fields, &mut mosaics);
    let second = finished(&fields, &mosaics[place], e, 9);
    line(out, turns);
    line(out, &[first.0, second.0]);
    mosaics.iter().for_each(|mosaic| line(out, mosaic));
    for (_, planes, counts) in [first, second] {
        planes.iter().for_each(|plane| line(out, plane));
        line(out, &counts);
    }
}

/// Frames by every turn.
const BY_EACH_TURN: [(Size, Settings); 5] =
    [([2, 2], (0, 1, 0)), ([3, 2], (1, 2, 20)), ([3, 3], (3, 64, 20)), ([4, 3], (2, 3, 0)), ([4, 3], (5, 2, 20))];

/// Frames by every list.
const BY_LISTS: [(Size, Settings); 15] = [
    ([2, 2], (1, 0, 20)),
    ([2, 2], (2, 3, 4095)),
    ([2, 2], (3, 64, 0)),
    ([3, 2], (0, 1, 4095)),
    ([3, 2], (2, 0, 0)),
    ([3, 2], (3, 3, 20)),
    ([3, 3], (0, 2, 4095)),
    ([3, 3], (1, 0, 4095)),
    ([3, 3], (2, 1, 0)),
    ([4, 3], (0, 64, 4095)),
    ([4, 3], (1, 2, 0)),
    ([4, 3], (3, 1, 20)),
    ([2, 2], (6, 64, 0)),
    ([3, 3], (7, 3, 0)),
    ([4, 3], (4, 1, 4095)),
];
const LISTS: [&[u32]; 5] = [&[], &[8, 255], &[255, 2, 8, 7], &[6, 8, 3, 255, 5], &[1, 4, 1, 4, 6, 3, 5]];

/// Frames with a second mosaic and work buffers of these lengths.
const OTHER_LENGTHS: [(usize, usize, usize, Size, Settings); 10] = [
    (3, 32, 0, [2, 2], (0, 2, 0)),
    (5, 32, 31, [2, 2], (1, 3, 20)),
    (0, 48, 1, [3, 2], (2, 1, 0)),
    (7, 48, 97, [3, 2], (3, 2, 20)),
    (11, 96, 0, [4, 3], (0, 1, 0)),
    (4, 33, 8, [2, 2], (2, 1, 20)),
    (6, 49, 47, [3, 2], (0, 0, 0)),
    (12, 97, 96, [4, 3], (1, 3, 4095)),
    (4, 32, 33, [2, 2], (4, 0, 20)),
    (6, 49, 48, [3, 2], (7, 2, 20)),
];

fn accepted(out: &mut String) {
    for (size, settings) in BY_EACH_TURN {
        (0..8).for_each(|turn| show(out, &[turn], &sufficient(size, settings)));
    }
    for (size, settings) in BY_LISTS {
        LISTS.iter().for_each(|turns| show(out, turns, &sufficient(size, settings)));
    }
    for (second, work, wide, size, settings) in OTHER_LENGTHS {
        let e = sufficient(size, settings);
        show(out, &[1, 4, 7], &Example { mosaics: [e.mosaics[0], second], work, wide, ..e });
    }
}

/// Questions 1 to 5 answered no, each alone where so small buffers allow that: for how many samples they suffice, and the
/// frame.
const WRONG_SETTINGS: [(usize, Size, Settings); 7] = [
    (2, [1, 2], (0, 2, 20)),
    (12, [2049, 2], (0, 2, 20)),
    (2, [2, 1], (0, 2, 20)),
    (12, [2, 2049], (0, 2, 20)),
    (4, [2, 2], (8, 2, 20)),
    (4, [2, 2], (0, 65, 20)),
    (4, [2, 2], (0, 2, 4096)),
];

/// Questions 6, 7 of each plane, and 8 answered no alone, of a frame of six samples: the lengths of the mosaic, of the planes
/// and of the work buffer.
const WRONG_LENGTHS: [(usize, [usize; 3], usize); 9] = [
    (5, [6, 6, 6], 48),
    (7, [6, 6, 6], 48),
    (6, [5, 6, 6], 48),
    (6, [7, 6, 6], 48),
    (6, [6, 5, 6], 48),
    (6, [6, 7, 6], 48),
    (6, [6, 6, 5], 48),
    (6, [6, 6, 7], 48),
    (6, [6, 6, 6], 47),
];

/// Questions 1 to 9 and 18 answered no, then from 2 on, and so on; at last none. After the settings stand the same lengths,
/// that of the wide work buffer, and the sample.
const IN_ORDER: [(Size, Settings, usize, [usize; 3], usize, usize, u16); 13] = [
    ([1, 1], (8, 65, 4096), 5, [5, 5, 5], 7, 7, 4096),
    ([3, 1], (8, 65, 4096), 5, [5, 5, 5], 7, 7, 4096),
    ([3, 2], (8, 65, 4096), 5, [5, 5, 5], 7, 7, 4096),
    ([3, 2], (7, 65, 4096), 5, [5, 5, 5], 7, 7, 4096),
    ([3, 2], (7, 64, 4096), 5, [5, 5, 5], 7, 7, 4096),
    ([3, 2], (7, 64, 4095), 5, [5, 5, 5], 7, 7, 4096),
    ([3, 2], (7, 64, 4095), 6, [5, 5, 5], 7, 7, 4096),
    ([3, 2], (7, 64, 4095), 6, [6, 5, 5], 7, 7, 4096),
    ([3, 2], (7, 64, 4095), 6, [6, 6, 5], 7, 7, 4096),
    ([3, 2], (7, 64, 4095), 6, [6, 6, 6], 7, 7, 4096),
    ([3, 2], (7, 64, 4095), 6, [6, 6, 6], 48, 7, 4096),
    ([3, 2], (7, 64, 4095), 6, [6, 6, 6], 48, 48, 4096),
    ([3, 2], (7, 64, 4095), 6, [6, 6, 6], 48, 48, 4095),
];

fn refused(out: &mut String) {
    let mut show = |e| show(out, &[1, 8, 4, 3], &e);
    for (count, size, settings) in WRONG_SETTINGS {
        show(example(count, size, settings));
    }
    for (first, planes, work) in WRONG_LENGTHS {
        show(Example { mosaics: [first, 6], planes, work, ..example(6, [3, 2], (1, 2, 20)) });
    }
    show(Example { wide: 47, ..example(6, [3, 2], (5, 2, 20)) });
    for (size, settings, first, planes, work, wide, sample) in IN_ORDER {
        show(Example { sample, mosaics: [first, 6], planes, work, wide, ..example(6, size, settings) });
    }
}

pub fn text() -> String {
    let mut out = String::new();
    accepted(&mut out);
    refused(&mut out);
    out
}
