//! Req 04, "Spot reading".

use crate::mosaic::size_refusal;

/// How many rows the window has, and how many columns.
pub const SIDE: usize = 32;

/// A frame's size, and the window's first row and column.
#[derive(Clone, Copy, Debug)]
pub struct View {
    pub width: usize,
    pub height: usize,
    pub row: usize,
    pub column: usize,
}

/// The sums of red, green and blue over the window.
pub type Sums = [u64; 3];

/// Red, green and blue.
pub type Spot = [f64; 3];

/// What is kept between frames: the spot, and whether a lit frame has come.
#[derive(Clone, Copy, Debug)]
pub struct Kept {
    pub spot: Spot,
    pub lit: bool,
}

/// The answer to an accepted frame.
#[derive(Clone, Copy, Debug, PartialEq)]
pub enum Reading {
    /// No lit frame so far, this one included.
    Starting,
    /// This one is unlit, after a lit one.
    Dark,
    /// This one is lit: the smoothed spot.
    Steady(Spot),
}

/// Whether the window's rows, from this one on, are among so many; or its columns. With 128 bits nothing wraps.
fn holds(count: usize, first: usize) -> bool {
    first as u128 + SIDE as u128 <= count as u128
}

/// Questions 1, 2, 6 of each plane's length, and 19.
fn refusal(view: &View, lengths: [usize; 3]) -> Option<u32> {
    if let Some(number) = size_refusal(view.width, view.height) {
        Some(number)
    } else if lengths != [view.width * view.height; 3] {
        Some(6)
    } else if !holds(view.height, view.row) || !holds(view.width, view.column) {
        Some(19)
    } else {
        None
    }
}

/// A plane's sum over the window.
fn window_sum(view: &View, plane: &[u16]) -> u64 {
    let mut sum = 0;
    for row in view.row..view.row + SIDE {
        for column in view.column..view.column + SIDE {
            sum += u64::from(plane[row * view.width + column]);
        }
    }
    sum
}

fn is_lit([_, _, blue]: Sums) -> bool {
    blue > 0
}

/// The sums as floats, which hold them exactly.
fn floats(sums: Sums) -> Spot {
    sums.map(|sum| sum as f64)
}

/// Colour by colour, each operation rounded once.
fn smoothed(old: Spot, new: Spot) -> Spot {
    [0, 1, 2].map(|colour| old[colour] + (new[colour] - old[colour]) * 0.125)
}

impl Kept {
    /// Before the first frame.
    pub const START: Kept = Kept { spot: [0.0; 3], lit: false };

    /// What is kept after an accepted frame with these sums, and the answer to it.
    pub fn next(self, sums: Sums) -> (Kept, Reading) {
        if !is_lit(sums) {
            return (self, if self.lit { Reading::Dark } else { Reading::Starting });
        }
        let new = floats(sums);
        let spot = if self.lit { smoothed(self.spot, new) } else { new };
        (Kept { spot, lit: true }, Reading::Steady(spot))
    }
}

impl Reading {
    /// The answer to the last of a whole list of accepted frames from the start, each its sums: of the unlit ones only the
    /// last counts.
    pub fn of(history: &[Sums]) -> Reading {
        let mut lit = history.iter().copied().filter(|&sums| is_lit(sums)).map(floats);
        let Some(first) = lit.next() else { return Reading::Starting };
        let spot = lit.fold(first, smoothed);
        match history.last() {
            Some(&last) if is_lit(last) => Reading::Steady(spot),
            _ => Reading::Dark,
        }
    }

    /// Its number in C.
    pub fn number(self) -> u8 {
        match self {
            Reading::Starting => 0,
            Reading::Dark => 1,
            Reading::Steady(_) => 2,
        }
    }
}

/// The sums of three planes over the window, if no question is answered no.
pub fn sums(view: &View, planes: [&[u16]; 3]) -> Result<Sums, u32> {
    match refusal(view, planes.map(|plane| plane.len())) {
        Some(number) => Err(number),
        None => Ok(planes.map(|plane| window_sum(view, plane))),
    }
}

/// The spot call: its questions; then what is kept from now on, and the answer. Refused, what was kept stays.
pub fn spot(view: &View, planes: [&[u16]; 3], kept: Kept) -> Result<(Kept, Reading), u32> {
    Ok(kept.next(sums(view, planes)?))
}

#[cfg(test)]
mod tests {
    use super::*;
    use crate::chance::Chance;
    use crate::mosaics::filled;

    const EXACT_FIT: View = View { width: 32, height: 32, row: 0, column: 0 };

    /// The call with planes of these lengths, all white.
    fn number(view: View, lengths: [usize; 3]) -> u32 {
        let planes = lengths.map(|length| vec![65_535; length]);
        sums(&view, planes.each_ref().map(|plane| &plane[..])).err().unwrap_or(0)
    }

    #[test]
    fn a_list_by_hand() {
        let (kept, answer) = Kept::START.next([5, 6, 0]);
        assert_eq!((kept.spot, kept.lit, answer), ([0.0; 3], false, Reading::Starting));
        let (kept, answer) = kept.next([800, 0, 1]);
        assert_eq!((kept.lit, answer), (true, Reading::Steady([800.0, 0.0, 1.0])));
        let (kept, answer) = kept.next([0, 80, 2]);
        assert_eq!((kept.lit, answer), (true, Reading::Steady([700.0, 10.0, 1.125])));
        let (kept, answer) = kept.next([9, 9, 0]);
        assert_eq!((kept.spot, kept.lit, answer), ([700.0, 10.0, 1.125], true, Reading::Dark));
        let (_, answer) = kept.next([700, 18, 1]);
        assert_eq!(answer, Reading::Steady([700.0, 11.0, 1.109375]));
    }

    /// Frame by frame, and of the list's lit frames alone.
    #[test]
    fn the_same_in_two_ways() {
        let chance = &mut Chance(0x9e37_79b9_7f4a_7c15);
        for length in 1..200 {
            let mut history = Vec::new();
            let mut kept = Kept::START;
            for _ in 0..length {
                let [red, green, blue] = [(); 3].map(|_| chance.between(0, 67_107_840));
                let sums = [red, green, chance.one_of(&[0, 0, blue])];
                history.push(sums);
                let (next, answer) = kept.next(sums);
                assert_eq!(answer, Reading::of(&history), "{history:?}");
                kept = next;
            }
        }
        assert_eq!(Reading::of(&[]), Reading::Starting);
    }

    /// Each sample is the number of its place, so the sum is by hand too.
    #[test]
    fn rows_and_columns() {
        let (width, height) = (45, 40);
        let plane = filled(width, height, |i, j| (45 * i + j) as u16);
        for (row, column) in (0..=8).flat_map(|row| (0..=13).map(move |column| (row, column))) {
            let view = View { width, height, row, column };
            let middle_twice = 45 * (2 * row + 31) + 2 * column + 31;
            let due = 512 * middle_twice as u64;
            assert_eq!(sums(&view, [&plane[..]; 3]), Ok([due; 3]), "{view:?}");
        }
    }

    #[test]
    fn white() {
        let white = [65_535; 1024];
        assert_eq!(sums(&EXACT_FIT, [&white[..]; 3]), Ok([67_107_840; 3]));
    }

    #[test]
    fn refused_in_order() {
        let all_wrong = View { width: 1, height: 2049, row: usize::MAX, column: usize::MAX };
        assert_eq!(number(all_wrong, [3; 3]), 1);
        assert_eq!(number(View { width: 2, ..all_wrong }, [3; 3]), 2);
        let too_small = View { width: 2, height: 2, ..all_wrong };
        for lengths in [[3, 4, 4], [4, 5, 4], [4, 4, 3]] {
            assert_eq!(number(too_small, lengths), 6);
        }
        assert_eq!(number(too_small, [4; 3]), 19);
        assert_eq!(number(EXACT_FIT, [1024; 3]), 0);
    }

    #[test]
    fn wholly_inside() {
        for far in [1, 2, 31, 32, 33, usize::MAX - 32, usize::MAX - 31, usize::MAX - 30, usize::MAX] {
            assert_eq!(number(View { row: far, ..EXACT_FIT }, [1024; 3]), 19, "row {far}");
            assert_eq!(number(View { column: far, ..EXACT_FIT }, [1024; 3]), 19, "column {far}");
        }
        for (width, height) in [(31, 32), (32, 31), (2048, 31), (31, 2048)] {
            let view = View { width, height, ..EXACT_FIT };
            assert_eq!(number(view, [width * height; 3]), 19, "{width} by {height}");
        }
    }
}
