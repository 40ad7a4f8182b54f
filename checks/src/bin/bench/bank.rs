//! Split and join on the plane of a picture.

use crate::calls::{Calls, PROGRAMS};
use crate::clock::timed;
use crate::library;
use checks::bank::{JOIN_LIMIT, SPLIT_LIMIT};
use std::hint::black_box;
use std::time::Duration;

/// What split and join fill.
#[derive(Clone, PartialEq)]
struct Lent {
    bands: [Vec<i32>; 4],
    sums: Vec<i32>,
}

impl Lent {
    fn new(count: usize) -> Lent {
        Lent { bands: [(); 4].map(|_| vec![1; count]), sums: vec![1; count] }
    }
}

/// A plane, its bands, and the buffers to fill. All programs are timed with these.
pub struct Bank {
    width: usize,
    height: usize,
    plane: Vec<i32>,
    bands: [Vec<i32>; 4],
    lent: Lent,
}

impl Bank {
    pub fn new(width: usize, height: usize, samples: &[u16]) -> Bank {
        let plane = samples.iter().copied().map(i32::from).collect();
        let lent = Lent::new(samples.len());
        let mut bank = Bank { width, height, plane, bands: lent.bands.clone(), lent };
        bank.split(PROGRAMS[0]).unwrap();
        bank.bands.clone_from(&bank.lent.bands);
        bank
    }

    pub fn split(&mut self, calls: &Calls) -> Result<Duration, u32> {
        let bands = self.lent.bands.each_mut().map(|band| &mut band[..]);
        timed(|| (calls.split)(self.width, self.height, black_box(&self.plane), black_box(bands)))
    }

    pub fn join(&mut self, calls: &Calls) -> Result<Duration, u32> {
        let bands = self.bands.each_ref().map(|band| &band[..]);
        timed(|| (calls.join)(self.width, self.height, black_box(bands), black_box(&mut self.lent.sums)))
    }

    /// The answers to split and join, which must be the same for all programs, as must be what they leave.
    fn alike(&mut self) -> [Option<u32>; 2] {
        let [library, clang, gcc] = PROGRAMS.map(|calls| {
            self.lent = Lent::new(self.plane.len());
            ([self.split(calls).err(), self.join(calls).err()], self.lent.clone())
        });
        let same = library == clang && library == gcc;
        assert!(same, "bank, {} by {}: the results differ", self.width, self.height);
        library.0
    }

    /// All give the same bands and sums, and the sums brought back are the plane.
    pub fn check(&mut self) {
        assert_eq!(self.alike(), [None; 2]);
        let brought_back = self.lent.sums.iter().map(|&sum| i32::from(library::bring_back(sum)));
        let comes_back = brought_back.eq(self.plane.iter().copied());
        assert!(comes_back, "{} by {}: the plane does not come back", self.width, self.height);
    }

    /// All ask whether the values are in range, of the last one too.
    pub fn check_refused(&mut self) {
        *self.plane.last_mut().unwrap() = SPLIT_LIMIT + 1;
        *self.bands[3].last_mut().unwrap() = -JOIN_LIMIT - 1;
        assert_eq!(self.alike(), [Some(15); 2]);
    }
}
