//! The spot of three planes.

use crate::calls::{Calls, PROGRAMS};
use crate::clock::timed;
use checks::planes_call::Planes;
use checks::spot::{View, SIDE};
use std::hint::black_box;
use std::mem::replace;
use std::time::Duration;

/// One call is too short for the clock: so many are timed together.
pub const CALLS: usize = 1000;

/// What stands behind the pointers.
#[derive(Clone, Copy, PartialEq)]
struct Kept {
    spot: [f64; 3],
    lit: u8,
    reading: u8,
}

/// Three planes, the window in their middle, and what is kept. All programs are timed with these.
pub struct Spot {
    view: View,
    planes: Planes,
    kept: Kept,
}

impl Spot {
    pub fn new(width: usize, height: usize, planes: Planes) -> Spot {
        let [row, column] = [height, width].map(|side| (side - SIDE) / 2);
        let kept = Kept { spot: [0.0; 3], lit: 0, reading: 9 };
        Spot { view: View { width, height, row, column }, planes, kept }
    }

    fn read(&mut self, calls: &Calls) -> Result<(), u32> {
        let planes = self.planes.each_ref().map(|plane| &plane[..]);
        let Kept { spot, lit, reading } = &mut self.kept;
        (calls.spot)(black_box(&self.view), black_box(planes), black_box(spot.each_mut()), lit, reading)
    }

    /// Many calls, each given what the one before left.
    pub fn read_many(&mut self, calls: &Calls) -> Result<Duration, u32> {
        timed(|| (0..CALLS).try_for_each(|_| self.read(calls)))
    }

    /// The answer to a call after this was kept, which must be the same for all programs, as must be what they leave.
    fn alike(&mut self, kept: Kept) -> Option<u32> {
        let [library, clang, gcc] = PROGRAMS.map(|calls| {
            self.kept = kept;
            (self.read(calls).err(), self.kept)
        });
        let same = library == clang && library == gcc;
        assert!(same, "spot, {:?}: the results differ", self.view);
        library.0
    }

    /// The same after several that may have been kept.
    fn alike_after_all(&mut self) -> Option<u32> {
        let spots = [[0.0; 3], [0.1, 1e6, 3e7]].into_iter();
        let all = spots.flat_map(|spot| [0, 1, 255].map(|lit| Kept { spot, lit, reading: 9 }));
        let answers: Vec<_> = all.map(|kept| self.alike(kept)).collect();
        assert!(answers.iter().all(|answer| *answer == answers[0]), "{answers:?}");
        answers[0]
    }

    /// All leave and answer the same, of lit planes and of unlit ones.
    pub fn check(&mut self) {
        assert_eq!(self.alike_after_all(), None);
        let black = vec![0; self.planes[2].len()];
        let blue = replace(&mut self.planes[2], black);
        assert_eq!(self.alike_after_all(), None);
        self.planes[2] = blue;
    }

    /// All ask the same.
    pub fn check_refused(&mut self) {
        let View { width, height, .. } = self.view;
        self.view.row = height - SIDE + 1;
        assert_eq!(self.alike_after_all(), Some(19));
        (self.view.row, self.view.column) = (0, usize::MAX);
        assert_eq!(self.alike_after_all(), Some(19));
        for plane in 0..3 {
            let short = vec![1; width * height - 1];
            let whole = replace(&mut self.planes[plane], short);
            assert_eq!(self.alike_after_all(), Some(6));
            self.planes[plane] = whole;
        }
        self.view.height = 1;
        assert_eq!(self.alike_after_all(), Some(2));
        self.view.width = 2049;
        assert_eq!(self.alike_after_all(), Some(1));
    }
}
