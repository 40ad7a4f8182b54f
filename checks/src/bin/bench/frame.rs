//! Estimate, update, rounds and finishing on the mosaic of a picture.

use crate::calls::{Calls, PROGRAMS};
use crate::clock::timed;
use crate::{finished, MORE};
use checks::mosaic::has_two_levels;
use checks::packet::Fields;
use checks::rounds::wide_needed;
use std::hint::black_box;
use std::mem::replace;
use std::time::Duration;

/// What the calls fill or rewrite.
#[derive(Clone, PartialEq)]
struct Lent {
    planes: [Vec<u16>; 3],
    work: Vec<i32>,
    wide_work: Vec<i64>,
}

impl Lent {
    /// With one level the wide work buffer is empty.
    fn new(fields: &Fields) -> Lent {
        let count = fields.width * fields.height;
        let wide_work = vec![1; wide_needed(fields)];
        Lent { planes: [(); 3].map(|_| vec![1; count]), work: vec![1; 8 * count], wide_work }
    }
}

/// A mosaic, its first estimate of green, the planes that the rounds are given, and the buffers to fill. All
/// programs are timed with these.
pub struct Frame {
    pub width: usize,
    height: usize,
    pub layout: u32,
    mosaic: Vec<u16>,
    green: Vec<u16>,
    given: [Vec<u16>; 3],
    lent: Lent,
}

impl Frame {
    pub fn new(width: usize, height: usize, layout: u32, mosaic: Vec<u16>) -> Frame {
        let lent = Lent::new(&Fields { width, height, layout, rounds: 0, threshold: 0 });
        let (green, given) = (lent.planes[1].clone(), lent.planes.clone());
        let mut frame = Frame { width, height, layout, mosaic, green, given, lent };
        frame.estimate(PROGRAMS[0]).unwrap();
        frame.green.clone_from(&frame.lent.planes[1]);
        frame.update(PROGRAMS[0]).unwrap();
        frame.given.clone_from(&frame.lent.planes);
        frame
    }

    fn fields(&self, rounds: u32, threshold: u32) -> Fields {
        Fields { width: self.width, height: self.height, layout: self.layout, rounds, threshold }
    }

    pub fn estimate(&mut self, calls: &Calls) -> Result<Duration, u32> {
        let planes = self.lent.planes.each_mut().map(|plane| &mut plane[..]);
        let (width, height, layout) = (self.width, self.height, self.layout);
        timed(|| (calls.estimate)(width, height, layout, black_box(&self.mosaic), black_box(planes)))
    }

    /// From the first estimate of green on.
    pub fn update(&mut self, calls: &Calls) -> Result<Duration, u32> {
        let Lent { planes: [_, green, _], work, .. } = &mut self.lent;
        green.copy_from_slice(&self.green);
        let (width, height, layout) = (self.width, self.height, self.layout);
        let (mosaic, green, work) = (black_box(&self.mosaic), black_box(green), black_box(work));
        timed(|| (calls.update)(width, height, layout, mosaic, green, work))
    }

    /// From the estimates with green updated on.
    pub fn rounds(&mut self, calls: &Calls, rounds: u32, threshold: u32) -> Result<Duration, u32> {
        let fields = self.fields(rounds, threshold);
        let Lent { planes, work, wide_work } = &mut self.lent;
        planes.clone_from(&self.given);
        let [red, green, blue] = black_box(planes.each_mut());
        let (mosaic, work, wide_work) = (black_box(&self.mosaic), black_box(work), black_box(wide_work));
        timed(|| (calls.rounds)(&fields, mosaic, red, green, blue, work, wide_work))
    }

    pub fn finish(&mut self, calls: &Calls, rounds: u32, threshold: u32) -> Result<Duration, u32> {
        let fields = self.fields(rounds, threshold);
        let Lent { planes, work, wide_work } = &mut self.lent;
        let planes = planes.each_mut().map(|plane| &mut plane[..]);
        let (mosaic, work, wide_work) = (black_box(&self.mosaic), black_box(work), black_box(wide_work));
        timed(|| (calls.finish)(&fields, mosaic, black_box(planes), work, wide_work))
    }

    /// The answer to a call, which must be the same for all programs, as must be what the call leaves.
    fn alike(
        &mut self,
        what: &str,
        call: impl Fn(&mut Frame, &Calls) -> Result<Duration, u32>,
    ) -> Option<u32> {
        let [library, clang, gcc] = PROGRAMS.map(|calls| {
            self.lent = Lent::new(&self.fields(0, 0));
            (call(self, calls).err(), self.lent.clone())
        });
        let same = library == clang && library == gcc;
        assert!(same, "{what}, {} by {}: the results differ", self.width, self.height);
        library.0
    }

    /// A call that all accept alike, and that leaves zeros in the work buffer.
    fn zeroing(&mut self, what: &str, call: impl Fn(&mut Frame, &Calls) -> Result<Duration, u32>) {
        assert_eq!(self.alike(what, call), None, "{what}");
        let zero = self.lent.work.iter().all(|&number| number == 0);
        assert!(zero, "{what}, {} by {}: work left", self.width, self.height);
    }

    /// The same, of the wide one too: it is empty with one level.
    fn zeroing_both(&mut self, what: &str, call: impl Fn(&mut Frame, &Calls) -> Result<Duration, u32>) {
        self.zeroing(what, call);
        let zero = self.lent.wide_work.iter().all(|&number| number == 0);
        assert!(zero, "{what}, {} by {}: wide work left", self.width, self.height);
    }

    /// All give the same planes and leave zeros in the work buffers.
    pub fn check(&mut self) {
        assert_eq!(self.alike("estimate", Frame::estimate), None);
        self.zeroing("update", Frame::update);
        for (rounds, threshold) in [(0, 20), (1, 0), (1, 1), (2, 20), (1, 4095), (MORE, 0), (MORE, 20)] {
            let what = format!("{rounds} rounds, T = {threshold}");
            self.zeroing_both(&what, |frame, calls| frame.rounds(calls, rounds, threshold));
        }
        for &(rounds, threshold) in finished(self.layout) {
            let what = format!("finishing, {rounds} rounds, T = {threshold}");
            self.zeroing_both(&what, |frame, calls| frame.finish(calls, rounds, threshold));
        }
    }

    /// All ask whether the wide work buffer suffices.
    fn check_refused_wide_work(&mut self) {
        let one_less = |frame: &mut Frame| frame.lent.wide_work.pop();
        let answer = self.alike("rounds", |frame, calls| {
            one_less(frame);
            frame.rounds(calls, 1, 20)
        });
        assert_eq!(answer, Some(18));
        let answer = self.alike("finishing", |frame, calls| {
            one_less(frame);
            frame.finish(calls, 1, 20)
        });
        assert_eq!(answer, Some(18));
    }

    /// All ask of numbers that do not fit a byte or 16 bits, and whether the samples are in range, of the last one too: of
    /// each given plane, and of the mosaic.
    pub fn check_refused(&mut self) {
        for (rounds, threshold, number) in [(320, 20, 4), (1, 65_536 + 20, 5)] {
            let answer = self.alike("rounds", |frame, calls| frame.rounds(calls, rounds, threshold));
            assert_eq!(answer, Some(number));
            let answer = self.alike("finishing", |frame, calls| frame.finish(calls, rounds, threshold));
            assert_eq!(answer, Some(number));
        }
        if has_two_levels(self.layout) {
            self.check_refused_wide_work();
        }
        let last = self.mosaic.len() - 1;
        for plane in 0..3 {
            let sample = replace(&mut self.given[plane][last], 4096);
            assert_eq!(self.alike("rounds", |frame, calls| frame.rounds(calls, 1, 20)), Some(10));
            self.given[plane][last] = sample;
        }
        self.green[last] = 4096;
        assert_eq!(self.alike("update", Frame::update), Some(10));
        self.mosaic[last] = 4096;
        assert_eq!(self.alike("estimate", Frame::estimate), Some(9));
        assert_eq!(self.alike("update", Frame::update), Some(9));
        assert_eq!(self.alike("rounds", |frame, calls| frame.rounds(calls, 1, 20)), Some(9));
        assert_eq!(self.alike("finishing", |frame, calls| frame.finish(calls, 1, 20)), Some(9));
    }
}
