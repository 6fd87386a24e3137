//! Timing side by side: every side of a comparison gets a short slice of time in each round, and its best slice counts.
//!
//! The best of many short slices is the time that the code takes when nothing disturbs it, and sides that take turns are disturbed alike.

use crate::lent::Lent;
use std::time::Instant;

/// The least time of a slice in nanoseconds, long against the clock's own resolution.
const SLICE: f64 = 250_000.0;

/// One side of a comparison: a call, how often it is repeated in a slice, and the best time that it showed.
pub struct Side<'a> {
    call: Box<dyn Fn(&mut Lent) + 'a>,
    repeats: u32,
    slices_left: u32,
    best: f64,
}

impl<'a> Side<'a> {
    /// A side that makes this call and takes part in every round.
    pub fn new(call: impl Fn(&mut Lent) + 'a) -> Side<'a> {
        Side { call: Box::new(call), repeats: 0, slices_left: u32::MAX, best: f64::INFINITY }
    }

    /// A slow side, which takes part in the first so many rounds only.
    pub fn at_most(mut self, slices: u32) -> Side<'a> {
        self.slices_left = slices;
        self
    }

    /// The best time of one call, in nanoseconds.
    pub fn best(&self) -> f64 {
        self.best
    }

    fn time(&self, lent: &mut Lent) -> f64 {
        let started = Instant::now();
        for _ in 0..self.repeats {
            (self.call)(lent);
        }
        started.elapsed().as_nanos() as f64
    }

    /// Doubles the repeats until they fill a slice.
    fn calibrate(&mut self, lent: &mut Lent) {
        (self.call)(lent);
        self.repeats = 1;
        while self.time(lent) < SLICE {
            self.repeats *= 2;
        }
    }

    /// One slice. A call that is repeated is made once before the clock starts, so that its code and its memory are warm.
    fn slice(&mut self, lent: &mut Lent) {
        if self.slices_left == 0 {
            return;
        }
        self.slices_left -= 1;
        if self.repeats == 0 {
            self.calibrate(lent);
        }
        if self.repeats > 1 {
            (self.call)(lent);
        }
        self.best = self.best.min(self.time(lent) / f64::from(self.repeats));
    }
}

/// Gives each side a slice in each round. The side that begins a round ends the next one, so that none always follows the same other.
pub fn rounds(sides: &mut [&mut Side<'_>], count: usize, lent: &mut Lent) {
    for round in 0..count {
        let first = round % sides.len().max(1);
        let (behind, from) = sides.split_at_mut(first);
        for side in from.iter_mut().chain(behind) {
            side.slice(lent);
        }
    }
}
