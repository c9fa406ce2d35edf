//! Nanoseconds a step or a call. All ways of a row are measured in turns, round after round,
//! so that what else the machine does falls on all of them; of the rounds the
//! median is taken.

use crate::ways::Way;
use std::hint::black_box;
use std::time::{Duration, Instant};

const ROUNDS: usize = 31;
/// Where doing it once takes longer than a round.
const FEW_ROUNDS: usize = 5;
/// A round is made this long, roughly.
const ROUND: Duration = Duration::from_millis(3);

/// What is done again and again.
pub struct Timed<'a> {
    /// Does it so often.
    work: Box<dyn FnMut(usize) + 'a>,
    /// How often in a round.
    often: usize,
    rounds: Vec<f64>,
}

impl<'a> Timed<'a> {
    /// The steps of a way that goes through a stream again and again.
    fn steps(mut way: Box<dyn Way>, flags: &'a [u8]) -> Timed<'a> {
        let mut at = 0;
        let take = move |steps| {
            if at + steps > flags.len() {
                at = 0;
            }
            way.take(&flags[at..at + steps]);
            at += steps;
        };
        Timed::sized(Box::new(take), flags.len())
    }

    pub fn call<T>(mut call: impl FnMut() -> T + 'a) -> Timed<'a> {
        let again = move |often| {
            for _ in 0..often {
                black_box(call());
            }
        };
        Timed::sized(Box::new(again), usize::MAX)
    }

    /// At most so often in a round.
    fn sized(work: Box<dyn FnMut(usize) + 'a>, most: usize) -> Timed<'a> {
        let mut timed = Timed { work, often: 1, rounds: Vec::new() };
        while timed.often < most && timed.take() < ROUND / 2 {
            timed.often = most.min(2 * timed.often);
        }
        timed
    }

    fn take(&mut self) -> Duration {
        let began = Instant::now();
        (self.work)(self.often);
        began.elapsed()
    }

    fn round(&mut self) {
        let took = self.take();
        self.rounds.push(took.as_nanos() as f64 / self.often as f64);
    }

    fn median(&mut self) -> f64 {
        self.rounds.sort_by(f64::total_cmp);
        self.rounds[self.rounds.len() / 2]
    }
}

/// Nanoseconds for each of these once.
pub fn medians<const N: usize>(mut timed: [Timed; N]) -> [f64; N] {
    let slow = timed.iter().any(|timed| timed.often == 1);
    for _ in 0..if slow { FEW_ROUNDS } else { ROUNDS } {
        timed.iter_mut().for_each(Timed::round);
    }
    timed.each_mut().map(Timed::median)
}

/// Nanoseconds a step, for each way.
pub fn nanoseconds<const N: usize>(ways: [Box<dyn Way>; N], flags: &[u8]) -> [f64; N] {
    medians(ways.map(|way| Timed::steps(way, flags)))
}
