//! The four ways of watching a rule that are compared. Each takes flag bytes and
//! keeps a tally of what it reported, so that they can be checked against each
//! other and none is optimised away.

use crate::anew::Anew;
use crate::plain::Engine;
use rust_tests::paper::{write_body, Formula};
use station_watch::{figures, sheet_of, Figures, Pair, Watch};

/// Every violation in order, folded into one number, and the live counts.
#[derive(Clone, Copy, Debug, Default, PartialEq, Eq)]
pub struct Tally {
    pub violations: u64,
    pub folded: u64,
}

impl Tally {
    pub fn add(&mut self, tick: u64, step: u64) {
        self.violations += 1;
        self.fold(tick.rotate_left(32) ^ step);
    }

    fn fold(&mut self, number: u64) {
        self.folded = self.folded.wrapping_mul(0x9E37_79B9_7F4A_7C15) ^ number;
    }

    /// The violations of several rules, which a set brings in another order than each by
    /// itself.
    pub fn of_all(tallies: impl IntoIterator<Item = Tally>) -> Tally {
        let mut all = Tally::default();
        for tally in tallies {
            all.violations += tally.violations;
            all.fold(tally.folded);
        }
        all
    }
}

/// A way of watching a rule.
pub trait Way {
    /// Takes the flag bytes.
    fn take(&mut self, flags: &[u8]);
    /// What was reported so far.
    fn tally(&self) -> Tally;
    /// How many ticks are open.
    fn live(&self) -> usize;
}

pub const WAYS: [&str; 4] = ["step", "batch", "plain", "anew"];

/// The way of this name, opened for a rule.
pub fn open(way: &str, rule: &Formula) -> Box<dyn Way> {
    match way {
        "step" => Box::new(Single(Library::open(rule))),
        "batch" => Box::new(Batch(Library::open(rule))),
        "plain" => Box::new(InRust::new(Engine::open(rule, rule_figures(rule)))),
        "anew" => Box::new(InRust::new(Anew::open(rule, rule_figures(rule).delay))),
        _ => panic!("no way {way:?}; there are {WAYS:?}"),
    }
}

/// The figures of a rule that can be opened.
pub fn rule_figures(rule: &Formula) -> Figures {
    figures(&write_body(rule)).expect("a rule that can be opened")
}

/// The library, with what it reported.
pub struct Library {
    watch: Watch,
    tally: Tally,
}

impl Library {
    pub fn open(rule: &Formula) -> Library {
        let sheet = sheet_of(&[&write_body(rule)]).expect("a body of 1 to 512 bytes");
        let watch = Watch::open(&sheet, 0).expect("a rule that can be opened");
        Library { watch, tally: Tally::default() }
    }
}

/// The library, a call for each flag byte.
pub struct Single(pub Library);

impl Way for Single {
    fn take(&mut self, flags: &[u8]) {
        let Library { watch, tally } = &mut self.0;
        for &flag in flags {
            for pair in watch.step(flag).expect("ticks are left").pairs() {
                tally.add(pair.tick, pair.step);
            }
        }
    }

    fn tally(&self) -> Tally {
        self.0.tally
    }

    fn live(&self) -> usize {
        self.0.watch.live() as usize
    }
}

/// The library, as many flag bytes a call as the report has room for.
pub struct Batch(pub Library);

impl Way for Batch {
    fn take(&mut self, flags: &[u8]) {
        let Library { watch, tally } = &mut self.0;
        let add = |pair: Pair| tally.add(pair.tick, pair.step);
        watch.steps(flags, add).expect("ticks are left");
    }

    fn tally(&self) -> Tally {
        self.0.tally
    }

    fn live(&self) -> usize {
        self.0.watch.live() as usize
    }
}

/// A way that is written in Rust: it takes one flag byte at a time.
pub trait Stepping {
    /// The tick that the next step takes.
    fn next(&self) -> u64;
    /// Fills the report with the ticks that are false at this step, and answers how
    /// many are open.
    fn step(&mut self, flag: u8, report: &mut Vec<u64>) -> usize;
}

/// Such a way, with what it reported.
struct InRust<S: Stepping> {
    watch: S,
    report: Vec<u64>,
    live: usize,
    tally: Tally,
}

impl<S: Stepping> InRust<S> {
    fn new(watch: S) -> InRust<S> {
        InRust { watch, report: Vec::new(), live: 0, tally: Tally::default() }
    }
}

impl<S: Stepping> Way for InRust<S> {
    fn take(&mut self, flags: &[u8]) {
        for &flag in flags {
            let step = self.watch.next();
            self.live = self.watch.step(flag, &mut self.report);
            for &tick in &self.report {
                self.tally.add(tick, step);
            }
        }
    }

    fn tally(&self) -> Tally {
        self.tally
    }

    fn live(&self) -> usize {
        self.live
    }
}
