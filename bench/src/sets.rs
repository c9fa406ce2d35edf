//! Several rules on one stream: as a set, all of them in each call, and each by itself, one
//! call after the other.

use crate::cases::find;
use crate::ways::{Batch, Library, Single, Tally, Way};
use rust_tests::paper::{write_body, Formula};
use station_watch::{sheet_of, Triple, WatchSet};

/// How many rules there are.
pub const RULE_COUNTS: [usize; 3] = [1, 8, 32];

/// What rules there are: a rule again and again, or eight of different sizes.
pub const KINDS: [&str; 3] = ["flag", "example", "mixed"];

/// Eight rules with 832 cells together, so that 32 of them can be opened as a set.
pub const MIXED: [&str; 8] =
    ["then", "flag", "example", "behind 15", "beside", "ahead 3", "nested, not", "ahead 7"];

/// So many rules of a kind.
pub fn several(kind: &str, count: usize) -> Vec<Formula> {
    let names = if kind == "mixed" { MIXED.to_vec() } else { vec![kind] };
    names.iter().map(|name| find(name)).cycle().take(count).collect()
}

pub const SET_WAYS: [&str; 4] = ["set, step", "singly, step", "set, batch", "singly, batch"];

/// The way of this name, opened for these rules.
pub fn open_rules(way: &str, rules: &[Formula]) -> Box<dyn Way> {
    let each = || rules.iter().map(Library::open);
    match way {
        "set, step" => Box::new(SetSingle(Set::open(rules))),
        "singly, step" => Box::new(Singles(each().map(Single).collect())),
        "set, batch" => Box::new(SetBatch(Set::open(rules))),
        "singly, batch" => Box::new(Batches(each().map(Batch).collect())),
        _ => panic!("no way {way:?}; there are {SET_WAYS:?}"),
    }
}

/// Each rule by itself, a call for each rule and flag byte.
struct Singles(Vec<Single>);

impl Way for Singles {
    fn take(&mut self, flags: &[u8]) {
        for flag in flags.chunks(1) {
            self.0.iter_mut().for_each(|single| single.take(flag));
        }
    }

    fn tally(&self) -> Tally {
        Tally::of_all(self.0.iter().map(Single::tally))
    }

    fn live(&self) -> usize {
        self.0.iter().map(Single::live).sum()
    }
}

/// Each rule by itself, all flag bytes for one and then for the next.
struct Batches(Vec<Batch>);

impl Way for Batches {
    fn take(&mut self, flags: &[u8]) {
        self.0.iter_mut().for_each(|batch| batch.take(flags));
    }

    fn tally(&self) -> Tally {
        Tally::of_all(self.0.iter().map(Batch::tally))
    }

    fn live(&self) -> usize {
        self.0.iter().map(Batch::live).sum()
    }
}

/// A set, with what each of its rules reported.
struct Set {
    watch: WatchSet,
    tallies: Vec<Tally>,
}

impl Set {
    fn open(rules: &[Formula]) -> Set {
        let bodies: Vec<Vec<u8>> = rules.iter().map(write_body).collect();
        let parts: Vec<&[u8]> = bodies.iter().map(Vec::as_slice).collect();
        let sheet = sheet_of(&parts).expect("1 to 32 bodies of 1 to 512 bytes");
        let watch = WatchSet::open(&sheet).expect("rules that can be opened together");
        Set { watch, tallies: vec![Tally::default(); rules.len()] }
    }

    fn live(&self) -> usize {
        self.watch.live() as usize
    }
}

fn add(tallies: &mut [Tally], Triple { rule, tick, step }: Triple) {
    tallies[rule as usize].add(tick, step);
}

/// A set, a call for each flag byte.
struct SetSingle(Set);

impl Way for SetSingle {
    fn take(&mut self, flags: &[u8]) {
        let Set { watch, tallies } = &mut self.0;
        for &flag in flags {
            let step = watch.step(flag).expect("ticks are left");
            step.triples().for_each(|violation| add(tallies, violation));
        }
    }

    fn tally(&self) -> Tally {
        Tally::of_all(self.0.tallies.iter().copied())
    }

    fn live(&self) -> usize {
        self.0.live()
    }
}

/// A set, as many flag bytes a call as the report has room for.
struct SetBatch(Set);

impl Way for SetBatch {
    fn take(&mut self, flags: &[u8]) {
        let Set { watch, tallies } = &mut self.0;
        watch.steps(flags, |violation| add(tallies, violation)).expect("ticks are left");
    }

    fn tally(&self) -> Tally {
        Tally::of_all(self.0.tallies.iter().copied())
    }

    fn live(&self) -> usize {
        self.0.live()
    }
}
