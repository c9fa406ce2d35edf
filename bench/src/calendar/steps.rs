//! Steps and batches with a calendar beside those without.

use crate::cases::{find, stream};
use crate::ways::{rule_figures, Tally, Way};
use crate::{time, LENGTH};
use rust_tests::paper::{calendar, write_body, Formula};
use station_watch::{sheet_of, Pair, State, MAX_REPORT};

/// The rules that are stepped.
const RULES: [&str; 3] = ["flag", "example", "wide"];

/// Without a calendar, with one that is lent no words, and with one that keeps all ticks.
const WAYS: [&str; 6] =
    ["step", "step, no words", "step, calendar", "batch", "batch, no words", "batch, calendar"];

/// So many ticks are kept: more than are ever taken.
const KEPT: usize = 1 << 23;

/// The words of a way; `None` without a calendar.
fn words_of(way: &str) -> Option<Vec<u64>> {
    let (_, words) = way.split_once(", ")?;
    Some(if words == "no words" { Vec::new() } else { vec![0; KEPT / 8] })
}

/// A rule with or without a calendar beside it, step by step or in batches.
struct Stepped {
    state: State,
    history: Vec<u8>,
    cells: Vec<u32>,
    /// The report of a step, and of a batch.
    ticks: Vec<u64>,
    pairs: Vec<Pair>,
    words: Option<Vec<u64>>,
    batch: bool,
    tally: Tally,
}

fn open(way: &str, rule: &Formula) -> Stepped {
    let sheet = sheet_of(&[&write_body(rule)]).expect("a body of 1 to 512 bytes");
    let figures = rule_figures(rule);
    let (mut history, cells) = (vec![0; figures.history], vec![0; figures.cell_words()]);
    let mut words = words_of(way);
    let opened = match &mut words {
        Some(words) => State::calendar_open(&sheet, 0, &mut history, &cells, words),
        None => State::open(&sheet, 0, &mut history, &cells),
    };
    Stepped {
        state: opened.expect("a rule that can be opened"),
        history,
        cells,
        ticks: vec![0; MAX_REPORT],
        pairs: vec![Pair::default(); MAX_REPORT],
        words,
        batch: way.starts_with("batch"),
        tally: Tally::default(),
    }
}

impl Stepped {
    fn step(&mut self, flag: u8) {
        let Stepped { state, history, cells, ticks, words, tally, .. } = self;
        let step = match words {
            Some(words) => state.calendar_step(flag, history, cells, ticks, words),
            None => state.step(flag, history, cells, ticks),
        };
        for pair in step.expect("ticks are left").pairs() {
            tally.add(u64::from(pair.tick), u64::from(pair.step));
        }
    }

    /// How many of the flags it took.
    fn steps(&mut self, flags: &[u8]) -> usize {
        let Stepped { state, history, cells, pairs, words, tally, .. } = self;
        let steps = match words {
            Some(words) => state.calendar_steps(flags, history, cells, pairs, words),
            None => state.steps(flags, history, cells, pairs),
        };
        let steps = steps.expect("ticks are left");
        for pair in steps.pairs {
            tally.add(u64::from(pair.tick), u64::from(pair.step));
        }
        steps.taken
    }
}

impl Way for Stepped {
    fn take(&mut self, flags: &[u8]) {
        if !self.batch {
            flags.iter().for_each(|&flag| self.step(flag));
            return;
        }
        let mut rest = flags;
        while !rest.is_empty() {
            rest = &rest[self.steps(rest)..];
        }
    }

    fn tally(&self) -> Tally {
        self.tally
    }

    fn live(&self) -> usize {
        self.state.live() as usize
    }
}

/// All ways must report the same, and the words agree with the stream.
pub fn agree() {
    for rule in RULES {
        let flags = stream("noise", 3_000);
        let mut ways = WAYS.map(|way| open(way, &find(rule)));
        let seen = ways.each_mut().map(|way| {
            way.take(&flags);
            (way.tally(), way.live())
        });
        assert!(seen.iter().all(|s| *s == seen[0]), "{rule}: {seen:?}");
        let words = ways.into_iter().filter_map(|way| way.words);
        for words in words.filter(|words| !words.is_empty()) {
            assert!(calendar::agrees(&words[..8 * 50], &flags), "{rule}: the words");
        }
    }
}

pub fn print_times() {
    println!("\nNanoseconds a step with a calendar and without (median of rounds in turns).");
    println!("\n| rule, stream | {} |", WAYS.join(" | "));
    println!("|---{}|", "|---".repeat(WAYS.len()));
    for rule in RULES {
        for of in ["up", "noise"] {
            let ways = WAYS.map(|way| Box::new(open(way, &find(rule))) as Box<dyn Way>);
            let times = time::nanoseconds(ways, &stream(of, LENGTH));
            let times = times.map(|time| format!("{time:.0}"));
            println!("| {rule}, {of} | {} |", times.join(" | "));
        }
    }
}
