//! "Opening and stepping" and "From the state": which refusal an opening or a
//! step gets, and what a step reports and counts over a stream.

use super::{
    formula_figures, read_body, rule_body, rule_outcome, Figures, Formula, Outcome, Refusal,
    Verdict, CELL_WORDS, MAX_HISTORY, MAX_TICKS,
};

/// What an accepted opening knows.
#[derive(Clone, Debug)]
pub struct Opened {
    pub formula: Formula,
    pub figures: Figures,
    /// L
    pub history_length: usize,
}

impl Opened {
    /// "Four times the cells": the table words that a step may write.
    pub fn needed_words(&self) -> usize {
        CELL_WORDS * self.figures.cells as usize
    }

    /// "Delay + 1 words": the shortest report.
    pub fn needed_report(&self) -> usize {
        self.figures.delay as usize + 1
    }
}

/// "Opening takes a sheet, a rule number, a lent history of L bytes and a lent
/// cell table". "Opening: 1 to 15, 17, 18." And 23 and 24.
pub fn open(
    sheet: &[u8],
    rule: usize,
    history_length: usize,
    table_words: usize,
) -> Result<Opened, Refusal> {
    let formula = read_body(rule_body(sheet, rule)?)?;
    let figures = formula_figures(&formula)?;
    // "17: history shorter than the figure or above 4,096".
    if history_length < figures.history as usize || history_length > MAX_HISTORY {
        return Err(17);
    }
    let opened = Opened { formula, figures, history_length };
    // "18: cell table shorter than four times the cells."
    if table_words < opened.needed_words() {
        return Err(18);
    }
    Ok(opened)
}

/// The lengths of what a step is lent.
#[derive(Clone, Copy, Debug)]
pub struct Lengths {
    pub history: usize,
    pub table: usize,
    pub report: usize,
}

/// "Step: 17 to 20", for a state and cells that one opening and its steps left.
pub fn step_refusal(opened: &Opened, lent: Lengths, tick: u64) -> Option<Refusal> {
    // "17: [..] at a step, not of length L."
    if lent.history != opened.history_length {
        return Some(17);
    }
    if lent.table < opened.needed_words() {
        return Some(18);
    }
    if lent.report < opened.needed_report() {
        return Some(19);
    }
    if tick >= MAX_TICKS {
        return Some(20);
    }
    None
}

/// What a step answers: the report and how many are live.
#[derive(Clone, Debug, PartialEq, Eq)]
pub struct Answer {
    pub report: Vec<u64>,
    pub live: usize,
}

/// What the last step of a stream answers, word for word: "writes ascending the
/// ticks whose outcome is false at step t. It answers how many, how many are
/// live (outcome still open at t)".
pub fn answer_at(formula: &Formula, stream: &[u8]) -> Answer {
    let t = stream.len() as i64 - 1;
    let mut answer = Answer { report: Vec::new(), live: 0 };
    for p in 0..=t {
        match rule_outcome(formula, stream, p) {
            Outcome::Decided(Verdict::False, step) if step == t => answer.report.push(p as u64),
            Outcome::Decided(..) => {}
            Outcome::Open => answer.live += 1,
        }
    }
    answer
}

/// "Tick p is decided by step d if its outcome over the stream up to tick d
/// isn't open".
pub fn decided_by(formula: &Formula, stream: &[u8], p: i64, d: i64) -> bool {
    rule_outcome(formula, &stream[..=d as usize], p) != Outcome::Open
}

/// The same answers one after the other, for a stream that grows. A tick once
/// decided is not looked at again; that this changes nothing (an outcome stays,
/// with its step, when ticks follow) is tested in tests/consistency.rs.
pub struct Watch {
    formula: Formula,
    stream: Vec<u8>,
    live: Vec<i64>,
}

impl Watch {
    pub fn new(formula: Formula) -> Watch {
        Watch { formula, stream: Vec::new(), live: Vec::new() }
    }

    pub fn stream(&self) -> &[u8] {
        &self.stream
    }

    /// The tick that the next step takes.
    pub fn tick(&self) -> usize {
        self.stream.len()
    }

    pub fn live(&self) -> usize {
        self.live.len()
    }

    pub fn step(&mut self, flag: u8) -> Answer {
        let t = self.stream.len() as i64;
        self.stream.push(flag);
        self.live.push(t);
        let (formula, stream) = (&self.formula, &self.stream);
        let mut report = Vec::new();
        self.live.retain(|&p| match rule_outcome(formula, stream, p) {
            Outcome::Open => true,
            Outcome::Decided(Verdict::True, _) => false,
            Outcome::Decided(Verdict::False, step) => {
                assert_eq!(step, t, "tick {p} was open a step ago");
                report.push(p as u64);
                false
            }
        });
        Answer { report, live: self.live.len() }
    }
}
