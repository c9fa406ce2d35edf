//! Document 02, point 4: "A whole sheet at once." Which refusal an opening or a step of a set
//! gets, and what a step reports and counts.

use super::{
    formula_figures, read_body, rule_place, Figures, Formula, Refusal, Watch, CELL_WORDS,
    MAX_CELLS, MAX_HISTORY, MAX_TICKS,
};

/// A rule of a set, and where its body lies in the sheet.
#[derive(Clone, Debug)]
pub struct SetRule {
    pub start: usize,
    pub size: usize,
    pub formula: Formula,
    pub figures: Figures,
}

/// What an accepted opening knows.
#[derive(Clone, Debug)]
pub struct OpenedSet {
    pub rules: Vec<SetRule>,
    /// L
    pub history_length: usize,
}

impl OpenedSet {
    /// "18 the sum of the cells": the table words that a step may write.
    pub fn needed_words(&self) -> usize {
        CELL_WORDS * all_cells(&self.rules) as usize
    }

    /// The sum of all delay + 1.
    pub fn most_pairs(&self) -> usize {
        self.rules.iter().map(|rule| rule.figures.delay as usize + 1).sum()
    }

    /// "19 twice the sum of all delay + 1": the shortest report.
    pub fn needed_report(&self) -> usize {
        2 * self.most_pairs()
    }

    /// h: "17 reads the largest history figure".
    pub fn history(&self) -> usize {
        let largest = self.rules.iter().map(|rule| rule.figures.history).max();
        largest.unwrap_or(0) as usize
    }
}

/// The sum of their cells.
pub fn all_cells(rules: &[SetRule]) -> u64 {
    rules.iter().map(|rule| rule.figures.cells).sum()
}

/// The rules of a sheet: 1 and 2, then "all the rules' own 4 to 15 in rule order", 23 and 24
/// among them.
pub fn sheet_rules(sheet: &[u8]) -> Result<Vec<SetRule>, Refusal> {
    rule_place(sheet, 0)?;
    let rule = |number| {
        let (start, size) = rule_place(sheet, number)?;
        let formula = read_body(&sheet[start..start + size])?;
        let figures = formula_figures(&formula)?;
        Ok(SetRule { start, size, formula, figures })
    };
    (0..sheet[0] as usize).map(rule).collect()
}

/// "Opening fails at the first rule that would push the sum of cells above 4,096, with number
/// 27, after all the rules' own".
pub fn set_rules(sheet: &[u8]) -> Result<Vec<SetRule>, Refusal> {
    let rules = sheet_rules(sheet)?;
    if all_cells(&rules) as i128 > MAX_CELLS {
        return Err(27);
    }
    Ok(rules)
}

/// The lengths of what an opening or a step of a set is lent.
#[derive(Clone, Copy, Debug)]
pub struct SetLengths {
    pub records: usize,
    pub history: usize,
    pub table: usize,
    pub report: usize,
}

/// "A set opens all the rules of a sheet over one history and one cell table". Its refusals:
/// those of its rules, 27, 17, 18.
pub fn open_set(sheet: &[u8], lent: SetLengths) -> Result<OpenedSet, Refusal> {
    let opened = OpenedSet { rules: set_rules(sheet)?, history_length: lent.history };
    if lent.history < opened.history() || lent.history > MAX_HISTORY {
        return Err(17);
    }
    // "18 the sum of the cells (or fewer records than rules [..])".
    if lent.table < opened.needed_words() || lent.records < opened.rules.len() {
        return Err(18);
    }
    Ok(opened)
}

/// 17 to 20 of a step, for records and cells that one opening and its steps left. Where no
/// record is lent, no opened length is known and 17 does not come.
pub fn set_step_refusal(opened: &OpenedSet, lent: SetLengths, tick: u64) -> Option<Refusal> {
    if lent.records > 0 && lent.history != opened.history_length {
        return Some(17);
    }
    if lent.table < opened.needed_words() || lent.records < opened.rules.len() {
        return Some(18);
    }
    if lent.report < opened.needed_report() {
        return Some(19);
    }
    if tick >= MAX_TICKS {
        return Some(20);
    }
    None
}

/// What a step answers, rule by rule: the ticks reported and how many are live.
#[derive(Clone, Debug)]
pub struct SetAnswer {
    pub reports: Vec<Vec<u64>>,
    pub live: Vec<usize>,
}

impl SetAnswer {
    /// "Reports come as pairs, rule number and then tick, ascending by rule and then by tick".
    pub fn pairs(&self) -> Vec<[u64; 2]> {
        let of_rule = |(rule, ticks): (usize, &Vec<u64>)| {
            ticks.iter().map(|&tick| [rule as u64, tick]).collect::<Vec<_>>()
        };
        self.reports.iter().enumerate().flat_map(of_rule).collect()
    }

    /// "Live counts add up."
    pub fn all_live(&self) -> usize {
        self.live.iter().sum()
    }
}

/// "Each rule's part equals what it reports when opened by itself": each is watched by itself.
pub struct SetWatch {
    watches: Vec<Watch>,
}

impl SetWatch {
    pub fn new(rules: &[SetRule]) -> SetWatch {
        SetWatch { watches: rules.iter().map(|rule| Watch::new(rule.formula.clone())).collect() }
    }

    /// The tick that the next step takes.
    pub fn tick(&self) -> usize {
        self.watches[0].tick()
    }

    /// How many are live in all.
    pub fn live(&self) -> usize {
        self.watches.iter().map(Watch::live).sum()
    }

    pub fn step(&mut self, flag: u8) -> SetAnswer {
        let answers: Vec<_> = self.watches.iter_mut().map(|watch| watch.step(flag)).collect();
        SetAnswer {
            live: answers.iter().map(|answer| answer.live).collect(),
            reports: answers.into_iter().map(|answer| answer.report).collect(),
        }
    }
}
