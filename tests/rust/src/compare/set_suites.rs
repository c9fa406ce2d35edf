//! The suites of sets: many random calls of one kind, and chosen ones at the limits. Each stops
//! at the first difference, and tells what was seen.

use super::set_calls::{set_figures, set_opening};
use super::set_runs::{set_run, SetTally};
use super::{hex, Check, Numbers};
use crate::demand;
use crate::library::Library;
use crate::notation::{all, flag, x, INFINITY, Y};
use crate::paper::{
    set_rules, OpenedSet, SetLengths, CELL_WORDS, MAX_HISTORY, MAX_RULES, RULE_REFUSALS,
};
use crate::random::{self, Maker, Random, Rule};
use std::slice::from_ref;

/// At least so many sets and so many steps.
pub fn set_runs(library: &dyn Library, seed: u64, sets: u64, steps: u64) -> Check<SetTally> {
    set_runs_of(library, random::accepted_rule, seed, sets, steps)
}

/// The same of rules that are made so.
pub(super) fn set_runs_of(
    library: &dyn Library,
    make: Maker,
    seed: u64,
    sets: u64,
    steps: u64,
) -> Check<SetTally> {
    let mut random = Random::new(seed);
    let mut tally = SetTally::default();
    let average = (steps / sets) as usize;
    while tally.sets < sets || tally.steps < steps {
        let rules = random::rule_set_of(&mut random, make);
        let history = some_history_length(&mut random, &rules);
        let taken = some_steps(&mut random, &rules, average);
        set_run(library, &mut random, &rules, history, taken, &mut tally)?;
    }
    Ok(tally)
}

fn largest_history(rules: &[Rule]) -> usize {
    rules.iter().map(|rule| rule.figures.history).max().unwrap_or(0) as usize
}

/// About the average; a few streams go twice round a long history.
fn some_steps(random: &mut Random, rules: &[Rule], average: usize) -> usize {
    let history = largest_history(rules);
    if history > 200 && random.one_in(100) {
        return 2 * history + random.below(200);
    }
    let often = if random.one_in(30) { 3 } else { 1 };
    often * random.size(average / 2, average * 3 / 2)
}

/// h, h + 1, 4,096, or one between.
fn some_history_length(random: &mut Random, rules: &[Rule]) -> usize {
    let least = largest_history(rules);
    let length = match random.below(8) {
        0..=2 => least,
        3 | 4 => least + 1,
        5 => MAX_HISTORY,
        6 => least + random.below(20),
        _ => random.size(least, MAX_HISTORY),
    };
    length.min(MAX_HISTORY)
}

/// Figures and openings of sheets around what is accepted, with lengths around the right ones.
pub fn set_openings(library: &dyn Library, seed: u64, count: usize) -> Check<Numbers> {
    let mut random = Random::new(seed);
    let mut numbers = Numbers::default();
    for _ in 0..count {
        let sheet = random::any_set_sheet(&mut random);
        let lengths = lengths_around(&mut random, &sheet);
        numbers.add(set_figures(library, &sheet)?);
        numbers.add(set_opening(library, &mut random, &sheet, lengths)?);
    }
    Ok(numbers)
}

/// What the set needs, or a little less or more of some of it; anything, where it is refused.
fn lengths_around(random: &mut Random, sheet: &[u8]) -> SetLengths {
    let needs = match set_rules(sheet) {
        Ok(rules) => lengths_needed(&OpenedSet { rules, history_length: 0 }),
        Err(_) => SetLengths {
            records: random.size(0, MAX_RULES),
            history: random.size(0, 40),
            table: random.size(0, 400),
            report: 0,
        },
    };
    let SetLengths { records, history, table, report } = needs;
    let below = |number: usize| number.saturating_sub(1);
    SetLengths {
        records: random.pick(&[records, records, records + 1, records + 9, below(records)]),
        history: match random.below(8) {
            0 => below(history),
            1 => random.pick(&[0, MAX_HISTORY + 1]),
            2 => MAX_HISTORY,
            _ => history,
        },
        table: random.pick(&[table, table, table, table + 9, below(table)]),
        report,
    }
}

fn lengths_needed(set: &OpenedSet) -> SetLengths {
    SetLengths {
        records: set.rules.len(),
        history: set.history(),
        table: set.needed_words(),
        report: 0,
    }
}

/// Sums of cells of exactly 4,096 and 4,097, the largest rule at every place, and sums that 16
/// bits do not hold.
pub fn set_sums(library: &dyn Library) -> Check<Numbers> {
    let mut random = Random::new(4);
    let mut numbers = Numbers::default();
    for (rules, due) in sum_cases() {
        let sheet = random::sheet_of_rules(&rules);
        let cells: Vec<u64> = rules.iter().map(|rule| rule.figures.cells).collect();
        let number = set_figures(library, &sheet)?;
        demand!(number == due, "cells {cells:?}: answered {number}, due is {due}");
        let history = largest_history(&rules);
        let table = CELL_WORDS * cells.iter().sum::<u64>() as usize;
        let enough = SetLengths { records: rules.len(), history, table, report: 0 };
        let number = set_opening(library, &mut random, &sheet, enough)?;
        demand!(number == due, "cells {cells:?} opened: answered {number}, due is {due}");
        numbers.add(number);
    }
    Ok(numbers)
}

fn sum_cases() -> Vec<(Vec<Rule>, u32)> {
    let of_cells = |(cells, due): (Vec<u64>, u32)| {
        (cells.into_iter().map(random::rule_of_cells).collect::<Vec<_>>(), due)
    };
    let chosen = chosen_sums().into_iter().map(of_cells);
    let placed = (2..=MAX_RULES).flat_map(placed_sums).map(of_cells);
    chosen.chain(placed).chain(delayed_sums()).chain(always_empty_sums()).collect()
}

fn chosen_sums() -> Vec<(Vec<u64>, u32)> {
    vec![
        (vec![4096], 0),
        (vec![1365, 1365, 1366], 0),
        (vec![1366, 1366, 1365], 27),
        (vec![2048, 2048, 1], 27),
        (vec![1, 2048, 2048], 27),
        (vec![128; 32], 0),
        (vec![4096; 2], 27),
        // 65,536 and a little more, and twice as many.
        (vec![4096; 16], 27),
        ([vec![4096; 16], vec![1]].concat(), 27),
        ([vec![1], vec![4096; 16]].concat(), 27),
        (vec![4096; 32], 27),
    ]
}

/// One large rule among those of one cell, at every place.
fn placed_sums(count: usize) -> Vec<(Vec<u64>, u32)> {
    let with = |place: usize, cells| {
        let mut all = vec![1; count];
        all[place] = cells;
        all
    };
    let largest = 4097 - count as u64;
    let of_place = |place| [(with(place, largest), 0), (with(place, largest + 1), 27)];
    let mut cases: Vec<_> = (0..count).flat_map(of_place).collect();
    // The sum is passed at the last rule alone.
    let mut cells = vec![4096 / (count as u64 - 1); count];
    cells[count - 1] = 4097 - cells[..count - 1].iter().sum::<u64>();
    cases.push((cells, 27));
    cases
}

/// Ranges from X to X + n, which have (n + 1) * (n + 3) cells, filled up to 4,096 and 4,097 by a
/// rule before or after them.
fn delayed_sums() -> Vec<(Vec<Rule>, u32)> {
    let filled = |n: i64| {
        let delayed = random::rule_ahead(n);
        let left = 4096 - delayed.figures.cells;
        [(left, 0), (left + 1, 27)].into_iter().flat_map(move |(cells, due)| {
            let filler = random::rule_of_cells(cells);
            let (before, after) = (filler.clone(), filler);
            [(vec![before, delayed.clone()], due), (vec![delayed.clone(), after], due)]
        })
    };
    (0..=62).flat_map(filled).collect()
}

/// Nine ranges that are always empty and would have 512 cells each, 4,608 together, were their
/// delay of 255 counted (02, point 6): they have 18. By themselves, and filled up as above.
fn always_empty_sums() -> Vec<(Vec<Rule>, u32)> {
    let none = vec![random::rule_of(all(INFINITY, x(255), flag(0, Y))); 9];
    let with = |cells| [&none[..], &[random::rule_of_cells(cells)]].concat();
    vec![(none.clone(), 0), (with(4096 - 18), 0), (with(4097 - 18), 27)]
}

/// Sheets with many reasons for a refusal: 1, 2, the first refused rule's, 27, 17, 18, of which
/// the first comes.
pub fn set_orders(library: &dyn Library, seed: u64) -> Check<Numbers> {
    let mut random = Random::new(seed);
    let mut numbers = Numbers::default();
    let all_wrong = SetLengths { records: 0, history: MAX_HISTORY + 1, table: 0, report: 0 };
    let large = [4096, 1, 4096].map(|cells| random::rule_of_cells(cells).body);
    for &first in RULE_REFUSALS {
        for &second in RULE_REFUSALS {
            let refused = [first, second].map(|number| random::refused_with(&mut random, number));
            for (sheet, due) in spoilt_sheets(&large, &refused, first) {
                let number = set_figures(library, &sheet)?;
                let opened = set_opening(library, &mut random, &sheet, all_wrong)?;
                let same = (number, opened) == (due, due);
                demand!(same, "{}: {number} and {opened}, due is {due}", hex(&sheet));
                numbers.add(number);
            }
        }
    }
    set_lengths(library, &mut random, &mut numbers)?;
    Ok(numbers)
}

/// The two refused bodies among those that are too large together, with the number that is due
/// to the sheet: before all of them, between them, after them; and with a sheet that is wrong.
fn spoilt_sheets(large: &[Vec<u8>], refused: &[Vec<u8>; 2], first: u32) -> Vec<(Vec<u8>, u32)> {
    let [one, two] = refused;
    let at_the_end = [large, &[one.clone(), two.clone()]].concat();
    let around = [from_ref(one), large, from_ref(two)].concat();
    let between = [&large[..2], &[one.clone(), two.clone()], &large[2..]].concat();
    let sheets = [at_the_end, around, between].map(|bodies| random::sheet_of(&bodies));
    let mut all: Vec<_> = sheets.iter().map(|sheet| (sheet.clone(), first)).collect();
    let mut longer = sheets[0].clone();
    longer.push(0);
    all.push((longer, 2));
    let mut none = sheets[0].clone();
    none[0] = 0;
    all.push((none, 1));
    all
}

/// 27 before 17, and 17 before 18, at their limits.
fn set_lengths(library: &dyn Library, random: &mut Random, numbers: &mut Numbers) -> Check {
    let too_large = [4096, 1].map(random::rule_of_cells);
    let wrong = SetLengths { records: 0, history: MAX_HISTORY + 1, table: 0, report: 0 };
    let number = set_opening(library, random, &random::sheet_of_rules(&too_large), wrong)?;
    demand!(number == 27, "too many cells: answered {number}, due is 27");
    for place in 0..3 {
        // The largest history figure is 97, at every place.
        let mut rules = [30, 50, 40].map(random::rule_of_cells);
        rules[place] = random::rule_of_cells(100);
        let cells: u64 = rules.iter().map(|rule| rule.figures.cells).sum();
        let sheet = random::sheet_of_rules(&rules);
        let right = SetLengths { records: 3, history: 97, table: 4 * cells as usize, report: 0 };
        for (lengths, due) in around(right) {
            let number = set_opening(library, random, &sheet, lengths)?;
            demand!(number == due, "{lengths:?} answered {number}, due is {due}");
            numbers.add(number);
        }
    }
    Ok(())
}

/// Lengths at the limits of an opening that needs these, and the number due.
fn around(right: SetLengths) -> Vec<(SetLengths, u32)> {
    let SetLengths { records, history, table, .. } = right;
    let few = SetLengths { records: records - 1, ..right };
    let short = SetLengths { table: table - 1, ..right };
    vec![
        (right, 0),
        (SetLengths { history: MAX_HISTORY, ..right }, 0),
        (SetLengths { records: records + 1, table: table + 1, ..right }, 0),
        (SetLengths { history: history - 1, ..right }, 17),
        (SetLengths { history: MAX_HISTORY + 1, ..right }, 17),
        (SetLengths { history: history - 1, ..few }, 17),
        (SetLengths { history: MAX_HISTORY + 1, ..short }, 17),
        (few, 18),
        (short, 18),
        (SetLengths { records: 0, table: 0, ..right }, 18),
    ]
}
