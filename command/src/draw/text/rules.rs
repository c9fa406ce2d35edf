//! The rows of a rule: a letter joins each tick that breaks it to the step that decided it;
//! or, where a column has several ticks, a digit says how many break it.

use super::layout::{wrapped, Layout};
use crate::draw::violations::{RuleViolations, Violation};
use station_watch::Refusal;

pub fn rows(layout: &Layout, violations: &RuleViolations) -> Result<String, Refusal> {
    let name = format!("rule {}", violations.rule);
    match violations.listed {
        Some(listed) if layout.each == 1 => {
            let (ticks, steps) = lettered(layout, listed);
            Ok(layout.row(&name, &ticks, violations.count) + &layout.row_below("  at", &steps))
        }
        _ => {
            let counts = violations.marked.counts(&layout.columns)?;
            Ok(layout.row(&name, &numbered(&counts), violations.count))
        }
    }
}

pub fn legend(layout: &Layout) -> String {
    let marks = match layout.each {
        1 => "Letters: ticks that break a rule;  the same letter below: the deciding step",
        _ => "1 to 9: so many violations  * more",
    };
    wrapped(marks, layout.width)
}

/// A letter at each tick, and the same letter at its step. The next step has the next letter.
fn lettered(layout: &Layout, listed: &[Violation]) -> (String, String) {
    let mut ticks = vec!['.'; layout.columns.len()];
    let mut steps = vec![' '; layout.columns.len()];
    let (mut letter, mut before) = ('z', None);
    for Violation { tick, step } in listed {
        if before != Some(step) {
            letter = if letter == 'z' { 'a' } else { (letter as u8 + 1) as char };
            before = Some(step);
        }
        ticks[layout.stretch.column_of(*tick, 1)] = letter;
        if layout.stretch.has(*step) {
            steps[layout.stretch.column_of(*step, 1)] = letter;
        }
    }
    (ticks.into_iter().collect(), steps.into_iter().collect())
}

/// A digit for each column that has violations.
fn numbered(counts: &[u64]) -> String {
    let mark = |count: &u64| match count {
        0 => '.',
        1..=9 => (b'0' + *count as u8) as char,
        _ => '*',
    };
    counts.iter().map(mark).collect()
}
