//! A rule and its violations: one by one, each tick joined to its deciding step; or, where
//! that could not be read, counted.

use super::joined;
use super::page::{Page, COUNTS, LEFT, NAMES};
use crate::draw::scale::Stretch;
use crate::draw::violations::{RuleViolations, Violation};
use crate::draw::words::{counted, grouped, shortened};
use station_watch::Refusal;

/// Violations are drawn one by one where no two ticks are closer.
const APART: f64 = 4.0;

/// The most letters of a rule's text.
const TEXT: usize = 150;

/// Its violations, if they are drawn one by one.
pub fn one_by_one<'a>(page: &Page, violations: &RuleViolations<'a>) -> Option<&'a [Violation]> {
    let listed = violations.listed?;
    let mut ticks: Vec<u64> = listed.iter().map(|violation| violation.tick).collect();
    ticks.sort_unstable();
    let apart = |pair: &[u64]| (pair[1] - pair[0]) as f64 * page.tick() >= APART;
    ticks.windows(2).all(apart).then_some(listed)
}

pub fn draw(
    page: &mut Page,
    violations: &RuleViolations,
    columns: &[Stretch],
) -> Result<(), Refusal> {
    head(page, violations);
    match one_by_one(page, violations) {
        Some([]) => {
            page.across("base", page.y + 4.0);
            page.y += 14.0;
        }
        Some(listed) => joined::draw(page, listed),
        None => super::counted::draw(page, violations.marked, columns)?,
    }
    Ok(())
}

/// Its number, its text, how many violations there are and how late they were certain.
fn head(page: &mut Page, violations: &RuleViolations) {
    let y = page.y + 14.0;
    page.words("name", (NAMES, y), &format!("rule {}", violations.rule));
    page.words("text", (LEFT, y), &shortened(violations.text, TEXT));
    page.words("count", (COUNTS, y), &count(violations.count));
    if let Some((fewest, most)) = violations.later {
        page.words("small", (COUNTS, y + 15.0), &later(fewest, most));
    }
    page.y += 20.0;
}

/// How many, in the room that there is.
fn count(violations: u64) -> String {
    match violations {
        0 => "never broken".to_string(),
        1..10_000_000 => counted(&grouped(violations), "violation"),
        _ => grouped(violations),
    }
}

fn later(fewest: u64, most: u64) -> String {
    match (fewest, most) {
        (0, 0) => "certain at once".to_string(),
        (1, 1) => "certain 1 step later".to_string(),
        _ if fewest == most => format!("certain {most} steps later"),
        _ => format!("certain {fewest} to {most} later"),
    }
}
