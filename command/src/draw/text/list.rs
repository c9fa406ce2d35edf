//! The violations in numbers, below the picture.

use crate::draw::violations::{RuleViolations, Violation};

/// The most violations that are listed one by one.
const LISTED: u64 = 20;

/// The violations as `watch` tells them; or, where they are too many, a line for each rule.
pub fn all(rules: &[RuleViolations], count: u64) -> String {
    if count > LISTED {
        return rules.iter().filter_map(summed).collect();
    }
    let mut all = Vec::new();
    for RuleViolations { rule, listed, .. } in rules {
        all.extend(listed.unwrap_or(&[]).iter().map(|told| (told.step, *rule, told.tick)));
    }
    all.sort_unstable();
    let line = |(step, rule, tick)| format!("violation {rule} {tick} at {step}\n");
    all.into_iter().map(line).collect()
}

/// How many there are, the first and the last.
fn summed(violations: &RuleViolations) -> Option<String> {
    let (first, last) = violations.ends?;
    let told = |Violation { tick, step }| format!("{tick} at {step}");
    let (rule, count) = (violations.rule, violations.count);
    Some(format!("rule {rule} violations {count} first {} last {}\n", told(first), told(last)))
}
