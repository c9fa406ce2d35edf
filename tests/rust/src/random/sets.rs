//! Rules for a set: as many as open together, and sheets of about as many.

use super::bodies::neighbours;
use super::formulas::{accepted_rule, Maker, Rule};
use super::sheets::{damage, sheet_of};
use super::Random;
use crate::paper::{
    formula_figures, write_body, Bound, Formula, MAX_BODY, MAX_CELLS, MAX_RULES, RULE_REFUSALS,
};

/// 1 to 32 rules that have at most 4,096 cells together; now and then two are the same.
pub fn rule_set(random: &mut Random) -> Vec<Rule> {
    rule_set_of(random, accepted_rule)
}

/// The same of rules that are made so.
pub fn rule_set_of(random: &mut Random, make: Maker) -> Vec<Rule> {
    let count = match random.below(6) {
        0 => random.size(1, 2),
        1 | 2 => random.size(2, 5),
        3 | 4 => random.size(5, 14),
        _ => random.size(14, MAX_RULES),
    };
    rules_within(random, make, count, MAX_CELLS as u64)
}

/// So many rules that are made so and have at most so many cells together.
pub fn rules_within(random: &mut Random, make: Maker, count: usize, cells: u64) -> Vec<Rule> {
    let mut rules: Vec<Rule> = Vec::new();
    let mut left = cells;
    for missing in (1..=count).rev() {
        let share = left / missing as u64;
        let rule = if !rules.is_empty() && random.one_in(8) {
            smallest(&rules)
        } else {
            rule_within(random, make, share)
        };
        left -= rule.figures.cells;
        rules.insert(random.size(0, rules.len()), rule);
    }
    rules
}

fn rule_within(random: &mut Random, make: Maker, cells: u64) -> Rule {
    loop {
        let rule = make(random);
        if rule.figures.cells <= cells {
            return rule;
        }
    }
}

/// It is within every share that is left.
fn smallest(rules: &[Rule]) -> Rule {
    rules.iter().min_by_key(|rule| rule.figures.cells).expect("a rule").clone()
}

/// A rule of exactly so many cells, 1 to 4,096: a flag, a range of no positions, or one of all
/// but two of them, which ends with the tick.
pub fn rule_of_cells(cells: u64) -> Rule {
    let x = |offset| Bound::Variable(0, offset);
    let range = |first| Formula::ForAll(first, x(0), Box::new(Formula::Flag(1, 0)));
    let formula = match cells {
        1 => Formula::Flag(0, 0),
        2 => range(Bound::Infinity),
        _ => range(x(3 - cells as i64)),
    };
    let rule = rule_of(formula);
    assert_eq!(rule.figures.cells, cells, "{rule:?}");
    rule
}

/// The rule of a range from X to X + n, n at most 62: its delay is n.
pub fn rule_ahead(n: i64) -> Rule {
    let x = |offset| Bound::Variable(0, offset);
    rule_of(Formula::ForAll(x(0), x(n), Box::new(Formula::Flag(1, 0))))
}

/// The rule of this formula, which the engine accepts.
pub fn rule_of(formula: Formula) -> Rule {
    let figures = formula_figures(&formula).expect("the rule opens");
    Rule { body: write_body(&formula), formula, figures }
}

/// The sheet of these rules.
pub fn sheet_of_rules(rules: &[Rule]) -> Vec<u8> {
    let bodies: Vec<Vec<u8>> = rules.iter().map(|rule| rule.body.clone()).collect();
    sheet_of(&bodies)
}

/// A sheet whose rules open together or just do not: for their sum of cells, for rules of
/// their own, or for the sheet itself.
pub fn any_set_sheet(random: &mut Random) -> Vec<u8> {
    let mut rules = rule_set(random);
    if random.one_in(2) {
        fill(random, &mut rules);
    }
    let mut bodies: Vec<Vec<u8>> = rules.into_iter().map(|rule| rule.body).collect();
    if random.one_in(3) {
        for _ in 0..random.size(1, 2) {
            let at = random.below(bodies.len());
            bodies[at] = refused_body(random);
        }
    }
    let mut sheet = sheet_of(&bodies);
    if random.one_in(6) {
        damage(random, &mut sheet);
    }
    sheet
}

/// One rule more, or another in the place of one, so that the sum of cells is about 4,096.
fn fill(random: &mut Random, rules: &mut Vec<Rule>) {
    let at = random.below(rules.len());
    if rules.len() == MAX_RULES || random.one_in(2) {
        rules.remove(at);
    }
    let sum: u64 = rules.iter().map(|rule| rule.figures.cells).sum();
    let wished = random.pick(&[4095, 4096, 4096, 4097, 4097, 4098, 5000, 8192]);
    let cells = u64::saturating_sub(wished, sum).clamp(1, MAX_CELLS as u64);
    rules.insert(at, rule_of_cells(cells));
}

/// A body that has a refusal of its own, 1 to 512 bytes.
fn refused_body(random: &mut Random) -> Vec<u8> {
    let number = random.pick(RULE_REFUSALS);
    refused_with(random, number)
}

/// The same with this number.
pub fn refused_with(random: &mut Random, number: u32) -> Vec<u8> {
    loop {
        let body = neighbours(random, number).outside;
        if (1..=MAX_BODY).contains(&body.len()) {
            return body;
        }
    }
}
