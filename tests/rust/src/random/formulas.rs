//! Formulas of all five codes, and rules that the engine accepts.

use super::empty_ranges::{empty_or_tame, uncounted};
use super::Random;
use crate::paper::{
    formula_figures, tick_pair, variable_pair, write_body, Bound, Figures, Formula, Pair,
    MAX_FORMULAS, MAX_NESTED, MAX_OFFSET,
};

/// A rule that the engine accepts.
#[derive(Clone, Debug)]
pub struct Rule {
    pub formula: Formula,
    pub body: Vec<u8>,
    pub figures: Figures,
}

/// How rules that the engine accepts are made.
pub type Maker = fn(&mut Random) -> Rule;

/// What a random formula is aimed at.
#[derive(Clone, Copy)]
pub(super) struct Aim {
    /// The number of formulas.
    pub size: usize,
    /// The most nested quantifiers.
    pub nested: usize,
    /// Offsets of first bounds lie from `low` to `high`.
    pub low: i64,
    pub high: i64,
    /// A range has up to this many positions more than one.
    pub width: i64,
    pub ranges: Ranges,
}

/// Which ranges a random formula has.
#[derive(Clone, Copy, PartialEq)]
pub(super) enum Ranges {
    /// Those that the engine accepts.
    Tame,
    /// Half of them with bounds and offsets of every kind, also at the limits.
    Wild,
    /// Many always empty, over anything; the others tame.
    OftenEmpty,
}

/// A formula with bounds of every kind, which the body reader accepts and the
/// engine mostly doesn't.
pub fn wild_formula(random: &mut Random) -> Formula {
    let size = if random.one_in(8) { random.size(1, MAX_FORMULAS) } else { random.size(1, 12) };
    let nested = random.size(0, MAX_NESTED);
    let ranges = if random.one_in(4) { Ranges::Tame } else { Ranges::Wild };
    made(random, Aim { size, nested, low: -3, high: 3, width: 3, ranges })
}

/// A rule that the engine accepts. Most have a delay of 1 to 20.
pub fn accepted_rule(random: &mut Random) -> Rule {
    accepted(random, candidate)
}

/// The first of these candidates that the engine accepts, and few without delay or range.
pub(super) fn accepted(random: &mut Random, candidate: fn(&mut Random) -> Formula) -> Rule {
    loop {
        let formula = candidate(random);
        let Ok(figures) = formula_figures(&formula) else {
            continue;
        };
        if figures.delay == 0 && !random.one_in(4) {
            continue;
        }
        if quantifiers(&formula) == 0 && !random.one_in(8) {
            continue;
        }
        return Rule { body: write_body(&formula), formula, figures };
    }
}

fn candidate(random: &mut Random) -> Formula {
    match random.below(20) {
        0..=8 => {
            let (size, nested) = (random.size(2, 12), random.size(1, 3));
            made(random, Aim { size, nested, low: -3, high: 4, width: 4, ranges: Ranges::Tame })
        }
        9..=11 => {
            let size = random.size(5, 20);
            made(random, Aim { size, nested: 4, low: -2, high: 2, width: 2, ranges: Ranges::Tame })
        }
        12..=13 => {
            let (size, nested) = (random.size(2, 6), random.size(1, 2));
            made(random, Aim { size, nested, low: -25, high: 8, width: 12, ranges: Ranges::Tame })
        }
        14..=15 => four_ranges(random),
        16 => {
            let (size, nested) = (random.size(2, 4), random.size(1, 2));
            made(random, Aim { size, nested, low: -9, high: 250, width: 5, ranges: Ranges::Tame })
        }
        17 => long_history(random),
        18 => {
            let size = random.size(20, MAX_FORMULAS);
            made(random, Aim { size, nested: 2, low: -1, high: 2, width: 1, ranges: Ranges::Tame })
        }
        _ => wild_formula(random),
    }
}

/// Four nested ranges of one to three positions, with nots and conjunctions
/// between them.
fn four_ranges(random: &mut Random) -> Formula {
    let aim = Aim { size: 2, nested: 4, low: -2, high: 2, width: 1, ranges: Ranges::Tame };
    let mut formula = flag(random, 4);
    for nested in (0..MAX_NESTED).rev() {
        let (first, second) = tame_range(random, aim, nested);
        formula = Formula::ForAll(first, second, Box::new(formula));
        formula = match random.below(6) {
            0 | 1 => not(formula),
            2 => then(flag(random, nested), formula),
            3 => beside(formula, flag(random, nested)),
            _ => formula,
        };
    }
    formula
}

/// A range that reaches far back, alone or under a "then" or another range that
/// starts it later.
fn long_history(random: &mut Random) -> Formula {
    let nested = random.below(2);
    let low = -random.between(1, MAX_OFFSET);
    let width = if random.one_in(2) { random.between(0, -low) } else { random.between(0, 3) };
    let first = Bound::Variable(nested, low);
    let second = Bound::Variable(nested, low + width);
    let range = Formula::ForAll(first, second, Box::new(flag(random, nested + 1)));
    let range = if random.one_in(2) { not(range) } else { range };
    let later = random.between(0, 8);
    let now = Bound::Variable(0, random.between(0, later));
    let end = Bound::Variable(0, later);
    if nested == 1 {
        return Formula::ForAll(now, end, Box::new(range));
    }
    let wait = Formula::ForAll(now, end, Box::new(flag(random, 1)));
    match random.below(3) {
        0 => then(wait, range),
        1 => beside(range, wait),
        _ => range,
    }
}

/// A rule's formula of `aim.size` formulas, and more where ranges are empty.
pub(super) fn made(random: &mut Random, aim: Aim) -> Formula {
    tree(random, aim, &mut tick_pair())
}

/// A formula in which variables of these pairs are bound.
pub(super) fn tree(random: &mut Random, aim: Aim, pairs: &mut Vec<Pair>) -> Formula {
    let nested = pairs.len() - 1;
    if aim.size == 1 {
        return flag(random, nested);
    }
    let rest = Aim { size: aim.size - 1, ..aim };
    let choice = random.below(10);
    if choice < 5 && nested < aim.nested {
        let bounds = range(random, aim, pairs);
        return for_all(random, rest, pairs, bounds);
    }
    if choice < 7 || aim.size == 2 {
        return not(tree(random, rest, pairs));
    }
    let left = random.size(1, aim.size - 2);
    let f = tree(random, Aim { size: left, ..aim }, pairs);
    let g = tree(random, Aim { size: aim.size - 1 - left, ..aim }, pairs);
    if random.one_in(2) {
        then(f, g)
    } else {
        beside(f, g)
    }
}

/// The range between these bounds, over what is aimed at.
fn for_all(
    random: &mut Random,
    aim: Aim,
    pairs: &mut Vec<Pair>,
    (first, second): (Bound, Bound),
) -> Formula {
    let pair = variable_pair(first, second, pairs);
    pairs.push(pair);
    let part = if aim.ranges == Ranges::OftenEmpty && pair.always_empty() {
        uncounted(random, aim, pairs)
    } else {
        tree(random, aim, pairs)
    };
    pairs.pop();
    Formula::ForAll(first, second, Box::new(part))
}

fn not(part: Formula) -> Formula {
    Formula::Not(Box::new(part))
}

fn then(f: Formula, g: Formula) -> Formula {
    Formula::Then(Box::new(f), Box::new(g))
}

fn beside(f: Formula, g: Formula) -> Formula {
    Formula::Beside(Box::new(f), Box::new(g))
}

/// A flag at some variable, most often at the innermost.
pub(super) fn flag(random: &mut Random, nested: usize) -> Formula {
    let variable = if random.one_in(3) { random.size(0, nested) } else { nested };
    let flag = if random.one_in(8) { random.below(8) as u8 } else { random.pick(&[0, 0, 1, 7]) };
    Formula::Flag(variable, flag)
}

fn range(random: &mut Random, aim: Aim, pairs: &[Pair]) -> (Bound, Bound) {
    let nested = pairs.len() - 1;
    match aim.ranges {
        Ranges::OftenEmpty => empty_or_tame(random, aim, pairs),
        Ranges::Wild if random.one_in(2) => {
            (wild_bound(random, nested), wild_bound(random, nested))
        }
        _ => tame_range(random, aim, nested),
    }
}

/// A range that the engine accepts: most often from one variable's
/// neighbourhood, sometimes none, with position 0 at its end, with infinity at
/// its beginning, or from one variable to another.
pub(super) fn tame_range(random: &mut Random, aim: Aim, nested: usize) -> (Bound, Bound) {
    let variable = random.size(0, nested);
    let low = random.between(aim.low, aim.high);
    let high = low + random.between(0, aim.width);
    let first = Bound::Variable(variable, low);
    match random.below(20) {
        0 => (Bound::Variable(variable, high + 1), first),
        1 => (first, Bound::Start(random.between(-3, 20))),
        2 => (Bound::Infinity, first),
        3 | 4 => (first, Bound::Variable(random.size(0, nested), high)),
        _ => (first, Bound::Variable(variable, high)),
    }
}

pub(super) fn wild_bound(random: &mut Random, nested: usize) -> Bound {
    let offset = wild_offset(random);
    match random.below(8) {
        0 | 1 => Bound::Start(offset),
        2 => Bound::Infinity,
        _ => Bound::Variable(random.size(0, nested), offset),
    }
}

/// Small, at a power of 2, at the limits, or any.
fn wild_offset(random: &mut Random) -> i64 {
    match random.below(8) {
        0..=3 => random.between(-4, 4),
        4 => random.pick(&[-257, -256, -255, 254, 255, 256, 257]),
        5 => random.pick(&[-MAX_OFFSET, -MAX_OFFSET + 1, MAX_OFFSET - 1, MAX_OFFSET]),
        6 => random.pick(&[-2049, -2048, -128, -127, 62, 63, 127, 128, 2047, 2048]),
        _ => random.between(-MAX_OFFSET, MAX_OFFSET),
    }
}

/// How many formulas a formula holds, itself included.
pub fn size(formula: &Formula) -> usize {
    match formula {
        Formula::Flag(..) => 1,
        Formula::Not(part) | Formula::ForAll(_, _, part) => 1 + size(part),
        Formula::Then(f, g) | Formula::Beside(f, g) => 1 + size(f) + size(g),
    }
}

/// How many quantifiers a formula holds.
pub fn quantifiers(formula: &Formula) -> usize {
    match formula {
        Formula::Flag(..) => 0,
        Formula::Not(part) => quantifiers(part),
        Formula::ForAll(_, _, part) => 1 + quantifiers(part),
        Formula::Then(f, g) | Formula::Beside(f, g) => quantifiers(f) + quantifiers(g),
    }
}

/// How many quantifiers are nested in a formula.
pub fn depth(formula: &Formula) -> usize {
    match formula {
        Formula::Flag(..) => 0,
        Formula::Not(part) => depth(part),
        Formula::ForAll(_, _, part) => 1 + depth(part),
        Formula::Then(f, g) | Formula::Beside(f, g) => depth(f).max(depth(g)),
    }
}

/// At most this many formulas are evaluated for one outcome over a recording of
/// `length` ticks: no range has more positions than the recording, nor more
/// than its offsets allow where both bounds name the same variable, and one that is always
/// empty has none.
pub fn visits(formula: &Formula, length: usize) -> u64 {
    visits_inside(formula, length, &mut tick_pair())
}

/// The same where variables of these pairs are bound.
fn visits_inside(formula: &Formula, length: usize, pairs: &mut Vec<Pair>) -> u64 {
    match formula {
        Formula::Flag(..) => 1,
        Formula::Not(part) => 1 + visits_inside(part, length, pairs),
        Formula::Then(f, g) | Formula::Beside(f, g) => {
            let of_f = 1 + visits_inside(f, length, pairs);
            of_f.saturating_add(visits_inside(g, length, pairs))
        }
        Formula::ForAll(first, second, part) => {
            let pair = variable_pair(*first, *second, pairs);
            if pair.always_empty() {
                return 1;
            }
            pairs.push(pair);
            let of_part = visits_inside(part, length, pairs);
            pairs.pop();
            positions(*first, *second, length).saturating_mul(of_part).saturating_add(1)
        }
    }
}

fn positions(first: Bound, second: Bound, length: usize) -> u64 {
    match (first, second) {
        (Bound::Variable(v, low), Bound::Variable(w, high)) if v == w => {
            (high - low + 1).clamp(0, length as i64) as u64
        }
        _ => length as u64,
    }
}
