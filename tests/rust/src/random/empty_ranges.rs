//! Rules in which one range in four is always empty (02, point 6). No figure counts the bodies of
//! these, so they hold anything that can be written.

use super::formulas::{
    accepted, accepted_rule, flag, made, size, tame_range, tree, wild_bound, Aim, Ranges, Rule,
};
use super::Random;
use crate::paper::{
    tick_pair, variable_pair, write_body, Bound, Formula, Low, Pair, MAX_FORMULAS, MAX_NESTED,
    MAX_OFFSET,
};

/// A rule that the engine accepts; one in three is such a rule.
pub fn some_rule(random: &mut Random) -> Rule {
    if random.one_in(3) {
        often_empty_rule(random)
    } else {
        accepted_rule(random)
    }
}

/// A rule that the engine accepts.
pub fn often_empty_rule(random: &mut Random) -> Rule {
    accepted(random, often_empty_formula)
}

/// A formula that the body reader accepts, and the engine mostly too.
pub fn often_empty_formula(random: &mut Random) -> Formula {
    let (least, most, nested, offset) = match random.below(8) {
        0..=3 => (2, 12, random.size(1, 3), 3),
        4..=6 => (5, 20, MAX_NESTED, 2),
        _ => (20, 40, 2, 1),
    };
    loop {
        let aim = Aim {
            size: random.size(least, most),
            nested,
            low: -offset,
            high: offset,
            width: offset,
            ranges: Ranges::OftenEmpty,
        };
        let formula = made(random, aim);
        if size(&formula) <= MAX_FORMULAS {
            return formula;
        }
    }
}

/// The body of an always empty range: as many ranges at full offsets as can be nested, or any
/// formula, now and then a large one.
pub(super) fn uncounted(random: &mut Random, aim: Aim, pairs: &mut Vec<Pair>) -> Formula {
    if random.one_in(8) {
        return full_offsets(random, pairs.len() - 1);
    }
    let more = if random.one_in(6) { random.below(30) } else { random.below(4) };
    let size = aim.size + more;
    tree(random, Aim { size, nested: MAX_NESTED, ranges: Ranges::Wild, ..aim }, pairs)
}

/// Each range lies around the position of the one that it is nested in.
fn full_offsets(random: &mut Random, nested: usize) -> Formula {
    let mut formula = flag(random, MAX_NESTED);
    for around in (nested..MAX_NESTED).rev() {
        let bound = |offset| Bound::Variable(around, offset);
        formula = Formula::ForAll(bound(-MAX_OFFSET), bound(MAX_OFFSET), Box::new(formula));
    }
    formula
}

/// One in three is made always empty, the others never are. Among accepted rules that leaves one
/// in four.
pub(super) fn empty_or_tame(random: &mut Random, aim: Aim, pairs: &[Pair]) -> (Bound, Bound) {
    let empty = random.one_in(3);
    loop {
        let (first, second) = if empty {
            empty_range(random, pairs)
        } else {
            tame_range(random, aim, pairs.len() - 1)
        };
        if variable_pair(first, second, pairs).always_empty() == empty {
            return (first, second);
        }
    }
}

/// From infinity, or from a variable to before its l: by one position or more, and as far as
/// offsets reach.
fn empty_range(random: &mut Random, pairs: &[Pair]) -> (Bound, Bound) {
    let nested = pairs.len() - 1;
    let (from, to) = (random.size(0, nested), random.size(0, nested));
    let offset = random.between(-5, 5);
    let (Low::At(l), Some(u)) = (pairs[from].l, pairs[to].u) else {
        return (Bound::Infinity, wild_bound(random, nested));
    };
    let end = l + offset - random.pick(&[1, 1, 2, 3, 9, 300]);
    let first = Bound::Variable(from, offset);
    match random.below(8) {
        0 => (Bound::Infinity, Bound::Infinity),
        1 | 2 => (Bound::Infinity, wild_bound(random, nested)),
        3 => (first, Bound::Start(end)),
        4 => (Bound::Variable(from, MAX_OFFSET), Bound::Variable(to, -MAX_OFFSET)),
        _ => (first, Bound::Variable(to, end - u)),
    }
}

/// The body as that of an always empty range. Its variables keep their numbers, all of which
/// are bound there too.
pub fn under_empty_range(random: &mut Random, body: &[u8]) -> Vec<u8> {
    let (first, second) = empty_range(random, &tick_pair());
    let mut under = write_body(&Formula::ForAll(first, second, Box::new(Formula::Flag(0, 0))));
    under.truncate(under.len() - 3);
    under.extend(body);
    under
}
