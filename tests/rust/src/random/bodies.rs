//! Bodies as bytes: loose ones, damaged ones, and pairs of neighbours of which
//! one is just refused with a chosen number and the other just not.

use super::formulas::{accepted_rule, depth, quantifiers, size, wild_formula};
use super::Random;
use crate::paper::{
    formula_figures, read_body, write_body, Bound, Formula, BODY_REFUSALS, MAX_DELAY, MAX_FORMULAS,
    MAX_HISTORY, MAX_NESTED, MAX_OFFSET, RULE_REFUSALS,
};

/// Two bodies that differ in little: `outside` is refused with the number aimed
/// at, `inside` is not.
#[derive(Clone, Debug)]
pub struct Neighbours {
    pub inside: Vec<u8>,
    pub outside: Vec<u8>,
}

/// What a byte of an accepted body stands for.
#[derive(Clone, Copy, Debug, PartialEq, Eq)]
pub enum Place {
    /// A formula's code.
    Code,
    /// A flag's variable, nested under so many quantifiers.
    FlagVariable(usize),
    FlagNumber,
    BoundKind,
    /// A bound's variable, with the bound's kind, nested under so many.
    BoundVariable(u8, usize),
    /// The low byte of a bound's offset, with the bound's kind.
    Offset(u8),
}

/// The places of an accepted body, in order (an offset counts as one place).
pub fn places(body: &[u8]) -> Vec<(usize, Place)> {
    let mut found = Vec::new();
    let end = walk(body, 0, 0, &mut found);
    assert_eq!(end, body.len(), "the body is an accepted one");
    found
}

/// Where the places of one kind begin.
fn starts(body: &[u8], kind: Place) -> Vec<usize> {
    places(body).iter().filter(|(_, place)| *place == kind).map(|(at, _)| *at).collect()
}

fn walk(body: &[u8], at: usize, nested: usize, found: &mut Vec<(usize, Place)>) -> usize {
    found.push((at, Place::Code));
    match body[at] {
        1 => {
            found.push((at + 1, Place::FlagVariable(nested)));
            found.push((at + 2, Place::FlagNumber));
            at + 3
        }
        2 => walk(body, at + 1, nested, found),
        3 | 4 => {
            let middle = walk(body, at + 1, nested, found);
            walk(body, middle, nested, found)
        }
        _ => {
            for bound in [at + 1, at + 5] {
                let kind = body[bound];
                found.push((bound, Place::BoundKind));
                found.push((bound + 1, Place::BoundVariable(kind, nested)));
                found.push((bound + 2, Place::Offset(kind)));
            }
            walk(body, at + 9, nested + 1, found)
        }
    }
}

/// A body of any sort, most of them refused.
pub fn any_body(random: &mut Random) -> Vec<u8> {
    match random.below(11) {
        0 if random.one_in(3) => crowded(random),
        0 => loose_bytes(random),
        1 => write_body(&wild_formula(random)),
        2 => accepted_rule(random).body,
        3 | 4 => one_byte_damaged(random),
        5 => twice_damaged(random),
        6 | 7 => {
            let number = random.pick(RULE_REFUSALS);
            neighbours(random, number).outside
        }
        8 => faulty_bounds(random),
        _ => {
            let number = random.pick(RULE_REFUSALS);
            neighbours(random, number).inside
        }
    }
}

/// Bytes that look a little like a body.
pub fn loose_bytes(random: &mut Random) -> Vec<u8> {
    let length = random.size(0, 40);
    let near = random.one_in(2);
    (0..length).map(|_| if near { random.size(0, 6) as u8 } else { random.byte() }).collect()
}

/// A body that the reader accepts, with one byte changed, removed or added, or
/// cut.
fn one_byte_damaged(random: &mut Random) -> Vec<u8> {
    let mut body = write_body(&wild_formula(random));
    damage(random, &mut body);
    body
}

/// The same with two damages, so that the order of refusals counts.
pub fn twice_damaged(random: &mut Random) -> Vec<u8> {
    let mut body = one_byte_damaged(random);
    if random.one_in(2) && read_body(&body).is_ok() {
        let number = random.pick(&[5, 6, 7, 8, 23, 24]);
        spoil(random, &mut body, number);
    }
    damage(random, &mut body);
    body
}

/// A body with one or both bounds of a range written anew, each byte right or
/// wrong by itself, so that the order of a bound's own refusals counts.
pub fn faulty_bounds(random: &mut Random) -> Vec<u8> {
    let mut body = body_with_a_range(random);
    let bounds = starts(&body, Place::BoundKind);
    let first = 2 * random.below(bounds.len() / 2);
    let (from, to) = random.pick(&[(0, 1), (1, 2), (0, 2)]);
    let near = [0, 0, 1, -1, MAX_OFFSET, -MAX_OFFSET];
    let far = [MAX_OFFSET + 1, -MAX_OFFSET - 1, 5000, i16::MIN as i64];
    for &at in &bounds[first + from..first + to] {
        body[at] = random.pick(&[0, 1, 1, 2, 2, 3]);
        body[at + 1] = random.pick(&[0, 0, 1, 5, 255]);
        let offset = if random.one_in(3) { random.pick(&far) } else { random.pick(&near) };
        put_offset(&mut body, at + 2, offset);
    }
    body
}

fn body_with_a_range(random: &mut Random) -> Vec<u8> {
    loop {
        let formula = wild_formula(random);
        if quantifiers(&formula) > 0 {
            return write_body(&formula);
        }
    }
}

fn damage(random: &mut Random, body: &mut Vec<u8>) {
    if body.is_empty() {
        return body.push(random.byte());
    }
    let at = random.below(body.len());
    match random.below(6) {
        0 => body[at] = random.byte(),
        1 => body[at] = body[at].wrapping_add(random.pick(&[1, 255])),
        2 => body[at] = random.size(0, 9) as u8,
        3 => body.truncate(at),
        4 => {
            body.remove(at);
        }
        _ => body.insert(at, random.size(0, 6) as u8),
    }
}

/// Neighbours at one of `RULE_REFUSALS`.
pub fn neighbours(random: &mut Random, number: u32) -> Neighbours {
    if BODY_REFUSALS.contains(&number) {
        aimed(random, number)
    } else {
        figure_boundary(random, number)
    }
}

/// Neighbours at a refusal of a body's bytes. The inner one is accepted by the
/// body reader.
pub fn aimed(random: &mut Random, number: u32) -> Neighbours {
    match number {
        4 => too_short(random),
        5..=8 | 23 | 24 => spoilt(random, number),
        9 => too_many(random),
        10 => left_over(random),
        _ => panic!("refusal {number} is not the body reader's"),
    }
}

/// Each proper beginning of an accepted body ends too early.
fn too_short(random: &mut Random) -> Neighbours {
    let inside = write_body(&wild_formula(random));
    let outside = inside[..random.below(inside.len())].to_vec();
    Neighbours { inside, outside }
}

fn left_over(random: &mut Random) -> Neighbours {
    let inside = write_body(&wild_formula(random));
    let mut outside = inside.clone();
    let count = random.size(1, 12);
    outside.extend(random.bytes(count));
    Neighbours { inside, outside }
}

/// A body with a place that refusal `number`, 5 to 8, 23 or 24, looks at: its
/// inner neighbour has the last good value there.
fn spoilt(random: &mut Random, number: u32) -> Neighbours {
    loop {
        let mut inside = write_body(&wild_formula(random));
        let mut outside = inside.clone();
        if spoil_both(random, &mut inside, &mut outside, number) {
            return Neighbours { inside, outside };
        }
    }
}

/// Spoils one place of an accepted body, if it has one for this number.
fn spoil(random: &mut Random, body: &mut [u8], number: u32) {
    let mut inside = body.to_vec();
    spoil_both(random, &mut inside, body, number);
}

fn spoil_both(random: &mut Random, inside: &mut [u8], outside: &mut [u8], number: u32) -> bool {
    let fit: Vec<(usize, Place)> =
        places(inside).into_iter().filter(|(_, place)| looks_at(number, *place)).collect();
    if fit.is_empty() {
        return false;
    }
    let (at, place) = random.pick(&fit);
    match place {
        Place::Code => outside[at] = random.pick(&[0, 6, 7, 255]),
        Place::BoundKind => outside[at] = random.pick(&[3, 4, 255]),
        Place::FlagVariable(nested) | Place::BoundVariable(2, nested) => {
            inside[at] = nested as u8;
            outside[at] = if random.one_in(2) { nested as u8 + 1 } else { random.pick(&[5, 255]) };
        }
        Place::FlagNumber => {
            inside[at] = 7;
            outside[at] = random.pick(&[8, 9, 128, 255]);
        }
        Place::BoundVariable(..) => outside[at] = random.pick(&[1, 2, 255]),
        Place::Offset(1) => put_offset(outside, at, random.pick(&[1, -1, 256, 4096, 5000])),
        Place::Offset(_) => {
            let (last, beyond) = random.pick(&[
                (MAX_OFFSET, MAX_OFFSET + 1),
                (-MAX_OFFSET, -MAX_OFFSET - 1),
                (MAX_OFFSET, i16::MAX as i64),
                (-MAX_OFFSET, i16::MIN as i64),
            ]);
            put_offset(inside, at, last);
            put_offset(outside, at, beyond);
        }
    }
    true
}

fn looks_at(number: u32, place: Place) -> bool {
    match place {
        Place::Code | Place::BoundKind => number == 5,
        Place::FlagVariable(_) | Place::BoundVariable(2, _) => number == 6,
        Place::FlagNumber => number == 7,
        Place::BoundVariable(..) => number == 23,
        Place::Offset(1) => number == 24,
        Place::Offset(_) => number == 8,
    }
}

fn put_offset(body: &mut [u8], at: usize, offset: i64) {
    body[at..at + 2].copy_from_slice(&(offset as i16).to_le_bytes());
}

/// 64 and 65 formulas, or 4 and 5 nested quantifiers.
fn too_many(random: &mut Random) -> Neighbours {
    let formula = wild_formula(random);
    if random.one_in(2) && size(&formula) + MAX_NESTED < MAX_FORMULAS {
        return nested_too_deep(random, &formula);
    }
    let inside = pad(random, &formula, MAX_FORMULAS);
    let mut outside = pad(random, &formula, MAX_FORMULAS + 1);
    if random.one_in(4) {
        // The 65th formula's own bytes may be missing.
        outside.truncate(last_code(&outside) + 1);
    }
    Neighbours { inside, outside }
}

/// A body that begins 62 to 65 formulas, and then has any of `endings`.
pub fn crowded(random: &mut Random) -> Vec<u8> {
    let count = random.size(MAX_FORMULAS - 2, MAX_FORMULAS + 1);
    let mut body = begun(random, count);
    let mut endings = endings(random);
    let chosen = random.below(endings.len());
    body.append(&mut endings[chosen]);
    body
}

/// The bytes of so many formulas, at least 62, up to where the next one's code is due.
pub fn begun(random: &mut Random, count: usize) -> Vec<u8> {
    loop {
        let (formula, more) = (wild_formula(random), random.size(1, 3));
        if size(&formula) <= count {
            let mut body = pad(random, &formula, count + more);
            body.truncate(starts(&body, Place::Code)[count]);
            return body;
        }
    }
}

/// What a body may have where a formula is due: nothing; a whole formula, with a byte after
/// it or without; a code, known or not, alone or with any bytes after it.
pub fn endings(random: &mut Random) -> Vec<Vec<u8>> {
    let mut all = vec![vec![], vec![1, 0, 7], vec![1, 0, 7, 6]];
    for code in [0, 1, 2, 3, 4, 5, 6, 7, 127, 128, 255] {
        let after = random.size(1, 12);
        all.push(vec![code]);
        all.push([vec![code], random.bytes(after)].concat());
    }
    all
}

/// The formula with nots put before it or inside it, up to `count` formulas.
fn pad(random: &mut Random, formula: &Formula, count: usize) -> Vec<u8> {
    let body = write_body(formula);
    let codes = starts(&body, Place::Code);
    let at = random.pick(&codes);
    let mut padded = body[..at].to_vec();
    padded.extend(vec![2u8; count - codes.len()]);
    padded.extend(&body[at..]);
    padded
}

fn last_code(body: &[u8]) -> usize {
    starts(body, Place::Code).into_iter().max().unwrap()
}

fn nested_too_deep(random: &mut Random, formula: &Formula) -> Neighbours {
    let mut inside = write_body(formula);
    for _ in depth(formula)..MAX_NESTED {
        inside = under_a_range(random, &inside);
    }
    let mut outside = under_a_range(random, &inside);
    if random.one_in(4) {
        outside = cut_at_fifth(&outside);
    }
    Neighbours { inside, outside }
}

/// The body under one more quantifier. Its own variables keep their numbers:
/// that they mean others now is no matter here.
fn under_a_range(random: &mut Random, body: &[u8]) -> Vec<u8> {
    let mut under = vec![5, 2, 0, random.byte(), 0, 2, 0, random.byte(), 0];
    under.extend(body);
    under
}

/// Cuts after the code of the first quantifier nested under four others.
fn cut_at_fifth(body: &[u8]) -> Vec<u8> {
    let mut found = Vec::new();
    walk(body, 0, 0, &mut found);
    let fifth = found.iter().find_map(|&(at, place)| match place {
        Place::BoundVariable(_, MAX_NESTED) => Some(at - 1),
        _ => None,
    });
    body[..fifth.expect("there is a fifth nested quantifier")].to_vec()
}

/// Neighbours at refusal `number`, 11 to 15. The inner one is accepted by the
/// engine.
pub fn figure_boundary(random: &mut Random, number: u32) -> Neighbours {
    loop {
        let found = match number {
            11 => with_second_bound(random, Bound::Infinity),
            12 => long_delay(random),
            13 => with_first_bound_at_0(random),
            14 => long_history(random),
            15 => many_cells(random),
            _ => panic!("refusal {number} is not the figures'"),
        };
        if let Some((inside, outside)) = found {
            let fits = formula_figures(&inside).is_ok();
            if fits && formula_figures(&outside).err() == Some(number) {
                return Neighbours { inside: write_body(&inside), outside: write_body(&outside) };
            }
        }
    }
}

type Pair = Option<(Formula, Formula)>;

/// An accepted rule, and the same with infinity at the end of one range.
fn with_second_bound(random: &mut Random, second: Bound) -> Pair {
    let rule = accepted_rule(random);
    change_quantifier(random, &rule.formula, |first, _| (first, second))
}

/// An accepted rule, and the same with one range that begins at position 0.
fn with_first_bound_at_0(random: &mut Random) -> Pair {
    let rule = accepted_rule(random);
    let offset = random.pick(&[0, 0, 1, -1, MAX_OFFSET, -MAX_OFFSET]);
    change_quantifier(random, &rule.formula, |_, second| (Bound::Start(offset), second))
}

fn change_quantifier(
    random: &mut Random,
    formula: &Formula,
    change: impl Fn(Bound, Bound) -> (Bound, Bound),
) -> Pair {
    let count = quantifiers(formula);
    if count == 0 {
        return None;
    }
    let chosen = random.below(count);
    let mut changed = formula.clone();
    change_nth(&mut changed, chosen, &mut 0, &change);
    Some((formula.clone(), changed))
}

/// Changes the bounds of the quantifier with number `chosen`, in prefix order.
fn change_nth(
    formula: &mut Formula,
    chosen: usize,
    seen: &mut usize,
    change: &impl Fn(Bound, Bound) -> (Bound, Bound),
) {
    match formula {
        Formula::Flag(..) => {}
        Formula::Not(part) => change_nth(part, chosen, seen, change),
        Formula::Then(f, g) | Formula::Beside(f, g) => {
            change_nth(f, chosen, seen, change);
            change_nth(g, chosen, seen, change);
        }
        Formula::ForAll(first, second, part) => {
            if *seen == chosen {
                (*first, *second) = change(*first, *second);
            }
            *seen += 1;
            change_nth(part, chosen, seen, change);
        }
    }
}

/// Ranges of one position each, every one counted from the one around it, whose
/// offsets sum up to 255 or 256.
fn long_delay(random: &mut Random) -> Pair {
    let count = random.size(1, MAX_NESTED);
    let inside = chain(random, count, MAX_DELAY);
    let outside = raise_one(random, &inside, 1)?;
    Some(decorate(random, inside, outside))
}

/// The same for a sum of -4,096 or -4,097, less what a later start adds to it.
fn long_history(random: &mut Random) -> Pair {
    let later = if random.one_in(2) { 0 } else { random.between(1, 12) };
    let count = random.size(2, MAX_NESTED - 1);
    let inside = chain(random, count, later - MAX_HISTORY as i64);
    let outside = raise_one(random, &inside, -1)?;
    let (inside, outside) = decorate(random, inside, outside);
    if later == 0 {
        return Some((inside, outside));
    }
    // "X..X+later then ..": the chain starts `later` ticks after X.
    let now = Bound::Variable(0, random.between(0, later));
    let wait = Formula::ForAll(now, Bound::Variable(0, later), Box::new(Formula::Flag(1, 0)));
    let after = |chain| Formula::Then(Box::new(wait.clone()), Box::new(chain));
    Some((after(inside), after(outside)))
}

/// `count` nested ranges of one position whose offsets sum up to `sum`.
fn chain(random: &mut Random, count: usize, sum: i64) -> Formula {
    let mut offsets = vec![sum / count as i64; count];
    offsets[0] += sum - offsets.iter().sum::<i64>();
    for i in 1..count {
        let moved = random.between(-20, 20);
        offsets[i - 1] += moved;
        offsets[i] -= moved;
    }
    let mut formula = Formula::Flag(random.size(0, count), random.below(8) as u8);
    for nested in (0..count).rev() {
        let bound = Bound::Variable(nested, offsets[nested]);
        formula = Formula::ForAll(bound, bound, Box::new(formula));
    }
    formula
}

/// The chain with both bounds of one of its ranges moved by `step`.
fn raise_one(random: &mut Random, formula: &Formula, step: i64) -> Option<Formula> {
    let (_, raised) = change_quantifier(random, formula, |first, second| {
        (moved(first, step), moved(second, step))
    })?;
    Some(raised)
}

fn moved(bound: Bound, step: i64) -> Bound {
    match bound {
        Bound::Start(offset) => Bound::Start(offset + step),
        Bound::Infinity => Bound::Infinity,
        Bound::Variable(variable, offset) => Bound::Variable(variable, offset + step),
    }
}

/// The same few formulas around both neighbours.
fn decorate(random: &mut Random, inside: Formula, outside: Formula) -> (Formula, Formula) {
    let flag = Box::new(Formula::Flag(0, random.below(8) as u8));
    let choice = random.below(5);
    let around = |formula: Formula| match choice {
        0 => Formula::Not(Box::new(formula)),
        1 => Formula::Then(flag.clone(), Box::new(formula)),
        2 => Formula::Beside(Box::new(formula), flag.clone()),
        _ => formula,
    };
    (around(inside), around(outside))
}

/// An accepted rule with one bound moved away until the engine just refuses.
fn many_cells(random: &mut Random) -> Pair {
    let rule = accepted_rule(random);
    let count = quantifiers(&rule.formula);
    if count == 0 {
        return None;
    }
    let chosen = random.below(count);
    let widen_end = random.one_in(2);
    let widened = |by: i64| {
        let mut formula = rule.formula.clone();
        change_nth(&mut formula, chosen, &mut 0, &|first, second| {
            if widen_end {
                (first, moved(second, by))
            } else {
                (moved(first, -by), second)
            }
        });
        formula
    };
    // Doubling finds a refused one, bisection the place where it begins.
    let mut refused = 1;
    while formula_figures(&widened(refused)).is_ok() {
        refused *= 2;
        if refused > 2 * MAX_OFFSET {
            return None;
        }
    }
    let mut accepted = refused / 2;
    while refused - accepted > 1 {
        let middle = (refused + accepted) / 2;
        if formula_figures(&widened(middle)).is_ok() {
            accepted = middle;
        } else {
            refused = middle;
        }
    }
    let pair = (widened(accepted), widened(refused));
    within_offsets(&pair).then_some(pair)
}

/// Whether moved offsets still can be written.
fn within_offsets(pair: &(Formula, Formula)) -> bool {
    let (inside, outside) = pair;
    let reads_back = |formula: &Formula| read_body(&write_body(formula)).as_ref() == Ok(formula);
    reads_back(inside) && reads_back(outside)
}
