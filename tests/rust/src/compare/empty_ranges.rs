//! The suites for rules in which one range in four is always empty (02, point 6).

use super::calls::figures;
use super::runs::Tally;
use super::set_runs::SetTally;
use super::set_suites::set_runs_of;
use super::suites::{chosen, every_tick, opening_around, runs_of, short_recording};
use super::{Check, Numbers};
use crate::library::Library;
use crate::notation::{all, beside, flag, not, start, then, x, y, z, INFINITY, W, Y, Z};
use crate::paper::{write_body, Bound, Formula, RULE_REFUSALS};
use crate::random::{self, Random};

/// Ranges that are always empty over what the figures refuse, and ranges that are just not.
pub fn empty_range_limits(library: &dyn Library) -> Check<Numbers> {
    let empty = empty_bounds().into_iter();
    let empty = empty.flat_map(|(first, second)| over_each(first, second, |_| 0));
    let just_not = over_each(x(0), x(0), |number| number);
    chosen(library, empty.chain(just_not).chain(among_others()).collect())
}

/// By infinity, by one position, and as far as offsets reach.
fn empty_bounds() -> Vec<(Bound, Bound)> {
    vec![
        (INFINITY, INFINITY),
        (INFINITY, x(0)),
        (INFINITY, x(256)),
        (INFINITY, start(4095)),
        (x(5), x(2)),
        (x(1), x(0)),
        (x(256), x(255)),
        (x(-4094), x(-4095)),
        (x(4095), x(-4095)),
        (x(1), start(0)),
    ]
}

/// The range over rules of each refusal from 11 to 15 and over two of none, with the number that
/// `due` makes of it.
fn over_each(first: Bound, second: Bound, due: fn(u32) -> u32) -> Vec<(Formula, u32)> {
    let parts = [
        (flag(0, Y), 0),
        (all(x(255), x(255), flag(0, Z)), 0),
        (all(x(0), INFINITY, flag(0, Z)), 11),
        (all(x(256), x(256), flag(0, Z)), 12),
        (all(start(0), x(0), flag(0, Z)), 13),
        (all(x(-4095), x(-4095), all(z(-2), z(-2), flag(0, W))), 14),
        (all(x(0), x(63), flag(0, Z)), 15),
    ];
    parts.map(|(part, number)| (all(first, second, part), due(number))).to_vec()
}

/// Empty by the pairs of inner variables, or just not; beside and under what is counted.
fn among_others() -> Vec<(Formula, u32)> {
    let endless = || all(x(0), INFINITY, flag(0, Y));
    let none = || all(x(5), x(2), flag(0, Y));
    // Y lies from X to X+2, and Z from X to X+5.
    let inside = |first, second| all(x(0), x(2), all(first, second, endless()));
    let deep = |first, second| all(x(0), x(2), all(y(0), y(3), all(first, second, endless())));
    vec![
        (inside(y(3), y(0)), 0),
        (inside(y(2), y(0)), 11),
        (inside(x(3), y(0)), 0),
        (inside(x(2), y(0)), 11),
        (inside(y(9), x(1)), 0),
        (deep(z(7), y(4)), 0),
        (deep(z(6), y(4)), 11),
        (beside(none(), endless()), 11),
        (then(not(none()), endless()), 11),
        // No positions at any tick, but l of position 0 is -infinity.
        (all(start(5), start(2), flag(0, Y)), 13),
        (all(start(0), start(-1), endless()), 11),
    ]
}

/// Figures, and the evaluator's refusals: rules of which some are refused for what is counted,
/// and always empty ranges over bodies that are refused.
pub fn empty_range_bodies(library: &dyn Library, seed: u64, count: usize) -> Check<Numbers> {
    let mut random = Random::new(seed);
    let mut numbers = Numbers::default();
    for round in 0..count {
        let rule = write_body(&random::often_empty_formula(&mut random));
        let number = RULE_REFUSALS[round % RULE_REFUSALS.len()];
        let refused = random::neighbours(&mut random, number).outside;
        let over_refused = random::under_empty_range(&mut random, &refused);
        for body in [rule, over_refused] {
            numbers.add(figures(library, &body)?);
            short_recording(library, &mut random, &body)?;
        }
    }
    Ok(numbers)
}

/// Recordings with every tick asked, also the first one after the end.
pub fn empty_range_recordings(library: &dyn Library, seed: u64, count: usize) -> Check<u64> {
    let mut random = Random::new(seed);
    let mut asked = 0;
    for _ in 0..count {
        let formula = random::often_empty_formula(&mut random);
        asked += every_tick(library, &mut random, &formula)?;
    }
    Ok(asked)
}

/// Openings with lengths around those that are needed.
pub fn empty_range_openings(library: &dyn Library, seed: u64, count: usize) -> Check<Numbers> {
    let mut random = Random::new(seed);
    let mut numbers = Numbers::default();
    for _ in 0..count {
        let body = write_body(&random::often_empty_formula(&mut random));
        let (sheet, rule) = random::sheet_with(&mut random, &body);
        numbers.add(opening_around(library, &mut random, &sheet, rule)?);
    }
    Ok(numbers)
}

/// At least so many accepted rules and so many steps.
pub fn empty_range_runs(library: &dyn Library, seed: u64, rules: u64, steps: u64) -> Check<Tally> {
    runs_of(library, random::often_empty_rule, seed, rules, steps)
}

/// At least so many sets of them and so many steps.
pub fn empty_range_sets(
    library: &dyn Library,
    seed: u64,
    sets: u64,
    steps: u64,
) -> Check<SetTally> {
    set_runs_of(library, random::often_empty_rule, seed, sets, steps)
}
