//! "Meaning": the outcome of a formula over a recording, and the recording
//! evaluator.

use super::{read_body, Bound, Formula, Refusal, MAX_RECORDING};

#[derive(Clone, Copy, Debug, PartialEq, Eq)]
pub enum Verdict {
    True,
    False,
}

/// "Over a recording of ticks 0..t, a formula started at step s has an outcome:
/// true at a step, false at a step, or open."
#[derive(Clone, Copy, Debug, PartialEq, Eq)]
pub enum Outcome {
    Open,
    Decided(Verdict, i64),
}

use Outcome::{Decided, Open};
use Verdict::{False, True};

/// "The recording evaluator takes a body, a lent recording of up to 65,535
/// bytes and a tick, and answers this outcome, also for a body that the engine
/// refuses to open." Refusals 4 to 10, 23, 24, 16.
pub fn evaluate(body: &[u8], recording: &[u8], tick: usize) -> Result<Outcome, Refusal> {
    let formula = read_body(body)?;
    // "16: recording too long, or tick not in it."
    if recording.len() > MAX_RECORDING || tick >= recording.len() {
        return Err(16);
    }
    Ok(rule_outcome(&formula, recording, tick as i64))
}

/// "The rule at tick p is its formula started at p with variable 0 equal to p."
pub fn rule_outcome(formula: &Formula, recording: &[u8], p: i64) -> Outcome {
    outcome(formula, recording, &mut vec![p], p)
}

/// The recording is of ticks 0..t, so that t is its length less 1; `variables`
/// are the positions of the variables bound here, variable 0 first.
pub fn outcome(formula: &Formula, recording: &[u8], variables: &mut Vec<i64>, s: i64) -> Outcome {
    match formula {
        Formula::Flag(variable, flag) => {
            // "True if its bit is 1 in the byte at the variable's position,
            // else false; at s."
            let byte = recording[variables[*variable] as usize];
            let up = (byte >> flag) & 1 == 1;
            Decided(if up { True } else { False }, s)
        }
        Formula::Not(part) => opposite(outcome(part, recording, variables, s)),
        Formula::Then(f, g) => match outcome(f, recording, variables, s) {
            // "F false decides false at F's step. F true starts G at F's step.
            // F open is open."
            Decided(False, step) => Decided(False, step),
            Decided(True, step) => outcome(g, recording, variables, step),
            Open => Open,
        },
        Formula::Beside(f, g) => {
            // "Both start at s."
            let left = outcome(f, recording, variables, s);
            let right = outcome(g, recording, variables, s);
            beside(left, right)
        }
        Formula::ForAll(first, second, body) => {
            let p1 = position(*first, variables);
            let p2 = position(*second, variables);
            for_all(p1, p2, body, recording, variables, s)
        }
    }
}

/// "Not: the opposite, same step; open stays open."
fn opposite(part: Outcome) -> Outcome {
    match part {
        Decided(True, step) => Decided(False, step),
        Decided(False, step) => Decided(True, step),
        Open => Open,
    }
}

/// "False at the smallest step at which one is false; true at the larger step
/// if both are true; else open."
fn beside(left: Outcome, right: Outcome) -> Outcome {
    match (left, right) {
        (Decided(False, a), Decided(False, b)) => Decided(False, a.min(b)),
        (Decided(False, a), _) => Decided(False, a),
        (_, Decided(False, b)) => Decided(False, b),
        (Decided(True, a), Decided(True, b)) => Decided(True, a.max(b)),
        _ => Open,
    }
}

/// "p1 and p2 are whole numbers, offset added, negative allowed." `None` is
/// infinity.
fn position(bound: Bound, variables: &[i64]) -> Option<i64> {
    match bound {
        Bound::Start(offset) => Some(offset),
        Bound::Infinity => None,
        Bound::Variable(variable, offset) => Some(variables[variable] + offset),
    }
}

fn for_all(
    p1: Option<i64>,
    p2: Option<i64>,
    body: &Formula,
    recording: &[u8],
    variables: &mut Vec<i64>,
    s: i64,
) -> Outcome {
    let t = recording.len() as i64 - 1;
    // "If p1 is infinite or p1 > p2, true at s."
    let Some(p1) = p1 else {
        return Decided(True, s);
    };
    if p2.is_some_and(|p2| p1 > p2) {
        return Decided(True, s);
    }
    // "Else the positions are max(0, p1) to p2; none means true at s."
    let first = p1.max(0);
    if p2.is_some_and(|p2| first > p2) {
        return Decided(True, s);
    }
    // "Position q starts its body at max(s, q); one above t is open."
    let last = p2.map_or(t, |p2| p2.min(t));
    let mut smallest_false: Option<i64> = None;
    let mut largest_true: Option<i64> = None;
    let mut all_true = true;
    for q in first..=last {
        variables.push(q);
        let at_q = outcome(body, recording, variables, s.max(q));
        variables.pop();
        match at_q {
            Decided(False, step) => {
                smallest_false = Some(smallest_false.map_or(step, |least| least.min(step)));
                all_true = false;
            }
            Decided(True, step) => {
                largest_true = Some(largest_true.map_or(step, |most| most.max(step)));
            }
            Open => all_true = false,
        }
    }
    // "False at the smallest step at which a body is false; true if p2 is at
    // most t and all bodies are true, at the largest of their steps; else open."
    let none_above_t = p2.is_some_and(|p2| p2 <= t);
    match (smallest_false, largest_true) {
        (Some(step), _) => Decided(False, step),
        (None, Some(step)) if none_above_t && all_true => Decided(True, step),
        _ => Open,
    }
}
