//! Evaluating anew: at each step every tick that can still be open is evaluated
//! over all flag bytes so far, and nothing is remembered but the bytes.

use crate::outcome::{both, positions, Outcome};
use crate::ways::Stepping;
use rust_tests::paper::Formula;

pub struct Anew {
    rule: Formula,
    delay: u64,
    bytes: Vec<u8>,
}

impl Anew {
    pub fn open(rule: &Formula, delay: usize) -> Anew {
        Anew { rule: rule.clone(), delay: delay as u64, bytes: Vec::new() }
    }
}

impl Stepping for Anew {
    fn next(&self) -> u64 {
        self.bytes.len() as u64
    }

    fn step(&mut self, flag: u8, report: &mut Vec<u64>) -> usize {
        let t = self.next();
        self.bytes.push(flag);
        report.clear();
        let mut live = 0;
        for tick in t.saturating_sub(self.delay)..=t {
            match evaluate(&self.rule, &self.bytes, &mut vec![tick], tick, t) {
                None => live += 1,
                Some((false, step)) if step == t => report.push(tick),
                Some(_) => {}
            }
        }
        live
    }
}

/// The outcome of a formula started at step s, over the bytes of ticks 0 to t.
fn evaluate(formula: &Formula, bytes: &[u8], at: &mut Vec<u64>, s: u64, t: u64) -> Outcome {
    match formula {
        Formula::Flag(v, k) => Some((bytes[at[*v] as usize] >> k & 1 == 1, s)),
        Formula::Not(f) => evaluate(f, bytes, at, s, t).map(|(verdict, step)| (!verdict, step)),
        Formula::Then(f, g) => match evaluate(f, bytes, at, s, t) {
            Some((true, step)) => evaluate(g, bytes, at, step, t),
            other => other,
        },
        Formula::Beside(f, g) => both(evaluate(f, bytes, at, s, t), evaluate(g, bytes, at, s, t)),
        Formula::ForAll(from, to, body) => {
            let range = positions(*from, *to, at, t);
            let mut all = if range.ended { Some((true, s)) } else { None };
            for q in range.first..range.first + range.count {
                // Later bodies start later: they cannot be false before this step.
                if matches!(all, Some((false, step)) if step <= q) {
                    break;
                }
                at.push(q);
                all = both(all, evaluate(body, bytes, at, s.max(q), t));
                at.pop();
            }
            all
        }
    }
}
