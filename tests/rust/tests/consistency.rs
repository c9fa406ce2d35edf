//! The evaluator against itself, on random rules: what document 01 implies must
//! hold of it.

use rust_tests::paper::{
    answer_at, decided_by, read_body, rule_body, rule_outcome, write_body, Formula, Outcome,
    Verdict, Watch,
};
use rust_tests::random::{sheet_bodies, sheet_of, some_rule, stream, visits, wild_formula, Random};

/// What is known at horizon t of an outcome at a later one.
fn cut(outcome: Outcome, t: i64) -> Outcome {
    match outcome {
        Outcome::Decided(_, step) if step > t => Outcome::Open,
        known => known,
    }
}

/// A recording over which the formula is evaluated in little time.
fn recording_for(random: &mut Random, formula: &Formula) -> Vec<u8> {
    let wished = random.size(1, 40);
    let bearable = |length: &usize| visits(formula, *length) < 3_000;
    let length = [wished, 12, 5, 2].into_iter().find(bearable).unwrap_or(1);
    stream(random, length)
}

fn check_cuts(formula: &Formula, recording: &[u8]) -> u64 {
    let last = recording.len() as i64 - 1;
    let mut compared = 0;
    for p in 0..=last {
        let late = rule_outcome(formula, recording, p);
        if let Outcome::Decided(_, step) = late {
            assert!(p <= step && step <= last, "{formula:?}: tick {p} at {step} of {last}");
        }
        for t in p..last {
            let early = rule_outcome(formula, &recording[..=t as usize], p);
            assert_eq!(early, cut(late, t), "{formula:?}: tick {p}, horizon {t}, {recording:?}");
            compared += 1;
        }
    }
    compared
}

/// An outcome at horizon t is the outcome at t' cut at t.
#[test]
fn outcomes_stay() {
    let mut random = Random::new(101);
    let mut compared = 0;
    for round in 0..1_500 {
        let formula = match round % 2 {
            0 => some_rule(&mut random).formula,
            _ => wild_formula(&mut random),
        };
        let recording = recording_for(&mut random, &formula);
        compared += check_cuts(&formula, &recording);
    }
    assert!(compared > 100_000, "{compared} outcomes compared");
}

/// Tick p is decided by step p + delay; and some are decided only then.
#[test]
fn decided_in_time() {
    let mut random = Random::new(102);
    let (mut decided, mut at_last) = (0, 0);
    for _ in 0..3_000 {
        let rule = some_rule(&mut random);
        let delay = rule.figures.delay as i64;
        let length = rule.figures.delay as usize + random.size(1, 30);
        let flags = stream(&mut random, length);
        for p in 0..length as i64 - delay {
            assert!(decided_by(&rule.formula, &flags, p, p + delay), "{rule:?}: tick {p}");
            decided += 1;
            if delay > 0 && !decided_by(&rule.formula, &flags, p, p + delay - 1) {
                at_last += 1;
            }
        }
    }
    assert!(decided > 30_000 && at_last > 500, "{decided} decided, {at_last} at the last step");
}

/// Only flags from p - history on matter; and the one at p - history does, for
/// some rules.
#[test]
fn older_flags_do_not_matter() {
    let mut random = Random::new(103);
    let (mut compared, mut oldest_mattered) = (0, 0);
    for _ in 0..3_000 {
        let rule = some_rule(&mut random);
        let history = rule.figures.history as usize;
        if history > 300 {
            continue;
        }
        let length = history + random.size(2, 25);
        let flags = stream(&mut random, length);
        let p = random.size(history + 1, length - 1);
        let outcome = rule_outcome(&rule.formula, &flags, p as i64);
        let mut changed = flags.clone();
        for byte in &mut changed[..p - history] {
            *byte = random.byte();
        }
        assert_eq!(rule_outcome(&rule.formula, &changed, p as i64), outcome, "{rule:?}: tick {p}");
        compared += 1;
        changed[p - history] ^= 0xFF;
        oldest_mattered += (rule_outcome(&rule.formula, &changed, p as i64) != outcome) as u64;
    }
    assert!(compared > 2_000, "{compared} compared");
    assert!(oldest_mattered > 200, "the oldest flag mattered {oldest_mattered} times");
}

/// The watch that forgets decided ticks answers what the definition says, step
/// for step.
#[test]
fn watch_is_the_definition() {
    let mut random = Random::new(104);
    let (mut steps, mut reported) = (0, 0);
    for _ in 0..400 {
        let rule = some_rule(&mut random);
        let flags = stream(&mut random, 40);
        let mut watch = Watch::new(rule.formula.clone());
        for t in 0..flags.len() {
            let answer = watch.step(flags[t]);
            assert_eq!(answer, answer_at(&rule.formula, &flags[..=t]), "{rule:?}: step {t}");
            assert!(answer.report.len() <= rule.figures.delay as usize + 1);
            assert!(answer.live <= rule.figures.delay as usize + 1);
            steps += 1;
            reported += answer.report.len();
        }
    }
    assert!(steps == 16_000 && reported > 2_000, "{steps} steps, {reported} reported");
}

/// Every violation is reported once, at its deciding step, and nothing else is.
#[test]
fn each_violation_once() {
    let mut random = Random::new(105);
    let mut violations = 0;
    for _ in 0..300 {
        let rule = some_rule(&mut random);
        let flags = stream(&mut random, 60);
        let mut watch = Watch::new(rule.formula.clone());
        let mut seen = Vec::new();
        for (t, &flag) in flags.iter().enumerate() {
            seen.extend(watch.step(flag).report.iter().map(|&p| (p as i64, t as i64)));
        }
        let mut due: Vec<(i64, i64)> = (0..flags.len() as i64)
            .filter_map(|p| match rule_outcome(&rule.formula, &flags, p) {
                Outcome::Decided(Verdict::False, step) => Some((p, step)),
                _ => None,
            })
            .collect();
        due.sort_by_key(|&(p, step)| (step, p));
        violations += due.len();
        assert_eq!(seen, due, "{rule:?}");
    }
    assert!(violations > 2_000, "{violations} violations");
}

#[test]
fn bodies_read_back() {
    let mut random = Random::new(106);
    for _ in 0..5_000 {
        let formula = wild_formula(&mut random);
        assert_eq!(read_body(&write_body(&formula)), Ok(formula));
    }
}

#[test]
fn sheets_read_back() {
    let mut random = Random::new(107);
    for _ in 0..1_000 {
        let bodies = sheet_bodies(&mut random);
        let sheet = sheet_of(&bodies);
        for (rule, body) in bodies.iter().enumerate() {
            assert_eq!(rule_body(&sheet, rule), Ok(&body[..]));
        }
        assert_eq!(rule_body(&sheet, bodies.len()), Err(3));
    }
}
