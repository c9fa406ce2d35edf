//! Outcomes, and the positions of a range, for the two ways in Rust.

use rust_tests::paper::Bound;

/// True or false at a step, or open.
pub type Outcome = Option<(bool, u64)>;

/// Both: false at the smallest step at which one is false, true at the larger step
/// if both are true, else open.
pub fn both(f: Outcome, g: Outcome) -> Outcome {
    match (f, g) {
        (Some((false, a)), Some((false, b))) => Some((false, a.min(b))),
        (Some((false, a)), _) | (_, Some((false, a))) => Some((false, a)),
        (Some((true, a)), Some((true, b))) => Some((true, a.max(b))),
        _ => None,
    }
}

/// The positions of a range up to tick t: the first, how many, and whether the
/// range ends by t.
pub struct Positions {
    pub first: u64,
    pub count: u64,
    pub ended: bool,
}

/// Where a bound lies, for variables at these positions; `None` for infinity.
fn place(bound: Bound, at: &[u64]) -> Option<i64> {
    match bound {
        Bound::Start(offset) => Some(offset),
        Bound::Infinity => None,
        Bound::Variable(v, offset) => Some(at[v] as i64 + offset),
    }
}

pub fn positions(from: Bound, to: Bound, at: &[u64], t: u64) -> Positions {
    const NONE: Positions = Positions { first: 0, count: 0, ended: true };
    let Some(p1) = place(from, at) else { return NONE };
    let (p2, ended) = match place(to, at) {
        None => (t as i64, false),
        Some(p2) if p1 > p2 => return NONE,
        Some(p2) => (p2.min(t as i64), p2 <= t as i64),
    };
    let first = p1.max(0);
    Positions { first: first as u64, count: (p2 - first + 1).max(0) as u64, ended }
}
