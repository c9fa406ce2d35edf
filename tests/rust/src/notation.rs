//! Short names, with which the tests write rules and recordings by hand.

use crate::paper::{Bound, Formula};

pub const INFINITY: Bound = Bound::Infinity;

/// The stream's position 0, plus an offset.
pub fn start(offset: i64) -> Bound {
    Bound::Start(offset)
}

/// Variable 0, the rule's own tick, plus an offset.
pub fn x(offset: i64) -> Bound {
    Bound::Variable(0, offset)
}

/// Variable 1, of the outermost quantifier, plus an offset.
pub fn y(offset: i64) -> Bound {
    Bound::Variable(1, offset)
}

/// Variable 2.
pub fn z(offset: i64) -> Bound {
    Bound::Variable(2, offset)
}

/// Variable 3.
pub fn w(offset: i64) -> Bound {
    Bound::Variable(3, offset)
}

pub const X: usize = 0;
pub const Y: usize = 1;
pub const Z: usize = 2;
pub const W: usize = 3;
pub const V: usize = 4;

/// "Flag k at variable v."
pub fn flag(k: u8, v: usize) -> Formula {
    Formula::Flag(v, k)
}

pub fn not(f: Formula) -> Formula {
    Formula::Not(Box::new(f))
}

pub fn then(f: Formula, g: Formula) -> Formula {
    Formula::Then(Box::new(f), Box::new(g))
}

pub fn beside(f: Formula, g: Formula) -> Formula {
    Formula::Beside(Box::new(f), Box::new(g))
}

/// "For all positions from B1 to B2, F."
pub fn all(b1: Bound, b2: Bound, f: Formula) -> Formula {
    Formula::ForAll(b1, b2, Box::new(f))
}

/// "1101": flag 0 at ticks 0, 1 and 3.
pub fn bits(ups: &str) -> Vec<u8> {
    ups.bytes().map(|up| (up == b'1') as u8).collect()
}

/// Flag 0 in the first line, flag 1 in the second.
pub fn two(flag_0: &str, flag_1: &str) -> Vec<u8> {
    assert_eq!(flag_0.len(), flag_1.len(), "both are of the same ticks");
    bits(flag_0).iter().zip(bits(flag_1)).map(|(a, b)| a + 2 * b).collect()
}

/// Bytes in hexadecimal, as document 01 writes them.
pub fn bytes(hexadecimal: &str) -> Vec<u8> {
    let byte = |two: &str| u8::from_str_radix(two, 16).expect("two hexadecimal digits");
    hexadecimal.split_whitespace().map(byte).collect()
}
