//! Rules and streams that several tests use.
#![allow(dead_code)] // each test uses some of them

use station_watch::{write_sheet, Figures};

/// Document 01's example: not (flag 0 at X, beside: for all Y from X - 1 to X + 2,
/// flag 0 at Y), as text and as bytes, its flag bytes and its figures.
pub const TEXT: &str = "monitor x : ~(@x.0 /\\ forall y in x-1..x+2 : @y.0)";
pub const BODY: [u8; 17] = [2, 4, 1, 0, 0, 5, 2, 0, 0xFF, 0xFF, 2, 0, 2, 0, 1, 1, 0];
pub const FLAGS: [u8; 10] = [0, 1, 1, 0, 1, 1, 1, 1, 0, 0];
pub const FIGURES: Figures = Figures { history: 1, delay: 2, cells: 21 };

/// Flag 0 at X: no history, no delay, one cell.
pub const FLAG: [u8; 3] = [1, 0, 0];

/// For all Y from X + 255 to X + 255, flag 0 at Y: the largest delay.
pub const LATE: [u8; 12] = [5, 2, 0, 0xFF, 0, 2, 0, 0xFF, 0, 1, 1, 0];

/// For all Y from X to X + 62, flag 0 at Y: 4,095 cells.
pub const WIDE: [u8; 12] = [5, 2, 0, 0, 0, 2, 0, 62, 0, 1, 1, 0];

/// Rules that run together: the example, a flag, the largest delay, for all of X-40..X+20
/// not not flag 1, "A then B", "A beside B".
pub fn rules_of_a_set() -> Vec<Vec<u8>> {
    let a = [5, 2, 0, 0, 0, 2, 0, 2, 0, 2, 1, 1, 3]; // for all of X..X+2, not flag 3
    let b = [5, 2, 0, 0xFF, 0xFF, 2, 0, 0, 0, 1, 1, 5]; // for all of X-1..X, flag 5
    let around = vec![5, 2, 0, 0xD8, 0xFF, 2, 0, 20, 0, 2, 2, 1, 1, 1];
    let then = [&[3], &a[..], &b[..]].concat();
    let beside = [&[4], &a[..], &b[..]].concat();
    vec![BODY.to_vec(), FLAG.to_vec(), LATE.to_vec(), around, then, beside]
}

/// A sheet of one rule.
pub fn sheet(body: &[u8]) -> Vec<u8> {
    sheet_of_rules(&[body])
}

/// A sheet of these rules.
pub fn sheet_of_rules(bodies: &[&[u8]]) -> Vec<u8> {
    let lengths: Vec<u16> = bodies.iter().map(|body| body.len() as u16).collect();
    let bodies = bodies.concat();
    let mut sheet = vec![0; 1 + 4 * lengths.len() + bodies.len()];
    assert_eq!(write_sheet(&lengths, &bodies, &mut sheet), Ok(sheet.len()));
    sheet
}

/// Flag bytes without a pattern.
pub fn stream(length: usize) -> Vec<u8> {
    let mut seed: u32 = 2_026;
    let mut next = || {
        seed = seed.wrapping_mul(1_664_525).wrapping_add(1_013_904_223);
        (seed >> 24) as u8
    };
    (0..length).map(|_| next()).collect()
}
