//! Outcomes worked out by hand from document 01. Each comment says what the
//! paper's sentences give; t is the last tick of the recording.

use rust_tests::notation::*;
use rust_tests::paper::{evaluate, rule_outcome, write_body, Formula, Outcome, Verdict};

const OPEN: Outcome = Outcome::Open;

fn true_at(step: i64) -> Outcome {
    Outcome::Decided(Verdict::True, step)
}

fn false_at(step: i64) -> Outcome {
    Outcome::Decided(Verdict::False, step)
}

/// Asks the formula, and its bytes.
#[track_caller]
fn check(rule: Formula, recording: &[u8], tick: i64, due: Outcome) {
    assert_eq!(rule_outcome(&rule, recording, tick), due);
    assert_eq!(evaluate(&write_body(&rule), recording, tick as usize), Ok(due));
}

#[test]
fn flags() {
    // The byte at 1 has the bit: true, at s = 1.
    check(flag(0, X), &bits("01"), 1, true_at(1));
    // The byte at 0 hasn't: false at s = 0, whatever came after.
    check(flag(0, X), &bits("01"), 0, false_at(0));
    // Flag k is the bit worth 2^k: 80 is flag 7 and no other.
    check(flag(7, X), &bytes("80"), 0, true_at(0));
    check(flag(6, X), &bytes("80"), 0, false_at(0));
    check(flag(0, X), &bytes("FE"), 0, false_at(0));
    check(flag(3, X), &bytes("00 08 F7"), 1, true_at(1));
    check(flag(3, X), &bytes("00 08 F7"), 2, false_at(2));
}

#[test]
fn nots() {
    // The opposite, same step.
    check(not(flag(0, X)), &bits("01"), 1, false_at(1));
    check(not(flag(0, X)), &bits("01"), 0, true_at(0));
    check(not(not(flag(0, X))), &bits("01"), 0, false_at(0));
    // X..X+1 at tick 0 with t = 0 is open; open stays open.
    check(not(all(x(0), x(1), flag(0, Y))), &bits("1"), 0, OPEN);
    // X..X+2: the body at 0 is true at 0, at 1 false at 1; false at 1, so true at 1.
    check(not(all(x(0), x(2), flag(0, Y))), &bits("10"), 0, true_at(1));
}

#[test]
fn ranges_ahead() {
    let rule = || all(x(0), x(2), flag(0, Y));
    // Positions 0, 1, 2 start at 0, 1, 2; all true; p2 = 2 = t: the largest, 2.
    check(rule(), &bits("111"), 0, true_at(2));
    // The same with more ticks after it: still 2.
    check(rule(), &bits("111000"), 0, true_at(2));
    // Position 2 is above t = 1: open, the others are true: open.
    check(rule(), &bits("11"), 0, OPEN);
    // Position 1 is false at 1, the others true.
    check(rule(), &bits("101"), 0, false_at(1));
    // Position 2 is open, position 1 is false at 1: a false body decides.
    check(rule(), &bits("10"), 0, false_at(1));
    // False at 1 and at 2: the smallest.
    check(rule(), &bits("100"), 0, false_at(1));
    // Tick 2 sees 2, 3, 4; t = 3: 2 and 3 are true, 4 is open.
    check(rule(), &bits("0011"), 2, OPEN);
    // X+2..X+2 at tick 1: position 3 starts at 3.
    check(all(x(2), x(2), flag(0, Y)), &bits("0001"), 1, true_at(3));
    check(all(x(2), x(2), flag(0, Y)), &bits("000"), 1, OPEN);
}

#[test]
fn ranges_back() {
    let rule = || all(x(-3), x(-1), flag(0, Y));
    // p1 = -3, p2 = -1: no position from 0 on; true at s = 0.
    check(rule(), &bits("0"), 0, true_at(0));
    // Tick 2: p1 = -1, p2 = 1: positions 0 and 1, both started at max(2, q) = 2.
    check(rule(), &bits("011"), 2, false_at(2));
    check(rule(), &bits("110"), 2, true_at(2));
    // Tick 4: positions 1, 2, 3 started at 4; position 0 isn't looked at.
    check(rule(), &bits("01110"), 4, true_at(4));
    check(rule(), &bits("11010"), 4, false_at(4));
    // X-1..X+1 at tick 1: position 0 starts at 1, so that false comes at 1; the
    // flag's step is its start, not its position.
    check(all(x(-1), x(1), flag(0, Y)), &bits("011"), 1, false_at(1));
    // Only position 2 false: at 2.
    check(all(x(-1), x(1), flag(0, Y)), &bits("110"), 1, false_at(2));
}

#[test]
fn ranges_of_no_position() {
    // p1 = 2 > p2 = 0: true at s = 1.
    check(all(x(1), x(-1), flag(0, Y)), &bits("00"), 1, true_at(1));
    // p1 > p2 above t: true at s all the same.
    check(all(x(9), x(8), flag(0, Y)), &bits("0"), 0, true_at(0));
    // p1 infinite: true at s.
    check(all(INFINITY, x(0), flag(0, Y)), &bits("000"), 1, true_at(1));
    check(all(INFINITY, INFINITY, flag(0, Y)), &bits("0"), 0, true_at(0));
    check(all(INFINITY, start(0), flag(0, Y)), &bits("00"), 1, true_at(1));
    // X..0 at tick 2: p1 = 2 > 0. At tick 0: position 0.
    check(all(x(0), start(0), flag(0, Y)), &bits("000"), 2, true_at(2));
    check(all(x(0), start(0), flag(0, Y)), &bits("000"), 0, false_at(0));
    // 0-4..0-2: p1 <= p2, but no position from 0 on.
    check(all(start(-4), start(-2), flag(0, Y)), &bits("000"), 2, true_at(2));
}

#[test]
fn ranges_from_position_0() {
    // 0..X at tick 3: positions 0 to 3, all started at 3.
    check(all(start(0), x(0), flag(0, Y)), &bits("1011"), 3, false_at(3));
    check(all(start(0), x(0), flag(0, Y)), &bits("1111"), 3, true_at(3));
    // 0-2..0+1 at tick 3: positions 0 and 1, started at 3.
    check(all(start(-2), start(1), flag(0, Y)), &bits("1100"), 3, true_at(3));
    // 0+5..X at tick 3: p1 = 5 > 3.
    check(all(start(5), x(0), flag(0, Y)), &bits("0000"), 3, true_at(3));
    // X..0+3 at tick 1: positions 1, 2, 3; t = 2: 1 and 2 true, 3 open.
    check(all(x(0), start(3), flag(0, Y)), &bits("011"), 1, OPEN);
    check(all(x(0), start(3), flag(0, Y)), &bits("0111"), 1, true_at(3));
}

#[test]
fn ranges_to_infinity() {
    // p2 is never at most t: open as long as no body is false.
    check(all(x(0), INFINITY, flag(0, Y)), &bits("111111"), 0, OPEN);
    // Tick 1: position 1 true, 2 false at 2, 3 true.
    check(all(x(0), INFINITY, flag(0, Y)), &bits("1101"), 1, false_at(2));
    // X+4.. at tick 0 with t = 2: no position up to t; open.
    check(all(x(4), INFINITY, flag(0, Y)), &bits("000"), 0, OPEN);
    // 0..infinity at tick 2: position 1 is false; started at max(2, 1) = 2.
    check(all(start(0), INFINITY, flag(0, Y)), &bits("101"), 2, false_at(2));
    // "Some day": not all not. Position 2 has the flag: its not is false at 2.
    check(not(all(x(0), INFINITY, not(flag(0, Y)))), &bits("0010"), 0, true_at(2));
}

#[test]
fn then_formulas() {
    let wait = || all(x(0), x(1), flag(0, Y));
    // F true at 1 starts G at 1: flag 1 at X is 0, false at 1.
    check(then(wait(), flag(1, X)), &two("11", "00"), 0, false_at(1));
    // G true, at 1.
    check(then(wait(), flag(1, X)), &two("11", "10"), 0, true_at(1));
    // F false at 1: false at 1, G isn't asked.
    check(then(wait(), flag(1, X)), &two("10", "11"), 0, false_at(1));
    // F open is open, though G would be false at 0.
    check(then(wait(), flag(1, X)), &two("1", "0"), 0, OPEN);
    // F true at s = 0; G: X..X+2 of flag 1, position 1 false at 1.
    let g = || all(x(0), x(2), flag(1, Y));
    check(then(flag(0, X), g()), &two("100", "101"), 0, false_at(1));
    // F true at 1; G's positions 0, 1, 2 start at max(1, q) = 1, 1, 2. Position 0
    // is false at 1.
    check(then(wait(), g()), &two("110", "011"), 0, false_at(1));
    // Position 2 alone false: at 2.
    check(then(wait(), g()), &two("110", "110"), 0, false_at(2));
    // Tick 1: F sees 1 and 2, true at 2; G's positions 0 and 1 start at 2.
    let back = || all(x(-1), x(0), flag(1, Y));
    check(then(wait(), back()), &two("011", "110"), 1, true_at(2));
    check(then(wait(), back()), &two("011", "010"), 1, false_at(2));
    // G of an empty range is true at its own start, F's step 1, not at 0.
    check(then(wait(), all(x(1), x(0), flag(0, Y))), &bits("11"), 0, true_at(1));
    // Three in a row: F true at 1, the second (X+3..X+3) true at 3, flag 1 at X
    // is then false at 3.
    let third = then(all(x(3), x(3), flag(0, Y)), flag(1, X));
    check(then(wait(), third), &two("1101", "0000"), 0, false_at(3));
}

#[test]
fn beside_formulas() {
    let a = || all(x(0), x(2), flag(0, Y));
    // F open (t = 0), G false at 0: false at 0.
    check(beside(a(), flag(1, X)), &two("1", "0"), 0, false_at(0));
    // F false at 2, G: X..X+1 of flag 1, false at 1: the smaller.
    let b = || all(x(0), x(1), flag(1, Y));
    check(beside(a(), b()), &two("110", "100"), 0, false_at(1));
    check(beside(b(), a()), &two("110", "100"), 0, false_at(1));
    // Both true, at 2 and 1: the larger.
    check(beside(a(), b()), &two("111", "110"), 0, true_at(2));
    check(beside(b(), a()), &two("111", "110"), 0, true_at(2));
    // F true at 1, G open (X..X+2 with t = 1): open.
    check(beside(b(), a()), &two("11", "11"), 0, OPEN);
    // F false at 2, G open for ever: false at 2.
    let endless = all(x(0), INFINITY, flag(1, Y));
    check(beside(a(), endless), &two("110", "111"), 0, false_at(2));
    // Both start at s: with "beside" flag 1 at X is false at 0, with "then" at 1.
    let wait = all(x(0), x(1), flag(0, Y));
    check(beside(wait, flag(1, X)), &two("11", "00"), 0, false_at(0));
}

#[test]
fn nested_ranges() {
    let rule = || all(x(0), x(1), all(y(0), y(1), flag(0, Z)));
    // Y = 0: Z = 0 at 0, Z = 1 at 1: true at 1. Y = 1, started at 1: Z = 1 at 1,
    // Z = 2 at 2: true at 2. True at 2.
    check(rule(), &bits("1110"), 0, true_at(2));
    // Tick 1: Y = 2 sees Z = 3, false at 3.
    check(rule(), &bits("1110"), 1, false_at(3));
    // t = 1: Y = 0 is true at 1; Y = 1 sees Z = 2 above t: open.
    check(rule(), &bits("11"), 0, OPEN);
    // The second case of the proving ground, shorter: Y in X..X+2, Z in X..X.
    // Y = 0, 1, 2 start the inner range at 0, 1, 2; Z = 0 starts at max(s, 0).
    let again = || all(x(0), x(2), all(x(0), x(0), flag(0, Z)));
    check(again(), &bits("100"), 0, true_at(2));
    check(again(), &bits("000"), 0, false_at(0));
    check(again(), &bits("10"), 0, OPEN);
    // Four: Y = X+1, Z = Y+1, W = Z+1, V = W+1: position 4 of tick 0 starts at 4.
    let four = || all(x(1), x(1), all(y(1), y(1), all(z(1), z(1), all(w(1), w(1), flag(0, V)))));
    check(four(), &bits("00001"), 0, true_at(4));
    check(four(), &bits("11110"), 0, false_at(4));
    // Down again: Y = X+2 starts at 2; Z = Y-2 = 0 starts at max(2, 0) = 2.
    let down = || all(x(2), x(2), all(y(-2), y(-2), flag(0, Z)));
    check(down(), &bits("011"), 0, false_at(2));
    check(down(), &bits("10"), 0, OPEN);
    // The flag of X under a range that starts late: at the range's start.
    check(all(x(2), x(3), flag(0, X)), &bits("0111"), 0, false_at(2));
    check(all(x(2), x(3), flag(0, X)), &bits("1000"), 0, true_at(3));
}

#[test]
fn smallest_false_step_is_not_the_first_position_s() {
    // Body at Y: flag 1 at Y beside X..X+3 of flag 0. Position 0: flag 1 true at
    // 0, the range false at 3: false at 3. Position 1, started at 1: flag 1 false
    // at 1. The smallest is 1.
    let body = || beside(flag(1, Y), all(x(0), x(3), flag(0, Z)));
    check(all(x(0), x(1), body()), &two("1110", "1000"), 0, false_at(1));
    // With t = 2 position 0 is open; position 1 decides all the same.
    check(all(x(0), x(1), body()), &two("111", "100"), 0, false_at(1));
    // True comes at the largest step, here position 0's: its body waits until 3
    // (Y+3), and position 1's is an empty range (Y+3 = 4 > 3), true at 1.
    let until_3 = all(x(0), x(1), all(y(3), x(3), flag(0, Z)));
    check(until_3, &bits("0001"), 0, true_at(3));
}

#[test]
fn alternating_quantifiers() {
    // "For each Y in X..X+1 some Z in Y..Y+2 has flag 0".
    let some = |b1, b2, f| not(all(b1, b2, not(f)));
    let rule = || all(x(0), x(1), some(y(0), y(2), flag(0, Z)));
    // Y = 0: Z = 2 is the first up: true at 2. Y = 1: Z = 2: true at 2.
    check(rule(), &bits("0010"), 0, true_at(2));
    // Y = 0: none of 0, 1, 2: false at 2, when the last of its positions came.
    check(rule(), &bits("0001"), 0, false_at(2));
    // t = 1: Y = 0 sees 0, 1 down, 2 open: open.
    check(rule(), &bits("00"), 0, OPEN);
    // Y = 0 true at 0; Y = 1 sees 1, 2, 3 down: false at 3.
    check(rule(), &bits("1000"), 0, false_at(3));
}

#[test]
fn example_of_document_000() {
    // Not (flag 0 at X beside X-1..X+2 of flag 0), bytes of the program's run.
    let rule = || not(beside(flag(0, X), all(x(-1), x(2), flag(0, Y))));
    let recording = bytes("00 01 01 00 01 01 01 01 00 00");
    let due = [
        // Flag 0 down: false at X, so true.
        true_at(0),
        // Tick 1: position 0 is false, started at 1.
        true_at(1),
        // Tick 2: positions 1, 2 true, 3 false at 3.
        true_at(3),
        true_at(3),
        // Tick 4: position 3 is false, started at 4.
        true_at(4),
        // Tick 5: positions 4 to 7 true, at 7: a violation.
        false_at(7),
        // Tick 6: positions 5 to 8; 8 is false at 8. Tick 7: 8 too.
        true_at(8),
        true_at(8),
        true_at(8),
        true_at(9),
    ];
    for (tick, due) in due.into_iter().enumerate() {
        check(rule(), &recording, tick as i64, due);
    }
    // With t = 6 tick 5 is open.
    check(rule(), &recording[..7], 5, OPEN);
}
