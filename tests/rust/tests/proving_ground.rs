//! Every case of document 01's "Proving ground", marked or not, and its traps.

use rust_tests::notation::*;
use rust_tests::paper::{
    figures, formula_figures, open, read_body, rule_body, rule_outcome, write_body, Figures,
    Formula, Outcome, Refusal, Verdict, Watch,
};

const FIRST_SHEET: &str = "01 05 00 11 00 02 04 01 00 00 05 02 00 FF FF 02 00 02 00 01 01 00";

fn true_at(step: i64) -> Outcome {
    Outcome::Decided(Verdict::True, step)
}

/// History, delay, cells: the order of the paper's cases. The formula goes
/// through its bytes.
fn triple(formula: Formula) -> Result<(u64, u64, u64), Refusal> {
    let Figures { history, delay, cells } = figures(&write_body(&formula))?;
    Ok((history, delay, cells))
}

#[test]
fn example_of_document_000() {
    let sheet = bytes(FIRST_SHEET);
    let body = rule_body(&sheet, 0).unwrap();
    let example = not(beside(flag(0, X), all(x(-1), x(2), flag(0, Y))));
    assert_eq!(read_body(body), Ok(example.clone()));
    assert_eq!(triple(example), Ok((1, 2, 21)));
}

#[test]
fn body_of_a_later_start() {
    let nested = all(x(0), x(10), all(x(0), x(0), flag(0, Z)));
    assert_eq!(triple(nested), Ok((10, 10, 385)));
}

#[test]
fn then_and_beside() {
    let a = || all(x(0), x(2), flag(0, Y));
    let b = || all(x(-1), x(0), flag(0, Y));
    assert_eq!(triple(then(a(), b())), Ok((3, 2, 18)));
    assert_eq!(triple(beside(a(), b())), Ok((1, 2, 27)));
}

#[test]
fn position_0_and_infinity() {
    assert_eq!(triple(all(start(0), x(0), flag(0, Y))), Err(13));
    assert_eq!(triple(all(x(0), start(0), flag(0, Y))), Ok((0, 0, 3)));
    assert_eq!(triple(all(x(0), INFINITY, flag(0, Y))), Err(11));
    assert_eq!(triple(all(INFINITY, x(0), flag(0, Y))), Ok((0, 0, 2)));
}

/// 02, point 6: "The marked case infinity..X keeps 0, 0, 2; infinity..infinity and X+5..X+2 are
/// accepted with the same figures."
#[test]
fn always_empty_ranges() {
    for (first, second) in [(INFINITY, x(0)), (INFINITY, INFINITY), (x(5), x(2))] {
        assert_eq!(triple(all(first, second, flag(0, Y))), Ok((0, 0, 2)));
        // "Its body isn't counted at all."
        let endless = all(start(0), INFINITY, flag(0, Z));
        assert_eq!(triple(all(first, second, endless)), Ok((0, 0, 2)));
        for tick in 0..4 {
            let rule = all(first, second, flag(0, Y));
            assert_eq!(rule_outcome(&rule, &bits("0000"), tick), true_at(tick));
        }
    }
    assert_eq!(triple(all(x(1), x(0), flag(0, Y))), Ok((0, 0, 2)));
    assert_eq!(triple(all(x(0), x(0), flag(0, Y))), Ok((0, 0, 3)));
}

#[test]
fn limits_of_cells_and_delay() {
    assert_eq!(triple(all(x(0), x(62), flag(0, Y))), Ok((0, 62, 4095)));
    assert_eq!(triple(all(x(0), x(63), flag(0, Y))), Err(15));
    assert_eq!(triple(all(x(255), x(255), flag(0, Y))), Ok((0, 255, 768)));
    assert_eq!(triple(all(x(256), x(256), flag(0, Y))), Err(12));
    // 1 + 1 + 4,094 is the limit itself; one more is above it.
    assert_eq!(triple(all(x(-4093), x(0), flag(0, Y))), Ok((4093, 0, 4096)));
    assert_eq!(triple(all(x(-4094), x(0), flag(0, Y))), Err(15));
}

#[test]
fn positions_before_the_stream() {
    let rule = all(x(-3), x(-1), flag(0, Y));
    for horizon in 1..4 {
        assert_eq!(rule_outcome(&rule, &vec![0; horizon], 0), true_at(0));
    }
}

#[test]
fn limit_of_history() {
    let reach = |offset| all(x(-4095), x(-4095), all(y(offset), y(offset), flag(0, Z)));
    assert_eq!(triple(reach(-1)).unwrap().0, 4096);
    assert_eq!(triple(reach(-2)), Err(14));
}

#[test]
fn limit_of_offsets() {
    assert_eq!(triple(all(x(4096), x(4096), flag(0, Y))), Err(8));
    assert_eq!(triple(all(x(-4096), x(0), flag(0, Y))), Err(8));
    assert_eq!(triple(all(x(4095), x(4095), flag(0, Y))), Err(12));
    // 1 + 1 + 4,096 cells: the offset is no longer what is wrong.
    assert_eq!(triple(all(x(-4095), x(0), flag(0, Y))), Err(15));
    assert_eq!(triple(all(x(-4095), x(-4095), flag(0, Y))), Ok((4095, 0, 3)));
}

/// What the program `watch` prints: "Fields: rule, figures; tick and deciding
/// step; ticks taken, violations, live."
fn watch(sheet: &[u8], input: &[u8]) -> String {
    let opened = match open(sheet, 0, 4096, 4 * 4096) {
        Err(number) => return format!("refused {number}\n"),
        Ok(opened) => opened,
    };
    let Figures { history, delay, cells } = opened.figures;
    let mut printed = format!("rule 0 history {history} delay {delay} cells {cells}\n");
    let mut watch = Watch::new(opened.formula);
    let mut violations = 0;
    for (step, &byte) in input.iter().enumerate() {
        for tick in watch.step(byte).report {
            printed += &format!("violation {tick} at {step}\n");
            violations += 1;
        }
    }
    let (steps, live) = (watch.tick(), watch.live());
    printed + &format!("end {steps} steps {violations} violations {live} live\n")
}

#[test]
fn the_program_s_run() {
    let input = bytes("00 01 01 00 01 01 01 01 00 00");
    let due = "rule 0 history 1 delay 2 cells 21\n\
               violation 5 at 7\n\
               end 10 steps 1 violations 0 live\n";
    assert_eq!(watch(&bytes(FIRST_SHEET), &input), due);
}

#[test]
fn the_program_without_input_or_sheet() {
    let due = "rule 0 history 1 delay 2 cells 21\nend 0 steps 0 violations 0 live\n";
    assert_eq!(watch(&bytes(FIRST_SHEET), &[]), due);
    assert_eq!(watch(&[], &[]), "refused 1\n");
}

#[test]
fn the_program_with_ticks_still_open() {
    // Flag 0 up at ticks 0 and 1: tick 0 sees 0..2, of which tick 2 isn't here;
    // tick 1 sees 0..3. Both are open.
    let due = "rule 0 history 1 delay 2 cells 21\nend 2 steps 0 violations 2 live\n";
    assert_eq!(watch(&bytes(FIRST_SHEET), &[1, 1]), due);
}

// Traps of this trade.

/// "Giving bound 0 the pair (0, 0) [..]: 0..X would pass with no history."
#[test]
fn trap_bound_0() {
    for offset in [-4095, -1, 0, 1, 4095] {
        assert_eq!(triple(all(start(offset), x(0), flag(0, Y))), Err(13));
    }
    // Under a variable that itself begins at 0: l stays -infinity.
    assert_eq!(triple(all(start(0), x(0), all(y(5), x(0), flag(0, Z)))), Err(13));
}

/// "Keeping the body's history without the later start": history 10, not 0. And
/// 10 comes from N(u), not from W: the same with X+10 alone.
#[test]
fn trap_later_start() {
    let nested = all(x(10), x(10), all(x(0), x(0), flag(0, Z)));
    // Cells: 1 + 1 * (1 + 2) = 4, and 11 * 5 = 55.
    assert_eq!(triple(nested), Ok((10, 10, 55)));
}

/// "Starting G of 'then' at s": F true at 1 starts G at 1, so flag 1 at X is
/// false at 1, not at 0.
#[test]
fn trap_start_of_then() {
    let rule = then(all(x(0), x(1), flag(0, Y)), flag(1, X));
    let outcome = rule_outcome(&rule, &two("11", "00"), 0);
    assert_eq!(outcome, Outcome::Decided(Verdict::False, 1));
}

/// "Ending a range at p2 + 1": X..X is decided at X.
#[test]
fn trap_end_of_range() {
    let rule = all(x(0), x(0), flag(0, Y));
    assert_eq!(rule_outcome(&rule, &bits("1"), 0), true_at(0));
    assert_eq!(rule_outcome(&rule, &bits("10"), 0), true_at(0));
}

/// "Raising a negative p2 to 0 along with p1, so that X-3..X-1 at tick 0 looks
/// at tick 0": with flag 0 down it would be false.
#[test]
fn trap_negative_p2() {
    assert_eq!(rule_outcome(&all(x(-3), x(-1), flag(0, Y)), &bits("0"), 0), true_at(0));
    assert_eq!(rule_outcome(&all(start(-4), start(-2), flag(0, Y)), &bits("000"), 2), true_at(2));
    // -2..0 does look at tick 0.
    let looks = rule_outcome(&all(x(-3), x(-1), flag(0, Y)), &bits("00"), 1);
    assert_eq!(looks, Outcome::Decided(Verdict::False, 1));
}

/// "'Open' before trying differs from the meaning": one false position decides
/// although the range goes on.
#[test]
fn trap_open_before_trying() {
    let rule = all(x(0), x(5), flag(0, Y));
    assert_eq!(rule_outcome(&rule, &bits("0"), 0), Outcome::Decided(Verdict::False, 0));
    assert_eq!(rule_outcome(&rule, &bits("1"), 0), Outcome::Open);
}

/// "One that judges each tick on arrival and then idles breaks the deciding
/// steps": violations come at their deciding step, and live counts fall.
#[test]
fn trap_judging_on_arrival() {
    let mut watch = Watch::new(all(x(0), x(2), flag(0, Y)));
    let mut answers = Vec::new();
    for flag in bits("11101") {
        let answer = watch.step(flag);
        answers.push((answer.report, answer.live));
    }
    // Tick 0 is true at 2. Ticks 1, 2 and 3 all see tick 3, false at 3. Tick 4
    // is open.
    let none = Vec::new;
    let due = vec![(none(), 1), (none(), 2), (none(), 2), (vec![1, 2, 3], 0), (none(), 1)];
    assert_eq!(answers, due);
}

/// l > u: neither the range's own delay and history count, nor its body's; the same body counts
/// where l = u.
#[test]
fn empty_range_counts_nothing() {
    // Body: X-9..X+3.
    let over = |first, second| all(first, second, all(x(-9), x(3), flag(0, Z)));
    assert_eq!(triple(over(x(1), x(0))), Ok((0, 0, 2)));
    // Delay 3, history N(0 + 9) = 9. Cells: 1 + (1 + 1 + 13 * 1) = 16; 4 * 17 = 68.
    assert_eq!(triple(over(x(0), x(0))), Ok((9, 3, 68)));
    // u = 4, which would be the delay and the body's k.
    let rule = all(x(6), x(4), all(x(-2), x(-2), flag(0, Z)));
    assert_eq!(triple(rule), Ok((0, 0, 2)));
    // As the first part of "then" it starts the second no later.
    let reach = all(x(-1), x(-1), flag(0, Y));
    assert_eq!(triple(then(all(x(6), x(4), flag(0, Y)), reach)), Ok((1, 0, 4)));
}

/// "then" takes max(k, delay of F), never a sum.
#[test]
fn latest_start_is_no_sum() {
    let later = |n| all(x(n), x(n), flag(0, Y));
    // Delays 3 and 5: the last part starts at most at 5, and reaches back to X-1.
    let rule = then(later(3), then(later(5), all(x(-1), x(-1), flag(0, Y))));
    // later(5) starts at 3 at the latest: N(3 - 5) = 0. The last: N(5 + 1) = 6.
    // Cells: 1 + max(2, 1 + max(2, 2)) = 4; 6 * 5 = 30.
    assert_eq!(triple(rule), Ok((6, 5, 30)));
}

/// Under a "then" a range's body starts no earlier than the range: max(k, N(u)).
#[test]
fn latest_start_goes_into_a_range() {
    // The range X..X starts at 5 at the latest, and so does X-1..X-1 under it:
    // N(5 + 1) = 6. Cells: 1 + max(2, 1 + (1 + 2)) = 5; 6 * 6 = 36.
    let inner = all(x(0), x(0), all(x(-1), x(-1), flag(0, Z)));
    let rule = then(all(x(5), x(5), flag(0, Y)), inner);
    assert_eq!(triple(rule), Ok((6, 5, 36)));
}

/// The widest ranges: no sum or product may overflow.
#[test]
fn widest_ranges() {
    let widest = |b: Formula| {
        all(x(-4095), x(0), all(y(-4095), x(0), all(z(-4095), x(0), all(w(-4095), x(0), b))))
    };
    assert_eq!(formula_figures(&widest(flag(0, V))), Err(14));
    let wide = |b: Formula| {
        all(x(-1024), x(255), all(y(-1024), x(255), all(z(-1024), x(255), all(w(-769), x(255), b))))
    };
    // l is -3,841; k is 255: history 4,096. Some 10^16 cells.
    assert_eq!(formula_figures(&wide(flag(0, V))), Err(15));
}
