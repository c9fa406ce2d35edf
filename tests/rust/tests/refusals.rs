//! Refusals and their order: "a number comes when its line holds and nothing
//! earlier in the order does, and never otherwise".

use rust_tests::library::Running;
use rust_tests::notation::*;
use rust_tests::paper::{
    evaluate, figures, open, open_set, read_body, rule_body, rule_place, set_step_refusal,
    step_refusal, write_body, write_sheet, Figures, Formula, Lengths, OpenedSet, Refusal,
    SetLengths,
};
use rust_tests::random::{rule_of_cells, sheet_of, sheet_of_rules};
use rust_tests::records;
use rust_tests::states;

#[track_caller]
fn body_gets(hexadecimal: &str, due: Result<(), Refusal>) {
    assert_eq!(read_body(&bytes(hexadecimal)).map(|_| ()), due, "{hexadecimal}");
}

#[track_caller]
fn refused(hexadecimal: &str, due: Refusal) {
    body_gets(hexadecimal, Err(due));
}

fn nots(count: usize) -> String {
    "02 ".repeat(count)
}

/// A range with these bounds over flag 0 at the rule's tick.
fn two_bounds(first: &str, second: &str) -> String {
    format!("05 {first} {second} 01 00 00 ")
}

/// The same with X for the second bound.
fn first_bound(bound: &str) -> String {
    two_bounds(bound, "02 00 00 00")
}

/// The beginning of a range X..X.
const RANGE: &str = "05 02 00 00 00 02 00 00 00 ";

#[test]
fn accepted_bodies() {
    body_gets("01 00 00", Ok(()));
    body_gets("01 00 07", Ok(()));
    body_gets("02 01 00 00", Ok(()));
    body_gets("03 01 00 00 01 00 01", Ok(()));
    body_gets("04 01 00 00 01 00 01", Ok(()));
    body_gets(&(RANGE.to_string() + "01 01 00"), Ok(()));
    body_gets("05 00 00 FB FF 01 00 00 00 01 01 00", Ok(()));
}

#[test]
fn too_early_an_end() {
    refused("", 4);
    refused("01", 4);
    refused("01 00", 4);
    refused("02", 4);
    refused("03 01 00 00", 4);
    refused("04 02 01 00 00", 4);
    refused(RANGE, 4);
    // The fixed bytes of a flag come before its variable and flag are looked at.
    refused("01 09", 4);
    // All 8 bytes of both bounds come before the first bound's kind.
    refused("05 03", 4);
    refused("05 03 00 00 00 03 00 00", 4);
}

#[test]
fn unknown_code_or_kind() {
    refused("00", 5);
    refused("06", 5);
    refused("FF 01 00 00", 5);
    refused("02 06", 5);
    // The kind's own number comes before the body's end.
    refused("05 03 00 00 00 02 00 00 00", 5);
    refused("05 02 00 00 00 03 00 00 00", 5);
    // An unknown kind with an unbound variable and an offset out of range.
    refused("05 03 09 00 10 02 00 00 00 01 00 00", 5);
}

#[test]
fn unbound_variables() {
    refused("01 01 00", 6);
    // Before the flag.
    refused("01 01 08", 6);
    // A quantifier's own variable isn't bound in its bounds.
    refused("05 02 01 00 00 02 00 00 00 01 01 00", 6);
    refused("05 02 00 00 00 02 01 00 00 01 01 00", 6);
    // Before the offset of the same bound, and before the next bound's kind.
    refused("05 02 01 00 10 02 00 00 00 01 00 00", 6);
    refused("05 02 01 00 00 03 00 00 00 01 00 00", 6);
    // A variable is bound under its quantifier only, not beside it.
    refused(&("04 ".to_string() + RANGE + "01 01 00 01 01 00"), 6);
    // Under four quantifiers variable 4 is bound, 5 isn't.
    body_gets(&(RANGE.repeat(4) + "01 04 00"), Ok(()));
    refused(&(RANGE.repeat(4) + "01 05 00"), 6);
}

#[test]
fn flags_above_7() {
    refused("01 00 08", 7);
    refused("01 00 FF", 7);
    // Before bytes left over, and before what comes to its right.
    refused("01 00 08 00", 7);
    refused("03 01 00 08", 7);
    refused("03 01 00 08 06", 7);
    // But after what comes to its left.
    refused("03 01 01 00 01 00 08", 6);
}

#[test]
fn offsets_out_of_range() {
    // 4,095 is FF 0F, -4,095 is 01 F0.
    body_gets(&first_bound("02 00 FF 0F"), Ok(()));
    body_gets(&first_bound("02 00 01 F0"), Ok(()));
    refused(&first_bound("02 00 00 10"), 8);
    refused(&first_bound("02 00 00 F0"), 8);
    refused(&first_bound("02 00 FF 7F"), 8);
    refused(&first_bound("02 00 00 80"), 8);
    // Position 0 has an offset too.
    body_gets(&first_bound("00 00 FF 0F"), Ok(()));
    refused(&first_bound("00 00 00 10"), 8);
    // The first bound's 8 comes before all of the second's.
    refused(&two_bounds("02 00 00 10", "03 00 00 00"), 8);
    refused(&two_bounds("02 00 00 10", "02 01 00 00"), 8);
    refused(&two_bounds("02 00 00 10", "00 01 00 00"), 8);
    refused(&two_bounds("02 00 00 10", "01 00 01 00"), 8);
    // And before the body's 4.
    refused("05 02 00 00 10 02 00 00 00", 8);
}

#[test]
fn variable_bytes_that_are_not_0() {
    // Kinds 0 and 1 never give 6: their variable byte gives 23, also where a range
    // around it has bound that variable.
    refused(&first_bound("00 01 00 00"), 23);
    refused(&first_bound("00 FF 00 00"), 23);
    refused(&first_bound("01 01 00 00"), 23);
    refused(&two_bounds("02 00 00 00", "01 01 00 00"), 23);
    refused(&(RANGE.to_string() + &two_bounds("00 01 00 00", "02 01 00 00")), 23);
    // Kind 2 has its variable, and 6 for one that is not bound.
    body_gets(&(RANGE.to_string() + &two_bounds("02 01 00 00", "02 01 00 00")), Ok(()));
    refused(&(RANGE.to_string() + &two_bounds("02 02 00 00", "02 01 00 00")), 6);
    // After 5, before 24 and 8.
    refused(&first_bound("03 01 00 00"), 5);
    refused(&first_bound("01 01 01 00"), 23);
    refused(&first_bound("01 01 88 13"), 23);
    refused(&first_bound("00 01 88 13"), 23);
    refused(&two_bounds("01 00 00 00", "00 01 00 10"), 23);
    // All of the first bound's before the second's.
    refused(&two_bounds("00 01 00 00", "03 00 00 00"), 23);
    refused(&two_bounds("01 00 01 00", "00 01 00 00"), 24);
    // Before the body's 4, what comes to its right, and 10.
    refused("05 00 01 00 00 02 00 00 00", 23);
    refused(&("04 ".to_string() + &first_bound("00 01 00 00") + "06"), 23);
    refused(&(first_bound("00 01 00 00") + "00"), 23);
    // After the bounds' 4, 9, and what comes to its left.
    refused("05 00 01 00 00 02 00 00", 4);
    refused(&(RANGE.repeat(4) + &first_bound("00 01 00 00")), 9);
    refused(&("04 01 00 08 ".to_string() + &first_bound("00 01 00 00")), 7);
}

#[test]
fn offsets_on_infinity() {
    body_gets(&two_bounds("01 00 00 00", "01 00 00 00"), Ok(()));
    // Either byte, either sign, either bound; also one out of range.
    refused(&first_bound("01 00 01 00"), 24);
    refused(&first_bound("01 00 00 01"), 24);
    refused(&first_bound("01 00 FF FF"), 24);
    refused(&two_bounds("02 00 00 00", "01 00 01 00"), 24);
    refused(&first_bound("01 00 FF 0F"), 24);
    refused(&first_bound("01 00 00 10"), 24);
    refused(&first_bound("01 00 88 13"), 24);
    refused(&two_bounds("02 00 00 00", "01 00 00 80"), 24);
    // All of the first bound's before the second's.
    refused(&two_bounds("01 00 88 13", "02 00 88 13"), 24);
    refused(&two_bounds("02 01 00 00", "01 00 01 00"), 6);
    refused(&two_bounds("01 00 01 00", "03 00 00 00"), 24);
    // Before the body's 4 and 10; after the bounds' 4, 9, and what comes to its left.
    refused("05 01 00 01 00 02 00 00 00", 24);
    refused(&(first_bound("01 00 01 00") + "00"), 24);
    refused("05 01 00 01 00 02 00 00", 4);
    refused(&(RANGE.repeat(4) + &first_bound("01 00 01 00")), 9);
    refused(&("04 01 00 08 ".to_string() + &first_bound("01 00 01 00")), 7);
}

#[test]
fn too_many_formulas() {
    body_gets(&(nots(63) + "01 00 00"), Ok(()));
    refused(&(nots(64) + "01 00 00"), 9);
    // Code present (4), known (5), 9, its fixed bytes present (4).
    refused(&nots(64), 4);
    refused(&(nots(64) + "06"), 5);
    refused(&(nots(64) + "01"), 9);
    refused(&(nots(64) + "05"), 9);
    refused(&(nots(64) + "01 09 09"), 9);
    refused(&nots(65), 9);
    // 64 formulas that end, and more bytes: left over, whatever they are.
    refused(&(nots(63) + "01 00 00 01 00 00"), 10);
    // A flag to the left of the 65th formula is looked at first.
    refused(&("03 01 00 08 ".to_string() + &nots(62) + "01 00 00"), 7);
    // 31 conjunctions and 32 flags are 63; with a not before them 64; with two, 65.
    let tree = "04 ".repeat(31) + &"01 00 00 ".repeat(32);
    body_gets(&(nots(1) + &tree), Ok(()));
    refused(&(nots(2) + &tree), 9);
}

#[test]
fn too_many_nested() {
    body_gets(&(RANGE.repeat(4) + "01 00 00"), Ok(()));
    refused(&(RANGE.repeat(5) + "01 00 00"), 9);
    refused(&(RANGE.repeat(4) + "05"), 9);
    refused(&(RANGE.repeat(4) + "05 03 00 00 00 03 00 00 00"), 9);
    refused(&(RANGE.repeat(4) + "02 02 05"), 9);
    // Four nested on the left, four on the right: eight, but not nested.
    let four = RANGE.repeat(4) + "01 04 00 ";
    body_gets(&("04 ".to_string() + &four + &four), Ok(()));
    // A wrong bound of the fourth comes before the fifth.
    refused(&(RANGE.repeat(3) + "05 02 09 00 00 02 00 00 00 05"), 6);
}

#[test]
fn bytes_left_over() {
    refused("01 00 00 00", 10);
    refused("01 00 00 06", 10);
    refused("02 01 00 00 01 00 00", 10);
}

#[track_caller]
fn figures_refuse(formula: Formula, due: Refusal) {
    assert_eq!(figures(&write_body(&formula)), Err(due), "{formula:?}");
}

#[test]
fn order_of_the_figures() {
    // 10 before 11.
    let mut body = write_body(&all(x(0), INFINITY, flag(0, Y)));
    body.push(0);
    assert_eq!(figures(&body), Err(10));
    // Delay infinite and history infinite: 11.
    figures_refuse(all(start(0), INFINITY, flag(0, Y)), 11);
    // Delay infinite on one side, above 255 on the other: 11.
    let endless = all(x(0), INFINITY, flag(0, Y));
    figures_refuse(beside(all(x(256), x(256), flag(0, Y)), endless), 11);
    // Delay above 255, history infinite: 12.
    figures_refuse(all(start(0), x(256), flag(0, Y)), 12);
    // History infinite on one side, above 4,096 on the other: 13.
    let far = || all(x(-4095), x(-4095), all(y(-2), y(-2), flag(0, Z)));
    figures_refuse(beside(far(), all(start(0), x(0), flag(0, Y))), 13);
    // History above 4,096, too many cells: 14. And history infinite, too many: 13.
    figures_refuse(beside(far(), all(x(-4000), x(99), flag(0, Y))), 14);
    figures_refuse(all(start(0), x(0), all(x(-4000), x(99), flag(0, Z))), 13);
    // Delay 256 and too many cells: 12.
    figures_refuse(all(x(0), x(256), flag(0, Y)), 12);
}

/// 02, point 6: "a range whose l is infinity, or whose l is greater than its u [..], its body
/// isn't counted at all. Body layout is still checked."
#[test]
fn always_empty_ranges() {
    for (first, second) in [(INFINITY, INFINITY), (INFINITY, x(256)), (x(5), x(2))] {
        // 11, 12 and 13 where they are counted.
        for part in [
            all(x(0), INFINITY, flag(0, Z)),
            all(x(256), x(256), flag(0, Z)),
            all(start(0), x(0), flag(0, Z)),
            // The range's own variable, with its infinite l and u.
            all(y(5), y(0), flag(0, Z)),
        ] {
            let none = Figures { history: 0, delay: 0, cells: 2 };
            assert_eq!(figures(&write_body(&all(first, second, part))), Ok(none));
        }
        // 6 to 8: as everywhere.
        figures_refuse(all(first, second, flag(0, Z)), 6);
        figures_refuse(all(first, second, flag(8, Y)), 7);
        figures_refuse(all(first, second, all(x(4096), x(0), flag(0, Z))), 8);
        // What stands beside it is counted.
        let range = || all(first, second, flag(0, Y));
        figures_refuse(beside(range(), all(x(0), INFINITY, flag(0, Y))), 11);
        figures_refuse(then(range(), all(start(0), x(0), flag(0, Y))), 13);
    }
    // l of position 0 is -infinity: it is above no u.
    figures_refuse(all(start(0), start(-1), flag(0, Y)), 13);
    figures_refuse(all(start(9), x(-9), flag(0, Y)), 13);
}

#[test]
fn sheets() {
    let sheet = sheet_of(&[vec![1, 0, 0], vec![9; 512], vec![7]]);
    assert_eq!(rule_place(&sheet, 0), Ok((13, 3)));
    assert_eq!(rule_place(&sheet, 1), Ok((16, 512)));
    assert_eq!(rule_body(&sheet, 2), Ok(&[7u8][..]));
    assert_eq!(rule_place(&sheet, 3), Err(3));
    assert_eq!(rule_place(&sheet, usize::MAX), Err(3));
    // 1: empty, n = 0, n = 33, table of contents cut.
    assert_eq!(rule_place(&[], 0), Err(1));
    assert_eq!(rule_place(&[0], 0), Err(1));
    assert_eq!(rule_place(&vec![33; 400], 0), Err(1));
    assert_eq!(rule_place(&sheet[..12], 0), Err(1));
    // With the whole table and no body the layout is broken: 2.
    assert_eq!(rule_place(&sheet[..13], 0), Err(2));
    assert_eq!(rule_place(&sheet[..sheet.len() - 1], 0), Err(2));
    // 1 before 3, 2 before 3.
    assert_eq!(rule_place(&[], 9), Err(1));
    assert_eq!(rule_place(&sheet[..sheet.len() - 1], 9), Err(2));
}

#[test]
fn broken_entries() {
    let sheet = sheet_of(&[vec![1, 0, 0], vec![9; 4]]);
    let spoilt = |at: usize, byte: u8| {
        let mut spoilt = sheet.clone();
        spoilt[at] = byte;
        rule_place(&spoilt, 0)
    };
    assert_eq!(spoilt(1, 8), Err(2), "first body not at 1 + 4n");
    assert_eq!(spoilt(2, 1), Err(2), "high byte of an offset");
    assert_eq!(spoilt(3, 2), Err(2), "second body after a gap");
    assert_eq!(spoilt(5, 11), Err(2), "second body overlaps the first");
    assert_eq!(spoilt(7, 3), Err(2), "a byte after the last body");
    assert_eq!(spoilt(7, 5), Err(2), "a byte missing");
    // Length 0, then 513, with the layout else whole: the sum is right.
    assert_eq!(rule_place(&bytes("02 09 00 00 00 09 00 01 00 07"), 1), Err(2));
    let mut long = bytes("01 05 00 01 02");
    long.extend(vec![0; 513]);
    assert_eq!(rule_place(&long, 0), Err(2));
}

#[test]
fn longest_sheet() {
    let sheet = sheet_of(&vec![vec![0xAB; 512]; 32]);
    assert_eq!(sheet.len(), 16_513);
    assert_eq!(rule_place(&sheet, 31), Ok((16_001, 512)));
}

#[test]
fn writers() {
    let mut out = [0xEE; 12];
    assert_eq!(write_sheet(&[], &[], &mut out), Err(1));
    assert_eq!(write_sheet(&[1; 33], &[0; 33], &mut out), Err(1));
    assert_eq!(write_sheet(&[0], &[], &mut out), Err(2));
    assert_eq!(write_sheet(&[513], &[0; 513], &mut out), Err(2));
    assert_eq!(write_sheet(&[2], &[0; 3], &mut out), Err(2));
    assert_eq!(write_sheet(&[2, 2], &[0; 3], &mut out), Err(2));
    assert_eq!(write_sheet(&[3], &[0; 3], &mut out[..7]), Err(22));
    // 1 before 2 and 22; 2 before 22.
    assert_eq!(write_sheet(&[0; 33], &[], &mut []), Err(1));
    assert_eq!(write_sheet(&[0], &[], &mut []), Err(2));
    assert_eq!(out, [0xEE; 12], "a refusal writes nothing");
    assert_eq!(write_sheet(&[3], &[7, 8, 9], &mut out), Ok(8));
    assert_eq!(out.to_vec(), bytes("01 05 00 03 00 07 08 09 EE EE EE EE"));
    // No room to spare.
    assert_eq!(write_sheet(&[3], &[7, 8, 9], &mut out[..8]), Ok(8));
}

#[test]
fn recordings() {
    let body = [1, 0, 0];
    assert_eq!(evaluate(&body, &[], 0), Err(16));
    assert_eq!(evaluate(&body, &[1], 1), Err(16));
    assert_eq!(evaluate(&body, &[1], usize::MAX), Err(16));
    assert!(evaluate(&body, &vec![0; 65_535], 65_534).is_ok());
    assert_eq!(evaluate(&body, &vec![0; 65_536], 0), Err(16));
    // 4 to 10, 23 and 24 before 16.
    assert_eq!(evaluate(&[], &[], 0), Err(4));
    assert_eq!(evaluate(&[1, 0, 0, 0], &vec![0; 65_536], 0), Err(10));
    assert_eq!(evaluate(&bytes(&first_bound("00 01 00 00")), &[], 0), Err(23));
    assert_eq!(evaluate(&bytes(&first_bound("01 00 01 00")), &[], 0), Err(24));
    // "Also for a body that the engine refuses to open": 11, 12, 13, 15.
    for rule in [
        all(x(0), INFINITY, flag(0, Y)),
        all(x(256), x(256), flag(0, Y)),
        all(start(0), x(0), flag(0, Y)),
        all(x(0), x(63), flag(0, Y)),
    ] {
        assert!(figures(&write_body(&rule)).is_err());
        assert!(evaluate(&write_body(&rule), &[0, 0], 1).is_ok());
    }
}

#[test]
fn openings() {
    // The example: history 1, delay 2, cells 21.
    let example = bytes("02 04 01 00 00 05 02 00 FF FF 02 00 02 00 01 01 00");
    let sheet = sheet_of(&[vec![6], example]);
    let number = |rule, history, words| open(&sheet, rule, history, words).err();
    assert_eq!(number(1, 1, 84), None);
    assert_eq!(number(1, 4096, 85), None);
    assert_eq!(number(1, 0, 84), Some(17));
    assert_eq!(number(1, 4097, 84), Some(17));
    assert_eq!(number(1, 1, 83), Some(18));
    // 17 before 18; the body before 17; the rule number before the body.
    assert_eq!(number(1, 0, 0), Some(17));
    assert_eq!(number(0, 0, 0), Some(5));
    assert_eq!(number(2, 0, 0), Some(3));
    // Rule 0 is no formula; opening rule 1 doesn't look at it.
    let endless = sheet_of(&[write_body(&all(start(0), x(0), flag(0, Y)))]);
    assert_eq!(open(&endless, 0, 9999, 0).err(), Some(13));
}

#[test]
fn steps() {
    let example = bytes("02 04 01 00 00 05 02 00 FF FF 02 00 02 00 01 01 00");
    let opened = open(&sheet_of(&[example]), 0, 5, 84).unwrap();
    let number = |history, table, report, tick| {
        step_refusal(&opened, Lengths { history, table, report }, tick)
    };
    assert_eq!(number(5, 84, 3, 0), None);
    assert_eq!(number(5, 84, 3, 4_294_967_295), None);
    assert_eq!(number(5, 84, 3, LAST_TICK), None);
    // Not of length L, though long enough.
    assert_eq!(number(6, 84, 3, 0), Some(17));
    assert_eq!(number(4, 84, 3, 0), Some(17));
    assert_eq!(number(5, 83, 3, 0), Some(18));
    assert_eq!(number(5, 84, 2, 0), Some(19));
    for tick in UNTAKEN {
        assert_eq!(number(5, 84, 3, tick), Some(20));
        // In this order.
        assert_eq!(number(0, 0, 0, tick), Some(17));
        assert_eq!(number(5, 0, 0, tick), Some(18));
        assert_eq!(number(5, 84, 0, tick), Some(19));
    }
}

/// The last tick that is taken, and some after it.
const LAST_TICK: u64 = 4_611_686_018_427_387_903;
const UNTAKEN: [u64; 4] = [LAST_TICK + 1, LAST_TICK + 2, 1 << 63, u64::MAX];

/// The same on a state's bytes, where 21 comes before all others.
#[test]
fn steps_on_state_bytes() {
    let example = bytes("02 04 01 00 00 05 02 00 FF FF 02 00 02 00 01 01 00");
    let right = Lengths { history: 5, table: 84, report: 3 };
    let number = |at, content, lengths| {
        let mut state = states::fresh(&example, 5);
        states::put_number(&mut state, at, content);
        let step = states::admit_step(&state, lengths).err().unwrap_or(0);
        (step, states::admit_batch(&state, lengths).err().unwrap_or(0))
    };
    let next = |tick, lengths| number(states::NEXT_AT, tick, lengths);
    assert_eq!(next(0, right), (0, 0));
    assert_eq!(next(4_294_967_295, right), (0, 0));
    assert_eq!(next(LAST_TICK, right), (0, 0));
    for tick in UNTAKEN {
        assert_eq!(next(tick, right), (20, 20));
        assert_eq!(next(tick, Lengths { report: 2, ..right }), (19, 20));
        assert_eq!(next(tick, Lengths { table: 83, report: 2, ..right }), (18, 18));
        assert_eq!(next(tick, Lengths { history: 4, table: 83, report: 2 }), (17, 17));
    }
    assert_eq!(next(0, Lengths { report: 2, ..right }), (19, 0));
    assert_eq!(next(0, Lengths { table: 83, report: 2, ..right }), (18, 18));
    assert_eq!(next(0, Lengths { history: 4, table: 83, report: 2 }), (17, 17));
    let wrong = Lengths { history: 4, table: 0, report: 0 };
    for lengths in [right, wrong] {
        // L above 4,096, and below the history figure, which is 1.
        assert_eq!(number(states::OPENED_AT, 4097, lengths), (21, 21));
        assert_eq!(number(states::OPENED_AT, 0, lengths), (21, 21));
        // A body cut short, one with bytes left over, one that has no room.
        for size in [0, 16, 18, 512, 513, u64::MAX] {
            assert_eq!(number(states::SIZE_AT, size, lengths), (21, 21));
        }
    }
    assert_eq!(number(states::OPENED_AT, 4096, Lengths { history: 4096, ..right }), (0, 0));
    assert_eq!(number(states::LIVE_AT, u64::MAX, right), (0, 0));
}

/// Flag 0 at X, and the example: history 0 and 1, delay 0 and 2, cells 1 and 21. Twice the sum
/// of all delay + 1 is 8.
fn two_rules() -> Vec<u8> {
    let example = bytes("02 04 01 00 00 05 02 00 FF FF 02 00 02 00 01 01 00");
    sheet_of(&[vec![1, 0, 0], example])
}

const RIGHT: SetLengths = SetLengths { records: 2, history: 1, table: 88, report: 8 };

#[test]
fn set_openings() {
    let number = |lengths| open_set(&two_rules(), lengths).err();
    assert_eq!(number(RIGHT), None);
    assert_eq!(number(SetLengths { records: 9, history: 4096, table: 90, report: 0 }), None);
    // "17 reads the largest history figure".
    assert_eq!(number(SetLengths { history: 0, ..RIGHT }), Some(17));
    assert_eq!(number(SetLengths { history: 4097, ..RIGHT }), Some(17));
    // "18 the sum of the cells (or fewer records than rules)".
    assert_eq!(number(SetLengths { table: 87, ..RIGHT }), Some(18));
    assert_eq!(number(SetLengths { records: 1, ..RIGHT }), Some(18));
    assert_eq!(number(SetLengths { records: 0, history: 0, table: 0, report: 0 }), Some(17));
    let sum = |cells: &[u64]| {
        let rules: Vec<_> = cells.iter().map(|&cells| rule_of_cells(cells)).collect();
        let lengths = SetLengths { records: 9, history: 4096, table: 99_999, report: 0 };
        open_set(&sheet_of_rules(&rules), lengths).err()
    };
    assert_eq!(sum(&[4096]), None);
    assert_eq!(sum(&[4000, 95, 1]), None);
    assert_eq!(sum(&[4000, 96, 1]), Some(27));
    assert_eq!(sum(&[1, 4096]), Some(27));
}

/// 1 and 2; the rules' own in rule order; 27, though a rule before it passed the sum; 17.
#[test]
fn set_openings_in_order() {
    let none = SetLengths { records: 0, history: 9999, table: 0, report: 0 };
    let number = |sheet: &[u8]| open_set(sheet, none).err();
    let large = rule_of_cells(4096).body;
    let (unknown, early) = (vec![6], vec![2]);
    let all_wrong = sheet_of(&[large.clone(), large.clone(), unknown.clone(), early.clone()]);
    assert_eq!(number(&all_wrong), Some(5));
    assert_eq!(number(&sheet_of(&[early, large.clone(), unknown])), Some(4));
    assert_eq!(number(&[&all_wrong[..], &[0]].concat()), Some(2));
    assert_eq!(number(&[0]), Some(1));
    assert_eq!(number(&[]), Some(1));
    assert_eq!(number(&sheet_of(&[large.clone(), large])), Some(27));
    assert_eq!(number(&two_rules()), Some(17));
}

#[test]
fn set_steps() {
    let opened = open_set(&two_rules(), SetLengths { history: 5, ..RIGHT }).unwrap();
    let right = SetLengths { history: 5, ..RIGHT };
    let number = |lengths, tick| set_step_refusal(&opened, lengths, tick);
    assert_eq!(number(right, 0), None);
    assert_eq!(number(right, 4_294_967_295), None);
    assert_eq!(number(right, LAST_TICK), None);
    assert_eq!(number(SetLengths { history: 6, ..right }, 0), Some(17));
    assert_eq!(number(SetLengths { table: 87, ..right }, 0), Some(18));
    assert_eq!(number(SetLengths { records: 1, ..right }, 0), Some(18));
    assert_eq!(number(SetLengths { report: 7, ..right }, 0), Some(19));
    for tick in UNTAKEN {
        assert_eq!(number(right, tick), Some(20));
        // In this order; where no record is lent, no opened length is known.
        let none = SetLengths { records: 1, history: 0, table: 0, report: 0 };
        assert_eq!(number(none, tick), Some(17));
        assert_eq!(number(SetLengths { records: 0, ..none }, tick), Some(18));
        assert_eq!(number(SetLengths { history: 5, ..none }, tick), Some(18));
        assert_eq!(number(SetLengths { report: 0, ..right }, tick), Some(19));
    }
}

fn opened_set() -> OpenedSet {
    open_set(&two_rules(), RIGHT).unwrap()
}

/// What an opening writes: the example's sheet has its bodies at 9 and 12.
#[test]
fn fresh_records() {
    let due = [[9, 3, 0, 1, 0, 1, 0, 0], [12, 17, 1, 21, 2, 1, 0, 0]];
    let seen = records::fresh(&opened_set());
    assert_eq!(seen.len(), due.len());
    for (record, due) in seen.into_iter().zip(due) {
        assert_eq!(record.numbers().map(|(number, _)| number), due);
    }
}

/// The same on records, where 21 comes before all others.
#[test]
fn steps_on_records() {
    let number = |change: fn(&mut [Running]), lengths: SetLengths| {
        let mut running = records::fresh(&opened_set());
        change(&mut running);
        let lent = &running[..lengths.records];
        let step = records::admit_step(&two_rules(), lent, lengths).err().unwrap_or(0);
        (step, records::admit_batch(&two_rules(), lent, lengths).err().unwrap_or(0))
    };
    assert_eq!(number(|_| (), RIGHT), (0, 0));
    assert_eq!(number(|_| (), SetLengths { report: 7, ..RIGHT }), (19, 0));
    assert_eq!(number(|_| (), SetLengths { records: 1, report: 7, ..RIGHT }), (18, 18));
    assert_eq!(number(|_| (), SetLengths { history: 2, table: 0, ..RIGHT }), (17, 17));
    assert_eq!(number(|_| (), SetLengths { records: 0, history: 2, ..RIGHT }), (18, 18));
    assert_eq!(number(|all| all.iter_mut().for_each(|one| one.next = LAST_TICK), RIGHT), (0, 0));
    let untaken: [fn(&mut [Running]); 3] = [
        |all| all.iter_mut().for_each(|one| one.next = LAST_TICK + 1),
        |all| all.iter_mut().for_each(|one| one.next = 1 << 63),
        |all| all.iter_mut().for_each(|one| one.next = u64::MAX),
    ];
    for change in untaken {
        assert_eq!(number(change, RIGHT), (20, 20));
        assert_eq!(number(change, SetLengths { report: 7, ..RIGHT }), (19, 20));
    }
    assert_eq!(number(|all| all[0].live = 99, RIGHT), (0, 0));
    // A record that is not lent is not looked at.
    assert_eq!(number(|all| all[1].cells = 9, SetLengths { records: 1, ..RIGHT }), (18, 18));
    let wrong = SetLengths { records: 2, history: 4, table: 0, report: 0 };
    let changes: [fn(&mut [Running]); 13] = [
        |all| all[0].start = u32::MAX,
        |all| all[1].start = u32::MAX - 16,
        |all| all[1].size = 18,
        |all| all[0].size = 2,
        |all| all[1].first = 0,
        |all| all[1].cells = 22,
        |all| all[1].delay = 1,
        |all| all[1].opened = 2,
        |all| all[1].next = 1,
        |all| all[1].next = 1 << 32,
        |all| all.iter_mut().for_each(|one| one.opened = 4097),
        |all| all.iter_mut().for_each(|one| one.opened = 0),
        |all| all.swap(0, 1),
    ];
    for lengths in [RIGHT, wrong] {
        for change in changes {
            assert_eq!(number(change, lengths), (21, 21));
        }
    }
}

/// 21 for a sheet with no rules or more than 32; else only its bodies count.
#[test]
fn steps_on_sheets() {
    let running = records::fresh(&opened_set());
    let number = |change: fn(&mut Vec<u8>)| {
        let mut sheet = two_rules();
        change(&mut sheet);
        records::admit_step(&sheet, &running, RIGHT).err().unwrap_or(0)
    };
    assert_eq!(number(|sheet| sheet.push(7)), 0);
    assert_eq!(number(|sheet| sheet[1..9].fill(0)), 0);
    assert_eq!(number(|sheet| sheet[0] = 1), 0);
    assert_eq!(number(|sheet| sheet[0] = 3), 18);
    assert_eq!(number(|sheet| sheet[0] = 32), 18);
    assert_eq!(number(|sheet| sheet[0] = 33), 21);
    assert_eq!(number(|sheet| sheet[0] = 0), 21);
    assert_eq!(number(|sheet| sheet.clear()), 21);
    assert_eq!(number(|sheet| sheet.truncate(28)), 21);
}

#[test]
fn long_legal_body() {
    // Ten towers of four ranges and a flag, one of three, and ten conjunctions:
    // 10 * 5 + 4 + 10 = 64 formulas, 10 * 39 + 30 + 10 = 430 bytes.
    let tower = |ranges: usize| RANGE.repeat(ranges) + "01 00 00 ";
    let body = "04 ".repeat(10) + &tower(4).repeat(10) + &tower(3);
    assert_eq!(bytes(&body).len(), 430);
    body_gets(&body, Ok(()));
    refused(&(nots(1) + &body), 9);
}
