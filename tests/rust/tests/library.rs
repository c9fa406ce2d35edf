//! The Rattle library against the paper (feature `library`). The sizes are
//! chosen so that all of this takes well under three minutes.

use rust_tests::beside::{beside, Words};
use rust_tests::compare::{self, HighTally, SetTally, Tally};
use rust_tests::library::{Library, Linked};
use rust_tests::notation::*;
use rust_tests::paper::{write_body, BODY_REFUSALS, RULE_REFUSALS};

/// Together at least 20,000 rules and 2,000,000 steps, in two tests that run
/// beside each other.
const RULES: u64 = 10_000;
const STEPS: u64 = 1_000_000;
/// Every history length from 1 to 4,096 for one rule, so many steps each.
const STEPS_A_LENGTH: usize = 40;
/// Rounds of three bodies each.
const BODIES: usize = 28_000;
/// Rounds of about a hundred bodies of 62 to 66 formulas, through every call.
const FORMULA_COUNTS: usize = 200;
/// Rounds of ten typed rules of as many.
const TYPED_FORMULA_COUNTS: usize = 1_000;
/// Bodies whose recordings are asked for every tick.
const RECORDINGS: usize = 4_000;
const LONG_RECORDINGS: usize = 20;
const SHEETS: usize = 6_000;
const WRITERS: usize = 6_000;
const OPENINGS: usize = 12_000;
/// Typed rules, right and wrong, and as many loose words.
const TEXTS: usize = 60_000;
/// Typed rules of which every byte is changed in some thirty ways.
const DAMAGED_TEXTS: usize = 60;
/// Texts that are deeper than any body.
const DEEP_TEXTS: usize = 2_000;
/// Rules read and printed into buffers of every length.
const TEXT_ROOMS: usize = 1_000;
/// Bodies printed, and read again.
const PRINTED: usize = 30_000;
/// Sets of 1 to 32 rules, about eight on average, and their steps, in each of two tests.
const SETS: u64 = 2_000;
const SET_STEPS: u64 = 80_000;
/// Sheets whose figures are asked and whose rules are opened together.
const SET_OPENINGS: usize = 8_000;
/// Words of a calendar, asked some five hundred times each, or filled some hundred times.
const CALENDARS: usize = 600;
/// Rules with a calendar beside their stream, and their steps.
const CALENDAR_RULES: u64 = 2_500;
const CALENDAR_STEPS: u64 = 250_000;
const CALENDAR_OPENINGS: usize = 6_000;

/// Rules, and sets of 1 to 6 rules, that go on at ticks above 32 bits, some sixty steps each.
const HIGH_RULES: u64 = 3_000;
const HIGH_SETS: u64 = 1_000;

/// The same with rules of which one range in four is always empty.
const EMPTY_RANGE_BODIES: usize = 7_000;
const EMPTY_RANGE_OPENINGS: usize = 3_000;
const EMPTY_RANGE_RECORDINGS: usize = 2_000;
const EMPTY_RANGE_RULES: u64 = 2_500;
const EMPTY_RANGE_STEPS: u64 = 200_000;
const EMPTY_RANGE_SETS: u64 = 500;
const EMPTY_RANGE_SET_STEPS: u64 = 20_000;

fn check_runs(seed: u64) {
    let tally = compare::runs(&Linked, seed, RULES, STEPS).unwrap();
    assert!(tally.rules >= RULES && tally.steps >= STEPS, "{tally:?}");
    check_tally(&tally);
}

/// The runs were worth it.
fn check_tally(tally: &Tally) {
    let steps = tally.steps;
    assert!(tally.violations > steps / 10, "{tally:?}");
    assert!(tally.late > steps / 40, "{tally:?}");
    assert!(tally.several > steps / 400, "{tally:?}");
    assert!(tally.batches > steps / 200 && tally.full_batches > steps / 10_000, "{tally:?}");
    assert!(tally.foreign > steps / 10, "{tally:?}");
    assert!(tally.refused.each_at_least(&[17, 18, 19], steps / 400), "{tally:?}");
}

#[test]
fn runs_first_half() {
    check_runs(1_001);
}

#[test]
fn runs_second_half() {
    check_runs(1_002);
}

#[test]
fn every_history_length() {
    let tally = compare::history_lengths(&Linked, 1_003, STEPS_A_LENGTH).unwrap();
    assert_eq!(tally.rules, 4_096);
    assert_eq!(tally.steps, 4_096 * STEPS_A_LENGTH as u64);
}

#[test]
fn bodies() {
    let numbers = compare::bodies(&Linked, 1_004, BODIES).unwrap();
    let each = (BODIES / RULE_REFUSALS.len()) as u64;
    assert!(numbers.each_at_least(RULE_REFUSALS, each), "{numbers:?}");
    assert!(numbers.of(0) > 5 * each, "{numbers:?}");
}

#[test]
fn limits() {
    let numbers = compare::limits(&Linked).unwrap();
    assert!(numbers.each_at_least(&[0, 11, 12, 13, 14, 15], 1), "{numbers:?}");
}

#[test]
fn formula_counts() {
    let numbers = compare::formula_counts(&Linked, 1_015, FORMULA_COUNTS).unwrap();
    assert!(numbers.each_at_least(&[0, 4, 5, 9, 10], FORMULA_COUNTS as u64 / 2), "{numbers:?}");
    let count = TYPED_FORMULA_COUNTS as u64;
    let numbers = compare::typed_formula_counts(&Linked, 1_016, TYPED_FORMULA_COUNTS).unwrap();
    assert_eq!((numbers.of(0), numbers.of(9)), (3 * count, 2 * count), "{numbers:?}");
}

#[test]
fn cell_counts() {
    let numbers = compare::cell_counts(&Linked).unwrap();
    assert!(numbers.each_at_least(&[0, 15], 50_000), "{numbers:?}");
    assert_eq!(numbers.of(0) + numbers.of(15), numbers.total());
}

#[test]
fn recordings() {
    let asked = compare::recordings(&Linked, 1_005, RECORDINGS).unwrap();
    assert!(asked > 10 * RECORDINGS as u64, "{asked} ticks asked");
}

#[test]
fn long_recordings() {
    let numbers = compare::long_recordings(&Linked, 1_006, LONG_RECORDINGS).unwrap();
    assert!(numbers.each_at_least(&[0, 16], 2 * LONG_RECORDINGS as u64), "{numbers:?}");
}

/// Four ranges from 0 on over the longest recording, of which the flag names the innermost alone:
/// walked each, they would take thousands of years. All flags are up, so that no body is false, and
/// a range without an end is never true: open. With the last tick down, false at its step.
#[test]
fn nested_ranges_over_the_longest_recording() {
    let mut rule = flag(0, V);
    for _ in 0..4 {
        rule = all(start(0), INFINITY, rule);
    }
    let body = write_body(&rule);
    let mut recording = vec![1; 65_535];
    assert_eq!(answer(&body, &recording, 0), (0, 0, 0));
    recording[65_534] = 0;
    assert_eq!(answer(&body, &recording, 0), (0, 2, 65_534));
    assert_eq!(answer(&body, &recording, 65_534), (0, 2, 65_534));
}

/// The refusal's number, the verdict and the step of an outcome.
fn answer(body: &[u8], recording: &[u8], tick: usize) -> (u32, u32, u64) {
    let (mut verdict, mut step) = (9, 9);
    let number = Linked.outcome(body, recording, tick, &mut verdict, &mut step);
    (number, verdict, step)
}

#[test]
fn sheets() {
    let numbers = compare::sheets(&Linked, 1_007, SHEETS).unwrap();
    assert!(numbers.each_at_least(&[0, 1, 2, 3], SHEETS as u64 / 8), "{numbers:?}");
}

#[test]
fn writers() {
    let numbers = compare::writers(&Linked, 1_008, WRITERS).unwrap();
    assert!(numbers.each_at_least(&[0, 1, 2, 22], WRITERS as u64 / 40), "{numbers:?}");
}

#[test]
fn openings() {
    let numbers = compare::openings(&Linked, 1_009, OPENINGS).unwrap();
    let often = OPENINGS as u64 / 200;
    assert!(numbers.each_at_least(&[0, 1, 2, 3, 17, 18], often), "{numbers:?}");
    assert!(numbers.each_at_least(RULE_REFUSALS, often), "{numbers:?}");
}

#[test]
fn texts() {
    let numbers = compare::texts(&Linked, 1_010, TEXTS).unwrap();
    assert_eq!(numbers.total(), 2 * TEXTS as u64, "{numbers:?}");
    assert!(numbers.each_at_least(&[0, 25, 26], TEXTS as u64 / 20), "{numbers:?}");
    assert!(numbers.each_at_least(&[7, 8, 9, 24], TEXTS as u64 / 200), "{numbers:?}");
}

#[test]
fn damaged_texts() {
    let numbers = compare::damaged_texts(&Linked, 1_011, DAMAGED_TEXTS).unwrap();
    assert!(numbers.total() > 1_000 * DAMAGED_TEXTS as u64, "{numbers:?}");
    assert!(numbers.each_at_least(&[0, 7, 25, 26], DAMAGED_TEXTS as u64), "{numbers:?}");
}

#[test]
fn deep_texts() {
    let numbers = compare::deep_texts(&Linked, 1_014, DEEP_TEXTS).unwrap();
    assert_eq!(numbers.total(), 2 * DEEP_TEXTS as u64, "{numbers:?}");
    assert!(numbers.each_at_least(&[9, 25, 26], DEEP_TEXTS as u64 / 10), "{numbers:?}");
}

#[test]
fn text_rooms() {
    let numbers = compare::text_rooms(&Linked, 1_012, TEXT_ROOMS).unwrap();
    assert!(numbers.each_at_least(&[0, 22], 5 * TEXT_ROOMS as u64), "{numbers:?}");
    assert!(numbers.each_at_least(&[4, 5, 7, 25, 26], TEXT_ROOMS as u64 / 100), "{numbers:?}");
}

#[test]
fn printed_bodies() {
    let numbers = compare::printed_bodies(&Linked, 1_013, PRINTED).unwrap();
    assert_eq!(numbers.total(), PRINTED as u64, "{numbers:?}");
    assert!(numbers.of(0) > PRINTED as u64 / 2, "{numbers:?}");
    assert!(numbers.each_at_least(BODY_REFUSALS, PRINTED as u64 / 300), "{numbers:?}");
}

#[test]
fn text_cases() {
    let numbers = compare::text_cases(&Linked).unwrap();
    assert!(numbers.each_at_least(&[0, 7, 8, 9, 24, 25, 26], 2), "{numbers:?}");
}

fn check_set_runs(seed: u64) {
    let tally = compare::set_runs(&Linked, seed, SETS, SET_STEPS).unwrap();
    assert!(tally.sets >= SETS && tally.steps >= SET_STEPS, "{tally:?}");
    check_set_tally(&tally);
}

/// The runs were worth it.
fn check_set_tally(tally: &SetTally) {
    let steps = tally.steps;
    assert!(tally.rules > 6 * tally.sets && tally.rule_steps > 6 * steps, "{tally:?}");
    assert!(tally.pairs > 2 * steps && tally.late > steps, "{tally:?}");
    assert!(tally.several > steps / 2 && tally.unordered > steps / 4, "{tally:?}");
    assert!(tally.live_before_last > steps / 2, "{tally:?}");
    assert!(tally.batches > steps / 20 && tally.full_batches > steps / 40, "{tally:?}");
    assert!(tally.foreign > steps / 4, "{tally:?}");
    assert!(tally.refused.each_at_least(&[17, 18, 19], steps / 100), "{tally:?}");
}

#[test]
fn set_runs_first_half() {
    check_set_runs(1_017);
}

#[test]
fn set_runs_second_half() {
    check_set_runs(1_018);
}

#[test]
fn set_openings() {
    let numbers = compare::set_openings(&Linked, 1_019, SET_OPENINGS).unwrap();
    let often = SET_OPENINGS as u64 / 80;
    assert!(numbers.each_at_least(RULE_REFUSALS, often), "{numbers:?}");
    assert!(numbers.each_at_least(&[0, 1, 2, 17, 18, 27], 2 * often), "{numbers:?}");
}

#[test]
fn set_limits() {
    let numbers = compare::set_sums(&Linked).unwrap();
    assert!(numbers.each_at_least(&[0, 27], 500), "{numbers:?}");
    let numbers = compare::set_orders(&Linked, 1_020).unwrap();
    assert!(numbers.each_at_least(RULE_REFUSALS, 40), "{numbers:?}");
    assert!(numbers.each_at_least(&[0, 1, 2, 17, 18], 9), "{numbers:?}");
}

/// The runs at high ticks were worth it.
fn check_high_tally(tally: &HighTally, runs: u64) {
    assert_eq!(tally.runs, runs, "{tally:?}");
    assert!(tally.across > runs / 3 && tally.ended > runs / 6, "{tally:?}");
    assert!(tally.steps > 30 * runs && tally.batches > 3 * runs, "{tally:?}");
    assert!(tally.violations > 3 * runs && tally.decided_across > runs / 10, "{tally:?}");
    assert!(tally.live > 10 * runs && tally.live_at_the_end > runs / 10, "{tally:?}");
}

/// Across tick 2^32, up to the last tick, and elsewhere above 32 bits: as from tick 0.
#[test]
fn high_runs() {
    check_high_tally(&compare::high_runs(&Linked, 1_030, HIGH_RULES).unwrap(), HIGH_RULES);
}

#[test]
fn high_set_runs() {
    check_high_tally(&compare::high_set_runs(&Linked, 1_031, HIGH_SETS).unwrap(), HIGH_SETS);
}

/// With a calendar beside it, whose words keep none of these ticks.
#[test]
fn high_calendar_runs() {
    let suite = |library: &dyn Library| compare::high_runs(library, 1_032, HIGH_RULES / 6);
    let (tally, calendar) = beside(&Linked, 1_033, Words::Any, suite).unwrap();
    check_high_tally(&tally, HIGH_RULES / 6);
    assert!(calendar.past > tally.steps && calendar.batches > tally.batches, "{calendar:?}");
    assert!(calendar.refused.of(20) >= 3 * tally.ended, "{calendar:?}");
}

#[test]
fn calendar_questions() {
    let numbers = compare::calendar_questions(&Linked, 1_021, CALENDARS).unwrap();
    let count = CALENDARS as u64;
    assert!(numbers.of(0) > 300 * count && numbers.of(7) > 50 * count, "{numbers:?}");
    assert!(compare::calendar_marks(&Linked, 1_022, CALENDARS).unwrap() > 100 * count);
}

#[test]
fn calendar_runs() {
    let tally = compare::calendar_runs(&Linked, 1_023, CALENDAR_RULES, CALENDAR_STEPS).unwrap();
    assert!(tally.openings >= CALENDAR_RULES, "{tally:?}");
    assert!(tally.kept + tally.past >= CALENDAR_STEPS, "{tally:?}");
    assert!(tally.kept > CALENDAR_STEPS / 3 && tally.past > CALENDAR_STEPS / 8, "{tally:?}");
    assert!(tally.batches > CALENDAR_STEPS / 200, "{tally:?}");
    let often = CALENDAR_STEPS / 100;
    assert!(tally.refused.each_at_least(&[17, 18, 19, 20, 21], often), "{tally:?}");
}

#[test]
fn calendar_openings() {
    let tally = compare::calendar_openings(&Linked, 1_024, CALENDAR_OPENINGS).unwrap();
    let often = CALENDAR_OPENINGS as u64 / 200;
    assert!(tally.openings > 20 * often, "{tally:?}");
    assert!(tally.refused.each_at_least(&[1, 2, 3, 17, 18], often), "{tally:?}");
    assert!(tally.refused.each_at_least(RULE_REFUSALS, often), "{tally:?}");
}

#[test]
fn empty_range_bodies() {
    let numbers = compare::empty_range_limits(&Linked).unwrap();
    assert!(numbers.of(0) > 60, "{numbers:?}");
    let numbers = compare::empty_range_bodies(&Linked, 1_025, EMPTY_RANGE_BODIES).unwrap();
    let each = (EMPTY_RANGE_BODIES / RULE_REFUSALS.len()) as u64;
    assert!(numbers.each_at_least(BODY_REFUSALS, each / 4), "{numbers:?}");
    assert!(numbers.of(0) > EMPTY_RANGE_BODIES as u64, "{numbers:?}");
}

#[test]
fn empty_range_openings() {
    let numbers = compare::empty_range_openings(&Linked, 1_026, EMPTY_RANGE_OPENINGS).unwrap();
    let often = EMPTY_RANGE_OPENINGS as u64 / 20;
    assert!(numbers.each_at_least(&[0, 17, 18], often), "{numbers:?}");
}

#[test]
fn empty_range_recordings() {
    let asked = compare::empty_range_recordings(&Linked, 1_027, EMPTY_RANGE_RECORDINGS).unwrap();
    assert!(asked > 10 * EMPTY_RANGE_RECORDINGS as u64, "{asked} ticks asked");
}

#[test]
fn empty_range_runs() {
    let (rules, steps) = (EMPTY_RANGE_RULES, EMPTY_RANGE_STEPS);
    let tally = compare::empty_range_runs(&Linked, 1_028, rules, steps).unwrap();
    assert!(tally.rules >= rules && tally.steps >= steps, "{tally:?}");
    check_tally(&tally);
}

#[test]
fn empty_range_sets() {
    let (sets, steps) = (EMPTY_RANGE_SETS, EMPTY_RANGE_SET_STEPS);
    let tally = compare::empty_range_sets(&Linked, 1_029, sets, steps).unwrap();
    assert!(tally.sets >= sets && tally.steps >= steps, "{tally:?}");
    check_set_tally(&tally);
}
