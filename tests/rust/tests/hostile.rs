//! Hostile input to the Rattle library (feature `library`).

use rust_tests::compare;
use rust_tests::hostile;
use rust_tests::library::Linked;

/// States of random content, which are no rule, four calls each.
const RANDOM_STATES: usize = 10_000;
/// States in the right form with numbers around the limits, four calls each.
const FORGED_STATES: usize = 20_000;
/// Honest states, damaged or put beside foreign cells, seven calls each.
const DAMAGED_STATES: usize = 20_000;
/// Runs of thirty steps with an overwritten history.
const OVERWRITTEN: usize = 5_000;
/// Bytes of any sort, as a text, as a body, and as a text that begins well.
const TEXTS: usize = 20_000;
/// Rounds of about 25,000 calls.
const LENGTHS: usize = 4;
/// Sheets and records of random content, four calls each.
const RANDOM_RECORDS: usize = 8_000;
/// Sets of which every number of every record is changed in eight ways.
const DISTURBED_SETS: usize = 20;
/// Sets of which every two records are exchanged in four ways.
const EXCHANGED_SETS: usize = 15;
/// Sets to which some hundred other sheets are lent.
const OTHER_SHEETS: usize = 20;
/// Records that are in line but were never opened, three calls each.
const FORGED_RECORDS: usize = 8_000;
/// Sets whose memory is overwritten, twelve calls each; and forty, where one rule is spared.
const OVERWRITTEN_SETS: usize = 300;
const SPARED_RULES: usize = 200;
/// Rules and sets forged to stand at each of sixteen ticks, two calls at each, and three more
/// where ticks end.
const HIGH_STATES: usize = 1_000;
const HIGH_RECORDS: usize = 300;
/// States with a calendar beside them, some ten calls each.
const CALENDAR_STATES: usize = 4_000;

#[test]
fn random_states() {
    let numbers = hostile::random_states(&Linked, 2_001, RANDOM_STATES).unwrap();
    assert_eq!(numbers.of(21), 4 * RANDOM_STATES as u64, "{numbers:?}");
}

#[test]
fn forged_states() {
    let numbers = hostile::forged_states(&Linked, 2_004, FORGED_STATES).unwrap();
    assert_eq!(numbers.total(), 4 * FORGED_STATES as u64, "{numbers:?}");
    assert!(numbers.each_at_least(&[17, 18, 19, 20], FORGED_STATES as u64 / 8), "{numbers:?}");
    assert!(numbers.each_at_least(&[0, 21], FORGED_STATES as u64 / 2), "{numbers:?}");
}

#[test]
fn damaged_states() {
    let numbers = hostile::damaged_states(&Linked, 2_002, DAMAGED_STATES).unwrap();
    assert_eq!(numbers.total(), 7 * DAMAGED_STATES as u64, "{numbers:?}");
    let count = DAMAGED_STATES as u64;
    assert!(numbers.of(0) > 3 * count && numbers.of(21) > count, "{numbers:?}");
    assert!(numbers.of(17) > count / 2 && numbers.of(19) > count / 8, "{numbers:?}");
    assert!(numbers.of(18) > count / 400, "{numbers:?}");
}

#[test]
fn overwritten_histories() {
    let steps = hostile::overwritten_histories(&Linked, 2_003, OVERWRITTEN).unwrap();
    assert_eq!(steps, 30 * OVERWRITTEN as u64);
}

#[test]
fn texts_and_bodies_of_any_bytes() {
    let numbers = compare::hostile_texts(&Linked, 2_005, TEXTS).unwrap();
    assert_eq!(numbers.total(), 3 * TEXTS as u64, "{numbers:?}");
    assert_eq!(numbers.of(25), 2 * TEXTS as u64, "{numbers:?}"); // chance writes no rule
    assert!(numbers.each_at_least(&[4, 5, 6, 9], TEXTS as u64 / 100), "{numbers:?}");
}

#[test]
fn forged_lengths() {
    assert_eq!(hostile::forged_lengths(&Linked), Ok(96));
}

#[test]
fn forged_ticks() {
    assert_eq!(hostile::forged_ticks(&Linked), Ok(hostile::DUE_TICKS.to_vec()));
}

/// 20 for a tick from 2^62 on, which are 7 of 16, and for no other.
#[test]
fn high_states() {
    let numbers = hostile::high_states(&Linked, 2_018, HIGH_STATES).unwrap();
    let count = 2 * HIGH_STATES as u64;
    assert_eq!((numbers.of(0), numbers.of(20)), (9 * count, 7 * count), "{numbers:?}");
}

#[test]
fn high_records() {
    let numbers = hostile::high_records(&Linked, 2_019, HIGH_RECORDS).unwrap();
    let count = 2 * HIGH_RECORDS as u64;
    assert_eq!((numbers.of(0), numbers.of(20)), (9 * count, 7 * count), "{numbers:?}");
}

#[test]
fn every_length() {
    let numbers = hostile::every_length(&Linked, 2_006, LENGTHS).unwrap();
    assert!(numbers.total() > 20_000 * LENGTHS as u64, "{numbers:?}");
    let often = [0, 1, 2, 4, 5, 9, 10, 16, 17, 18, 22, 25];
    assert!(numbers.each_at_least(&often, 200 * LENGTHS as u64), "{numbers:?}");
    assert!(numbers.each_at_least(&[3, 6, 19], LENGTHS as u64), "{numbers:?}");
}

#[test]
fn empty_slices() {
    assert_eq!(hostile::empty_slices(&Linked), Ok(()));
}

#[test]
fn huge_lengths() {
    assert_eq!(hostile::huge_lengths(&Linked), Ok(()));
}

#[test]
fn random_records() {
    let numbers = hostile::random_records(&Linked, 2_007, RANDOM_RECORDS).unwrap();
    assert_eq!(numbers.total(), 4 * RANDOM_RECORDS as u64, "{numbers:?}");
    assert!(numbers.of(21) > 3 * RANDOM_RECORDS as u64, "{numbers:?}");
    assert!(numbers.each_at_least(&[0, 17, 18], RANDOM_RECORDS as u64 / 100), "{numbers:?}");
}

#[test]
fn disturbed_records() {
    let numbers = hostile::disturbed_records(&Linked, 2_008, DISTURBED_SETS).unwrap();
    assert!(numbers.total() > 400 * DISTURBED_SETS as u64, "{numbers:?}");
    assert!(numbers.each_at_least(&[0, 21], 100 * DISTURBED_SETS as u64), "{numbers:?}");
}

#[test]
fn exchanged_records() {
    let numbers = hostile::exchanged_records(&Linked, 2_009, EXCHANGED_SETS).unwrap();
    assert!(numbers.each_at_least(&[0, 21], 100 * EXCHANGED_SETS as u64), "{numbers:?}");
}

#[test]
fn other_sheets() {
    let numbers = hostile::other_sheets(&Linked, 2_010, OTHER_SHEETS).unwrap();
    assert!(numbers.each_at_least(&[0, 21], 50 * OTHER_SHEETS as u64), "{numbers:?}");
    assert!(numbers.of(18) > 0, "{numbers:?}");
}

#[test]
fn forged_records() {
    let numbers = hostile::forged_records(&Linked, 2_011, FORGED_RECORDS).unwrap();
    assert_eq!(numbers.total(), 3 * FORGED_RECORDS as u64, "{numbers:?}");
    assert!(numbers.each_at_least(&[17, 18, 19, 20], FORGED_RECORDS as u64 / 10), "{numbers:?}");
    assert!(numbers.each_at_least(&[0, 21], FORGED_RECORDS as u64 / 2), "{numbers:?}");
    let numbers = hostile::summed_records(&Linked).unwrap();
    assert_eq!((numbers.of(0), numbers.of(21)), (2, 5), "{numbers:?}");
}

#[test]
fn overwritten_sets() {
    let steps = hostile::overwritten_sets(&Linked, 2_012, OVERWRITTEN_SETS).unwrap();
    assert_eq!(steps, 12 * OVERWRITTEN_SETS as u64);
    let reported = hostile::disturbed_neighbours(&Linked, 2_013, SPARED_RULES).unwrap();
    assert!(reported > 10 * SPARED_RULES as u64, "{reported} ticks reported");
}

#[test]
fn every_set_length() {
    let numbers = hostile::every_set_length(&Linked, 2_014, LENGTHS).unwrap();
    assert!(numbers.total() > 3_000 * LENGTHS as u64, "{numbers:?}");
    let often = [0, 1, 2, 17, 18, 19, 21];
    assert!(numbers.each_at_least(&often, 20 * LENGTHS as u64), "{numbers:?}");
    let numbers = hostile::set_step_orders(&Linked, 2_015, 100).unwrap();
    assert!(numbers.each_at_least(&[0, 17, 18, 19, 20, 21], 100), "{numbers:?}");
}

#[test]
fn forged_sets() {
    assert_eq!(hostile::forged_set_ticks(&Linked), Ok(hostile::DUE_SET_TICKS.to_vec()));
    assert_eq!(hostile::forged_set_lengths(&Linked), Ok(16));
    assert_eq!(hostile::empty_set_slices(&Linked), Ok(()));
    assert_eq!(hostile::huge_set_lengths(&Linked), Ok(()));
}

#[test]
fn calendar_states() {
    let tally = hostile::calendar_states(&Linked, 2_016, CALENDAR_STATES).unwrap();
    let count = CALENDAR_STATES as u64;
    assert!(tally.kept > 4 * count && tally.past > 4 * count, "{tally:?}");
    assert!(tally.refused.each_at_least(&[17, 18, 19, 20], count / 8), "{tally:?}");
    assert!(tally.refused.of(21) > count, "{tally:?}");
}

#[test]
fn every_calendar_length() {
    let numbers = hostile::every_calendar_length(&Linked, 2_017, LENGTHS).unwrap();
    assert!(numbers.total() > 6_000 * LENGTHS as u64, "{numbers:?}");
    assert!(numbers.each_at_least(&[0, 7, 17, 18], 100 * LENGTHS as u64), "{numbers:?}");
    assert!(numbers.of(19) >= LENGTHS as u64, "{numbers:?}");
    assert_eq!(hostile::empty_calendars(&Linked), Ok(()));
    assert_eq!(hostile::huge_calendars(&Linked), Ok(()));
}
