//! The suites of sets, tested with a stand-in for the library as `suites` tests the others: the
//! right one passes, and each wrong one is caught by the suite that is there for it.

use rust_tests::compare::{self, Check};
use rust_tests::hostile;
use rust_tests::library::Library;
use rust_tests::paper::RULE_REFUSALS;
use rust_tests::stand_in::{Flaw, SetFlaw, StandIn};

const RIGHT: StandIn = StandIn { flaw: Flaw::None };

#[test]
fn the_right_one_passes_openings() {
    let numbers = compare::set_openings(&RIGHT, 501, 2_000).unwrap();
    assert!(numbers.each_at_least(RULE_REFUSALS, 30), "{numbers:?}");
    assert!(numbers.each_at_least(&[0, 1, 2, 17, 18, 27], 60), "{numbers:?}");
    let numbers = compare::set_sums(&RIGHT).unwrap();
    assert!(numbers.each_at_least(&[0, 27], 500), "{numbers:?}");
    let numbers = compare::set_orders(&RIGHT, 502).unwrap();
    assert!(numbers.each_at_least(RULE_REFUSALS, 40), "{numbers:?}");
    assert!(numbers.each_at_least(&[0, 1, 2, 17, 18], 9), "{numbers:?}");
}

#[test]
fn the_right_one_passes_runs() {
    let tally = compare::set_runs(&RIGHT, 503, 150, 6_000).unwrap();
    assert!(tally.sets >= 150 && tally.rules > 900 && tally.steps >= 6_000, "{tally:?}");
    assert!(tally.pairs > 6_000 && tally.late > 3_000, "{tally:?}");
    assert!(tally.several > 1_000 && tally.unordered > 500, "{tally:?}");
    assert!(tally.batches > 200 && tally.full_batches > 50, "{tally:?}");
    assert!(tally.foreign > 1_000 && tally.live_before_last > 1_000, "{tally:?}");
    assert!(tally.refused.each_at_least(&[17, 18, 19], 40), "{tally:?}");
}

#[test]
fn the_right_one_passes_high_runs() {
    let tally = compare::high_set_runs(&RIGHT, 525, 20).unwrap();
    assert_eq!(tally.runs, 20, "{tally:?}");
    assert!(tally.across > 4 && tally.ended > 1, "{tally:?}");
    assert!(tally.violations > 60 && tally.decided_across > 1, "{tally:?}");
}

#[test]
fn the_right_one_passes_hostile_input() {
    let numbers = hostile::random_records(&RIGHT, 504, 600).unwrap();
    assert!(numbers.of(21) > 1_500 && numbers.each_at_least(&[0, 17, 18], 5), "{numbers:?}");
    let numbers = hostile::disturbed_records(&RIGHT, 505, 5).unwrap();
    assert!(numbers.each_at_least(&[0, 21], 150), "{numbers:?}");
    let numbers = hostile::exchanged_records(&RIGHT, 506, 5).unwrap();
    assert!(numbers.each_at_least(&[0, 21], 100), "{numbers:?}");
    let numbers = hostile::other_sheets(&RIGHT, 507, 5).unwrap();
    assert!(numbers.each_at_least(&[0, 21], 200), "{numbers:?}");
    let numbers = hostile::forged_records(&RIGHT, 508, 400).unwrap();
    assert!(numbers.each_at_least(&[0, 17, 18, 19, 20, 21], 40), "{numbers:?}");
    let numbers = hostile::summed_records(&RIGHT).unwrap();
    assert_eq!((numbers.of(0), numbers.of(21)), (2, 5), "{numbers:?}");
    assert_eq!(hostile::overwritten_sets(&RIGHT, 509, 40), Ok(480));
    assert!(hostile::disturbed_neighbours(&RIGHT, 510, 40).unwrap() > 400);
}

#[test]
fn the_right_one_passes_lengths() {
    let numbers = hostile::every_set_length(&RIGHT, 511, 1).unwrap();
    assert!(numbers.total() > 3_000, "{numbers:?}");
    assert!(numbers.each_at_least(&[0, 1, 2, 17, 18, 19, 21], 20), "{numbers:?}");
    let numbers = hostile::set_step_orders(&RIGHT, 512, 8).unwrap();
    assert!(numbers.each_at_least(&[0, 17, 18, 19, 20, 21], 10), "{numbers:?}");
    assert_eq!(hostile::forged_set_ticks(&RIGHT), Ok(hostile::DUE_SET_TICKS.to_vec()));
    assert_eq!(hostile::forged_set_lengths(&RIGHT), Ok(16));
    let numbers = hostile::high_records(&RIGHT, 524, 8).unwrap();
    assert_eq!((numbers.of(0), numbers.of(20)), (144, 112), "{numbers:?}");
    assert_eq!(hostile::empty_set_slices(&RIGHT), Ok(()));
    assert_eq!(hostile::huge_set_lengths(&RIGHT), Ok(()));
}

type Suite = fn(&dyn Library) -> Check;

fn openings(library: &dyn Library) -> Check {
    compare::set_openings(library, 513, 300).map(|_| ())
}

fn sums(library: &dyn Library) -> Check {
    compare::set_sums(library).map(|_| ())
}

fn orders(library: &dyn Library) -> Check {
    compare::set_orders(library, 514).map(|_| ())
}

fn runs(library: &dyn Library) -> Check {
    compare::set_runs(library, 515, 60, 2_400).map(|_| ())
}

fn disturbed(library: &dyn Library) -> Check {
    hostile::disturbed_records(library, 516, 3).map(|_| ())
}

fn exchanged(library: &dyn Library) -> Check {
    hostile::exchanged_records(library, 517, 3).map(|_| ())
}

fn other_sheets(library: &dyn Library) -> Check {
    hostile::other_sheets(library, 518, 3).map(|_| ())
}

fn forged(library: &dyn Library) -> Check {
    hostile::forged_records(library, 519, 200).map(|_| ())
}

fn summed(library: &dyn Library) -> Check {
    hostile::summed_records(library).map(|_| ())
}

fn overwritten(library: &dyn Library) -> Check {
    hostile::overwritten_sets(library, 520, 20).map(|_| ())
}

fn neighbours(library: &dyn Library) -> Check {
    hostile::disturbed_neighbours(library, 521, 20).map(|_| ())
}

fn every_length(library: &dyn Library) -> Check {
    hostile::every_set_length(library, 522, 1).map(|_| ())
}

fn step_orders(library: &dyn Library) -> Check {
    hostile::set_step_orders(library, 523, 2).map(|_| ())
}

fn ticks(library: &dyn Library) -> Check {
    hostile::forged_set_ticks(library).map(|_| ())
}

fn high_records(library: &dyn Library) -> Check {
    hostile::high_records(library, 526, 4).map(|_| ())
}

fn high_runs(library: &dyn Library) -> Check {
    compare::high_set_runs(library, 527, 20).map(|_| ())
}

fn lengths(library: &dyn Library) -> Check {
    hostile::forged_set_lengths(library).map(|_| ())
}

fn empty(library: &dyn Library) -> Check {
    hostile::empty_set_slices(library)
}

/// Each flaw, the suite that must catch it, and a word of what it must say.
const CAUGHT: &[(SetFlaw, Suite, &str)] = &[
    (SetFlaw::SumBelow4096, sums, "answered 27, due is 0"),
    (SetFlaw::SumBelow4096, openings, "answered 27, due is 0"),
    (SetFlaw::SumUpTo4097, sums, "answered 0, due is 27"),
    (SetFlaw::SumUpTo4097, openings, "answered 0, due is 27"),
    (SetFlaw::SumIn16Bits, sums, "answered 0, due is 27"),
    (SetFlaw::SumBeforeLaterRules, orders, "answered 27, due is"),
    (SetFlaw::LastRefusedRule, orders, "due is"),
    (SetFlaw::LastRefusedRule, openings, "due is"),
    (SetFlaw::HistoryOfFirst, openings, "due is"),
    (SetFlaw::HistoryOfFirst, orders, "answered 0, due is 17"),
    (SetFlaw::TableBeforeHistory, orders, "answered 18, due is 17"),
    (SetFlaw::TableBeforeHistory, openings, "answered 18, due is 17"),
    (SetFlaw::TakesFewerRecords, orders, "answered 0, due is 18"),
    (SetFlaw::TakesFewerRecords, every_length, "answered 0, due is 18"),
    (SetFlaw::ForgetsToZero, openings, "the history is not as due"),
    (SetFlaw::ForgetsToZero, runs, "the history is not as due"),
    (SetFlaw::LeavesTick, openings, "the records are not as due"),
    (SetFlaw::LeavesTick, runs, "the records are not as due"),
    (SetFlaw::ZeroesFurther, openings, "the records are not as due"),
    (SetFlaw::ZeroesFurther, disturbed, "the records are not as due"),
    (SetFlaw::StoresBeforeLast, runs, "due is"),
    (SetFlaw::StoresByOwnHistory, runs, "the history is not as due"),
    (SetFlaw::StoresByOwnHistory, overwritten, "the history is not as due"),
    (SetFlaw::NumbersFromOne, runs, "due is"),
    (SetFlaw::NumbersFromOne, overwritten, "pairs of rule"),
    (SetFlaw::OrdersByTick, runs, "due is"),
    (SetFlaw::OrdersByTick, overwritten, "pairs of the rules"),
    (SetFlaw::CountsLastLive, runs, "due is"),
    (SetFlaw::CountsLastLive, overwritten, "in the records"),
    (SetFlaw::CountsAllLive, runs, "the records are not as due"),
    (SetFlaw::CountsAllLive, overwritten, "are live"),
    (SetFlaw::SharesCells, runs, "due is"),
    (SetFlaw::SharesCells, neighbours, "due is"),
    (SetFlaw::MovesFirstTick, runs, "the records are not as due"),
    (SetFlaw::LeavesLive, runs, "the records are not as due"),
    (SetFlaw::ClearsReport, runs, "report words after its pairs"),
    (SetFlaw::ClearsReport, forged, "report words after its own"),
    (SetFlaw::WritesAfterTable, runs, "table words after the needed cells"),
    (SetFlaw::WritesAfterTable, every_length, "table words after the needed cells"),
    (SetFlaw::ReportWithoutOne, runs, "answered 0, due is 19"),
    (SetFlaw::ReportWithoutOne, openings, "due is"),
    (SetFlaw::ReportWithoutOne, step_orders, "answered 0, due is 19"),
    (SetFlaw::ReportOfTicks, runs, "answered 0, due is 19"),
    (SetFlaw::ReportOfTicks, every_length, "answered 0, due is 19"),
    (SetFlaw::NoRecordIs17, runs, "answered 17, due is 18"),
    (SetFlaw::NoRecordIs17, every_length, "answered 17, due is 18"),
    (SetFlaw::RefusesAndWrites, runs, "changed memory"),
    (SetFlaw::RefusesAndWrites, every_length, "memory was changed"),
    (SetFlaw::AnswersOnRefusal, runs, "an answer was written"),
    (SetFlaw::AnswersOnRefusal, disturbed, "an answer was written"),
    (SetFlaw::TrustsFirstCells, disturbed, "answered 0, due is 21"),
    (SetFlaw::TrustsFirstCells, exchanged, "answered 0, due is 21"),
    (SetFlaw::TrustsFigures, disturbed, "answered 0, due is 21"),
    (SetFlaw::TrustsFigures, exchanged, "due is 21"),
    (SetFlaw::TrustsOtherTicks, disturbed, "answered 0, due is 21"),
    (SetFlaw::TrustsOtherLengths, disturbed, "due is 21"),
    (SetFlaw::TrustsLength, lengths, "answered 17, due is 21"),
    (SetFlaw::TrustsLength, forged, "due is 21"),
    (SetFlaw::TrustsSum, summed, "answered 18, due is 21"),
    (SetFlaw::ShortHistoryIs17, forged, "answered 17, due is 21"),
    (SetFlaw::PlacesIn32Bits, disturbed, "answered 0, due is 21"),
    (SetFlaw::ThirtyThreeRules, other_sheets, "due is 21"),
    (SetFlaw::ReadsSheetAgain, other_sheets, "answered 21, due is"),
    (SetFlaw::ReadsSheetAgain, every_length, "answered 21, due is"),
    (SetFlaw::LooksAtFurther, disturbed, "answered 21, due is 0"),
    (SetFlaw::LooksAtFurther, runs, "answered 21"),
    (SetFlaw::BatchStepsFirst, runs, "a batch"),
    (SetFlaw::BatchStepsFirst, overwritten, "pairs of rule"),
    (SetFlaw::BatchFillsReport, runs, "a batch"),
    (SetFlaw::BatchAnswers19, runs, "answered 19"),
    (SetFlaw::BatchAnswers19, every_length, "answered 19, due is 0"),
    (SetFlaw::BatchForgetsLive, runs, "a batch"),
    (SetFlaw::BatchTakesTickTooMany, ticks, "a tick too many"),
    (SetFlaw::BatchTakesTickTooMany, high_runs, "at tick"),
    (SetFlaw::ComparesLowTicks, disturbed, "due is 21"),
    (SetFlaw::MovesLowTick, ticks, "the records are not as due"),
    (SetFlaw::MovesLowTick, high_runs, "at tick"),
    (SetFlaw::CutsTicks, high_runs, "at tick"),
    (SetFlaw::CutsTicks, high_records, "is not as due"),
    (SetFlaw::ReportsIn32Bits, high_runs, "due is"),
    (SetFlaw::BatchStepsIn32Bits, high_runs, "due is"),
    (SetFlaw::BatchStepsIn32Bits, high_records, "of its steps"),
    (SetFlaw::EndsAt32Bits, ticks, "answered 20, due is 0"),
    (SetFlaw::EndsAt32Bits, high_runs, "answered 20"),
    (SetFlaw::HighTickIs21, ticks, "answered 21, due is 20"),
    (SetFlaw::HighTickIs21, forged, "answered 21, due is"),
    (SetFlaw::TakesEmptyBatch, empty, "answered 0, due is 21"),
    (SetFlaw::TakesEmptyBatch, every_length, "answered 0, due is"),
];

#[test]
fn each_wrong_one_is_caught() {
    for (flaw, suite, word) in CAUGHT {
        let seen = suite(&StandIn { flaw: Flaw::Set(*flaw) });
        let caught = matches!(&seen, Err(text) if text.contains(word));
        let shown = format!("{seen:?}").chars().take(2_000).collect::<String>();
        assert!(caught, "{flaw:?} must fail with \"{word}\"; seen: {shown}");
    }
}

/// The same suites pass without a flaw, so that it is the flaw they caught.
#[test]
fn the_catching_suites_pass_the_right_one() {
    let suites: [Suite; 18] = [
        openings,
        sums,
        orders,
        runs,
        disturbed,
        exchanged,
        other_sheets,
        forged,
        summed,
        overwritten,
        neighbours,
        every_length,
        step_orders,
        ticks,
        high_records,
        high_runs,
        lengths,
        empty,
    ];
    for suite in suites {
        assert_eq!(suite(&RIGHT), Ok(()));
    }
}
