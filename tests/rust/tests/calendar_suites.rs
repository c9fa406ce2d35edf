//! The suites of the calendar, tested with a stand-in for the library as `suites` tests the
//! others: the right one passes, and each wrong one is caught by the suite that is there for it.

use rust_tests::compare::{self, Check};
use rust_tests::hostile;
use rust_tests::library::Library;
use rust_tests::stand_in::{CalendarFlaw, Flaw, StandIn};

const RIGHT: StandIn = StandIn { flaw: Flaw::None };

#[test]
fn the_right_one_passes_questions() {
    let numbers = compare::calendar_questions(&RIGHT, 601, 60).unwrap();
    assert!(numbers.of(0) > 20_000 && numbers.of(7) > 3_000, "{numbers:?}");
    assert!(compare::calendar_marks(&RIGHT, 602, 60).unwrap() > 6_000);
}

#[test]
fn the_right_one_passes_runs() {
    let tally = compare::calendar_runs(&RIGHT, 603, 150, 9_000).unwrap();
    assert!(tally.openings >= 150 && tally.batches > 50, "{tally:?}");
    assert!(tally.kept > 4_000 && tally.past > 1_000, "{tally:?}");
    assert!(tally.refused.each_at_least(&[17, 18, 19, 20, 21], 150), "{tally:?}");
    let tally = compare::calendar_openings(&RIGHT, 604, 500).unwrap();
    assert!(tally.openings > 100, "{tally:?}");
    assert!(tally.refused.each_at_least(&[1, 2, 3, 17, 18], 5), "{tally:?}");
}

#[test]
fn the_right_one_passes_hostile_input() {
    let tally = hostile::calendar_states(&RIGHT, 605, 300).unwrap();
    assert!(tally.kept > 1_000 && tally.past > 1_000, "{tally:?}");
    assert!(tally.refused.each_at_least(&[17, 18, 19, 20, 21], 30), "{tally:?}");
    let numbers = hostile::every_calendar_length(&RIGHT, 606, 2).unwrap();
    assert!(numbers.each_at_least(&[0, 7, 17, 18, 19], 20), "{numbers:?}");
    assert_eq!(hostile::empty_calendars(&RIGHT), Ok(()));
    assert_eq!(hostile::huge_calendars(&RIGHT), Ok(()));
}

type Suite = fn(&dyn Library) -> Check;

fn questions(library: &dyn Library) -> Check {
    compare::calendar_questions(library, 607, 20).map(|_| ())
}

fn marks(library: &dyn Library) -> Check {
    compare::calendar_marks(library, 608, 20).map(|_| ())
}

fn openings(library: &dyn Library) -> Check {
    compare::calendar_openings(library, 609, 100).map(|_| ())
}

fn runs(library: &dyn Library) -> Check {
    compare::calendar_runs(library, 610, 40, 2_400).map(|_| ())
}

fn states(library: &dyn Library) -> Check {
    hostile::calendar_states(library, 611, 60).map(|_| ())
}

fn every_length(library: &dyn Library) -> Check {
    hostile::every_calendar_length(library, 612, 1).map(|_| ())
}

fn empty(library: &dyn Library) -> Check {
    hostile::empty_calendars(library)
}

/// Each flaw, the suite that must catch it, and a word of what it must say.
const CAUGHT: &[(CalendarFlaw, Suite, &str)] = &[
    (CalendarFlaw::EndsRangesEarly, questions, ", Ups("),
    (CalendarFlaw::EndsRangesEarly, every_length, ", Ups("),
    (CalendarFlaw::EndsRangesLate, questions, ", Ups("),
    (CalendarFlaw::EndsRangesLate, every_length, ", Ups("),
    (CalendarFlaw::BeginsRangesLate, questions, ", Ups("),
    (CalendarFlaw::CutsOneEarly, questions, ", Ups("),
    (CalendarFlaw::CutsOneEarly, every_length, ", Ups("),
    (CalendarFlaw::KeepsLastGroup, questions, "flag "),
    (CalendarFlaw::KeepsLastGroup, every_length, "flag "),
    (CalendarFlaw::ExchangesEnds, questions, ", Ups("),
    (CalendarFlaw::EmptyAtTheLastTick, questions, ", Ups("),
    (CalendarFlaw::TicksIn32Bits, questions, ", Ups("),
    (CalendarFlaw::DropsBit63, questions, ", Ups("),
    (CalendarFlaw::DropsBit63, every_length, ", Ups("),
    (CalendarFlaw::CountsFromTheTop, questions, "flag "),
    (CalendarFlaw::RunsFlagByFlag, questions, "flag "),
    (CalendarFlaw::LaterOfTwo, questions, ", Nearest("),
    (CalendarFlaw::LaterOfTwo, every_length, ", Nearest("),
    (CalendarFlaw::NearestNotPastTheEnd, questions, ", Nearest("),
    (CalendarFlaw::NearestNotPastTheEnd, every_length, ", Nearest("),
    (CalendarFlaw::NearestInItsRun, questions, ", Nearest("),
    (CalendarFlaw::NearestBefore, questions, ", Nearest("),
    (CalendarFlaw::FarthestIsNone, questions, ", Nearest("),
    (CalendarFlaw::NoneIsZero, questions, ", First("),
    (CalendarFlaw::NoneIsZero, empty, "no words, flag 0"),
    (CalendarFlaw::FlagEightIsZero, questions, "answered 0, due is 7"),
    (CalendarFlaw::FlagEightIsZero, empty, "no words, flag 8"),
    (CalendarFlaw::RefusesFlagSeven, questions, "answered 7, due is 0"),
    (CalendarFlaw::AnswersOnRefusal, questions, "flag 8, Ups("),
    (CalendarFlaw::ClearsLastGroup, marks, "words cleared: they are not as due"),
    (CalendarFlaw::ClearsLastGroup, every_length, "words cleared: they are not as due"),
    (CalendarFlaw::ClearsLastGroup, openings, "an opening, answered 0: the"),
    (CalendarFlaw::ClearsLastGroup, runs, "an opening, answered 0: the"),
    (CalendarFlaw::ClearsOneGroupLess, marks, "words cleared: they are not as due"),
    (CalendarFlaw::ClearsOneGroupLess, openings, "an opening, answered 0: the"),
    (CalendarFlaw::FillsAnew, marks, "the words are not as due"),
    (CalendarFlaw::FillsAnew, every_length, "the words are not as due"),
    (CalendarFlaw::FillsPastTheEnd, marks, "the words are not as due"),
    (CalendarFlaw::FillsPastTheEnd, runs, "steps, answered 0: the"),
    (CalendarFlaw::FillWraps, marks, "from tick 18446744073709551614 on"),
    (CalendarFlaw::FillWraps, every_length, "from tick 18446744073709551614 on"),
    (CalendarFlaw::FillStopsWithTheRun, marks, "the words are not as due"),
    (CalendarFlaw::FillStopsWithTheRun, runs, "steps, answered 0: the"),
    (CalendarFlaw::OpeningLeavesWords, openings, "an opening, answered 0: the"),
    (CalendarFlaw::OpeningLeavesWords, runs, "an opening, answered 0: the"),
    (CalendarFlaw::RefusedOpeningClears, openings, "words are not as due"),
    (CalendarFlaw::RefusedStepMarks, runs, "words are not as due"),
    (CalendarFlaw::RefusedStepMarks, states, "words are not as due"),
    (CalendarFlaw::RefusedBatchMarks, runs, "words are not as due"),
    (CalendarFlaw::RefusedBatchMarks, states, "words are not as due"),
    (CalendarFlaw::MarksNextTick, runs, "steps, answered 0: the"),
    (CalendarFlaw::MarksNextTick, states, "steps, answered 0: the"),
    (CalendarFlaw::WrapsPastTheWords, runs, "steps, answered 0: the"),
    (CalendarFlaw::WrapsPastTheWords, states, "steps, answered 0: the"),
    (CalendarFlaw::WrapsPastTheWords, marks, "the words are not as due"),
    (CalendarFlaw::RefusesPastTheWords, runs, "answered 22, due is"),
    (CalendarFlaw::RefusesPastTheWords, states, "answered 22, without"),
    (CalendarFlaw::RefusesPastTheWords, empty, "a step answered 22"),
    (CalendarFlaw::StepMarksOneFlag, runs, "steps, answered 0: the"),
    (CalendarFlaw::StepMarksOneFlag, states, "steps, answered 0: the"),
    (CalendarFlaw::ChangesCells, runs, "the cells differ"),
    (CalendarFlaw::ChangesCells, states, "the cells differ"),
    (CalendarFlaw::StepCountsItself, runs, "with a calendar"),
    (CalendarFlaw::BatchMarksOneMore, runs, "steps, answered 0: the"),
    (CalendarFlaw::BatchMarksOneMore, states, "steps, answered 0: the"),
    (CalendarFlaw::BatchMarksAll, runs, "steps, answered 0: the"),
    (CalendarFlaw::BatchMarksFirst, runs, "steps, answered 0: the"),
    (CalendarFlaw::BatchMarksFirst, every_length, "steps, answered 0: the"),
];

#[test]
fn each_wrong_one_is_caught() {
    for (flaw, suite, word) in CAUGHT {
        let seen = suite(&StandIn { flaw: Flaw::Calendar(*flaw) });
        let caught = matches!(&seen, Err(text) if text.contains(word));
        assert!(caught, "{flaw:?} must fail with \"{word}\"; seen: {seen:?}");
    }
}

/// The same suites pass without a flaw, so that it is the flaw they caught.
#[test]
fn the_catching_suites_pass_the_right_one() {
    let suites: [Suite; 7] = [questions, marks, openings, runs, states, every_length, empty];
    for suite in suites {
        assert_eq!(suite(&RIGHT), Ok(()));
    }
}
