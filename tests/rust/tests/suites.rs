//! The suites themselves, tested with a stand-in for the library: the right one
//! passes, and each wrong one is caught by the suite that is there for it.

use rust_tests::compare::{self, Check};
use rust_tests::hostile;
use rust_tests::library::Library;
use rust_tests::paper::RULE_REFUSALS;
use rust_tests::stand_in::{Flaw, Reader, StandIn};

const RIGHT: StandIn = StandIn { flaw: Flaw::None };

#[test]
fn the_right_one_passes_bodies() {
    let numbers = compare::bodies(&RIGHT, 301, 2_800).unwrap();
    assert!(numbers.each_at_least(RULE_REFUSALS, 200), "{numbers:?}");
    assert!(numbers.of(0) > 1_000, "{numbers:?}");
    let numbers = compare::limits(&RIGHT).unwrap();
    assert!(numbers.each_at_least(&[0, 11, 12, 13, 14, 15], 1), "{numbers:?}");
    let numbers = compare::formula_counts(&RIGHT, 333, 40).unwrap();
    assert!(numbers.each_at_least(&[0, 4, 5, 9, 10], 20), "{numbers:?}");
    let numbers = compare::typed_formula_counts(&RIGHT, 334, 40).unwrap();
    assert!(numbers.each_at_least(&[0, 9, 25], 80), "{numbers:?}");
}

#[test]
fn the_right_one_passes_recordings() {
    assert!(compare::recordings(&RIGHT, 302, 400).unwrap() > 5_000);
    let numbers = compare::long_recordings(&RIGHT, 303, 6).unwrap();
    assert!(numbers.each_at_least(&[0, 16], 12), "{numbers:?}");
}

#[test]
fn the_right_one_passes_sheets() {
    let numbers = compare::sheets(&RIGHT, 304, 400).unwrap();
    assert!(numbers.each_at_least(&[0, 1, 2, 3], 50), "{numbers:?}");
    let numbers = compare::writers(&RIGHT, 305, 600).unwrap();
    assert!(numbers.each_at_least(&[0, 1, 2, 22], 20), "{numbers:?}");
    let numbers = compare::openings(&RIGHT, 306, 1_500).unwrap();
    assert!(numbers.each_at_least(&[0, 1, 2, 3, 4, 5, 15, 17, 18, 23, 24], 10), "{numbers:?}");
}

#[test]
fn the_right_one_passes_runs() {
    let tally = compare::runs(&RIGHT, 307, 400, 24_000).unwrap();
    assert!(tally.rules >= 400 && tally.steps >= 24_000, "{tally:?}");
    assert!(tally.violations > 2_000 && tally.late > 500 && tally.several > 50, "{tally:?}");
    assert!(tally.batches > 200 && tally.full_batches > 5, "{tally:?}");
    assert!(tally.foreign > 2_000 && tally.live > 10_000, "{tally:?}");
    assert!(tally.refused.each_at_least(&[17, 18, 19], 100), "{tally:?}");
}

#[test]
fn the_right_one_passes_high_runs() {
    let tally = compare::high_runs(&RIGHT, 339, 60).unwrap();
    assert_eq!(tally.runs, 60, "{tally:?}");
    assert!(tally.across > 20 && tally.ended > 9, "{tally:?}");
    assert!(tally.violations > 180 && tally.decided_across > 5, "{tally:?}");
}

#[test]
fn the_right_one_passes_texts() {
    let numbers = compare::texts(&RIGHT, 322, 4_000).unwrap();
    assert!(numbers.each_at_least(&[0, 7, 8, 9, 24, 25, 26], 20), "{numbers:?}");
    let numbers = compare::damaged_texts(&RIGHT, 323, 10).unwrap();
    assert!(numbers.each_at_least(&[0, 7, 25, 26], 10), "{numbers:?}");
    let numbers = compare::deep_texts(&RIGHT, 332, 400).unwrap();
    assert!(numbers.each_at_least(&[9, 25, 26], 40), "{numbers:?}");
    let numbers = compare::text_rooms(&RIGHT, 324, 200).unwrap();
    assert!(numbers.each_at_least(&[0, 22], 1_000), "{numbers:?}");
    let numbers = compare::printed_bodies(&RIGHT, 325, 2_000).unwrap();
    assert!(numbers.of(0) > 1_000, "{numbers:?}");
    let numbers = compare::text_cases(&RIGHT).unwrap();
    assert!(numbers.each_at_least(&[0, 7, 8, 9, 24, 25, 26], 2), "{numbers:?}");
    let numbers = compare::hostile_texts(&RIGHT, 326, 500).unwrap();
    assert!(numbers.of(25) > 600, "{numbers:?}");
}

#[test]
fn the_right_one_passes_hostile_input() {
    let numbers = hostile::random_states(&RIGHT, 308, 300).unwrap();
    assert!(numbers.of(21) == 1_200, "{numbers:?}");
    let numbers = hostile::forged_states(&RIGHT, 320, 600).unwrap();
    assert!(numbers.each_at_least(&[0, 17, 18, 19, 20, 21], 60), "{numbers:?}");
    let numbers = hostile::damaged_states(&RIGHT, 309, 300).unwrap();
    assert!(numbers.each_at_least(&[0, 17, 21], 100), "{numbers:?}");
    assert_eq!(hostile::overwritten_histories(&RIGHT, 310, 100), Ok(3_000));
    assert_eq!(hostile::forged_lengths(&RIGHT), Ok(96));
    assert_eq!(hostile::forged_ticks(&RIGHT), Ok(hostile::DUE_TICKS.to_vec()));
    let numbers = hostile::high_states(&RIGHT, 338, 20).unwrap();
    assert_eq!((numbers.of(0), numbers.of(20)), (360, 280), "{numbers:?}");
    let numbers = hostile::every_length(&RIGHT, 336, 1).unwrap();
    assert!(numbers.total() > 20_000, "{numbers:?}");
    assert_eq!(hostile::empty_slices(&RIGHT), Ok(()));
    assert_eq!(hostile::huge_lengths(&RIGHT), Ok(()));
}

type Suite = fn(&dyn Library) -> Check;

fn runs(library: &dyn Library) -> Check {
    compare::runs(library, 311, 150, 9_000).map(|_| ())
}

fn bodies(library: &dyn Library) -> Check {
    compare::bodies(library, 312, 600).map(|_| ())
}

fn limits(library: &dyn Library) -> Check {
    compare::limits(library).map(|_| ())
}

fn formula_counts(library: &dyn Library) -> Check {
    compare::formula_counts(library, 335, 4).map(|_| ())
}

fn cell_counts(library: &dyn Library) -> Check {
    compare::cell_counts(library).map(|_| ())
}

fn recordings(library: &dyn Library) -> Check {
    compare::recordings(library, 313, 100).map(|_| ())
}

fn long_recordings(library: &dyn Library) -> Check {
    compare::long_recordings(library, 314, 1).map(|_| ())
}

fn sheets(library: &dyn Library) -> Check {
    compare::sheets(library, 315, 300).map(|_| ())
}

fn writers(library: &dyn Library) -> Check {
    compare::writers(library, 316, 300).map(|_| ())
}

fn openings(library: &dyn Library) -> Check {
    compare::openings(library, 317, 300).map(|_| ())
}

fn texts(library: &dyn Library) -> Check {
    compare::texts(library, 327, 3_000).map(|_| ())
}

fn damaged_texts(library: &dyn Library) -> Check {
    compare::damaged_texts(library, 328, 10).map(|_| ())
}

fn deep_texts(library: &dyn Library) -> Check {
    compare::deep_texts(library, 331, 200).map(|_| ())
}

fn text_rooms(library: &dyn Library) -> Check {
    compare::text_rooms(library, 329, 200).map(|_| ())
}

fn printed(library: &dyn Library) -> Check {
    compare::printed_bodies(library, 330, 2_000).map(|_| ())
}

fn text_cases(library: &dyn Library) -> Check {
    compare::text_cases(library).map(|_| ())
}

fn forged(library: &dyn Library) -> Check {
    hostile::forged_states(library, 321, 200).map(|_| ())
}

fn damaged(library: &dyn Library) -> Check {
    hostile::damaged_states(library, 318, 100).map(|_| ())
}

fn overwritten(library: &dyn Library) -> Check {
    hostile::overwritten_histories(library, 319, 40).map(|_| ())
}

fn every_length(library: &dyn Library) -> Check {
    hostile::every_length(library, 337, 1).map(|_| ())
}

fn forged_lengths(library: &dyn Library) -> Check {
    hostile::forged_lengths(library).map(|_| ())
}

fn forged_ticks(library: &dyn Library) -> Check {
    hostile::forged_ticks(library).map(|_| ())
}

fn high_states(library: &dyn Library) -> Check {
    hostile::high_states(library, 340, 10).map(|_| ())
}

fn high_runs(library: &dyn Library) -> Check {
    compare::high_runs(library, 341, 40).map(|_| ())
}

/// Each flaw, the suite that must catch it, and a word of what it must say.
const CAUGHT: &[(Flaw, Suite, &str)] = &[
    (Flaw::StoresFirst, runs, "due is"),
    (Flaw::ReadsUnusedHistory, runs, "due is"),
    (Flaw::WrapsLate, runs, "the history is not as due"),
    (Flaw::LeavesHistory, runs, "the history is not as due"),
    (Flaw::JudgesAtTheEnd, runs, "due is"),
    (Flaw::ReportsNothing, runs, "due is"),
    (Flaw::ReportsDescending, runs, "due is"),
    (Flaw::CountsOneMore, runs, "due is"),
    (Flaw::EndsRangesLate, runs, "due is"),
    (Flaw::EndsRangesLate, recordings, "due is"),
    (Flaw::ThenAsBeside, runs, "due is"),
    (Flaw::ThenAsBeside, recordings, "due is"),
    (Flaw::WritesAfterReport, runs, "report words after its own"),
    (Flaw::WritesAfterTable, runs, "table words after the needed cells"),
    (Flaw::TableBeforeHistory, runs, "answered 18, due is 17"),
    (Flaw::ReportBeforeTable, runs, "answered 19, due is 18"),
    (Flaw::AnswersOnRefusal, runs, "an answer was written"),
    (Flaw::RefusesOverwritten, runs, "answered 21"),
    (Flaw::RefusesOverwritten, overwritten, "answered 21"),
    (Flaw::TakesShortReport, runs, "answered 0, due is 19"),
    (Flaw::TakesShortReport, every_length, "answered 0, due is 19"),
    (Flaw::ForgetsToZero, runs, "the history is not as due"),
    (Flaw::ForgetsToZero, openings, "history not 0"),
    (Flaw::LeavesStateRoom, openings, "the state is not as due"),
    (Flaw::LeavesStateRoom, runs, "the state is not as due"),
    (Flaw::LeavesLiveInState, runs, "the state is not as due"),
    (Flaw::BatchFillsReport, runs, "batch"),
    (Flaw::BatchForgetsLive, runs, "batch"),
    (Flaw::BatchSwapsPairs, runs, "batch"),
    (Flaw::ZeroIsThisTick, bodies, "due is 13"),
    (Flaw::ZeroIsThisTick, limits, "due is 13"),
    (Flaw::DelayBelow255, bodies, "answered 12, due is 0"),
    (Flaw::DelayBelow255, limits, "answered 12, due is 0"),
    (Flaw::HistoryBelow4096, bodies, "answered 14, due is 0"),
    (Flaw::HistoryBelow4096, limits, "answered 14, due is 0"),
    (Flaw::CellsBelow4096, limits, "answered 15, due is 0"),
    (Flaw::CellsUpTo4097, limits, "answered 0, due is 15"),
    (Flaw::CellsUpTo4097, cell_counts, "answered 0, due is 15"),
    (Flaw::CellsIn16BitsWrap, cell_counts, "answered 0, due is 15"),
    (Flaw::NoPositionsAfterTheBody, limits, "answered 15, due is 0"),
    (Flaw::NoPositionsAfterTheBody, cell_counts, "answered 15, due is 0"),
    (Flaw::FourBeforeNine, bodies, "answered 4, due is 9"),
    (Flaw::NineBeforeFive(Reader::Figures), formula_counts, "answered 9, due is 5"),
    (Flaw::NineBeforeFive(Reader::Evaluator), formula_counts, "due is (5,"),
    (Flaw::NineBeforeFive(Reader::Printer), formula_counts, "answered 9, due is 5"),
    (Flaw::NineBeforeFive(Reader::Opening), formula_counts, "answered 9, due is 5"),
    (Flaw::NineBeforeFive(Reader::Figures), bodies, "answered 9, due is 5"),
    (Flaw::NineBeforeFive(Reader::Printer), printed, "answered 9, due is 5"),
    (Flaw::NineBeforeFour(Reader::Figures), formula_counts, "answered 9, due is 4"),
    (Flaw::NineBeforeFour(Reader::Evaluator), formula_counts, "due is (4,"),
    (Flaw::NineBeforeFour(Reader::Printer), formula_counts, "answered 9, due is 4"),
    (Flaw::NineBeforeFour(Reader::Opening), formula_counts, "answered 9, due is 4"),
    (Flaw::FourBeforeNine, formula_counts, "answered 4, due is 9"),
    (Flaw::Exchanges23And24, bodies, "answered 24, due is 23"),
    (Flaw::FarInfinityIs8, bodies, "answered 8, due is 24"),
    (Flaw::InnerBoundIs23, bodies, "answered 23, due is"),
    (Flaw::HistoryBeforeDelay, limits, "answered 13, due is 12"),
    (Flaw::FalseAtHorizon, recordings, "due is"),
    (Flaw::OpenBeforeTrying, recordings, "due is"),
    (Flaw::OpenAtHorizon, recordings, "due is (0, 0, 0)"),
    (Flaw::LongRecordings, long_recordings, "due is (16"),
    (Flaw::LongRecordings, every_length, "due is (16"),
    (Flaw::SheetMayGoOn, sheets, "due is 2"),
    (Flaw::SheetMayGoOn, every_length, "due is 2"),
    (Flaw::RuleBeforeLayout, sheets, "answered 3, due is 2"),
    (Flaw::ClearsBuffer, writers, "the buffer is not as due"),
    (Flaw::RoomBeforeLengths, writers, "answered 22, due is"),
    (Flaw::UnboundBeforeMisspelt, texts, "answered 26, due is 25"),
    (Flaw::UnboundBeforeMisspelt, text_cases, "answered 26, due is 25"),
    (Flaw::FlagBeforeUnbound, texts, "answered 7, due is 26"),
    (Flaw::FlagBeforeUnbound, text_cases, "answered 7, due is 26"),
    (Flaw::RoomBeforeFlag, text_rooms, "answered 22, due is 7"),
    (Flaw::OutermostNameWins, texts, "due is"),
    (Flaw::OutermostNameWins, text_cases, "due is"),
    (Flaw::BoundsSeeOwnName, texts, "due is"),
    (Flaw::BoundsSeeOwnName, text_cases, "due is 26"),
    (Flaw::NamesOutliveRanges, texts, "due is 26"),
    (Flaw::NamesOutliveRanges, text_cases, "due is 26"),
    (Flaw::KeepsSixtyFourNames, deep_texts, "answered 26, due is 9"),
    (Flaw::KeepsSixtyFourNames, text_cases, "answered 26, due is 9"),
    (Flaw::NineLetters, text_cases, "due is 25"),
    (Flaw::NineLetters, damaged_texts, "due is 25"),
    (Flaw::KeywordsAreNames, text_cases, "due is 25"),
    (Flaw::FiveDigits, text_cases, "due is 25"),
    (Flaw::FiveDigits, damaged_texts, "due is 25"),
    (Flaw::FourThousandAndNinetySeven, text_cases, "answered 9, due is 25"),
    (Flaw::FourThousandAndNinetySeven, every_length, "answered 9, due is 25"),
    (Flaw::TakesLineEnd, text_cases, "answered 0, due is 25"),
    (Flaw::LeadingZeroIsMisspelt, texts, "answered 25, due is"),
    (Flaw::LeadingZeroIsMisspelt, text_cases, "answered 25, due is 0"),
    (Flaw::MinusZeroIsMisspelt, texts, "answered 25, due is"),
    (Flaw::MinusZeroIsMisspelt, text_cases, "answered 25, due is 0"),
    (Flaw::InfinityPlusZeroIs24, texts, "answered 24, due is"),
    (Flaw::InfinityPlusZeroIs24, text_cases, "answered 24, due is 0"),
    (Flaw::OffsetsOfOneByte, texts, "due is"),
    (Flaw::ExchangesConnectives, texts, "due is"),
    (Flaw::ClearsBodyRoom, texts, "bytes were changed that are not its own"),
    (Flaw::ClearsBodyRoom, printed, "bytes were changed that are not its own"),
    (Flaw::WritesShortBody, text_rooms, "bytes were changed that are not its own"),
    (Flaw::AnswersLengthOn22, text_rooms, "answered length"),
    (Flaw::PrintsPlusZero, printed, "due is"),
    (Flaw::PrintsFourDigits, printed, "due is"),
    (Flaw::PrintsWForU, printed, "due is"),
    (Flaw::PrintsZeroByte, printed, "bytes were changed that are not its own"),
    (Flaw::PrintsUncheckedFlags, printed, "answered 0, due is 7"),
    (Flaw::WritesTwoHistoryBytes, overwritten, "the history is not as due"),
    (Flaw::WritesTwoHistoryBytes, runs, "the history is not as due"),
    (Flaw::RefusesAndWrites, damaged, "memory was changed"),
    (Flaw::TrustsLength, forged_lengths, "answered 17, due is 21"),
    (Flaw::TrustsLength, forged, "answered 17, due is 21"),
    (Flaw::ShortHistoryIs17, forged, "answered 17, due is 21"),
    (Flaw::CutsTicks, forged_ticks, "the state is not as due"),
    (Flaw::CutsTicks, forged, "the state is not as due"),
    (Flaw::CutsTicks, high_states, "the state is not as due"),
    (Flaw::CutsTicks, high_runs, "at tick"),
    (Flaw::ReportsIn32Bits, high_runs, "due is"),
    (Flaw::BatchStepsIn32Bits, high_runs, "due is"),
    (Flaw::BatchStepsIn32Bits, high_states, "of its steps"),
    (Flaw::HistoryIn32Bits, high_runs, "are not as from 0"),
    (Flaw::HistoryIn32Bits, high_states, "the history is not as due"),
    (Flaw::CellsIn32Bits, high_runs, "are not as from 0"),
    (Flaw::EndsAt32Bits, forged_ticks, "answered 20, due is 0"),
    (Flaw::EndsAt32Bits, high_runs, "answered 20"),
    (Flaw::EndsOneEarly, forged_ticks, "answered 20, due is 0"),
    (Flaw::EndsOneEarly, high_runs, "answered 20"),
    (Flaw::TakesTickTooMany, high_runs, "after the last tick: answered 0"),
    (Flaw::BatchTakesTickTooMany, high_runs, "at tick"),
    (Flaw::HighTickIs21, forged_ticks, "answered 21, due is 20"),
    (Flaw::HighTickIs21, high_states, "answered 21, due is 20"),
    (Flaw::HighTickIs21, forged, "answered 21, due is"),
    (Flaw::HighTickFirst, forged, "answered 20, due is"),
    (Flaw::TakesTickTooMany, forged_ticks, "step answered 0, due is 20"),
    (Flaw::TakesTickTooMany, forged, "step answered 0, due is 20"),
    (Flaw::BatchTakesTickTooMany, forged_ticks, "a batch took a tick too many"),
    (Flaw::SizeOfTwoBytes, forged, ", due is 21"),
    (Flaw::BodyByItsNumber, forged, ", due is 21"),
    (Flaw::BodyByItsNumber, damaged, ", due is 21"),
    (Flaw::RefusesHighLive, forged, "answered 21, due is"),
    (Flaw::RefusesHighLive, damaged, "answered 21, due is"),
    (Flaw::ChangesStateBody, forged, "the state is not as due"),
    (Flaw::BatchAnswers19, runs, "answered 19, due is 0"),
    (Flaw::BatchAnswers19, forged, "batch answered 19, due is 0"),
    (Flaw::TakesEmptyBatch, forged, "batch answered 0, due is"),
];

#[test]
fn each_wrong_one_is_caught() {
    for (flaw, suite, word) in CAUGHT {
        let seen = suite(&StandIn { flaw: *flaw });
        let caught = matches!(&seen, Err(text) if text.contains(word));
        assert!(caught, "{flaw:?} must fail with \"{word}\"; seen: {seen:?}");
    }
}

/// The same suites pass without a flaw, so that it is the flaw they caught.
#[test]
fn the_catching_suites_pass_the_right_one() {
    let suites: [Suite; 24] = [
        runs,
        bodies,
        limits,
        formula_counts,
        cell_counts,
        recordings,
        long_recordings,
        sheets,
        writers,
        openings,
        texts,
        damaged_texts,
        deep_texts,
        text_rooms,
        printed,
        text_cases,
        forged,
        damaged,
        overwritten,
        every_length,
        forged_lengths,
        forged_ticks,
        high_states,
        high_runs,
    ];
    for suite in suites {
        assert_eq!(suite(&RIGHT), Ok(()));
    }
}
