//! The suites of ranges that are always empty, tested with a stand-in for the library as `suites`
//! tests the others: the right one passes, and each wrong one is caught.

use rust_tests::compare::{self, Check};
use rust_tests::hostile;
use rust_tests::library::Library;
use rust_tests::paper::BODY_REFUSALS;
use rust_tests::stand_in::{EmptyRangeFlaw, Flaw, StandIn};

const RIGHT: StandIn = StandIn { flaw: Flaw::None };

#[test]
fn the_right_one_passes_bodies() {
    let numbers = compare::empty_range_limits(&RIGHT).unwrap();
    assert!(numbers.of(0) > 60, "{numbers:?}");
    assert!(numbers.each_at_least(&[11, 12, 13, 14, 15], 1), "{numbers:?}");
    let numbers = compare::empty_range_bodies(&RIGHT, 701, 2_800).unwrap();
    assert!(numbers.each_at_least(BODY_REFUSALS, 50), "{numbers:?}");
    assert!(numbers.of(0) > 2_800, "{numbers:?}");
    let numbers = compare::empty_range_openings(&RIGHT, 702, 600).unwrap();
    assert!(numbers.each_at_least(&[0, 17, 18], 50), "{numbers:?}");
}

#[test]
fn the_right_one_passes_recordings() {
    assert!(compare::empty_range_recordings(&RIGHT, 703, 400).unwrap() > 5_000);
}

#[test]
fn the_right_one_passes_runs() {
    let tally = compare::empty_range_runs(&RIGHT, 704, 300, 18_000).unwrap();
    assert!(tally.rules >= 300 && tally.steps >= 18_000, "{tally:?}");
    assert!(tally.violations > 1_000 && tally.late > 300 && tally.live > 5_000, "{tally:?}");
    assert!(tally.batches > 150 && tally.refused.each_at_least(&[17, 18, 19], 50), "{tally:?}");
    let tally = compare::empty_range_sets(&RIGHT, 705, 50, 2_000).unwrap();
    assert!(tally.sets >= 50 && tally.rules > 300 && tally.pairs > 2_000, "{tally:?}");
}

type Suite = fn(&dyn Library) -> Check;

fn limits(library: &dyn Library) -> Check {
    compare::empty_range_limits(library).map(|_| ())
}

fn bodies(library: &dyn Library) -> Check {
    compare::empty_range_bodies(library, 706, 400).map(|_| ())
}

fn recordings(library: &dyn Library) -> Check {
    compare::empty_range_recordings(library, 707, 100).map(|_| ())
}

fn runs(library: &dyn Library) -> Check {
    compare::empty_range_runs(library, 708, 60, 3_600).map(|_| ())
}

fn sets(library: &dyn Library) -> Check {
    compare::empty_range_sets(library, 709, 10, 400).map(|_| ())
}

fn forged(library: &dyn Library) -> Check {
    hostile::forged_states(library, 710, 100).map(|_| ())
}

fn damaged(library: &dyn Library) -> Check {
    hostile::damaged_states(library, 711, 50).map(|_| ())
}

fn overwritten(library: &dyn Library) -> Check {
    hostile::overwritten_histories(library, 712, 20).map(|_| ())
}

/// Each flaw, the suite that must catch it, and a word of what it must say.
const CAUGHT: &[(EmptyRangeFlaw, Suite, &str)] = &[
    (EmptyRangeFlaw::EqualIsEmpty, limits, "[0, 0, 2], due is [0, 0, 3]"),
    (EmptyRangeFlaw::EqualIsEmpty, bodies, "due is"),
    (EmptyRangeFlaw::ByTypedBounds, limits, "answered 0, due is 11"),
    (EmptyRangeFlaw::ByTypedBounds, bodies, "due is"),
    (EmptyRangeFlaw::FromZeroIsEmpty, limits, "answered 0, due is 13"),
    (EmptyRangeFlaw::CountsDelay, limits, "answered 11, due is 0"),
    (EmptyRangeFlaw::CountsDelay, bodies, "due is"),
    (EmptyRangeFlaw::CountsDelay, forged, "a step answered"),
    (EmptyRangeFlaw::CountsDelay, damaged, "a step answered"),
    (EmptyRangeFlaw::CountsDelay, overwritten, "a step answered"),
    (EmptyRangeFlaw::CountsFiniteEnd, limits, "due is"),
    (EmptyRangeFlaw::CountsFiniteEnd, bodies, "due is"),
    (EmptyRangeFlaw::CountsHistory, limits, "answered 13, due is 0"),
    (EmptyRangeFlaw::CountsHistory, bodies, "due is"),
    (EmptyRangeFlaw::CountsHistory, forged, "answered 21, due is"),
    (EmptyRangeFlaw::LeavesBodyUnread, bodies, "answered 0, due is"),
    (EmptyRangeFlaw::WaitsForTheEnd, recordings, "due is"),
    (EmptyRangeFlaw::WaitsForTheEnd, runs, "due is"),
    (EmptyRangeFlaw::WaitsForTheEnd, sets, "due is"),
];

#[test]
fn each_wrong_one_is_caught() {
    for (flaw, suite, word) in CAUGHT {
        let seen = suite(&StandIn { flaw: Flaw::EmptyRange(*flaw) });
        let caught = matches!(&seen, Err(text) if text.contains(word));
        assert!(caught, "{flaw:?} must fail with \"{word}\"; seen: {seen:?}");
    }
}

/// The same suites pass without a flaw, so that it is the flaw they caught.
#[test]
fn the_catching_suites_pass_the_right_one() {
    for suite in [limits as Suite, bodies, recordings, runs, sets, forged, damaged, overwritten] {
        assert_eq!(suite(&RIGHT), Ok(()));
    }
}
