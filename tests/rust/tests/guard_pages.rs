//! The Rattle library (feature `library`) with all that it is lent directly at a page that
//! nobody may touch, once before it and once after it: a byte read or written outside would
//! end this program with SIGSEGV. The suites are those of `library` and `hostile`, of fewer
//! calls; tests/guards.rs shows that the pages hold.

use rust_tests::compare::{self, Check};
use rust_tests::guard_pages::{Guard, Guarded, Pages};
use rust_tests::hostile;
use rust_tests::library::{Library, Linked};
use station_watch::raw::sw_sentence;
use station_watch::MAX_SENTENCE;

/// A suite on the library, with the guard on either side.
fn on_both_sides<T>(suite: impl Fn(&dyn Library) -> Check<T>) {
    for guard in [Guard::Before, Guard::After] {
        if let Err(said) = suite(&Guarded::new(&Linked, guard)) {
            panic!("guard {guard:?}: {said}");
        }
    }
}

#[test]
fn every_length() {
    on_both_sides(|library| hostile::every_length(library, 3_001, 4));
}

#[test]
fn bodies() {
    on_both_sides(|library| compare::bodies(library, 3_002, 4_000));
    on_both_sides(compare::limits);
    on_both_sides(|library| compare::formula_counts(library, 3_003, 20));
}

#[test]
fn recordings() {
    on_both_sides(|library| compare::recordings(library, 3_004, 400));
    on_both_sides(|library| compare::long_recordings(library, 3_005, 2));
}

#[test]
fn sheets() {
    on_both_sides(|library| compare::sheets(library, 3_006, 1_000));
    on_both_sides(|library| compare::writers(library, 3_007, 1_000));
    on_both_sides(|library| compare::openings(library, 3_008, 2_000));
}

#[test]
fn runs() {
    on_both_sides(|library| compare::runs(library, 3_009, 500, 50_000));
}

/// Ticks above 32 bits.
#[test]
fn high_runs() {
    on_both_sides(|library| compare::high_runs(library, 3_043, 150));
    on_both_sides(|library| compare::high_set_runs(library, 3_044, 60));
}

/// The body of an always empty range has no cells of its own.
#[test]
fn always_empty_ranges() {
    on_both_sides(|library| compare::empty_range_bodies(library, 3_037, 1_000));
    on_both_sides(|library| compare::empty_range_recordings(library, 3_038, 200));
    on_both_sides(|library| compare::empty_range_runs(library, 3_039, 250, 25_000));
    on_both_sides(|library| compare::empty_range_sets(library, 3_040, 50, 2_000));
}

#[test]
fn texts() {
    on_both_sides(|library| compare::texts(library, 3_010, 5_000));
    on_both_sides(|library| compare::damaged_texts(library, 3_011, 5));
    on_both_sides(|library| compare::deep_texts(library, 3_012, 200));
    on_both_sides(|library| compare::text_rooms(library, 3_013, 100));
    on_both_sides(|library| compare::printed_bodies(library, 3_014, 3_000));
    on_both_sides(compare::text_cases);
    on_both_sides(|library| compare::hostile_texts(library, 3_015, 2_000));
}

#[test]
fn states() {
    on_both_sides(|library| hostile::random_states(library, 3_016, 1_000));
    on_both_sides(|library| hostile::forged_states(library, 3_017, 3_000));
    on_both_sides(|library| hostile::damaged_states(library, 3_018, 2_000));
    on_both_sides(|library| hostile::overwritten_histories(library, 3_019, 300));
    on_both_sides(hostile::forged_lengths);
    on_both_sides(hostile::forged_ticks);
    on_both_sides(|library| hostile::high_states(library, 3_041, 100));
}

#[test]
fn empty_and_huge() {
    on_both_sides(hostile::empty_slices);
    on_both_sides(hostile::huge_lengths);
}

#[test]
fn sets() {
    on_both_sides(|library| compare::set_openings(library, 3_020, 1_000));
    on_both_sides(compare::set_sums);
    on_both_sides(|library| compare::set_orders(library, 3_021));
    on_both_sides(|library| compare::set_runs(library, 3_022, 100, 4_000));
    on_both_sides(|library| hostile::every_set_length(library, 3_023, 2));
}

#[test]
fn records() {
    on_both_sides(|library| hostile::random_records(library, 3_024, 1_000));
    on_both_sides(|library| hostile::disturbed_records(library, 3_025, 4));
    on_both_sides(|library| hostile::exchanged_records(library, 3_026, 4));
    on_both_sides(|library| hostile::other_sheets(library, 3_027, 4));
    on_both_sides(|library| hostile::forged_records(library, 3_028, 1_000));
    on_both_sides(hostile::summed_records);
    on_both_sides(|library| hostile::overwritten_sets(library, 3_029, 40));
    on_both_sides(|library| hostile::set_step_orders(library, 3_030, 10));
    on_both_sides(hostile::forged_set_ticks);
    on_both_sides(|library| hostile::high_records(library, 3_042, 50));
    on_both_sides(hostile::forged_set_lengths);
    on_both_sides(hostile::empty_set_slices);
    on_both_sides(hostile::huge_set_lengths);
}

#[test]
fn calendars() {
    on_both_sides(|library| compare::calendar_questions(library, 3_031, 60));
    on_both_sides(|library| compare::calendar_marks(library, 3_032, 100));
    on_both_sides(|library| compare::calendar_runs(library, 3_033, 150, 15_000));
    on_both_sides(|library| compare::calendar_openings(library, 3_034, 1_000));
    on_both_sides(|library| hostile::calendar_states(library, 3_035, 400));
    on_both_sides(|library| hostile::every_calendar_length(library, 3_036, 2));
    on_both_sides(hostile::empty_calendars);
    on_both_sides(hostile::huge_calendars);
}

/// The call that `Library` has not. What it writes is compared in tests/sentences.rs.
#[test]
fn sentences() {
    for guard in [Guard::Before, Guard::After] {
        let (mut buffer, mut answer) = (Pages::new(MAX_SENTENCE, guard), Pages::new(8, guard));
        for number in (0..=40).chain([255, u32::MAX]) {
            for room in 0..MAX_SENTENCE + 9 {
                let (out, written) = (buffer.lend(&vec![7; room]), answer.lend_one(&777));
                // SAFETY: the pointers and lengths of two buffers that are lent here alone.
                let refusal = unsafe { sw_sentence(number, out.as_mut_ptr(), room, written) };
                assert_eq!(refusal == 0, *written < room, "{number} into {room} bytes");
            }
        }
    }
}
