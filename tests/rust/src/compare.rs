//! The comparison suites: each call of the boundary against the paper, with
//! guards around all that is lent, and every byte that must keep its content
//! looked at.

mod calendars;
mod calls;
mod empty_ranges;
mod formula_counts;
mod high_ticks;
mod runs;
mod set_calls;
mod set_runs;
mod set_suites;
mod suites;
mod text_cases;
mod texts;

use crate::paper::LAST_REFUSAL;
pub use calendars::{
    calendar_marks, calendar_openings, calendar_questions, calendar_runs, cleared, filled,
    questions, FLAGS,
};
pub use calls::{figures, opening, outcome, place, round_trip, write};
pub use empty_ranges::{
    empty_range_bodies, empty_range_limits, empty_range_openings, empty_range_recordings,
    empty_range_runs, empty_range_sets,
};
pub use formula_counts::{formula_counts, typed_formula_counts};
pub use high_ticks::{high_runs, high_set_runs, HighTally};
pub use runs::{run, Plan, Tally};
pub use set_calls::{set_figures, set_opening};
pub use set_runs::{set_run, SetTally};
pub use set_suites::{set_openings, set_orders, set_runs, set_sums};
pub use suites::{
    bodies, cell_counts, history_lengths, limits, long_recordings, openings, recordings, runs,
    sheets, writers,
};
pub use texts::{
    damaged_texts, deep_texts, from_text, hostile_texts, printed_bodies, text_cases, text_rooms,
    texts, to_text,
};

/// A check that failed says what it saw and what was due.
pub type Check<T = ()> = Result<T, String>;

/// Fails the check unless the condition holds.
#[macro_export]
macro_rules! demand {
    ($condition:expr, $($text:tt)+) => {
        if !$condition {
            return Err(format!($($text)+));
        }
    };
}

/// What an answer's place holds before a call.
pub const MARK: u64 = 0x5EED_0000_0BAD_F00D;

/// How often each number was answered; number 0 is "accepted".
#[derive(Clone, Debug, Default)]
pub struct Numbers {
    counts: [u64; LAST_REFUSAL as usize + 1],
}

impl Numbers {
    pub fn add(&mut self, number: u32) {
        self.counts[number as usize] += 1;
    }

    pub fn of(&self, number: u32) -> u64 {
        self.counts[number as usize]
    }

    /// How many answers there were.
    pub fn total(&self) -> u64 {
        self.counts.iter().sum()
    }

    /// Whether each of these numbers was answered at least so often.
    pub fn each_at_least(&self, numbers: &[u32], least: u64) -> bool {
        numbers.iter().all(|&number| self.of(number) >= least)
    }
}

/// Bytes as document 01 writes them.
pub fn hex(bytes: &[u8]) -> String {
    let shown: Vec<String> = bytes.iter().take(600).map(|byte| format!("{byte:02X}")).collect();
    shown.join(" ")
}
