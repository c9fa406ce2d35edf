//! The flag calendar: its questions and its filling beside the same plainly in Rust, and steps
//! and batches with a calendar beside those without.

mod by_words;
mod filling;
mod questions;
mod steps;

const DAY: u64 = 864_000;

/// Ranges of so many ticks, of which there are ten a second.
const SPANS: [(&str, u64); 5] = [
    ("64 ticks", 64),
    ("a minute", 600),
    ("an hour", 36_000),
    ("a day", DAY),
    ("a year", 365 * DAY),
];

/// All ways of every question and of filling must answer the same, and steps with a calendar
/// report what those without do.
pub fn agree() {
    questions::agree();
    filling::agree();
    steps::agree();
    println!("All ways of the calendar agree: {} questions, filling, steps.", questions::count());
}

pub fn print_times() {
    questions::print_times();
    filling::print_times();
    steps::print_times();
}
