//! Filling: the library, and the same plainly in Rust, word by word and tick by tick.

use super::{by_words, SPANS};
use crate::cases::stream;
use crate::time::{self, Timed};
use rust_tests::paper::calendar as by_ticks;
use station_watch::calendar_fill;

type Fill = fn(&mut [u64], u64, &[u8]);

const WAYS: [Fill; 3] = [calendar_fill, by_words::fill, by_ticks::fill];

/// All ways must leave the same words.
pub fn agree() {
    let flags = stream("noise", 3_000);
    let filled = WAYS.map(|fill| {
        let mut words = vec![0; 8 * 40];
        fill(&mut words, 7, &flags);
        words
    });
    assert!(filled.iter().all(|words| *words == filled[0]), "filling");
}

/// Up to a day.
pub fn print_times() {
    println!("\nNanoseconds a tick of filling a calendar (median of rounds in turns).");
    println!("\n| ticks | library | by words | by ticks | library : by words |");
    println!("|---|---|---|---|---|");
    for (span, ticks) in &SPANS[..4] {
        let flags = stream("noise", *ticks as usize);
        let calls = WAYS.map(|fill| {
            let mut words = vec![0; 8 * ticks.div_ceil(64) as usize];
            let flags = &flags;
            Timed::call(move || {
                fill(&mut words, 0, flags);
                words.last().copied()
            })
        });
        let [library, by_word, by_tick] = time::medians(calls).map(|call| call / *ticks as f64);
        println!(
            "| {span} | {library:.2} | {by_word:.2} | {by_tick:.2} | {:.2} |",
            library / by_word
        );
    }
}
