//! The questions: the library, and the same plainly in Rust, word by word and tick by tick.

use super::{by_words, DAY, SPANS};
use crate::cases::stream;
use crate::time::{self, Timed};
use rust_tests::paper::calendar as by_ticks;
use station_watch::{calendar_fill, calendar_first, calendar_last, calendar_nearest, calendar_ups};

/// The words of a calendar in which the question about its flag has to go through all of a
/// range, but for the first and the last tick: flag 0 is up at every other tick, at random;
/// flag 1 is up at the last but one alone, flag 2 at the second, flag 3 at both.
fn calendar_of(ticks: u64) -> Vec<u64> {
    let mut words = vec![0; 8 * ticks.div_ceil(64) as usize];
    let noise: Vec<u8> = stream("noise", DAY as usize).iter().map(|flags| flags & 1).collect();
    for day in (0..ticks).step_by(DAY as usize) {
        let rest = (ticks - day).min(DAY) as usize;
        calendar_fill(&mut words, day, &noise[..rest]);
    }
    calendar_fill(&mut words, ticks - 2, &[0b1010]);
    calendar_fill(&mut words, 1, &[0b1100]);
    words
}

/// A way to answer a question about so many ticks.
type Ask = fn(&[u64], u64) -> Option<u64>;

/// A question, and its ways: the library, word by word, tick by tick.
struct Question {
    name: &'static str,
    ways: [Ask; 3],
}

/// Of all ticks but the first and the last; near the tick in the middle, with an up at each end;
/// and near a tick with none up before it, which is known only at tick 0, and the next one up.
const QUESTIONS: [Question; 5] = [
    Question {
        name: "ups",
        ways: [
            |words, ticks| calendar_ups(words, 0, 1, ticks - 2).ok(),
            |words, ticks| Some(by_words::ups(words, 0, 1, ticks - 2)),
            |words, ticks| by_ticks::ups(words, 0, 1, ticks - 2).ok(),
        ],
    },
    Question {
        name: "first up",
        ways: [
            |words, ticks| calendar_first(words, 1, 1, ticks - 2).ok()?,
            |words, ticks| by_words::first_up(words, 1, 1, ticks - 2),
            |words, ticks| by_ticks::first_up(words, 1, 1, ticks - 2).ok()?,
        ],
    },
    Question {
        name: "last up",
        ways: [
            |words, ticks| calendar_last(words, 2, 1, ticks - 2).ok()?,
            |words, ticks| by_words::last_up(words, 2, 1, ticks - 2),
            |words, ticks| by_ticks::last_up(words, 2, 1, ticks - 2).ok()?,
        ],
    },
    Question {
        name: "nearest up",
        ways: [
            |words, ticks| calendar_nearest(words, 3, ticks / 2).ok()?,
            |words, ticks| by_words::nearest_up(words, 3, ticks / 2),
            |words, ticks| by_ticks::nearest_up(words, 3, ticks / 2).ok()?,
        ],
    },
    Question {
        name: "nearest up, none before",
        ways: [
            |words, ticks| calendar_nearest(words, 1, ticks - 3).ok()?,
            |words, ticks| by_words::nearest_up(words, 1, ticks - 3),
            |words, ticks| by_ticks::nearest_up(words, 1, ticks - 3).ok()?,
        ],
    },
];

pub fn count() -> usize {
    QUESTIONS.len()
}

/// All ways must answer the same. Of the year, only a day.
pub fn agree() {
    let spans = SPANS.map(|(name, ticks)| (name, ticks.min(DAY)));
    for (span, ticks) in spans {
        let words = calendar_of(ticks);
        for Question { name, ways } in &QUESTIONS {
            let answers = ways.map(|way| way(&words, ticks));
            let same = answers.iter().all(|answer| answer.is_some() && *answer == answers[0]);
            assert!(same, "{name}, {span}: {answers:?}");
        }
    }
}

pub fn print_times() {
    println!("\nNanoseconds a word of a question to a calendar (median of rounds in turns).");
    println!(
        "\n| question, ticks | words | library | by words | by ticks | library : by words \
         | by ticks : library |"
    );
    println!("|---|---|---|---|---|---|---|");
    for (span, ticks) in SPANS {
        let words = calendar_of(ticks);
        for question in &QUESTIONS {
            print_row(span, ticks, question, &words);
        }
    }
}

fn print_row(span: &str, ticks: u64, question: &Question, words: &[u64]) {
    let runs = ticks.div_ceil(64);
    let calls = question.ways.map(|way| Timed::call(move || way(words, ticks)));
    let [library, by_word, by_tick] = time::medians(calls).map(|call| call / runs as f64);
    println!(
        "| {}, {span} | {runs} | {library:.2} | {by_word:.2} | {by_tick:.1} | {:.2} | {:.1} |",
        question.name,
        library / by_word,
        by_tick / library
    );
}
