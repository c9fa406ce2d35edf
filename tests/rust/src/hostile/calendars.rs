//! Calendars beside states that no opening and no step left, words of every length, of none and
//! of very many. "A step that 21 misses may write the words too": which it does is said exactly,
//! the bits of the state's next tick where the step is taken.

use super::lengths::{openings, steps};
use super::{
    damaged_states, forged_lengths, forged_states, forged_ticks, high_states,
    overwritten_histories, random_states,
};
use crate::beside::{beside, CalendarTally, Words};
use crate::compare::{self, Check, Numbers, FLAGS, MARK};
use crate::demand;
use crate::lent::Lent;
use crate::library::{Library, Question, StepAnswer, StepLent, StepsAnswer, NO_TICK, STATE_BYTES};
use crate::random::{self, Random};

/// The words of three runs, and a few more.
const MOST_WORDS: usize = 27;

/// States of all kinds, with words of any content beside them.
pub fn calendar_states(library: &dyn Library, seed: u64, count: usize) -> Check<CalendarTally> {
    let suite = |library: &dyn Library| -> Check {
        random_states(library, seed, count / 4)?;
        forged_states(library, seed + 1, count)?;
        damaged_states(library, seed + 2, count)?;
        overwritten_histories(library, seed + 3, count / 10)?;
        forged_lengths(library)?;
        forged_ticks(library)?;
        high_states(library, seed + 4, count / 40)?;
        Ok(())
    };
    Ok(beside(library, seed, Words::Any, suite)?.1)
}

/// How often each number was answered by the calls with a calendar: words of every length for
/// those that have nothing else, and all else in every length for openings and steps.
pub fn every_calendar_length(library: &dyn Library, seed: u64, rounds: usize) -> Check<Numbers> {
    let mut random = Random::new(seed);
    let mut numbers = Numbers::default();
    for _ in 0..rounds {
        for length in 0..=MOST_WORDS {
            words_of_length(library, &mut random, length, &mut numbers)?;
        }
    }
    let suite = |library: &dyn Library| -> Check<Numbers> {
        for _ in 0..rounds {
            openings(library, &mut random, &mut numbers)?;
            steps(library, &mut random, &mut numbers)?;
        }
        Ok(numbers)
    };
    Ok(beside(library, seed, Words::Any, suite)?.0)
}

/// Cleared, filled, and asked at their edges.
fn words_of_length(
    library: &dyn Library,
    random: &mut Random,
    length: usize,
    numbers: &mut Numbers,
) -> Check {
    let words = random::calendar_words(random, length);
    compare::cleared(library, &words)?;
    let edges = random::edge_ticks(random, &words);
    let mut lent = Lent::new(&words);
    for &tick in &edges {
        for count in [0, 1, 9, 8 * length + 3] {
            compare::filled(library, &words, tick, &random.bytes(count))?;
        }
        for flag in FLAGS {
            let last = random.pick(&edges);
            numbers.add(compare::questions(library, &mut lent, flag, tick, last)?);
        }
    }
    Ok(())
}

/// Words that are none, whose pointer dangles: nothing is kept.
pub fn empty_calendars(library: &dyn Library) -> Check {
    compare::cleared(library, &[])?;
    compare::filled(library, &[], 0, &[255; 3])?;
    compare::filled(library, &[], 0, &[])?;
    for flag in FLAGS {
        let due = if flag > 7 { (7, MARK) } else { (0, NO_TICK) };
        let mut nearest = MARK;
        let number = library.calendar_ask(&[], flag, Question::Nearest(0), &mut nearest);
        demand!((number, nearest) == due, "no words, flag {flag}: {number}, {nearest}");
        compare::questions(library, &mut Lent::new(&[]), flag, 0, u64::MAX)?;
    }
    empty_steps(library)
}

/// A bare flag watched with no words, and an opening with nothing at all.
fn empty_steps(library: &dyn Library) -> Check {
    let mut state = [7; STATE_BYTES];
    let number = library.calendar_open(&[], 0, &mut [], &[], &mut [], &mut state);
    demand!((number, state) == (1, [7; STATE_BYTES]), "nothing at all: opening answered {number}");
    let sheet = random::sheet_of(&[vec![1, 0, 0]]);
    let (mut cells, mut report) = ([9; 4], [77; 2]);
    let number = library.calendar_open(&sheet, 0, &mut [], &cells, &mut [], &mut state);
    demand!(number == 0, "no words: opening answered {number}");
    let (mut first, mut second, mut live) = (5, 5, 5);
    let lent = StepLent { history: &mut [], cells: &mut cells, report: &mut report };
    let answer = StepAnswer { reported: &mut first, live: &mut live };
    let number = library.calendar_step(&mut state, 0, lent, &mut [], answer);
    demand!((number, first, live) == (0, 1, 0), "no words: a step answered {number}");
    let lent = StepLent { history: &mut [], cells: &mut cells, report: &mut report };
    let answer = StepsAnswer { taken: &mut first, pairs: &mut second, live: &mut live };
    let number = library.calendar_steps(&mut state, &[0, 0], lent, &mut [], answer);
    let answered = (number, first, second, live);
    demand!(answered == (0, 1, 1, 0), "no words: a batch answered {answered:?}");
    Ok(())
}

/// Some million ticks, of which few are up.
pub fn huge_calendars(library: &dyn Library) -> Check {
    const HUGE: usize = (1 << 17) + 5;
    let mut words = vec![0; HUGE];
    let last = 64 * (HUGE as u64 / 8) - 1;
    for tick in [0, 63, 500_000, last] {
        compare::filled(library, &words, tick, &[0x81])?;
        library.calendar_fill(&mut words, tick, &[0x81]);
    }
    let mut lent = Lent::new(&words);
    for (first, last) in [(0, u64::MAX), (1, last), (64, last - 1), (500_001, last - 1)] {
        for flag in [0, 3, 7] {
            compare::questions(library, &mut lent, flag, first, last)?;
        }
    }
    words.fill(u64::MAX);
    compare::cleared(library, &words)
}
