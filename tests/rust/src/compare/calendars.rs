//! The calendar's own calls against the plain calendar (`paper::calendar`): the questions, one
//! call each, clearing and filling; and the openings and runs with a calendar beside them
//! (`beside`).

use super::suites::{openings, runs};
use super::{Check, Numbers, MARK};
use crate::beside::{beside, CalendarTally, Words};
use crate::demand;
use crate::lent::Lent;
use crate::library::{Library, Question, NO_TICK};
use crate::paper::{calendar, Refusal};
use crate::random::{self, Random};

/// Flags that there are, and some that there are not.
pub const FLAGS: [u8; 11] = [0, 1, 2, 3, 4, 5, 6, 7, 8, 9, 255];

/// What the plain calendar answers.
fn due(words: &[u64], flag: u8, question: Question) -> Result<u64, Refusal> {
    let tick = match question {
        Question::Ups(first, last) => return calendar::ups(words, flag, first, last),
        Question::First(first, last) => calendar::first_up(words, flag, first, last),
        Question::Last(first, last) => calendar::last_up(words, flag, first, last),
        Question::Nearest(tick) => calendar::nearest_up(words, flag, tick),
    };
    Ok(tick?.unwrap_or(NO_TICK))
}

/// The three questions about a range, and that of the up nearest to its first tick. Answers
/// their number.
pub fn questions(
    library: &dyn Library,
    words: &mut Lent<u64>,
    flag: u8,
    first: u64,
    last: u64,
) -> Check<u32> {
    asked(library, words, flag, Question::Ups(first, last))?;
    asked(library, words, flag, Question::First(first, last))?;
    asked(library, words, flag, Question::Last(first, last))?;
    asked(library, words, flag, Question::Nearest(first))
}

fn asked(library: &dyn Library, words: &mut Lent<u64>, flag: u8, question: Question) -> Check<u32> {
    let length = words.length();
    let about = || format!("flag {flag}, {question:?}, {length} words");
    let before = words.seen().to_vec();
    let mut answer = Lent::one(MARK);
    let number = library.calendar_ask(words.part(), flag, question, answer.slot());
    let (due, due_answer) = match due(&before, flag, question) {
        Ok(answer) => (0, answer),
        Err(number) => (number, MARK),
    };
    demand!(number == due, "{}: answered {number}, due is {due}", about());
    let answered = answer.seen()[0];
    demand!(answered == due_answer, "{}: {answered}, due is {due_answer}", about());
    demand!(words.seen() == before, "{}: the words were changed", about());
    let guards = words.guards_hold() && answer.guards_hold();
    demand!(guards, "{}: wrote outside", about());
    Ok(number)
}

/// "Opening zeroes the words, and a last group under eight keeps its content."
pub fn cleared(library: &dyn Library, words: &[u64]) -> Check {
    let mut lent = Lent::new(words);
    library.calendar_clear(lent.part());
    let mut due = words.to_vec();
    calendar::clear(&mut due);
    demand!(lent.seen() == due, "{} words cleared: they are not as due", due.len());
    demand!(lent.guards_hold(), "{} words cleared: wrote outside", due.len());
    Ok(())
}

/// The ticks from `tick` on marked by their flag bytes.
pub fn filled(library: &dyn Library, words: &[u64], tick: u64, flags: &[u8]) -> Check {
    let (length, count) = (words.len(), flags.len());
    let about = || format!("{count} bytes from tick {tick} on into {length} words");
    let (mut lent, mut lent_flags) = (Lent::new(words), Lent::new(flags));
    library.calendar_fill(lent.part(), tick, lent_flags.part());
    let mut due = words.to_vec();
    calendar::fill(&mut due, tick, flags);
    demand!(lent.seen() == due, "{}: the words are not as due", about());
    demand!(lent_flags.seen() == flags, "{}: the flag bytes were changed", about());
    let guards = lent.guards_hold() && lent_flags.guards_hold();
    demand!(guards, "{}: wrote outside", about());
    Ok(())
}

/// Words of any length and content, asked about ranges from every edge to every edge.
pub fn calendar_questions(library: &dyn Library, seed: u64, count: usize) -> Check<Numbers> {
    let mut random = Random::new(seed);
    let mut numbers = Numbers::default();
    for _ in 0..count {
        let length = random::calendar_length(&mut random);
        let mut words = Lent::new(&random::calendar_words(&mut random, length));
        let edges = random::edge_ticks(&mut random, words.seen());
        for &first in &edges {
            for &last in &edges {
                let flag = random.below(8) as u8;
                numbers.add(questions(library, &mut words, flag, first, last)?);
            }
            for flag in FLAGS {
                let last = random.pick(&edges);
                numbers.add(questions(library, &mut words, flag, first, last)?);
            }
        }
        equally_near(library, &mut random)?;
    }
    farthest(library)?;
    Ok(numbers)
}

/// Tick 0 alone is up, as far as can be from the tick asked about.
fn farthest(library: &dyn Library) -> Check {
    for flag in 0..8 {
        let mut words = [0; 8];
        words[flag] = 1;
        questions(library, &mut Lent::new(&words), flag as u8, u64::MAX, 0)?;
    }
    Ok(())
}

/// Two ups, asked about the tick in the middle between them and those beside it.
fn equally_near(library: &dyn Library, random: &mut Random) -> Check {
    let (flag, apart) = (random.below(8) as u8, random.below(150) as u64);
    let middle = apart + random.below(100) as u64;
    let mut words = vec![0; 8 * ((middle + apart) as usize / 64 + 1)];
    for tick in [middle - apart, middle + apart] {
        calendar::mark(&mut words, tick, 1 << flag);
    }
    let mut lent = Lent::new(&words);
    for tick in middle.saturating_sub(1)..=middle + 1 {
        questions(library, &mut lent, flag, tick, middle)?;
    }
    Ok(())
}

/// Words of any length and content, cleared, and filled from every edge on. Answers how often.
pub fn calendar_marks(library: &dyn Library, seed: u64, count: usize) -> Check<u64> {
    let mut random = Random::new(seed);
    let mut marks = 0;
    for _ in 0..count {
        let length = random::calendar_length(&mut random);
        let words = random::calendar_words(&mut random, length);
        cleared(library, &words)?;
        let room = calendar::kept_ticks(&words) as usize;
        for tick in random::edge_ticks(&mut random, &words) {
            for bytes in [0, 1, 2, random.below(70), 64, 65, room, room + 70] {
                let flags = random::stream(&mut random, bytes);
                filled(library, &words, tick, &flags)?;
                marks += 1;
            }
        }
    }
    Ok(marks)
}

/// Rules and streams from an opening with a calendar on: at least so many rules and so many
/// steps.
pub fn calendar_runs(
    library: &dyn Library,
    seed: u64,
    rules: u64,
    steps: u64,
) -> Check<CalendarTally> {
    let suite = |library: &dyn Library| runs(library, seed, rules, steps);
    Ok(beside(library, seed, Words::AsLeft, suite)?.1)
}

/// Openings with a calendar, accepted or not.
pub fn calendar_openings(library: &dyn Library, seed: u64, count: usize) -> Check<CalendarTally> {
    let suite = |library: &dyn Library| openings(library, seed, count);
    Ok(beside(library, seed, Words::AsLeft, suite)?.1)
}
