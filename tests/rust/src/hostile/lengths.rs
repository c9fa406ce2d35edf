//! Every call with what it is lent in every length, from 0 to some more than it can need, and
//! around the limits of the header. What is lent begins well or is of random bytes.

use super::lot::{batch, honest, step, Lot};
use crate::compare::{self, Check, Numbers};
use crate::lent::Lent;
use crate::library::Library;
use crate::paper::text::SPELLING;
use crate::paper::{self, CELL_WORDS, MAX_BODY, MAX_HISTORY, MAX_RECORDING, MAX_RULES};
use crate::random::{self, Random, Rule, WriterInput};
use std::ops::RangeInclusive;

/// So many more than the most that is needed.
pub(super) const MORE: usize = 3;

/// How often each number was answered, by all calls together.
pub fn every_length(library: &dyn Library, seed: u64, rounds: usize) -> Check<Numbers> {
    let mut random = Random::new(seed);
    let mut numbers = Numbers::default();
    let suites = [bodies, sheets, largest_sheets, writers, texts, recordings, openings, steps];
    for _ in 0..rounds {
        for suite in suites {
            suite(library, &mut random, &mut numbers)?;
        }
    }
    Ok(numbers)
}

/// The lengths around a limit.
pub(super) fn around(limit: usize) -> RangeInclusive<usize> {
    limit.saturating_sub(MORE)..=limit + MORE
}

/// So many of the bytes, and random ones where these are fewer.
pub(super) fn of_length(random: &mut Random, bytes: &[u8], length: usize) -> Vec<u8> {
    let begin = &bytes[..length.min(bytes.len())];
    [begin, &random.bytes(length - begin.len())].concat()
}

/// A rule whose tables can be lent in every length.
pub(super) fn small_rule(random: &mut Random) -> Rule {
    loop {
        let rule = random::some_rule(random);
        let figures = rule.figures;
        if figures.history < 40 && (1..20).contains(&figures.delay) && figures.cells < 60 {
            return rule;
        }
    }
}

/// Bodies, for the calls that read one.
fn bodies(library: &dyn Library, random: &mut Random, numbers: &mut Numbers) -> Check {
    for length in 0..=MAX_BODY + MORE {
        let wild = paper::write_body(&random::wild_formula(random));
        for begin in [wild, vec![2; 63], random::crowded(random), vec![]] {
            let body = of_length(random, &begin, length);
            numbers.add(compare::figures(library, &body)?);
            numbers.add(compare::outcome(library, &body, &[1, 0, 1], random.below(4))?);
            numbers.add(compare::to_text(library, &body, random.pick(&[0, 9, 500]))?);
        }
    }
    Ok(())
}

/// Sheets of a few rules, their beginnings, and with bytes after them.
fn sheets(library: &dyn Library, random: &mut Random, numbers: &mut Numbers) -> Check {
    for count in [1, 2, 5] {
        let rules: Vec<Rule> = (0..count).map(|_| small_rule(random)).collect();
        let bodies: Vec<Vec<u8>> = rules.iter().map(|rule| rule.body.clone()).collect();
        let whole = random::sheet_of(&bodies);
        for length in 0..=whole.len() + MORE {
            let sheet = of_length(random, &whole, length);
            for rule in 0..=count {
                numbers.add(compare::place(library, &sheet, rule)?);
                numbers.add(compare::opening(library, random, &sheet, rule, (40, 240))?);
            }
        }
    }
    Ok(())
}

/// Sheets of 32 rules, with bodies of 512 bytes.
fn largest_sheets(library: &dyn Library, random: &mut Random, numbers: &mut Numbers) -> Check {
    let whole = random::sheet_of(&vec![vec![2; MAX_BODY]; MAX_RULES]);
    for length in around(1 + 4 * MAX_RULES).chain(around(whole.len())) {
        let sheet = of_length(random, &whole, length);
        for rule in [0, MAX_RULES - 1, MAX_RULES] {
            numbers.add(compare::place(library, &sheet, rule)?);
            numbers.add(compare::opening(library, random, &sheet, rule, (40, 240))?);
        }
    }
    Ok(())
}

/// Lengths, bodies and buffers for the writer.
fn writers(library: &dyn Library, random: &mut Random, numbers: &mut Numbers) -> Check {
    for count in 0..=MAX_RULES + MORE {
        let longest = random.pick(&[1, 9, MAX_BODY]);
        let lengths: Vec<u16> = (0..count).map(|_| random.size(1, longest) as u16).collect();
        let sum = lengths.iter().map(|&length| length as usize).sum();
        for size in around(sum) {
            let needed = 1 + 4 * count + size;
            for room in (0..needed.min(40)).chain(around(needed)) {
                let bodies = random.bytes(size);
                let input = WriterInput { lengths: lengths.clone(), bodies, room };
                numbers.add(compare::write(library, random, &input)?);
            }
        }
    }
    Ok(())
}

/// Texts, with room for the body or a little less or more.
fn texts(library: &dyn Library, random: &mut Random, numbers: &mut Numbers) -> Check {
    for _ in 0..12 {
        let formula = random::wild_formula(random);
        let (text, size) = (random::typed(random, &formula), paper::write_body(&formula).len());
        for length in 0..=text.len() + MORE {
            let text = of_length(random, text.as_bytes(), length);
            let room = random.pick(&[0, size - 1, size, size + 1]);
            numbers.add(compare::from_text(library, &text, room)?);
        }
        for room in around(size) {
            numbers.add(compare::from_text(library, text.as_bytes(), room)?);
        }
    }
    for length in around(SPELLING.text) {
        let text = format!("monitor x : {}@x.0", "~".repeat(length - 16));
        numbers.add(compare::from_text(library, text.as_bytes(), MAX_BODY)?);
    }
    Ok(())
}

/// Recordings, with the first tick asked, the last and one after it.
fn recordings(library: &dyn Library, random: &mut Random, numbers: &mut Numbers) -> Check {
    for length in (0..=300).chain(around(MAX_RECORDING)) {
        let rule = small_rule(random);
        let recording = random::stream(random, length);
        for tick in [0, length.saturating_sub(1), length] {
            numbers.add(compare::outcome(library, &rule.body, &recording, tick)?);
        }
    }
    Ok(())
}

/// Histories and tables for an opening.
pub(super) fn openings(library: &dyn Library, random: &mut Random, numbers: &mut Numbers) -> Check {
    for _ in 0..4 {
        let rule = small_rule(random);
        let sheet = random::sheet_of(std::slice::from_ref(&rule.body));
        let least = rule.figures.history as usize;
        let needed = CELL_WORDS * rule.figures.cells as usize;
        for history in (0..=least + MORE).chain(around(MAX_HISTORY)) {
            numbers.add(compare::opening(library, random, &sheet, 0, (history, needed))?);
        }
        for words in 0..=needed + MORE {
            numbers.add(compare::opening(library, random, &sheet, 0, (least, words))?);
        }
    }
    Ok(())
}

/// Histories, tables, reports and flags for a step and a batch.
pub(super) fn steps(library: &dyn Library, random: &mut Random, numbers: &mut Numbers) -> Check {
    for _ in 0..4 {
        let rule = small_rule(random);
        let taken = random.size(0, 30);
        let lot = honest(library, random, &rule, taken)?;
        let report = 2 * (rule.figures.delay as usize + 1);
        for history in (0..=lot.history.length() + MORE).chain(around(MAX_HISTORY)) {
            let bytes = of_length(random, lot.history.seen(), history);
            let other = Lot { history: Lent::new(&bytes), ..lot.clone() };
            both(library, random, other, numbers)?;
        }
        for words in 0..=lot.cells.length() + MORE {
            let mut cells = lot.cells.seen().to_vec();
            cells.resize(words, 7);
            both(library, random, Lot { cells: Lent::new(&cells), ..lot.clone() }, numbers)?;
        }
        for words in 0..=report + MORE {
            let other = Lot { report: Lent::new(&random.long_words(words)), ..lot.clone() };
            both(library, random, other, numbers)?;
        }
    }
    Ok(())
}

/// A step, and from the same state a batch of up to nine flags.
fn both(library: &dyn Library, random: &mut Random, lot: Lot, numbers: &mut Numbers) -> Check {
    numbers.add(step(library, &mut lot.clone(), random.byte())?.0);
    let count = random.size(0, 9);
    let flags = random.bytes(count);
    numbers.add(batch(library, &mut lot.clone(), &flags)?.0);
    Ok(())
}
