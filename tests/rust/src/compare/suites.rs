//! The suites: many random calls of one kind. Each stops at the first
//! difference, and tells what was seen.

use super::calls::{figures, opening, outcome, place, round_trip, write};
use super::runs::{run, Plan, Tally};
use super::{Check, Numbers};
use crate::library::Library;
use crate::paper::{
    self, read_body, Bound, Formula, CELL_WORDS, MAX_HISTORY, MAX_RECORDING, RULE_REFUSALS,
};
use crate::random::{self, Maker, Random, Rule};

/// Bodies of all kinds: figures, and the evaluator's refusals.
pub fn bodies(library: &dyn Library, seed: u64, count: usize) -> Check<Numbers> {
    let mut random = Random::new(seed);
    let mut numbers = Numbers::default();
    for round in 0..count {
        let pair = random::neighbours(&mut random, RULE_REFUSALS[round % RULE_REFUSALS.len()]);
        for body in [pair.outside, pair.inside, random::any_body(&mut random)] {
            numbers.add(figures(library, &body)?);
            short_recording(library, &mut random, &body)?;
        }
    }
    Ok(numbers)
}

/// The evaluator over three ticks: the same refusals 4 to 10, 23, 24, before 16.
pub(super) fn short_recording(library: &dyn Library, random: &mut Random, body: &[u8]) -> Check {
    let recording = random.bytes(3);
    outcome(library, body, &recording, random.pick(&[0, 1, 2, 3, usize::MAX]))?;
    Ok(())
}

/// The limits of 11 to 15, each met exactly and passed by one.
pub fn limits(library: &dyn Library) -> Check<Numbers> {
    chosen(library, limit_cases())
}

/// Rules whose figures are asked, and the number due to each.
pub(super) fn chosen(library: &dyn Library, cases: Vec<(Formula, u32)>) -> Check<Numbers> {
    let mut numbers = Numbers::default();
    for (formula, due) in cases {
        let body = paper::write_body(&formula);
        let number = figures(library, &body)?;
        crate::demand!(number == due, "limit case {formula:?} answered {number}, due is {due}");
        numbers.add(number);
    }
    Ok(numbers)
}

fn limit_cases() -> Vec<(Formula, u32)> {
    let x = |offset| Bound::Variable(0, offset);
    let range = |first, second| Formula::ForAll(first, second, Box::new(Formula::Flag(1, 0)));
    let under = |first, second, inner| Formula::ForAll(first, second, Box::new(inner));
    let y = |offset| Bound::Variable(1, offset);
    let one = |bound| range(bound, bound);
    let in_y = |offset| {
        let inner = Formula::ForAll(y(offset), y(offset), Box::new(Formula::Flag(2, 0)));
        under(x(-4095), x(-4095), inner)
    };
    vec![
        (range(x(0), Bound::Infinity), 11),
        (one(x(255)), 0),
        (one(x(256)), 12),
        (range(Bound::Start(0), x(0)), 13),
        (range(Bound::Start(-4095), x(256)), 12),
        (range(x(0), Bound::Start(255)), 15),
        (range(x(255), Bound::Start(255)), 0),
        (range(x(0), Bound::Start(256)), 12),
        (in_y(-1), 0),
        (in_y(-2), 14),
        // 1 + 1 + 4,094 cells and 1 + 1 + 4,095.
        (range(x(-4093), x(0)), 0),
        (range(x(-4094), x(0)), 15),
        (range(x(0), x(62)), 0),
        (range(x(0), x(63)), 15),
        // W is 0, whatever the body needs.
        (under(x(1), x(0), range(x(-4000), x(100))), 0),
    ]
}

/// Rules whose cells are around 4,096 and around numbers that 16 bits do not
/// hold, and a range of no positions over each, which needs 2.
pub fn cell_counts(library: &dyn Library) -> Check<Numbers> {
    let mut numbers = Numbers::default();
    for formula in ranges_over_ranges().chain(ranges_joined()).chain(delayed_ranges()) {
        numbers.add(figures(library, &paper::write_body(&formula))?);
        let none = positions(0, 0, formula);
        numbers.add(figures(library, &paper::write_body(&none))?);
    }
    Ok(numbers)
}

/// A range of `width` positions, the last of them X + `last`.
fn positions(width: i64, last: i64, part: Formula) -> Formula {
    let x = |offset| Bound::Variable(0, offset);
    Formula::ForAll(x(last + 1 - width), x(last), Box::new(part))
}

/// The four numbers around `middle` that are a range's width.
fn widths_around(middle: i64) -> impl Iterator<Item = i64> {
    (middle - 1..=middle + 2).filter(|width| (0..=4096).contains(width))
}

/// A rule of `outer` positions over `inner` ones needs 2 + outer * (2 + inner)
/// cells.
fn ranges_over_ranges() -> impl Iterator<Item = Formula> {
    let products = [4_094, 65_536, 2 * 65_536, 16 * 65_536, 200 * 65_536];
    let over = |outer, inner| positions(outer, 0, positions(inner, 0, Formula::Flag(2, 0)));
    let all = move |outer: i64| {
        let inner = products.into_iter().flat_map(move |p| widths_around(p / outer - 2));
        inner.map(move |inner| over(outer, inner))
    };
    (1..=4096).flat_map(all)
}

/// Two ranges beside each other need 4 + f + g cells, two joined by "then"
/// 3 + the larger.
fn ranges_joined() -> impl Iterator<Item = Formula> {
    let range = |width| Box::new(positions(width, 0, Formula::Flag(1, 0)));
    let beside =
        move |f| widths_around(4_092 - f).map(move |g| Formula::Beside(range(f), range(g)));
    let then = move |f| widths_around(4_093).map(move |g| Formula::Then(range(f), range(g)));
    (0..=4096).flat_map(move |f| beside(f).chain(then(f)))
}

/// A range with a delay needs (delay + 1) * (2 + width) cells.
fn delayed_ranges() -> impl Iterator<Item = Formula> {
    let products = [4_096, 65_536, 2 * 65_536];
    let all = move |delay: i64| {
        let widths = products.into_iter().flat_map(move |p| widths_around(p / (delay + 1) - 2));
        widths.map(move |width| positions(width, delay, Formula::Flag(1, 0)))
    };
    (0..=255).flat_map(all)
}

/// Recordings with every tick asked, also the first one after the end.
pub fn recordings(library: &dyn Library, seed: u64, count: usize) -> Check<u64> {
    let mut random = Random::new(seed);
    let mut asked = 0;
    for round in 0..count {
        let formula = match round % 3 {
            0 => random::accepted_rule(&mut random).formula,
            _ => random::wild_formula(&mut random),
        };
        asked += every_tick(library, &mut random, &formula)?;
    }
    Ok(asked)
}

/// Some recording, of which every tick is asked and the one after it. Answers how many.
pub(super) fn every_tick(
    library: &dyn Library,
    random: &mut Random,
    formula: &Formula,
) -> Check<u64> {
    let length = bearable_length(random, formula);
    let recording = random::stream(random, length);
    let body = paper::write_body(formula);
    for tick in 0..=length {
        outcome(library, &body, &recording, tick)?;
    }
    Ok(length as u64 + 1)
}

/// A recording's length for which all ticks together take little time.
fn bearable_length(random: &mut Random, formula: &Formula) -> usize {
    let wished = random.size(1, 90);
    let bearable =
        |length: &usize| random::visits(formula, *length).saturating_mul(*length as u64) < 40_000;
    [wished, 24, 9, 4, 2].into_iter().find(bearable).unwrap_or(1)
}

/// Recordings of about 65,535 ticks, some ticks asked.
pub fn long_recordings(library: &dyn Library, seed: u64, count: usize) -> Check<Numbers> {
    let mut random = Random::new(seed);
    let mut numbers = Numbers::default();
    for _ in 0..count {
        let rule = random::accepted_rule(&mut random);
        for length in [MAX_RECORDING - 1, MAX_RECORDING, MAX_RECORDING + 1] {
            let recording = random::stream(&mut random, length);
            for tick in [0, random.below(length), length - 2, length - 1, length] {
                numbers.add(outcome(library, &rule.body, &recording, tick)?);
            }
        }
    }
    Ok(numbers)
}

/// Sheets, half of them damaged; each rule asked for, and two beyond.
pub fn sheets(library: &dyn Library, seed: u64, count: usize) -> Check<Numbers> {
    let mut random = Random::new(seed);
    let mut numbers = Numbers::default();
    for round in 0..count {
        let sheet = if round % 2 == 0 {
            random::sheet_of(&random::sheet_bodies(&mut random))
        } else {
            random::damaged_sheet(&mut random)
        };
        let rules = sheet.first().map_or(0, |&n| n as usize % 40);
        for rule in (0..=rules + 1).chain([usize::MAX]) {
            numbers.add(place(library, &sheet, rule)?);
        }
    }
    Ok(numbers)
}

/// The writer, and what its reader gives back.
pub fn writers(library: &dyn Library, seed: u64, count: usize) -> Check<Numbers> {
    let mut random = Random::new(seed);
    let mut numbers = Numbers::default();
    for _ in 0..count {
        let input = random::writer_input(&mut random);
        numbers.add(write(library, &mut random, &input)?);
        round_trip(library, &random::sheet_bodies(&mut random))?;
    }
    Ok(numbers)
}

/// Openings with sheets, bodies and lengths around what is accepted.
pub fn openings(library: &dyn Library, seed: u64, count: usize) -> Check<Numbers> {
    let mut random = Random::new(seed);
    let mut numbers = Numbers::default();
    for _ in 0..count {
        let (sheet, rule) = some_sheet(&mut random);
        numbers.add(opening_around(library, &mut random, &sheet, rule)?);
    }
    Ok(numbers)
}

/// An opening with lengths around those that are needed.
pub(super) fn opening_around(
    library: &dyn Library,
    random: &mut Random,
    sheet: &[u8],
    rule: usize,
) -> Check<u32> {
    let figures = paper::rule_body(sheet, rule).and_then(paper::figures);
    let (history, words) = match figures {
        Ok(figures) => (figures.history as usize, CELL_WORDS * figures.cells as usize),
        Err(_) => (random.size(0, 40), random.size(0, 400)),
    };
    let near = [history, history, history + 1, MAX_HISTORY, MAX_HISTORY + 1, 0];
    let history_length = match random.below(8) {
        0 => history.saturating_sub(1),
        _ => random.pick(&near),
    };
    let table = random.pick(&[words, words, words + 1, words + 40, words.saturating_sub(1), 0]);
    opening(library, random, sheet, rule, (history_length, table))
}

fn some_sheet(random: &mut Random) -> (Vec<u8>, usize) {
    match random.below(4) {
        0 => {
            let sheet = random::damaged_sheet(random);
            (sheet, random.below(3))
        }
        1 => {
            let number = random.pick(RULE_REFUSALS);
            let mut body = random::neighbours(random, number).outside;
            if body.is_empty() {
                body.push(2);
            }
            let (sheet, rule) = random::sheet_with(random, &body);
            (sheet, if random.one_in(8) { rule + 40 } else { rule })
        }
        _ => {
            let rule = random::accepted_rule(random);
            random::sheet_with(random, &rule.body)
        }
    }
}

/// At least `rules` accepted rules and `steps` steps.
pub fn runs(library: &dyn Library, seed: u64, rules: u64, steps: u64) -> Check<Tally> {
    runs_of(library, random::accepted_rule, seed, rules, steps)
}

/// The same of rules that are made so.
pub(super) fn runs_of(
    library: &dyn Library,
    make: Maker,
    seed: u64,
    rules: u64,
    steps: u64,
) -> Check<Tally> {
    let mut random = Random::new(seed);
    let mut tally = Tally::default();
    while tally.rules < rules || tally.steps < steps {
        let rule = make(&mut random);
        let plan = Plan {
            history_length: some_history_length(&mut random, &rule),
            steps: some_steps(&mut random, &rule, rules, steps),
        };
        run(library, &mut random, &rule, plan, &mut tally)?;
    }
    Ok(tally)
}

/// h, h + 1, 4,096, or one between.
fn some_history_length(random: &mut Random, rule: &Rule) -> usize {
    let least = rule.figures.history as usize;
    let length = match random.below(8) {
        0..=2 => least,
        3 | 4 => least + 1,
        5 => MAX_HISTORY,
        6 => random.size(least, (least + 20).min(MAX_HISTORY)),
        _ => random.size(least, MAX_HISTORY),
    };
    length.min(MAX_HISTORY)
}

/// On average what the suite needs; a few streams go twice round a long history.
fn some_steps(random: &mut Random, rule: &Rule, rules: u64, steps: u64) -> usize {
    let average = (steps / rules) as usize;
    let history = rule.figures.history as usize;
    if history > 200 && random.one_in(60) {
        return 2 * history + random.below(200);
    }
    if random.one_in(30) {
        return 3 * average;
    }
    random.size(average / 2, average * 3 / 2)
}

/// One rule at every history length from h to 4,096.
pub fn history_lengths(library: &dyn Library, seed: u64, steps: usize) -> Check<Tally> {
    let mut random = Random::new(seed);
    let mut tally = Tally::default();
    // The example of document 000.
    let body = vec![2, 4, 1, 0, 0, 5, 2, 0, 0xFF, 0xFF, 2, 0, 2, 0, 1, 1, 0];
    let formula = read_body(&body).expect("01's first sheet is accepted");
    let figures = paper::formula_figures(&formula).expect("01's first sheet is accepted");
    let rule = Rule { formula, body, figures };
    for history_length in rule.figures.history as usize..=MAX_HISTORY {
        let plan = Plan { history_length, steps };
        run(library, &mut random, &rule, plan, &mut tally)?;
    }
    Ok(tally)
}
