//! Runs at high ticks. No test can take so many steps. So a rule is run from tick 0 on, until it
//! is past its history and its delay, and then a copy of its state is set ahead: by a multiple of
//! delay + 1 and of the history's length. Cells count steps from the rule's own tick and lie in
//! slots by tick mod (delay + 1), history bytes by tick mod L: they stand for the copy as they
//! are. Both then take the same flags, and the copy must do what the other does, with ticks and
//! steps that much higher. That the other is right is what `runs` is about. The same of sets.

use super::{hex, Check, MARK};
use crate::demand;
use crate::lent::Lent;
use crate::library::{
    Library, Running, SetLent, SetStepAnswer, SetStepsAnswer, StepAnswer, StepLent, StepsAnswer,
    STATE_BYTES,
};
use crate::paper::{CELL_WORDS, MAX_HISTORY, MAX_TICKS};
use crate::random::{self, Random, Rule};
use crate::states::{number_at, put_number, NEXT_AT};

/// What was seen over all runs, of the copies that were set ahead.
#[derive(Clone, Debug, Default)]
pub struct HighTally {
    /// Rules, or sets.
    pub runs: u64,
    pub steps: u64,
    pub batches: u64,
    pub violations: u64,
    /// Runs across tick 2^32, and runs that came to the last tick.
    pub across: u64,
    pub ended: u64,
    /// Violations of a tick below 2^32 that were decided from it on.
    pub decided_across: u64,
    /// The sum of all live counts after the calls.
    pub live: u64,
    /// The sum of the live counts with which runs came to the last tick.
    pub live_at_the_end: u64,
}

/// Where the ticks of a run lie that are taken by both.
#[derive(Clone, Copy, Debug)]
struct Way {
    /// How many steps the run takes from tick 0 on, before the copy is made.
    before: usize,
    /// How far the copy is set ahead.
    shift: u64,
    /// How many steps both take.
    steps: usize,
    /// Whether the last of these is the last tick that there is.
    to_the_end: bool,
}

impl Way {
    /// A way past so many ticks, with slots and history bytes that come again after `round`
    /// ticks.
    fn new(random: &mut Random, past: usize, round: usize, delay: usize) -> Way {
        let steps = 2 * delay + random.size(8, 40);
        let (mark, at) = match random.below(8) {
            0..=3 => (1 << 32, random.size(1, steps - 1)),
            4 | 5 => (MAX_TICKS, steps),
            _ => (random.pick(&[1 << 31, 1 << 33, 1 << 53, 1 << 61]), random.size(0, steps)),
        };
        // The copy's first tick, and with it that of the run, modulo `round`.
        let first = mark - at as u64;
        let before = past + ((first - past as u64) % round as u64) as usize;
        Way { before, shift: first - before as u64, steps, to_the_end: mark == MAX_TICKS }
    }

    fn first(&self) -> u64 {
        self.before as u64 + self.shift
    }
}

/// The least common multiple of two numbers that are not 0.
fn common_multiple(a: usize, b: usize) -> usize {
    let (mut x, mut y) = (a, b);
    while y > 0 {
        (x, y) = (y, x % y);
    }
    a / x * b
}

/// The most ticks after which slots and history bytes of a run come again.
const MOST_ROUND: usize = 5_000;

/// A history's length for rules that need `least` bytes, and after how many ticks its bytes and
/// all of so many slots come again; none where those are too many.
fn some_round(random: &mut Random, least: usize, slots: usize) -> Option<(usize, usize)> {
    let multiple = least.max(1).next_multiple_of(slots);
    let lengths = [least, least + 1, least + random.below(9), multiple, 2 * multiple];
    let round = |length: usize| (length, common_multiple(slots, length.max(1)));
    let fits = |&(length, round): &(usize, usize)| length <= MAX_HISTORY && round <= MOST_ROUND;
    let rounds: Vec<_> = lengths.into_iter().map(round).filter(fits).collect();
    (!rounds.is_empty()).then(|| random.pick(&rounds))
}

/// So many random rules, each run and set ahead.
pub fn high_runs(library: &dyn Library, seed: u64, rules: u64) -> Check<HighTally> {
    let mut random = Random::new(seed);
    let mut tally = HighTally::default();
    while tally.runs < rules {
        let rule = random::some_rule(&mut random);
        let (least, delay) = (rule.figures.history as usize, rule.figures.delay as usize);
        let Some((length, round)) = some_round(&mut random, least, delay + 1) else {
            continue;
        };
        // From there on no bound of a live tick lies below 0, and no range that ends at
        // position 0 or some ticks after it has a position.
        let past = least + 2 * delay + 1;
        let way = Way::new(&mut random, past, round, delay);
        let high = high_run(library, &mut random, &rule, length, way, &mut tally);
        high.map_err(|seen| {
            format!("{seen}; {way:?}, L {length}, {:?}, {}", rule.figures, hex(&rule.body))
        })?;
    }
    Ok(tally)
}

fn high_run(
    library: &dyn Library,
    random: &mut Random,
    rule: &Rule,
    length: usize,
    way: Way,
    tally: &mut HighTally,
) -> Check {
    let needed = CELL_WORDS * rule.figures.cells as usize;
    let mut low = OneRule {
        state: Lent::new(&random.bytes(STATE_BYTES)),
        history: Lent::new(&random.bytes(length)),
        cells: Lent::new(&random.words(needed)),
        most: rule.figures.delay as usize + 1,
    };
    let sheet = random::sheet_of(std::slice::from_ref(&rule.body));
    let cells = low.cells.seen().to_vec();
    let state = low.state.part().try_into().expect("a state has 544 bytes");
    let number = library.open(&sheet, 0, low.history.part(), &cells, state);
    demand!(number == 0, "opening answered {number}");
    run_ahead(library, random, low, way, tally)
}

/// So many random sets, each run and set ahead.
pub fn high_set_runs(library: &dyn Library, seed: u64, sets: u64) -> Check<HighTally> {
    let mut random = Random::new(seed);
    let mut tally = HighTally::default();
    while tally.runs < sets {
        let rules = rules_that_come_round(&mut random);
        let least = rules.iter().map(|rule| rule.figures.history as usize).max().unwrap_or(0);
        let Some((length, round)) = some_round(&mut random, least, slots_of(&rules)) else {
            continue;
        };
        let delay = rules.iter().map(|rule| rule.figures.delay as usize).max().unwrap_or(0);
        let way = Way::new(&mut random, least + 2 * delay + 1, round, delay);
        let high = high_set_run(library, &mut random, &rules, length, way, &mut tally);
        let sheet = || hex(&random::sheet_of_rules(&rules));
        high.map_err(|seen| format!("{seen}; {way:?}, L {length}, sheet {}", sheet()))?;
    }
    Ok(tally)
}

/// One to six rules, whose slots all come again after not too many ticks.
fn rules_that_come_round(random: &mut Random) -> Vec<Rule> {
    let count = random.size(1, 6);
    let mut rules: Vec<Rule> = Vec::new();
    for tried in 0.. {
        if rules.len() == count || (tried > 20 && !rules.is_empty()) {
            break;
        }
        rules.push(random::some_rule(random));
        let cells: u64 = rules.iter().map(|rule| rule.figures.cells).sum();
        let long = rules.iter().any(|rule| rule.figures.history > 700);
        if cells > 2_000 || long || slots_of(&rules) > 700 {
            rules.pop();
        }
    }
    rules
}

/// After how many ticks the slots of all rules come again.
fn slots_of(rules: &[Rule]) -> usize {
    rules.iter().fold(1, |slots, rule| common_multiple(slots, rule.figures.delay as usize + 1))
}

fn high_set_run(
    library: &dyn Library,
    random: &mut Random,
    rules: &[Rule],
    length: usize,
    way: Way,
    tally: &mut HighTally,
) -> Check {
    let cells: u64 = rules.iter().map(|rule| rule.figures.cells).sum();
    let mut low = AllRules {
        sheet: Lent::new(&random::sheet_of_rules(rules)),
        records: Lent::new(&vec![Running::default(); rules.len()]),
        history: Lent::new(&random.bytes(length)),
        cells: Lent::new(&random.words(CELL_WORDS * cells as usize)),
        most: rules.iter().map(|rule| rule.figures.delay as usize + 1).sum(),
    };
    let cells = low.cells.seen().to_vec();
    let (records, history) = (low.records.part(), low.history.part());
    let number = library.set_open(low.sheet.seen(), records, history, &cells);
    demand!(number == 0, "opening a set answered {number}");
    run_ahead(library, random, low, way, tally)
}

/// What one step or one batch answered, and its own words of the report.
#[derive(Debug, PartialEq, Eq)]
struct Answer {
    taken: usize,
    live: usize,
    words: Vec<u64>,
}

/// What is lent to steps, and what the steps of a rule and of a set differ in.
trait Memory: Clone {
    /// The words of an entry of the report, and which of them are no ticks: the first so many.
    fn entry(in_batch: bool) -> (usize, usize);

    /// The most entries of one step.
    fn most(&self) -> usize;

    /// A batch, or a step of the only flag: its number, how many flags it took, how many entries
    /// it reported and how many live.
    fn call(
        &mut self,
        library: &dyn Library,
        flags: &[u8],
        in_batch: bool,
        report: &mut [u64],
        answers: &mut [Lent<usize>; 3],
    ) -> u32;

    fn next_tick(&self) -> u64;

    fn set_ahead(&mut self, shift: u64);

    /// Whether the other one is the same, but for the next tick, which must be set ahead by so
    /// much.
    fn is_ahead_of(&self, low: &Self, shift: u64) -> bool;

    fn guards_hold(&self) -> bool;
}

/// A call that is not refused: what it answers, and what holds of its report and answers. There
/// is room for every step.
fn take<M: Memory>(
    library: &dyn Library,
    random: &mut Random,
    memory: &mut M,
    flags: &[u8],
    in_batch: bool,
) -> Check<Answer> {
    let (width, _) = M::entry(in_batch);
    let steps = if in_batch { flags.len() + 1 } else { 1 };
    let before = random.long_words(width * memory.most() * steps);
    let mut report = Lent::new(&before);
    let mut answers = [MARK as usize; 3].map(Lent::one);
    let tick = memory.next_tick();
    let number = memory.call(library, flags, in_batch, report.part(), &mut answers);
    demand!(number == 0, "a call at tick {tick} answered {number}");
    let [taken, entries, live] = answers.each_ref().map(|answer| answer.seen()[0]);
    let taken = if in_batch { taken } else { 1 };
    demand!(taken <= flags.len(), "a call at tick {tick} took {taken} of {}", flags.len());
    demand!(width * entries <= before.len(), "a call at tick {tick} reported {entries}");
    let (words, rest) = report.seen().split_at(width * entries);
    demand!(rest == &before[words.len()..], "at tick {tick}: report words after its own");
    let guards = report.guards_hold() && answers.iter().all(Lent::guards_hold);
    demand!(guards && memory.guards_hold(), "a call at tick {tick} wrote outside");
    Ok(Answer { taken, live, words: words.to_vec() })
}

/// The words of a report with ticks and steps that much higher.
fn ahead<M: Memory>(words: &[u64], in_batch: bool, shift: u64) -> Vec<u64> {
    let (width, others) = M::entry(in_batch);
    let moved = |(at, &word): (usize, &u64)| if at % width < others { word } else { word + shift };
    words.iter().enumerate().map(moved).collect()
}

fn run_ahead<M: Memory>(
    library: &dyn Library,
    random: &mut Random,
    mut low: M,
    way: Way,
    tally: &mut HighTally,
) -> Check {
    let stream = random::stream(random, way.before + way.steps);
    let (first, second) = stream.split_at(way.before);
    for flags in first.chunks(64) {
        let taken = take(library, random, &mut low, flags, true)?.taken;
        demand!(taken == flags.len(), "a batch with enough room took {taken}");
    }
    let mut high = low.clone();
    high.set_ahead(way.shift);
    demand!(high.next_tick() == way.first(), "the copy stands at {}", high.next_tick());
    let mut rest = second;
    while !rest.is_empty() {
        let in_batch = random.one_in(4);
        let count = if in_batch { random.size(1, 12).min(rest.len()) } else { 1 };
        let (flags, later) = rest.split_at(count);
        let tick = high.next_tick();
        let due = take(library, random, &mut low, flags, in_batch)?;
        // At the end more flags are brought than there are ticks.
        let more = way.to_the_end && in_batch && later.is_empty();
        let brought = [flags, &second[..if more { random.size(1, 3) } else { 0 }]].concat();
        let seen = take(library, random, &mut high, &brought, in_batch)?;
        let words = ahead::<M>(&due.words, in_batch, way.shift);
        let due = Answer { words, ..due };
        demand!(seen == due, "at tick {tick}: {seen:?}, due is {due:?}");
        let same = high.is_ahead_of(&low, way.shift);
        demand!(same, "at tick {tick}: state, history or cells are not as from 0");
        count_call::<M>(tally, tick, in_batch, &seen);
        rest = later;
    }
    if way.to_the_end {
        refused_at_the_end(library, random, &mut high)?;
        tally.ended += 1;
        tally.live_at_the_end += last_live(library, random, &mut low)?;
    }
    let last = way.first() + way.steps as u64 - 1;
    tally.across += (way.first() < 1 << 32 && last >= 1 << 32) as u64;
    tally.runs += 1;
    Ok(())
}

/// A batch of no flags tells how many live.
fn last_live(library: &dyn Library, random: &mut Random, low: &mut impl Memory) -> Check<u64> {
    Ok(take(library, random, low, &[], true)?.live as u64)
}

/// After the last tick a step and batches are refused with 20, and change nothing.
fn refused_at_the_end<M: Memory>(
    library: &dyn Library,
    random: &mut Random,
    high: &mut M,
) -> Check {
    let calls: [(&[u8], bool); 3] = [(&[1], false), (&[1, 2], true), (&[], true)];
    for (flags, in_batch) in calls {
        let before = high.clone();
        let report_before = random.long_words(6 * high.most());
        let mut report = Lent::new(&report_before);
        let mut answers = [MARK as usize; 3].map(Lent::one);
        let number = high.call(library, flags, in_batch, report.part(), &mut answers);
        demand!(number == 20, "after the last tick: answered {number}");
        let same = high.is_ahead_of(&before, 0) && report.seen() == report_before;
        demand!(same && high.guards_hold(), "after the last tick: memory was changed");
        let kept = answers.iter().all(|answer| answer.seen()[0] == MARK as usize);
        demand!(kept, "after the last tick: an answer was written");
    }
    Ok(())
}

fn count_call<M: Memory>(tally: &mut HighTally, tick: u64, in_batch: bool, answer: &Answer) {
    let (width, others) = M::entry(in_batch);
    let across = |entry: &&[u64]| {
        // A single step's number is not in its report.
        let step = if in_batch { entry[others + 1] } else { tick };
        entry[others] < 1 << 32 && step >= 1 << 32
    };
    tally.steps += answer.taken as u64;
    tally.batches += in_batch as u64;
    tally.violations += (answer.words.len() / width) as u64;
    tally.decided_across += answer.words.chunks(width).filter(across).count() as u64;
    tally.live += answer.live as u64;
}

/// A rule's memory.
#[derive(Clone)]
struct OneRule {
    state: Lent<u8>,
    history: Lent<u8>,
    cells: Lent<u32>,
    most: usize,
}

impl Memory for OneRule {
    fn entry(in_batch: bool) -> (usize, usize) {
        (if in_batch { 2 } else { 1 }, 0)
    }

    fn most(&self) -> usize {
        self.most
    }

    fn call(
        &mut self,
        library: &dyn Library,
        flags: &[u8],
        in_batch: bool,
        report: &mut [u64],
        answers: &mut [Lent<usize>; 3],
    ) -> u32 {
        let state = self.state.part().try_into().expect("a state has 544 bytes");
        let lent = StepLent { history: self.history.part(), cells: self.cells.part(), report };
        let [taken, entries, live] = answers.each_mut().map(Lent::slot);
        if in_batch {
            let answer = StepsAnswer { taken, pairs: entries, live };
            return library.steps(state, flags, lent, answer);
        }
        library.step(state, flags[0], lent, StepAnswer { reported: entries, live })
    }

    fn next_tick(&self) -> u64 {
        number_at(self.state.seen(), NEXT_AT)
    }

    fn set_ahead(&mut self, shift: u64) {
        let tick = self.next_tick() + shift;
        put_number(self.state.part(), NEXT_AT, tick);
    }

    fn is_ahead_of(&self, low: &OneRule, shift: u64) -> bool {
        let mut due = low.clone();
        due.set_ahead(shift);
        self.state.seen() == due.state.seen()
            && self.history.seen() == due.history.seen()
            && self.cells.seen() == due.cells.seen()
    }

    fn guards_hold(&self) -> bool {
        self.state.guards_hold() && self.history.guards_hold() && self.cells.guards_hold()
    }
}

/// A set's memory.
#[derive(Clone)]
struct AllRules {
    sheet: Lent<u8>,
    records: Lent<Running>,
    history: Lent<u8>,
    cells: Lent<u32>,
    most: usize,
}

impl Memory for AllRules {
    fn entry(in_batch: bool) -> (usize, usize) {
        (if in_batch { 3 } else { 2 }, 1)
    }

    fn most(&self) -> usize {
        self.most
    }

    fn call(
        &mut self,
        library: &dyn Library,
        flags: &[u8],
        in_batch: bool,
        report: &mut [u64],
        answers: &mut [Lent<usize>; 3],
    ) -> u32 {
        let (records, history) = (self.records.part(), self.history.part());
        let lent = SetLent { records, history, cells: self.cells.part(), report };
        let [taken, entries, live] = answers.each_mut().map(Lent::slot);
        if in_batch {
            let answer = SetStepsAnswer { taken, triples: entries, live };
            return library.set_steps(self.sheet.seen(), flags, lent, answer);
        }
        let answer = SetStepAnswer { pairs: entries, live };
        library.set_step(self.sheet.seen(), flags[0], lent, answer)
    }

    fn next_tick(&self) -> u64 {
        self.records.seen()[0].next
    }

    fn set_ahead(&mut self, shift: u64) {
        self.records.part().iter_mut().for_each(|record| record.next += shift);
    }

    fn is_ahead_of(&self, low: &AllRules, shift: u64) -> bool {
        let mut due = low.clone();
        due.set_ahead(shift);
        self.records.seen() == due.records.seen()
            && self.history.seen() == due.history.seen()
            && self.cells.seen() == due.cells.seen()
            && self.sheet.seen() == due.sheet.seen()
    }

    fn guards_hold(&self) -> bool {
        let guards = self.records.guards_hold() && self.history.guards_hold();
        guards && self.cells.guards_hold() && self.sheet.guards_hold()
    }
}
