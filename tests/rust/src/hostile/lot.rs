//! One step or one batch on whatever state: its number exactly, and all that
//! holds of memory after it, whether state and cells are honest or not. Only
//! what an accepted step reports, counts and writes into its cells is free.

use crate::compare::{hex, Check, MARK};
use crate::demand;
use crate::lent::Lent;
use crate::library::{Library, State, StepAnswer, StepLent, StepsAnswer, STATE_BYTES};
use crate::paper::{Lengths, Opened, Refusal, CELL_WORDS, MAX_HISTORY, MAX_TICKS};
use crate::random::{self, Random, Rule};
use crate::states::{self, NEXT_AT};

/// What a step is given.
#[derive(Clone)]
pub struct Lot {
    pub state: Lent<u8>,
    pub history: Lent<u8>,
    pub cells: Lent<u32>,
    pub report: Lent<u64>,
}

impl Lot {
    pub fn new(state: &[u8], history: &[u8], cells: &[u32], report: &[u64]) -> Lot {
        Lot {
            state: Lent::new(state),
            history: Lent::new(history),
            cells: Lent::new(cells),
            report: Lent::new(report),
        }
    }

    pub fn lend(&mut self) -> (&mut State, StepLent<'_>) {
        let state = self.state.part().try_into().expect("a state has 544 bytes");
        let lent = StepLent {
            history: self.history.part(),
            cells: self.cells.part(),
            report: self.report.part(),
        };
        (state, lent)
    }

    fn lengths(&self) -> Lengths {
        Lengths {
            history: self.history.length(),
            table: self.cells.length(),
            report: self.report.length(),
        }
    }

    fn guards_hold(&self) -> bool {
        self.state.guards_hold()
            && self.history.guards_hold()
            && self.cells.guards_hold()
            && self.report.guards_hold()
    }

    fn holds_the_same(&self, other: &Lot) -> bool {
        self.state.seen() == other.state.seen()
            && self.history.seen() == other.history.seen()
            && self.cells.seen() == other.cells.seen()
            && self.report.seen() == other.report.seen()
    }

    fn next_tick(&self) -> u64 {
        states::number_at(self.state.seen(), NEXT_AT)
    }
}

/// A rule after some steps: state, history and cells as the library left them.
pub fn honest(library: &dyn Library, random: &mut Random, rule: &Rule, steps: usize) -> Check<Lot> {
    let least = rule.figures.history as usize;
    let history_length = random.pick(&[least, (least + 1).min(MAX_HISTORY), least.max(40)]);
    let needed = CELL_WORDS * rule.figures.cells as usize;
    let sheet = random::sheet_of(std::slice::from_ref(&rule.body));
    let report = vec![0; rule.figures.delay as usize + 1];
    let history = random.bytes(history_length);
    let mut lot = Lot::new(&[0; STATE_BYTES], &history, &random.words(needed), &report);
    let cells = lot.cells.seen().to_vec();
    let (state, lent) = lot.lend();
    let number = library.open(&sheet, 0, lent.history, &cells, state);
    demand!(number == 0, "opening answered {number} for {}", hex(&rule.body));
    for flag in random::stream(random, steps) {
        let number = step(library, &mut lot, flag)?.0;
        demand!(number == 0, "an honest step answered {number} for {}", hex(&rule.body));
    }
    Ok(lot)
}

/// A step: its number, how many it reports, how many live.
pub fn step(library: &dyn Library, lot: &mut Lot, flag: u8) -> Check<(u32, usize, usize)> {
    let before = lot.clone();
    let mut answers = [MARK as usize; 2].map(Lent::one);
    let [reported, live] = &mut answers;
    let (state, lent) = lot.lend();
    let answer = StepAnswer { reported: reported.slot(), live: live.slot() };
    let number = library.step(state, flag, lent, answer);
    let due = states::admit_step(before.state.seen(), before.lengths());
    check_number("step", &before, number, &due)?;
    check_outside(lot, &answers)?;
    let [reported, live] = answers.each_ref().map(|answer| answer.seen()[0]);
    match due {
        Err(number) => check_refused(lot, &before, number, &answers)?,
        Ok(opened) => {
            check_taken(lot, &before, &opened, &[flag], live)?;
            let few = reported <= opened.needed_report();
            demand!(few, "a step reported {reported}, more than delay + 1");
            let kept = lot.report.seen()[reported..] == before.report.seen()[reported..];
            demand!(kept, "a step wrote report words after its own");
        }
    }
    Ok((number, reported, live))
}

/// A batch: its number, and how many flags it took.
pub fn batch(library: &dyn Library, lot: &mut Lot, flags: &[u8]) -> Check<(u32, usize)> {
    let before = lot.clone();
    let mut lent_flags = Lent::new(flags);
    let mut answers = [MARK as usize; 3].map(Lent::one);
    let [taken, pairs, live] = &mut answers;
    let (state, lent) = lot.lend();
    let answer = StepsAnswer { taken: taken.slot(), pairs: pairs.slot(), live: live.slot() };
    let number = library.steps(state, lent_flags.part(), lent, answer);
    let due = states::admit_batch(before.state.seen(), before.lengths());
    check_number("batch", &before, number, &due)?;
    check_outside(lot, &answers)?;
    demand!(lent_flags.seen() == flags, "a batch changed its flag bytes");
    demand!(lent_flags.guards_hold(), "a batch wrote around its flag bytes");
    let [taken, pairs, live] = answers.each_ref().map(|answer| answer.seen()[0]);
    match due {
        Err(number) => check_refused(lot, &before, number, &answers)?,
        Ok(opened) => {
            demand!(taken <= flags.len(), "a batch took {taken} of {} flags", flags.len());
            check_taken(lot, &before, &opened, &flags[..taken], live)?;
            check_pairs(lot, &before, &opened, taken, pairs)?;
            check_ended(lot, &opened, flags.len() - taken, pairs)?;
        }
    }
    Ok((number, taken))
}

fn check_number(call: &str, lot: &Lot, number: u32, due: &Result<Opened, Refusal>) -> Check {
    let due = due.as_ref().err().copied().unwrap_or(0);
    let about = || format!("{:?}, state {}", lot.lengths(), hex(lot.state.seen()));
    demand!(number == due, "a {call} answered {number}, due is {due}; {}", about());
    Ok(())
}

fn check_outside(lot: &Lot, answers: &[Lent<usize>]) -> Check {
    demand!(lot.guards_hold(), "wrote outside what was lent");
    demand!(answers.iter().all(Lent::guards_hold), "wrote outside its answers");
    Ok(())
}

/// "On a refusal nothing lent is changed".
fn check_refused(lot: &Lot, before: &Lot, number: u32, answers: &[Lent<usize>]) -> Check {
    demand!(lot.holds_the_same(before), "refused with {number}, but memory was changed");
    let kept = answers.iter().all(|answer| answer.seen()[0] == MARK as usize);
    demand!(kept, "refused with {number}, but an answer was written");
    Ok(())
}

/// State, history and table after the steps that took these flags: "history byte
/// t mod L becomes the flag byte and no other changes"; table words after the
/// needed cells "keep their content"; of the state only the next tick and the
/// live count are new.
fn check_taken(lot: &Lot, before: &Lot, opened: &Opened, flags: &[u8], live: usize) -> Check {
    let mut state = before.state.seen().to_vec();
    states::put_taken(&mut state, flags.len(), live);
    demand!(lot.state.seen() == state, "{} steps: the state is not as due", flags.len());
    let mut history = before.history.seen().to_vec();
    for (tick, &flag) in (before.next_tick()..).zip(flags) {
        if !history.is_empty() {
            let at = tick % history.len() as u64;
            history[at as usize] = flag;
        }
    }
    demand!(lot.history.seen() == history, "{} steps: the history is not as due", flags.len());
    let needed = opened.needed_words();
    let kept = lot.cells.seen()[needed..] == before.cells.seen()[needed..];
    demand!(kept, "wrote table words after the needed cells");
    Ok(())
}

/// The pairs of a batch stand at the report's start, each with one of the steps
/// taken, in their order and at most delay + 1 of one step; each step had room
/// for as many. The words after them are as they were.
fn check_pairs(lot: &Lot, before: &Lot, opened: &Opened, taken: usize, pairs: usize) -> Check {
    let (report, room) = (lot.report.seen(), lot.report.length());
    demand!(2 * pairs <= room, "a batch wrote {pairs} pairs into {room} words");
    let kept = report[2 * pairs..] == before.report.seen()[2 * pairs..];
    demand!(kept, "a batch wrote report words after its pairs");
    let mut written = 0;
    for step in (before.next_tick()..).take(taken) {
        let has_room = 2 * (written + opened.needed_report()) <= room;
        demand!(has_room, "a batch took step {step} with {written} pairs in {room} words");
        let of_step = |pair: &&[u64]| pair[1] == step;
        let own = report[2 * written..2 * pairs].chunks(2).take_while(of_step).count();
        demand!(own <= opened.needed_report(), "a batch wrote {own} pairs of step {step}");
        written += own;
    }
    demand!(written == pairs, "a batch wrote {pairs} pairs, of its steps {written}");
    Ok(())
}

/// Why a batch ended: "it stops where the flags end; before a step for which
/// fewer than 2 * (delay + 1) report words are left; and at a step that would be
/// refused, which after the first can only be by 20".
fn check_ended(lot: &Lot, opened: &Opened, left: usize, pairs: usize) -> Check {
    let full = lot.report.length() - 2 * pairs < 2 * opened.needed_report();
    let next = lot.next_tick();
    demand!(next <= MAX_TICKS, "a batch took a tick too many");
    demand!(left == 0 || full || next == MAX_TICKS, "a batch left {left} flags");
    Ok(())
}
