//! A rule opened, and a whole stream taken: every answer and every byte of
//! memory after each step against the paper. Between the steps come refused
//! ones, batches, and foreign writes into history bytes that are not among the
//! last h flags.

use super::calls::state_of;
use super::{hex, Check, Numbers, MARK};
use crate::demand;
use crate::lent::Lent;
use crate::library::{Library, State, StepAnswer, StepLent, StepsAnswer, STATE_BYTES};
use crate::paper::{self, Lengths, Opened, Watch, MAX_HISTORY};
use crate::random::{self, Random, Rule};
use crate::states;

/// What was seen over all runs.
#[derive(Clone, Debug, Default)]
pub struct Tally {
    pub rules: u64,
    /// Steps taken, in batches or alone.
    pub steps: u64,
    pub batches: u64,
    /// Batches that stopped because the report was full.
    pub full_batches: u64,
    pub violations: u64,
    /// Violations decided after their own tick.
    pub late: u64,
    /// Steps that reported two ticks or more.
    pub several: u64,
    /// The sum of all live counts.
    pub live: u64,
    /// Foreign writes into history bytes.
    pub foreign: u64,
    /// Refused steps and batches by their number.
    pub refused: Numbers,
}

/// How one run goes.
#[derive(Clone, Copy, Debug)]
pub struct Plan {
    /// L
    pub history_length: usize,
    pub steps: usize,
}

/// Opens the rule, among others in a sheet, and takes a stream of `plan.steps`.
pub fn run(
    library: &dyn Library,
    random: &mut Random,
    rule: &Rule,
    plan: Plan,
    tally: &mut Tally,
) -> Check {
    let mut run = Run::open(library, random, rule, plan.history_length)?;
    let stream = random::stream(random, plan.steps);
    tally.rules += 1;
    run.take(random, &stream, tally).map_err(|seen| {
        let (tick, length) = (run.watch.tick(), plan.history_length);
        format!("{seen}; at tick {tick}, L {length}, {:?}, {}", rule.figures, hex(&rule.body))
    })
}

struct Run<'a> {
    library: &'a dyn Library,
    opened: Opened,
    watch: Watch,
    state: Lent<u8>,
    history: Lent<u8>,
    cells: Lent<u32>,
    /// What the state must hold: every byte is the header's to say.
    due_state: State,
    /// What the history must hold.
    due_history: Vec<u8>,
    /// What the table words after the needed cells must hold.
    due_tail: Vec<u32>,
}

impl<'a> Run<'a> {
    fn open(
        library: &'a dyn Library,
        random: &mut Random,
        rule: &Rule,
        history_length: usize,
    ) -> Check<Run<'a>> {
        let (sheet, number) = random::sheet_with(random, &rule.body);
        let needed = paper::CELL_WORDS * rule.figures.cells as usize;
        let table = words_for(random, needed);
        let opened = paper::open(&sheet, number, history_length, table.len())
            .map_err(|refusal| format!("the paper refuses an accepted rule with {refusal}"))?;
        let mut run = Run {
            library,
            watch: Watch::new(opened.formula.clone()),
            opened,
            state: Lent::shifted(&random.bytes(STATE_BYTES), random.below(8)),
            history: Lent::shifted(&random.bytes(history_length), random.below(8)),
            due_state: states::fresh(&rule.body, history_length),
            due_history: vec![0; history_length],
            due_tail: table[needed..].to_vec(),
            cells: Lent::new(&table),
        };
        let state = state_of(&mut run.state);
        let answer = library.open(&sheet, number, run.history.part(), run.cells.seen(), state);
        demand!(answer == 0, "opening answered {answer} for {}", hex(&rule.body));
        run.check_memory()?;
        Ok(run)
    }

    fn take(&mut self, random: &mut Random, stream: &[u8], tally: &mut Tally) -> Check {
        let mut at = 0;
        while at < stream.len() {
            if random.one_in(6) {
                tally.foreign += self.write_unused_history(random);
            }
            if random.one_in(10) {
                self.refused_step(random, tally)?;
            }
            if random.one_in(40) {
                self.move_elsewhere(random);
            }
            if random.one_in(30) {
                let most = random.size(0, 24).min(stream.len() - at);
                at += self.batch(random, &stream[at..at + most], tally)?;
            } else {
                self.step(random, stream[at], tally)?;
                at += 1;
            }
        }
        Ok(())
    }

    fn step(&mut self, random: &mut Random, flag: u8, tally: &mut Tally) -> Check {
        let t = self.watch.tick();
        let before = report_for(random, self.opened.needed_report());
        let mut report = Lent::new(&before);
        let (mut reported, mut live) = (Lent::one(MARK as usize), Lent::one(MARK as usize));
        let table = self.some_table(random);
        let number = self.library.step(
            state_of(&mut self.state),
            flag,
            StepLent {
                history: self.history.part(),
                cells: &mut self.cells.part()[..table],
                report: report.part(),
            },
            StepAnswer { reported: reported.slot(), live: live.slot() },
        );
        let due = self.taken(flag);
        demand!(number == 0, "step {t} answered {number}");
        let count = *reported.slot();
        demand!(count == due.report.len(), "step {t} reported {count}, due is {:?}", due.report);
        let (words, rest) = report.seen().split_at(count);
        demand!(words == due.report, "step {t} reported {words:?}, due is {:?}", due.report);
        demand!(rest == &before[count..], "step {t} wrote report words after its own");
        let live_now = *live.slot();
        demand!(live_now == due.live, "step {t}: live {live_now}, due is {}", due.live);
        let guards = report.guards_hold() && reported.guards_hold() && live.guards_hold();
        demand!(guards, "step {t} wrote outside its report or answers");
        count_step(tally, t, &due);
        self.check_memory()
    }

    /// The paper's answer to the next step; what memory must hold moves along.
    fn taken(&mut self, flag: u8) -> paper::Answer {
        let t = self.watch.tick();
        let length = self.due_history.len();
        if length > 0 {
            // "History byte t mod L becomes the flag byte and no other changes".
            self.due_history[t % length] = flag;
        }
        let answer = self.watch.step(flag);
        states::put_taken(&mut self.due_state, 1, answer.live);
        answer
    }

    fn check_memory(&self) -> Check {
        demand!(self.state.seen() == self.due_state, "the state is not as due");
        demand!(self.history.seen() == self.due_history, "the history is not as due");
        let tail = &self.cells.seen()[self.opened.needed_words()..];
        demand!(tail == self.due_tail, "table words after the needed cells were changed");
        let guards =
            self.state.guards_hold() && self.history.guards_hold() && self.cells.guards_hold();
        demand!(guards, "wrote outside state, history or cells");
        Ok(())
    }

    /// "The whole cell table or only its first words."
    fn some_table(&self, random: &mut Random) -> usize {
        random.size(self.opened.needed_words(), self.cells.length())
    }

    /// "Whichever history bytes were overwritten in between": here those that
    /// are not among the last h flags, so that every answer stays.
    fn write_unused_history(&mut self, random: &mut Random) -> u64 {
        let length = self.due_history.len();
        if length == 0 {
            return 0;
        }
        let mut written = 0;
        for _ in 0..random.size(1, 6) {
            let at = random.below(length);
            if !self.holds_last_flag(at) {
                self.due_history[at] = random.byte();
                self.history.part()[at] = self.due_history[at];
                written += 1;
            }
        }
        written
    }

    /// "The last h flags are those of the h ticks taken last, or of all if fewer
    /// were taken, each at history byte tick mod L."
    fn holds_last_flag(&self, at: usize) -> bool {
        let (t, length) = (self.watch.tick(), self.due_history.len());
        let first = t.saturating_sub(self.opened.figures.history as usize);
        (first..t).any(|tick| tick % length == at)
    }

    fn move_elsewhere(&mut self, random: &mut Random) {
        self.state = self.state.moved(random.below(8));
        self.history = self.history.moved(random.below(8));
        self.cells = self.cells.moved(random.below(3));
    }

    /// A step or a batch with at least one wrong length, if chance makes one so.
    fn refused_step(&mut self, random: &mut Random, tally: &mut Tally) -> Check {
        let lengths = self.some_lengths(random);
        let Some(due) = paper::step_refusal(&self.opened, lengths, self.watch.tick() as u64) else {
            return Ok(());
        };
        let in_batch = due != 19 && random.one_in(4);
        let before = self.memory();
        let foreign_before = random.bytes(lengths.history);
        let mut foreign = Lent::new(&foreign_before);
        let own = lengths.history == self.history.length();
        let report_before = random.long_words(lengths.report);
        let mut report = Lent::new(&report_before);
        let mut answers = [MARK as usize; 3].map(Lent::one);
        let [first, second, third] = &mut answers;
        let state = state_of(&mut self.state);
        let lent = StepLent {
            history: if own { self.history.part() } else { foreign.part() },
            cells: &mut self.cells.part()[..lengths.table],
            report: report.part(),
        };
        let number = if in_batch {
            let flags = random.bytes(3);
            let answer =
                StepsAnswer { taken: first.slot(), pairs: second.slot(), live: third.slot() };
            self.library.steps(state, &flags, lent, answer)
        } else {
            let answer = StepAnswer { reported: first.slot(), live: second.slot() };
            self.library.step(state, random.byte(), lent, answer)
        };
        demand!(number == due, "step with {lengths:?} answered {number}, due is {due}");
        demand!(self.memory() == before, "a step refused with {due} changed memory");
        demand!(foreign.seen() == foreign_before, "refused with {due}: foreign history changed");
        demand!(report.seen() == report_before, "refused with {due}: the report was changed");
        let kept = answers.iter().all(|answer| answer.seen()[0] == MARK as usize);
        demand!(kept, "refused with {due}: an answer was written");
        let guards = foreign.guards_hold() && report.guards_hold();
        demand!(guards && answers.iter().all(Lent::guards_hold), "refused with {due}: outside");
        tally.refused.add(due);
        self.check_memory()
    }

    fn memory(&self) -> (Vec<u8>, Vec<u8>, Vec<u32>) {
        let (state, history) = (self.state.seen().to_vec(), self.history.seen().to_vec());
        (state, history, self.cells.seen().to_vec())
    }

    /// Lengths around the right ones.
    fn some_lengths(&self, random: &mut Random) -> Lengths {
        let own = self.history.length();
        let near = [own + 1, own.saturating_sub(1), 0, MAX_HISTORY, MAX_HISTORY + 1];
        let needed = self.opened.needed_words();
        let report = self.opened.needed_report();
        Lengths {
            history: if random.one_in(3) { random.pick(&near) } else { own },
            table: random.pick(&[needed, needed, needed - 1, needed - 4, 0]),
            report: random.pick(&[report, report + 1, report - 1, report / 2, 0]),
        }
    }

    /// A batch with a report of some length; answers how many steps it took.
    fn batch(&mut self, random: &mut Random, flags: &[u8], tally: &mut Tally) -> Check<usize> {
        let one_step = 2 * self.opened.needed_report();
        let room = match random.below(4) {
            0 => one_step,
            1 => one_step + random.below(8),
            2 => one_step + 2 * random.below(40),
            _ => one_step * (flags.len() + 1),
        };
        if random.one_in(12) {
            let short = random.pick(&[0, one_step - 1, one_step / 2]);
            self.starved_batch(random, short, flags)?;
        }
        let alone = if random.one_in(3) { Some(self.alone()) } else { None };
        let taken = self.fed_batch(random, flags, room, tally)?;
        if let Some(alone) = alone {
            self.check_as_single_steps(alone, &flags[..taken])?;
        }
        tally.batches += 1;
        tally.full_batches += (taken < flags.len()) as u64;
        Ok(taken)
    }

    fn fed_batch(
        &mut self,
        random: &mut Random,
        flags: &[u8],
        room: usize,
        tally: &mut Tally,
    ) -> Check<usize> {
        let first = self.watch.tick();
        let before = random.long_words(room);
        let mut report = Lent::new(&before);
        let mut lent_flags = Lent::new(flags);
        let mut answers = [MARK as usize; 3].map(Lent::one);
        let [taken, pairs, live] = &mut answers;
        let table = self.some_table(random);
        let number = self.library.steps(
            state_of(&mut self.state),
            lent_flags.part(),
            StepLent {
                history: self.history.part(),
                cells: &mut self.cells.part()[..table],
                report: report.part(),
            },
            StepsAnswer { taken: taken.slot(), pairs: pairs.slot(), live: live.slot() },
        );
        let (due_taken, due_words) = self.due_batch(flags, room, tally);
        demand!(number == 0, "a batch at {first} answered {number}");
        let answered = answers.each_ref().map(|answer| answer.seen()[0]);
        let due = [due_taken, due_words.len() / 2, self.watch.live()];
        demand!(answered == due, "a batch at {first}, room {room}: {answered:?}, due is {due:?}");
        let (words, rest) = report.seen().split_at(due_words.len());
        demand!(words == due_words, "a batch at {first} wrote {words:?}, due is {due_words:?}");
        demand!(rest == &before[due_words.len()..], "a batch wrote words after its pairs");
        demand!(lent_flags.seen() == flags, "a batch changed the flag bytes");
        let guards = report.guards_hold() && lent_flags.guards_hold();
        demand!(guards && answers.iter().all(Lent::guards_hold), "a batch wrote outside");
        self.check_memory()?;
        Ok(due_taken)
    }

    /// What a batch must take and write: it stops before a step for which fewer
    /// than 2 * (delay + 1) report words are left.
    fn due_batch(&mut self, flags: &[u8], room: usize, tally: &mut Tally) -> (usize, Vec<u64>) {
        let mut words = Vec::new();
        for (taken, &flag) in flags.iter().enumerate() {
            if room - words.len() < 2 * self.opened.needed_report() {
                return (taken, words);
            }
            let step = self.watch.tick();
            let due = self.taken(flag);
            count_step(tally, step, &due);
            for &tick in &due.report {
                words.extend([tick, step as u64]);
            }
        }
        (flags.len(), words)
    }

    /// A batch whose report has no room for its first step takes none, which is
    /// no refusal, and changes nothing but its answers.
    fn starved_batch(&mut self, random: &mut Random, room: usize, flags: &[u8]) -> Check {
        let before = self.memory();
        let report_before = random.long_words(room);
        let mut report = Lent::new(&report_before);
        let mut answers = [MARK as usize; 3].map(Lent::one);
        let [taken, pairs, live] = &mut answers;
        let number = self.library.steps(
            state_of(&mut self.state),
            flags,
            StepLent {
                history: self.history.part(),
                cells: self.cells.part(),
                report: report.part(),
            },
            StepsAnswer { taken: taken.slot(), pairs: pairs.slot(), live: live.slot() },
        );
        let answered = answers.each_ref().map(|answer| answer.seen()[0]);
        let due = [0, 0, self.watch.live()];
        demand!(number == 0, "a batch with room {room} answered {number}, due is 0");
        demand!(answered == due, "a batch with room {room}: {answered:?}, due is {due:?}");
        demand!(self.memory() == before, "a batch that took nothing changed memory");
        demand!(report.seen() == report_before, "a batch that took nothing wrote a report");
        let guards = report.guards_hold() && answers.iter().all(Lent::guards_hold);
        demand!(guards, "a batch that took nothing wrote outside");
        self.check_memory()
    }

    fn alone(&self) -> (Lent<u8>, Lent<u8>, Lent<u32>) {
        (self.state.moved(0), self.history.moved(0), self.cells.moved(0))
    }

    /// A batch leaves what so many single steps leave: state, history, cells.
    fn check_as_single_steps(&self, alone: (Lent<u8>, Lent<u8>, Lent<u32>), flags: &[u8]) -> Check {
        let (mut state, mut history, mut cells) = alone;
        let mut report = vec![0; self.opened.needed_report()];
        for &flag in flags {
            let (mut reported, mut live) = (0, 0);
            let number = self.library.step(
                state_of(&mut state),
                flag,
                StepLent { history: history.part(), cells: cells.part(), report: &mut report },
                StepAnswer { reported: &mut reported, live: &mut live },
            );
            demand!(number == 0, "a step beside a batch answered {number}");
        }
        demand!(state.seen() == self.state.seen(), "batch and single steps: states differ");
        demand!(history.seen() == self.history.seen(), "batch and single steps: histories differ");
        demand!(cells.seen() == self.cells.seen(), "batch and single steps: cells differ");
        Ok(())
    }
}

/// As many words of a table as needed, or a few more.
pub(super) fn words_for(random: &mut Random, needed: usize) -> Vec<u32> {
    let tail = random.pick(&[0, 0, 1, 3, 9]);
    random.words(needed + tail)
}

/// The same of a report.
pub(super) fn report_for(random: &mut Random, needed: usize) -> Vec<u64> {
    let tail = random.pick(&[0, 0, 1, 3, 9]);
    random.long_words(needed + tail)
}

fn count_step(tally: &mut Tally, t: usize, answer: &paper::Answer) {
    tally.steps += 1;
    tally.violations += answer.report.len() as u64;
    tally.late += answer.report.iter().filter(|&&p| (p as usize) < t).count() as u64;
    tally.several += (answer.report.len() > 1) as u64;
    tally.live += answer.live as u64;
}
