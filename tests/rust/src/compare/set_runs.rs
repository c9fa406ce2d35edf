//! A set opened, and a whole stream taken: every answer and every word of memory after each
//! step against the paper, and each rule's part against the rule run alone by the same library.
//! Between the steps come refused ones, batches, and foreign writes into history bytes that are
//! not among the last h flags.

use super::runs::{report_for, words_for};
use super::set_calls::noise;
use super::{hex, Check, Numbers, MARK};
use crate::demand;
use crate::lent::Lent;
use crate::library::{
    Library, Running, SetLent, SetStepAnswer, SetStepsAnswer, State, StepAnswer, StepLent,
    STATE_BYTES,
};
use crate::paper::{self, OpenedSet, SetAnswer, SetLengths, SetWatch, CELL_WORDS, MAX_HISTORY};
use crate::random::{self, Random, Rule};
use crate::records;

/// What was seen over all runs.
#[derive(Clone, Debug, Default)]
pub struct SetTally {
    pub sets: u64,
    pub rules: u64,
    /// Steps taken, in batches or alone, and the sum of their rules.
    pub steps: u64,
    pub rule_steps: u64,
    pub batches: u64,
    /// Batches that stopped because the report was full.
    pub full_batches: u64,
    pub pairs: u64,
    /// Pairs decided after their own tick.
    pub late: u64,
    /// Steps whose pairs are of two rules or more, and those whose ticks do not ascend.
    pub several: u64,
    pub unordered: u64,
    /// The sum of all live counts, and the steps where rules but the last are live.
    pub live: u64,
    pub live_before_last: u64,
    /// Foreign writes into history bytes.
    pub foreign: u64,
    /// Refused steps and batches by their number.
    pub refused: Numbers,
}

/// Opens the rules and takes a stream of `steps`, over a history of so many bytes.
pub fn set_run(
    library: &dyn Library,
    random: &mut Random,
    rules: &[Rule],
    history_length: usize,
    steps: usize,
    tally: &mut SetTally,
) -> Check {
    let mut run = SetRun::open(library, random, rules, history_length)?;
    tally.sets += 1;
    tally.rules += rules.len() as u64;
    let stream = random::stream(random, steps);
    run.take(random, &stream, tally).map_err(|seen| {
        let (tick, sheet) = (run.watch.tick(), hex(&run.due_sheet));
        format!("{seen}; at tick {tick}, L {history_length}, of {sheet}")
    })
}

/// A rule run alone, in memory of its own.
struct Alone<'a> {
    library: &'a dyn Library,
    state: State,
    history: Vec<u8>,
    cells: Vec<u32>,
    report: Vec<u64>,
}

impl<'a> Alone<'a> {
    fn open(library: &'a dyn Library, sheet: &[u8], rule: usize, needs: &Rule) -> Check<Alone<'a>> {
        let figures = needs.figures;
        let mut alone = Alone {
            library,
            state: [0; STATE_BYTES],
            history: vec![0; figures.history as usize],
            cells: vec![0; CELL_WORDS * figures.cells as usize],
            report: vec![0; figures.delay as usize + 1],
        };
        let Alone { state, history, cells, .. } = &mut alone;
        let number = library.open(sheet, rule, history, cells, state);
        demand!(number == 0, "opening rule {rule} alone answered {number}");
        Ok(alone)
    }

    /// The ticks that it reports, and how many live.
    fn step(&mut self, flag: u8) -> Check<(&[u64], usize)> {
        let (mut reported, mut live) = (0, 0);
        let Alone { state, history, cells, report, .. } = self;
        let number = self.library.step(
            state,
            flag,
            StepLent { history, cells, report },
            StepAnswer { reported: &mut reported, live: &mut live },
        );
        demand!(number == 0, "a rule alone answered {number}");
        Ok((&self.report[..reported], live))
    }
}

struct SetRun<'a> {
    library: &'a dyn Library,
    opened: OpenedSet,
    watch: SetWatch,
    alone: Vec<Alone<'a>>,
    sheet: Lent<u8>,
    records: Lent<Running>,
    history: Lent<u8>,
    cells: Lent<u32>,
    due_sheet: Vec<u8>,
    /// What the records must hold, further ones included.
    due_records: Vec<Running>,
    due_history: Vec<u8>,
    /// What the table words after the needed cells must hold.
    due_tail: Vec<u32>,
}

/// Copies of what a step writes.
type Written = (Lent<Running>, Lent<u8>, Lent<u32>);

impl<'a> SetRun<'a> {
    fn open(
        library: &'a dyn Library,
        random: &mut Random,
        rules: &[Rule],
        history_length: usize,
    ) -> Check<SetRun<'a>> {
        let sheet = random::sheet_of_rules(rules);
        let further = random.pick(&[0, 0, 1, 3]);
        let mut due_records = noise(random, rules.len() + further);
        let opened = OpenedSet {
            rules: paper::set_rules(&sheet)
                .map_err(|refusal| format!("the paper refuses an accepted set with {refusal}"))?,
            history_length,
        };
        let table = words_for(random, opened.needed_words());
        let alone = rules.iter().enumerate();
        let alone = alone.map(|(rule, needs)| Alone::open(library, &sheet, rule, needs));
        let mut run = SetRun {
            library,
            watch: SetWatch::new(&opened.rules),
            alone: alone.collect::<Check<_>>()?,
            sheet: Lent::shifted(&sheet, random.below(8)),
            records: Lent::new(&due_records),
            history: Lent::shifted(&random.bytes(history_length), random.below(8)),
            due_history: vec![0; history_length],
            due_tail: table[opened.needed_words()..].to_vec(),
            cells: Lent::new(&table),
            due_records: Vec::new(),
            due_sheet: sheet,
            opened,
        };
        let (records, cells) = (run.records.part(), run.cells.seen());
        let answer = library.set_open(run.sheet.seen(), records, run.history.part(), cells);
        demand!(answer == 0, "opening a set answered {answer} for {}", hex(&run.due_sheet));
        due_records[..rules.len()].copy_from_slice(&records::fresh(&run.opened));
        run.due_records = due_records;
        run.check_memory()?;
        Ok(run)
    }

    fn take(&mut self, random: &mut Random, stream: &[u8], tally: &mut SetTally) -> Check {
        let mut at = 0;
        while at < stream.len() {
            if random.one_in(4) {
                tally.foreign += self.write_unused_history(random);
            }
            if random.one_in(6) {
                self.refused_step(random, tally)?;
            }
            if random.one_in(30) {
                self.move_elsewhere(random);
            }
            if random.one_in(12) {
                let most = random.size(0, 20).min(stream.len() - at);
                at += self.batch(random, &stream[at..at + most], tally)?;
            } else {
                self.step(random, stream[at], tally)?;
                at += 1;
            }
        }
        Ok(())
    }

    fn step(&mut self, random: &mut Random, flag: u8, tally: &mut SetTally) -> Check {
        let t = self.watch.tick();
        let before = report_for(random, self.opened.needed_report());
        let mut report = Lent::new(&before);
        let mut answers = [MARK as usize; 2].map(Lent::one);
        let [pairs, live] = &mut answers;
        let (records, table) = self.some_lengths_enough(random);
        let number = self.library.set_step(
            self.sheet.seen(),
            flag,
            SetLent {
                records: &mut self.records.part()[..records],
                history: self.history.part(),
                cells: &mut self.cells.part()[..table],
                report: report.part(),
            },
            SetStepAnswer { pairs: pairs.slot(), live: live.slot() },
        );
        let due = self.taken(flag);
        demand!(number == 0, "step {t} of a set answered {number}");
        let due_pairs = due.pairs();
        let answered = answers.each_ref().map(|answer| answer.seen()[0]);
        let due_answers = [due_pairs.len(), due.all_live()];
        demand!(answered == due_answers, "step {t}: {answered:?}, due is {due_answers:?}");
        let (words, rest) = report.seen().split_at(2 * due_pairs.len());
        let due_words = due_pairs.concat();
        demand!(words == due_words, "step {t} reported {words:?}, due is {due_words:?}");
        demand!(rest == &before[words.len()..], "step {t} wrote report words after its pairs");
        let guards = report.guards_hold() && answers.iter().all(Lent::guards_hold);
        demand!(guards, "step {t} wrote outside its report or answers");
        let triples: Vec<_> = words.chunks(2).map(|pair| [pair[0], pair[1], t as u64]).collect();
        count_step(tally, t, &due);
        self.check_memory()?;
        self.check_alone(t, &[flag], &triples)
    }

    /// The paper's answer to the next step; what memory must hold moves along.
    fn taken(&mut self, flag: u8) -> SetAnswer {
        let t = self.watch.tick();
        let length = self.due_history.len();
        if length > 0 {
            self.due_history[t % length] = flag;
        }
        let answer = self.watch.step(flag);
        for (record, &live) in self.due_records.iter_mut().zip(&answer.live) {
            records::put_taken(record, live);
        }
        answer
    }

    fn check_memory(&self) -> Check {
        demand!(self.records.seen() == self.due_records, "the records are not as due");
        demand!(self.history.seen() == self.due_history, "the history is not as due");
        demand!(self.sheet.seen() == self.due_sheet, "the sheet was changed");
        let tail = &self.cells.seen()[self.opened.needed_words()..];
        demand!(tail == self.due_tail, "table words after the needed cells were changed");
        let guards = self.records.guards_hold() && self.history.guards_hold();
        let guards = guards && self.sheet.guards_hold() && self.cells.guards_hold();
        demand!(guards, "wrote outside sheet, records, history or cells");
        Ok(())
    }

    /// "Each rule's part equals what it reports when opened by itself".
    fn check_alone(&mut self, first: usize, flags: &[u8], triples: &[[u64; 3]]) -> Check {
        for (rule, alone) in self.alone.iter_mut().enumerate() {
            let (mut due, mut due_live) = (Vec::new(), 0);
            for (step, &flag) in (first as u64..).zip(flags) {
                let (ticks, live) = alone.step(flag)?;
                due.extend(ticks.iter().map(|&tick| [rule as u64, tick, step]));
                due_live = live;
            }
            let own = triples.iter().filter(|triple| triple[0] == rule as u64);
            let part: Vec<[u64; 3]> = own.copied().collect();
            demand!(part == due, "rule {rule} reported {part:?}, alone {due:?}");
            let live = self.records.seen()[rule].live as usize;
            let same = flags.is_empty() || live == due_live;
            demand!(same, "rule {rule} has {live} live, alone {due_live}");
        }
        Ok(())
    }

    /// Records and table words to lend: the whole of both, or only the needed.
    fn some_lengths_enough(&self, random: &mut Random) -> (usize, usize) {
        let records = random.size(self.opened.rules.len(), self.records.length());
        (records, random.size(self.opened.needed_words(), self.cells.length()))
    }

    /// History bytes that are not among the last h flags, h being the largest figure.
    fn write_unused_history(&mut self, random: &mut Random) -> u64 {
        let length = self.due_history.len();
        if length == 0 {
            return 0;
        }
        let mut written = 0;
        for _ in 0..random.size(1, 6) {
            let at = random.below(length);
            if !self.holds_last_flag(at) {
                self.due_history[at] = random.byte();
                self.history.part()[at] = self.due_history[at];
                written += 1;
            }
        }
        written
    }

    fn holds_last_flag(&self, at: usize) -> bool {
        let (t, length) = (self.watch.tick(), self.due_history.len());
        let first = t.saturating_sub(self.opened.history());
        (first..t).any(|tick| tick % length == at)
    }

    fn move_elsewhere(&mut self, random: &mut Random) {
        self.sheet = self.sheet.moved(random.below(8));
        self.records = self.records.moved(random.below(3));
        self.history = self.history.moved(random.below(8));
        self.cells = self.cells.moved(random.below(3));
    }

    /// A step or a batch with at least one wrong length, if chance makes one so.
    fn refused_step(&mut self, random: &mut Random, tally: &mut SetTally) -> Check {
        let lengths = self.some_lengths(random);
        let tick = self.watch.tick() as u64;
        let Some(due) = paper::set_step_refusal(&self.opened, lengths, tick) else {
            return Ok(());
        };
        let in_batch = due != 19 && random.one_in(4);
        let before = self.memory();
        let foreign_before = random.bytes(lengths.history);
        let mut foreign = Lent::new(&foreign_before);
        let own = lengths.history == self.history.length();
        let report_before = random.long_words(lengths.report);
        let mut report = Lent::new(&report_before);
        let mut answers = [MARK as usize; 3].map(Lent::one);
        let lent = SetLent {
            records: &mut self.records.part()[..lengths.records],
            history: if own { self.history.part() } else { foreign.part() },
            cells: &mut self.cells.part()[..lengths.table],
            report: report.part(),
        };
        let flags = random.bytes(3);
        let number =
            step_or_batch(self.library, self.sheet.seen(), &flags, in_batch, lent, &mut answers);
        demand!(number == due, "a set with {lengths:?} answered {number}, due is {due}");
        demand!(self.memory() == before, "a set refused with {due} changed memory");
        demand!(foreign.seen() == foreign_before, "refused with {due}: foreign history changed");
        demand!(report.seen() == report_before, "refused with {due}: the report was changed");
        let kept = answers.iter().all(|answer| answer.seen()[0] == MARK as usize);
        demand!(kept, "refused with {due}: an answer was written");
        let guards = foreign.guards_hold() && report.guards_hold();
        demand!(guards && answers.iter().all(Lent::guards_hold), "refused with {due}: outside");
        tally.refused.add(due);
        self.check_memory()
    }

    fn memory(&self) -> (Vec<Running>, Vec<u8>, Vec<u32>) {
        let (records, history) = (self.records.seen().to_vec(), self.history.seen().to_vec());
        (records, history, self.cells.seen().to_vec())
    }

    /// Lengths around the right ones.
    fn some_lengths(&self, random: &mut Random) -> SetLengths {
        let own = self.history.length();
        let near = [own + 1, own.saturating_sub(1), 0, MAX_HISTORY, MAX_HISTORY + 1];
        let (rules, needed) = (self.opened.rules.len(), self.opened.needed_words());
        let report = self.opened.needed_report();
        SetLengths {
            records: random.pick(&[rules, rules, rules, rules - 1, rules / 2, 0]),
            history: if random.one_in(3) { random.pick(&near) } else { own },
            table: random.pick(&[needed, needed, needed, needed - 1, needed - 4, 0]),
            report: random.pick(&[report, report + 1, report - 1, report / 2, 0]),
        }
    }

    /// A batch with a report of some length; answers how many steps it took.
    fn batch(&mut self, random: &mut Random, flags: &[u8], tally: &mut SetTally) -> Check<usize> {
        let one_step = 3 * self.opened.most_pairs();
        let room = match random.below(4) {
            0 => one_step,
            1 => one_step + random.below(12),
            2 => one_step + 3 * random.below(40),
            _ => one_step * (flags.len() + 1),
        };
        if random.one_in(6) {
            let short = random.pick(&[0, one_step - 1, 2 * one_step / 3]);
            let taken = self.fed_batch(random, flags, short, tally)?;
            demand!(taken == 0, "a batch with {short} words took {taken} flags");
        }
        let alone = random.one_in(2).then(|| self.written());
        let taken = self.fed_batch(random, flags, room, tally)?;
        if let Some(alone) = alone {
            self.check_as_single_steps(alone, &flags[..taken])?;
        }
        tally.batches += 1;
        tally.full_batches += (taken < flags.len()) as u64;
        Ok(taken)
    }

    fn fed_batch(
        &mut self,
        random: &mut Random,
        flags: &[u8],
        room: usize,
        tally: &mut SetTally,
    ) -> Check<usize> {
        let first = self.watch.tick();
        let before = random.long_words(room);
        let mut report = Lent::new(&before);
        let mut lent_flags = Lent::new(flags);
        let mut answers = [MARK as usize; 3].map(Lent::one);
        let (records, table) = self.some_lengths_enough(random);
        let lent = SetLent {
            records: &mut self.records.part()[..records],
            history: self.history.part(),
            cells: &mut self.cells.part()[..table],
            report: report.part(),
        };
        let (sheet, flags_part) = (self.sheet.seen(), lent_flags.part());
        let number = step_or_batch(self.library, sheet, flags_part, true, lent, &mut answers);
        let (due_taken, due_triples) = self.due_batch(flags, room, tally);
        demand!(number == 0, "a batch of a set at {first} answered {number}");
        let answered = answers.each_ref().map(|answer| answer.seen()[0]);
        let due = [due_taken, due_triples.len(), self.watch.live()];
        demand!(answered == due, "a batch at {first}, room {room}: {answered:?}, due is {due:?}");
        let due_words = due_triples.concat();
        let (words, rest) = report.seen().split_at(due_words.len());
        demand!(words == due_words, "a batch at {first} wrote {words:?}, due is {due_words:?}");
        demand!(rest == &before[words.len()..], "a batch wrote words after its triples");
        demand!(lent_flags.seen() == flags, "a batch changed the flag bytes");
        let guards = report.guards_hold() && lent_flags.guards_hold();
        demand!(guards && answers.iter().all(Lent::guards_hold), "a batch wrote outside");
        self.check_memory()?;
        self.check_alone(first, &flags[..due_taken], &due_triples)?;
        Ok(due_taken)
    }

    /// What a batch must take and write: it stops "before a step for which fewer than 3 * (sum
    /// of all delay + 1) report words are left".
    fn due_batch(
        &mut self,
        flags: &[u8],
        room: usize,
        tally: &mut SetTally,
    ) -> (usize, Vec<[u64; 3]>) {
        let mut triples = Vec::new();
        for (taken, &flag) in flags.iter().enumerate() {
            if room < 3 * (triples.len() + self.opened.most_pairs()) {
                return (taken, triples);
            }
            let step = self.watch.tick();
            let due = self.taken(flag);
            count_step(tally, step, &due);
            triples.extend(due.pairs().iter().map(|&[rule, tick]| [rule, tick, step as u64]));
        }
        (flags.len(), triples)
    }

    fn written(&self) -> Written {
        (self.records.moved(0), self.history.moved(0), self.cells.moved(0))
    }

    /// "Records, history and cell table are what so many calls of sw_set_step leave".
    fn check_as_single_steps(&self, alone: Written, flags: &[u8]) -> Check {
        let (mut records, mut history, mut cells) = alone;
        let mut report = vec![0; self.opened.needed_report()];
        for &flag in flags {
            let (mut pairs, mut live) = (0, 0);
            let number = self.library.set_step(
                self.sheet.seen(),
                flag,
                SetLent {
                    records: records.part(),
                    history: history.part(),
                    cells: cells.part(),
                    report: &mut report,
                },
                SetStepAnswer { pairs: &mut pairs, live: &mut live },
            );
            demand!(number == 0, "a step beside a batch answered {number}");
        }
        demand!(records.seen() == self.records.seen(), "batch and single steps: records differ");
        demand!(history.seen() == self.history.seen(), "batch and single steps: histories differ");
        demand!(cells.seen() == self.cells.seen(), "batch and single steps: cells differ");
        Ok(())
    }
}

/// A batch of these flags, or a step of the first.
fn step_or_batch(
    library: &dyn Library,
    sheet: &[u8],
    flags: &[u8],
    in_batch: bool,
    lent: SetLent,
    answers: &mut [Lent<usize>; 3],
) -> u32 {
    let [first, second, third] = answers;
    if in_batch {
        let answer =
            SetStepsAnswer { taken: first.slot(), triples: second.slot(), live: third.slot() };
        return library.set_steps(sheet, flags, lent, answer);
    }
    let answer = SetStepAnswer { pairs: first.slot(), live: second.slot() };
    library.set_step(sheet, flags[0], lent, answer)
}

fn count_step(tally: &mut SetTally, t: usize, answer: &SetAnswer) {
    let pairs = answer.pairs();
    let last = answer.live.len() - 1;
    tally.steps += 1;
    tally.rule_steps += answer.live.len() as u64;
    tally.pairs += pairs.len() as u64;
    tally.late += pairs.iter().filter(|pair| (pair[1] as usize) < t).count() as u64;
    tally.several += (answer.reports.iter().filter(|ticks| !ticks.is_empty()).count() > 1) as u64;
    tally.unordered += (!pairs.is_sorted_by_key(|pair| pair[1])) as u64;
    tally.live += answer.all_live() as u64;
    tally.live_before_last += (answer.live[..last].iter().sum::<usize>() > 0) as u64;
}
