//! One step or one batch of a set on whatever sheet and records: its number exactly, and all
//! that holds of memory after it, whether they are honest or not. Only what an accepted step
//! reports, counts and writes into its cells is free.

use crate::compare::{hex, Check, MARK};
use crate::demand;
use crate::lent::Lent;
use crate::library::{Library, Running, SetLent, SetStepAnswer, SetStepsAnswer};
use crate::paper::{OpenedSet, Refusal, SetLengths, CELL_WORDS, MAX_HISTORY, MAX_TICKS};
use crate::random::{self, Random, Rule};
use crate::records;

/// What a step of a set is given.
#[derive(Clone)]
pub struct SetLot {
    pub sheet: Lent<u8>,
    pub records: Lent<Running>,
    pub history: Lent<u8>,
    pub cells: Lent<u32>,
    pub report: Lent<u64>,
}

impl SetLot {
    pub fn lend(&mut self) -> (&[u8], SetLent<'_>) {
        let lent = SetLent {
            records: self.records.part(),
            history: self.history.part(),
            cells: self.cells.part(),
            report: self.report.part(),
        };
        (self.sheet.seen(), lent)
    }

    fn lengths(&self) -> SetLengths {
        SetLengths {
            records: self.records.length(),
            history: self.history.length(),
            table: self.cells.length(),
            report: self.report.length(),
        }
    }

    fn guards_hold(&self) -> bool {
        self.sheet.guards_hold()
            && self.records.guards_hold()
            && self.history.guards_hold()
            && self.cells.guards_hold()
            && self.report.guards_hold()
    }

    fn holds_the_same(&self, other: &SetLot) -> bool {
        self.records.seen() == other.records.seen()
            && self.history.seen() == other.history.seen()
            && self.cells.seen() == other.cells.seen()
            && self.report.seen() == other.report.seen()
    }

    /// The next tick of the first record.
    fn next_tick(&self) -> u64 {
        self.records.seen()[0].next
    }
}

/// A set with so many further records, its memory as long as it needs or a little longer, after
/// some steps: all of it as the library left it. The report is long enough for a batch of two.
pub fn honest_set(
    library: &dyn Library,
    random: &mut Random,
    rules: &[Rule],
    further: usize,
    steps: usize,
) -> Check<SetLot> {
    let figures = || rules.iter().map(|rule| rule.figures);
    let least = figures().map(|figures| figures.history).max().unwrap_or(0) as usize;
    let history = random.pick(&[least, (least + 1).min(MAX_HISTORY), least.max(40)]);
    let cells: u64 = figures().map(|figures| figures.cells).sum();
    let table = CELL_WORDS * cells as usize + random.pick(&[0, 0, 1, 5]);
    let pairs: u64 = figures().map(|figures| figures.delay + 1).sum();
    let mut lot = SetLot {
        sheet: Lent::new(&random::sheet_of_rules(rules)),
        records: Lent::new(&vec![Running::default(); rules.len() + further]),
        history: Lent::new(&random.bytes(history)),
        cells: Lent::new(&random.words(table)),
        report: Lent::new(&random.long_words(6 * pairs as usize)),
    };
    let (sheet, lent) = lot.lend();
    let number = library.set_open(sheet, lent.records, lent.history, lent.cells);
    demand!(number == 0, "opening a set answered {number} for {}", hex(lot.sheet.seen()));
    for flag in random::stream(random, steps) {
        let number = set_step(library, &mut lot, flag)?.0;
        let about = || hex(lot.sheet.seen());
        demand!(number == 0, "an honest step of a set answered {number} for {}", about());
    }
    Ok(lot)
}

/// A step: its number, how many pairs it reports, how many live.
pub fn set_step(library: &dyn Library, lot: &mut SetLot, flag: u8) -> Check<(u32, usize, usize)> {
    let before = lot.clone();
    let mut answers = [MARK as usize; 2].map(Lent::one);
    let [pairs, live] = &mut answers;
    let (sheet, lent) = lot.lend();
    let answer = SetStepAnswer { pairs: pairs.slot(), live: live.slot() };
    let number = library.set_step(sheet, flag, lent, answer);
    let due = records::admit_step(before.sheet.seen(), before.records.seen(), before.lengths());
    check_number("step", &before, number, &due)?;
    check_outside(lot, &before, &answers)?;
    let [pairs, live] = answers.each_ref().map(|answer| answer.seen()[0]);
    match due {
        Err(number) => check_refused(lot, &before, number, &answers)?,
        Ok(opened) => {
            check_taken(lot, &before, &opened, &[flag], live)?;
            check_report(lot, &before, 2 * pairs)?;
            let words = &lot.report.seen()[..2 * pairs];
            check_pairs(&opened, words.chunks(2).map(|pair| pair[0]))?;
        }
    }
    Ok((number, pairs, live))
}

/// A batch: its number, and how many flags it took.
pub fn set_batch(library: &dyn Library, lot: &mut SetLot, flags: &[u8]) -> Check<(u32, usize)> {
    let before = lot.clone();
    let mut lent_flags = Lent::new(flags);
    let mut answers = [MARK as usize; 3].map(Lent::one);
    let [taken, triples, live] = &mut answers;
    let (sheet, lent) = lot.lend();
    let answer = SetStepsAnswer { taken: taken.slot(), triples: triples.slot(), live: live.slot() };
    let number = library.set_steps(sheet, lent_flags.part(), lent, answer);
    let due = records::admit_batch(before.sheet.seen(), before.records.seen(), before.lengths());
    check_number("batch", &before, number, &due)?;
    check_outside(lot, &before, &answers)?;
    demand!(lent_flags.seen() == flags, "a batch changed its flag bytes");
    demand!(lent_flags.guards_hold(), "a batch wrote around its flag bytes");
    let [taken, triples, live] = answers.each_ref().map(|answer| answer.seen()[0]);
    match due {
        Err(number) => check_refused(lot, &before, number, &answers)?,
        Ok(opened) => {
            demand!(taken <= flags.len(), "a batch took {taken} of {} flags", flags.len());
            check_taken(lot, &before, &opened, &flags[..taken], live)?;
            check_report(lot, &before, 3 * triples)?;
            check_triples(lot, &before, &opened, taken, triples)?;
            check_ended(lot, &opened, flags.len() - taken, triples)?;
        }
    }
    Ok((number, taken))
}

fn check_number(call: &str, lot: &SetLot, number: u32, due: &Result<OpenedSet, Refusal>) -> Check {
    let due = due.as_ref().err().copied().unwrap_or(0);
    let about = || {
        let (sheet, records) = (hex(lot.sheet.seen()), lot.records.seen());
        format!("{:?}, sheet {sheet}, {records:?}", lot.lengths())
    };
    demand!(number == due, "a {call} of a set answered {number}, due is {due}; {}", about());
    Ok(())
}

fn check_outside(lot: &SetLot, before: &SetLot, answers: &[Lent<usize>]) -> Check {
    demand!(lot.sheet.seen() == before.sheet.seen(), "the sheet was changed");
    demand!(lot.guards_hold(), "wrote outside what was lent");
    demand!(answers.iter().all(Lent::guards_hold), "wrote outside its answers");
    Ok(())
}

/// "On a refusal nothing that was lent is changed".
fn check_refused(lot: &SetLot, before: &SetLot, number: u32, answers: &[Lent<usize>]) -> Check {
    demand!(lot.holds_the_same(before), "refused with {number}, but memory was changed");
    let kept = answers.iter().all(|answer| answer.seen()[0] == MARK as usize);
    demand!(kept, "refused with {number}, but an answer was written");
    Ok(())
}

/// Records, history and table after the steps that took these flags. A step on dishonest ones
/// "still ends and writes only what a step may: one history byte, the needed cells, the
/// report's first 2 * (sum of all delay + 1) words, and next tick and live count of the first n
/// records". No more than delay + 1 ticks of a rule are live, and the live count answered is the
/// sum of theirs.
fn check_taken(
    lot: &SetLot,
    before: &SetLot,
    opened: &OpenedSet,
    flags: &[u8],
    live: usize,
) -> Check {
    let next = before.next_tick() + flags.len() as u64;
    demand!(next <= MAX_TICKS, "a batch took a tick too many");
    let rules = opened.rules.len();
    let mut due = before.records.seen().to_vec();
    for (record, seen) in due[..rules].iter_mut().zip(lot.records.seen()) {
        record.next = next;
        record.live = if flags.is_empty() { record.live } else { seen.live };
    }
    demand!(lot.records.seen() == due, "{} steps: the records are not as due", flags.len());
    let few = |record: &Running| flags.is_empty() || record.live <= u32::from(record.delay) + 1;
    demand!(due[..rules].iter().all(few), "more than delay + 1 are live: {:?}", &due[..rules]);
    let sum: usize = due[..rules].iter().map(|record| record.live as usize).sum();
    demand!(live == sum, "{live} live in all, and {sum} in the records");
    let mut history = before.history.seen().to_vec();
    for (tick, &flag) in (before.next_tick()..).zip(flags) {
        if !history.is_empty() {
            let at = tick % history.len() as u64;
            history[at as usize] = flag;
        }
    }
    demand!(lot.history.seen() == history, "{} steps: the history is not as due", flags.len());
    let needed = opened.needed_words();
    let kept = lot.cells.seen()[needed..] == before.cells.seen()[needed..];
    demand!(kept, "wrote table words after the needed cells");
    Ok(())
}

/// So many words are the report's own; those after them are as they were.
fn check_report(lot: &SetLot, before: &SetLot, own: usize) -> Check {
    let room = lot.report.length();
    demand!(own <= room, "reported {own} words into {room}");
    let kept = lot.report.seen()[own..] == before.report.seen()[own..];
    demand!(kept, "wrote report words after its own");
    Ok(())
}

/// The rule numbers of one step's pairs ascend, and each comes at most delay + 1 times.
fn check_pairs(opened: &OpenedSet, numbers: impl Iterator<Item = u64>) -> Check {
    let numbers: Vec<usize> = numbers.map(|number| number as usize).collect();
    demand!(numbers.is_sorted(), "pairs of the rules {numbers:?}");
    let most = |number: usize| opened.rules.get(number).map_or(0, |rule| rule.figures.delay + 1);
    for own in numbers.chunk_by(|a, b| a == b) {
        let (number, count) = (own[0], own.len());
        demand!(count as u64 <= most(number), "{count} pairs of rule {number}");
    }
    Ok(())
}

/// The triples of a batch are each of one of the steps taken, in their order, and as those of
/// single steps; each step had room for as many as it can report.
fn check_triples(
    lot: &SetLot,
    before: &SetLot,
    opened: &OpenedSet,
    taken: usize,
    triples: usize,
) -> Check {
    let room = lot.report.length();
    let all: Vec<&[u64]> = lot.report.seen()[..3 * triples].chunks(3).collect();
    let mut written = 0;
    for step in (before.next_tick()..).take(taken) {
        let has_room = 3 * (written + opened.most_pairs()) <= room;
        demand!(has_room, "a batch took step {step} with {written} triples in {room} words");
        let of_step = |triple: &&&[u64]| triple[2] == step;
        let own = all[written..].iter().take_while(of_step).count();
        check_pairs(opened, all[written..written + own].iter().map(|triple| triple[0]))?;
        written += own;
    }
    demand!(written == triples, "a batch wrote {triples} triples, of its steps {written}");
    Ok(())
}

/// Why a batch ended: it "stops where the flags end; before a step for which fewer than 3 *
/// (sum of all delay + 1) report words are left [..]; and before a step that would be refused,
/// which after the first can only be by 20".
fn check_ended(lot: &SetLot, opened: &OpenedSet, left: usize, triples: usize) -> Check {
    let full = lot.report.length() < 3 * (triples + opened.most_pairs());
    let used_up = lot.next_tick() == MAX_TICKS;
    demand!(left == 0 || full || used_up, "a batch left {left} flags");
    Ok(())
}
