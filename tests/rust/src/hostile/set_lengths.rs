//! What a set is lent in every length, from 0 to some more than it can need; and the order of a
//! step's refusals.

use super::lengths::{around, of_length, small_rule, MORE};
use super::set_lot::{honest_set, set_batch, set_step, SetLot};
use crate::compare::{self, Check, Numbers, MARK};
use crate::demand;
use crate::lent::Lent;
use crate::library::{Library, Running, SetLent, SetStepAnswer, SetStepsAnswer};
use crate::paper::{SetLengths, CELL_WORDS, MAX_HISTORY, MAX_RULES, MAX_TICKS};
use crate::random::{self, Random, Rule};

/// How often each number was answered, by all calls on sets together.
pub fn every_set_length(library: &dyn Library, seed: u64, rounds: usize) -> Check<Numbers> {
    let mut random = Random::new(seed);
    let mut numbers = Numbers::default();
    for _ in 0..rounds {
        for suite in [openings, largest_sheets, steps] {
            suite(library, &mut random, &mut numbers)?;
        }
    }
    Ok(numbers)
}

fn small_rules(random: &mut Random, count: usize) -> Vec<Rule> {
    (0..count).map(|_| small_rule(random)).collect()
}

/// Sheets, records, histories and tables for an opening.
fn openings(library: &dyn Library, random: &mut Random, numbers: &mut Numbers) -> Check {
    for count in [1, 2, 5] {
        let rules = small_rules(random, count);
        let whole = random::sheet_of_rules(&rules);
        let right = needed(&rules);
        for length in 0..=whole.len() + MORE {
            let sheet = of_length(random, &whole, length);
            numbers.add(compare::set_figures(library, &sheet)?);
            numbers.add(compare::set_opening(library, random, &sheet, right)?);
        }
        let records = (0..=count + MORE).map(|records| SetLengths { records, ..right });
        let histories = (0..=right.history + MORE).chain(around(MAX_HISTORY));
        let histories = histories.map(|history| SetLengths { history, ..right });
        let tables = (0..=right.table + MORE).map(|table| SetLengths { table, ..right });
        for lengths in records.chain(histories).chain(tables) {
            numbers.add(compare::set_opening(library, random, &whole, lengths)?);
        }
    }
    Ok(())
}

fn needed(rules: &[Rule]) -> SetLengths {
    let figures = || rules.iter().map(|rule| rule.figures);
    SetLengths {
        records: rules.len(),
        history: figures().map(|figures| figures.history).max().unwrap_or(0) as usize,
        table: CELL_WORDS * figures().map(|figures| figures.cells).sum::<u64>() as usize,
        report: 2 * figures().map(|figures| figures.delay + 1).sum::<u64>() as usize,
    }
}

/// Sheets of 32 rules, and of bodies of 512 bytes, which are none.
fn largest_sheets(library: &dyn Library, random: &mut Random, numbers: &mut Numbers) -> Check {
    let flags = vec![vec![1, 0, 0]; MAX_RULES];
    let nots = vec![vec![2; 512]; MAX_RULES];
    let enough = SetLengths { records: MAX_RULES, history: 0, table: 128, report: 0 };
    for whole in [random::sheet_of(&flags), random::sheet_of(&nots)] {
        for length in around(1 + 4 * MAX_RULES).chain(around(whole.len())) {
            let sheet = of_length(random, &whole, length);
            numbers.add(compare::set_figures(library, &sheet)?);
            numbers.add(compare::set_opening(library, random, &sheet, enough)?);
        }
    }
    Ok(())
}

/// Sheets, records, histories, tables, reports and flags for a step and a batch.
fn steps(library: &dyn Library, random: &mut Random, numbers: &mut Numbers) -> Check {
    for count in [1, 2, 5] {
        let rules = small_rules(random, count);
        let taken = random.size(0, 30);
        let lot = honest_set(library, random, &rules, 1, taken)?;
        for length in 0..=lot.sheet.length() + MORE {
            let bytes = of_length(random, lot.sheet.seen(), length);
            let other = SetLot { sheet: Lent::new(&bytes), ..lot.clone() };
            both(library, random, other, numbers)?;
        }
        for length in 0..=lot.records.length() + MORE {
            let mut records = lot.records.seen().to_vec();
            records.resize(length, Running::default());
            let other = SetLot { records: Lent::new(&records), ..lot.clone() };
            both(library, random, other, numbers)?;
        }
        lent_lengths(library, random, &lot, needed(&rules).report, numbers)?;
    }
    Ok(())
}

/// Histories, tables and reports.
fn lent_lengths(
    library: &dyn Library,
    random: &mut Random,
    lot: &SetLot,
    report: usize,
    numbers: &mut Numbers,
) -> Check {
    for length in (0..=lot.history.length() + MORE).chain(around(MAX_HISTORY)) {
        let bytes = of_length(random, lot.history.seen(), length);
        both(library, random, SetLot { history: Lent::new(&bytes), ..lot.clone() }, numbers)?;
    }
    for words in 0..=lot.cells.length() + MORE {
        let mut cells = lot.cells.seen().to_vec();
        cells.resize(words, 7);
        both(library, random, SetLot { cells: Lent::new(&cells), ..lot.clone() }, numbers)?;
    }
    for words in (0..=2 * report).step_by(3).chain(around(report)).chain(around(report / 2 * 3)) {
        let other = SetLot { report: Lent::new(&random.long_words(words)), ..lot.clone() };
        both(library, random, other, numbers)?;
    }
    Ok(())
}

/// A step, and from the same records a batch of up to nine flags.
fn both(library: &dyn Library, random: &mut Random, lot: SetLot, numbers: &mut Numbers) -> Check {
    numbers.add(set_step(library, &mut lot.clone(), random.byte())?.0);
    let count = random.size(0, 9);
    let flags = random.bytes(count);
    numbers.add(set_batch(library, &mut lot.clone(), &flags)?.0);
    Ok(())
}

/// "21, 17, 18, 19, 20, in this order": all reasons for a refusal, each there or not, with
/// lengths that are wrong by one.
pub fn set_step_orders(library: &dyn Library, seed: u64, sets: usize) -> Check<Numbers> {
    let mut random = Random::new(seed);
    let mut numbers = Numbers::default();
    for _ in 0..sets {
        let count = random.size(2, 6);
        let rules = small_rules(&mut random, count);
        let lot = honest_set(library, &mut random, &rules, 0, 3)?;
        for reasons in 0..64 {
            let is = |reason: u32| reasons >> reason & 1 == 1;
            let mut other = with_reasons(&lot, needed(&rules), is);
            let due = [(0, 21), (1, 17), (2, 18), (3, 18), (4, 19), (5, 20)];
            let first = |of: &[(u32, u32)]| of.iter().find(|due| is(due.0)).map_or(0, |due| due.1);
            let in_batch = [&due[..4], &due[5..]].concat();
            let many = set_batch(library, &mut other.clone(), &[1])?.0;
            let due_many = first(&in_batch);
            demand!(many == due_many, "reasons {reasons:b}: a batch {many}, due is {due_many}");
            let one = set_step(library, &mut other, 1)?.0;
            let due_one = first(&due);
            demand!(one == due_one, "reasons {reasons:b}: a step {one}, due is {due_one}");
            numbers.add(one);
            numbers.add(many);
        }
    }
    Ok(numbers)
}

/// A dishonest record, a wrong history, a short table, a record less, a short report, the last
/// tick.
fn with_reasons(lot: &SetLot, needed: SetLengths, is: impl Fn(u32) -> bool) -> SetLot {
    let mut records = lot.records.seen().to_vec();
    if is(5) {
        records.iter_mut().for_each(|record| record.next = MAX_TICKS);
    }
    if is(0) {
        records[0].cells += 1;
    }
    let short = |length: usize, reason| length - is(reason) as usize;
    let mut history = lot.history.seen().to_vec();
    history.resize(history.len() + is(1) as usize, 0);
    SetLot {
        sheet: lot.sheet.clone(),
        records: Lent::new(&records[..short(needed.records, 3)]),
        history: Lent::new(&history),
        cells: Lent::new(&lot.cells.seen()[..short(needed.table, 2)]),
        report: Lent::new(&lot.report.seen()[..short(needed.report, 4)]),
    }
}

/// "Refusal 20 moves to every tick from 4,611,686,018,427,387,904 on." For each tick that is put into
/// the records: what a step answered, what a batch of two flags after it answered, and how many
/// it took.
pub const DUE_SET_TICKS: &[(u64, u32, u32, usize)] = super::DUE_TICKS;

/// What came for the ticks of `DUE_SET_TICKS`.
pub fn forged_set_ticks(library: &dyn Library) -> Check<Vec<(u64, u32, u32, usize)>> {
    let mut random = Random::new(9);
    let rules = small_rules(&mut random, 3);
    let lot = honest_set(library, &mut random, &rules, 0, 2)?;
    let forged = |due: &(u64, u32, u32, usize)| {
        let mut lot = lot.clone();
        lot.records.part().iter_mut().for_each(|record| record.next = due.0);
        let room = 9 * needed(&rules).report;
        lot.report = Lent::new(&vec![0; room]);
        let one = set_step(library, &mut lot, 0)?.0;
        let (many, taken) = set_batch(library, &mut lot, &[0, 1])?;
        Ok((due.0, one, many, if many == 0 { taken } else { 0 }))
    };
    DUE_SET_TICKS.iter().map(forged).collect()
}

/// An opened length above 4,096 in all records is 21, whatever is lent; one of 4,096 is not.
pub fn forged_set_lengths(library: &dyn Library) -> Check<u64> {
    let mut random = Random::new(10);
    let rules = small_rules(&mut random, 2);
    let lot = honest_set(library, &mut random, &rules, 0, 0)?;
    let mut refused = 0;
    for opened in [4096, 4097, 4098, 40 << 10, u16::MAX] {
        for lent in [0, 40, MAX_HISTORY, MAX_HISTORY + 1] {
            let mut lot = SetLot { history: Lent::new(&vec![9; lent]), ..lot.clone() };
            lot.records.part().iter_mut().for_each(|record| record.opened = opened);
            let number = set_step(library, &mut lot, 0)?.0;
            let due = if opened > 4096 {
                21
            } else if lent != 4096 {
                17
            } else {
                0
            };
            demand!(number == due, "L {opened}, lent {lent}: answered {number}, due is {due}");
            refused += (number == 21) as u64;
        }
    }
    Ok(refused)
}

/// Empty slices, whose pointers dangle.
pub fn empty_set_slices(library: &dyn Library) -> Check {
    let sheet = random::sheet_of(&[vec![1, 0, 0]]);
    let number = compare::set_figures(library, &[])?;
    demand!(number == 1, "no sheet: figures answered {number}");
    let mut records = [Running::default()];
    let openings = [
        ("no sheet", library.set_open(&[], &mut [], &mut [], &[]), 1),
        ("no table", library.set_open(&sheet, &mut records, &mut [], &[]), 18),
        ("no records", library.set_open(&sheet, &mut [], &mut [], &[0; 4]), 18),
        ("no history", library.set_open(&sheet, &mut records, &mut [], &[0; 4]), 0),
    ];
    for (lent, number, due) in openings {
        demand!(number == due, "{lent}: opening a set answered {number}, due is {due}");
    }
    let mut table = [9; 4];
    empty_set_steps(library, &sheet, &mut records, &mut table)?;
    empty_set_batches(library, &sheet, &mut records, &mut table)
}

/// Steps without a sheet, records, a report or a history.
fn empty_set_steps(
    library: &dyn Library,
    sheet: &[u8],
    records: &mut [Running],
    cells: &mut [u32],
) -> Check {
    let calls: [(&[u8], usize, usize, u32); 5] =
        [(&[], 1, 2, 21), (sheet, 0, 2, 18), (sheet, 1, 0, 19), (sheet, 1, 2, 0), (sheet, 1, 2, 0)];
    for (sheet, count, room, due) in calls {
        let (mut pairs, mut live) = (MARK as usize, MARK as usize);
        let mut report = [7; 2];
        let parts = set_parts(&mut records[..count], cells, &mut report[..room]);
        let answer = SetStepAnswer { pairs: &mut pairs, live: &mut live };
        let number = library.set_step(sheet, 0, parts, answer);
        demand!(number == due, "a step without history answered {number}, due is {due}");
        let answers = if due == 0 { (1, 0) } else { (MARK as usize, MARK as usize) };
        demand!((pairs, live) == answers, "a step without history: {pairs} pairs, {live} live");
    }
    Ok(())
}

fn set_parts<'a>(
    records: &'a mut [Running],
    cells: &'a mut [u32],
    report: &'a mut [u64],
) -> SetLent<'a> {
    SetLent { records, history: &mut [], cells, report }
}

/// Batches of no flags, with and without a sheet, records, a table and a report.
fn empty_set_batches(
    library: &dyn Library,
    sheet: &[u8],
    records: &mut [Running],
    cells: &mut [u32],
) -> Check {
    let calls: [(&[u8], usize, usize, u32); 4] =
        [(&[], 1, 4, 21), (sheet, 0, 4, 18), (sheet, 1, 0, 18), (sheet, 1, 4, 0)];
    for (sheet, count, words, due) in calls {
        let [mut taken, mut triples, mut live] = [MARK as usize; 3];
        let parts = set_parts(&mut records[..count], &mut cells[..words], &mut []);
        let answer = SetStepsAnswer { taken: &mut taken, triples: &mut triples, live: &mut live };
        let number = library.set_steps(sheet, &[], parts, answer);
        demand!(number == due, "a batch of none answered {number}, due is {due}");
        let answers = if due == 0 { [0; 3] } else { [MARK as usize; 3] };
        demand!([taken, triples, live] == answers, "a batch of none took {taken} flags");
    }
    Ok(())
}

/// Buffers of many megabytes.
pub fn huge_set_lengths(library: &dyn Library) -> Check {
    const HUGE: usize = 1 << 20;
    let mut random = Random::new(11);
    let rules = small_rules(&mut random, 4);
    let mut sheet = random::sheet_of_rules(&rules);
    let right = needed(&rules);
    let huge = SetLengths { records: HUGE / 8, table: HUGE, ..right };
    let long = SetLengths { history: HUGE, ..right };
    let opened = compare::set_opening(library, &mut random, &sheet, huge)?;
    let refused = compare::set_opening(library, &mut random, &sheet, long)?;
    let mut lot = honest_set(library, &mut random, &rules, HUGE / 8, 2)?;
    // The sheet may be longer: no record lies in what was added.
    sheet.resize(HUGE, 2);
    let refused_sheet = compare::set_opening(library, &mut random, &sheet, right)?;
    lot.sheet = Lent::new(&sheet);
    lot.report = Lent::new(&vec![3; HUGE]);
    let taken = set_step(library, &mut lot, 1)?.0;
    // The whole rest of the sheet is no body.
    let mut long_body = lot.clone();
    let last = &mut long_body.records.part()[rules.len() - 1];
    last.size = HUGE as u32 - last.start;
    let refused_body = set_step(library, &mut long_body, 1)?.0;
    lot.history = Lent::new(&vec![3; HUGE]);
    let refused_step = set_step(library, &mut lot, 1)?.0;
    let numbers = [opened, refused, refused_sheet, taken, refused_body, refused_step];
    demand!(numbers == [0, 17, 2, 0, 21, 17], "huge lengths: answered {numbers:?}");
    Ok(())
}
