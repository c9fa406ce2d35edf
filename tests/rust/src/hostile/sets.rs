//! Records and sheets that no opening and no step left. "Records are state to 21": which are
//! caught is said exactly, so the number of every call is checked (`set_lot`, `records`).

use super::set_lot::{honest_set, set_batch, set_step, SetLot};
use super::{overwrite, random_table, HIGH_TICKS};
use crate::compare::{hex, Check, Numbers};
use crate::demand;
use crate::lent::{Lent, Word};
use crate::library::{Library, Running};
use crate::paper::{self, set_rules, Watch, CELL_WORDS, MAX_HISTORY, MAX_RULES, MAX_TICKS};
use crate::random::{self, Random, Rule};
use crate::records;

/// Sheets and records of random content, in lots of random lengths, four calls each.
pub fn random_records(library: &dyn Library, seed: u64, count: usize) -> Check<Numbers> {
    let mut random = Random::new(seed);
    let mut numbers = Numbers::default();
    for _ in 0..count {
        let sheet = random_sheet(&mut random);
        let many = random.pick(&[0, 1, 2, 8, 32, 33]);
        let records: Vec<Running> = (0..many).map(|_| random_record(&mut random)).collect();
        let length = random.pick(&[0, 1, 2, 7, 64, MAX_HISTORY, MAX_HISTORY + 1]);
        let (words, room) = (random.pick(&[0, 4, 12, 84, 900, 16_384]), random.size(0, 300));
        let mut lot = SetLot {
            sheet: Lent::new(&sheet),
            records: Lent::new(&records),
            history: Lent::new(&random.bytes(length)),
            cells: Lent::new(&random_table(&mut random, words)),
            report: Lent::new(&random.long_words(room)),
        };
        take_some(library, &mut random, &mut lot, 3, &mut numbers)?;
    }
    Ok(numbers)
}

/// Noise, few different bytes, or a sheet that has a rule at its very beginning too.
fn random_sheet(random: &mut Random) -> Vec<u8> {
    let length = random.pick(&[0, 1, 2, 3, 40, 600]);
    let mut sheet = match random.below(3) {
        0 => random.bytes(length),
        1 => (0..length).map(|_| random.size(0, 5) as u8).collect(),
        _ => random::any_set_sheet(random),
    };
    if !sheet.is_empty() && random.one_in(2) {
        sheet[0] = random.pick(&[0, 1, 1, 2, 32, 33]);
    }
    if random.one_in(4) {
        sheet.splice(0..sheet.len().min(3), [1, 0, 0]);
    }
    sheet
}

/// Noise, small numbers, one number, or the record of a flag at the sheet's beginning.
fn random_record(random: &mut Random) -> Running {
    match random.below(4) {
        0 => Running::guard(random.below(1 << 16)),
        1 => Running::of_words(std::array::from_fn(|_| random.size(0, 4) as u32)),
        2 => Running::of_words([random.pick(&[0, 1, u32::MAX]); 8]),
        _ => Running { size: 3, cells: 1, ..Running::default() },
    }
}

/// So many steps, then a batch of up to nine flags.
pub fn take_some(
    library: &dyn Library,
    random: &mut Random,
    lot: &mut SetLot,
    steps: usize,
    numbers: &mut Numbers,
) -> Check {
    for _ in 0..steps {
        numbers.add(set_step(library, lot, random.byte())?.0);
    }
    let count = random.size(0, 9);
    let flags = random.bytes(count);
    numbers.add(set_batch(library, lot, &flags)?.0);
    Ok(())
}

/// A step or a batch of two flags.
fn take_one(library: &dyn Library, random: &mut Random, lot: &mut SetLot) -> Check<u32> {
    if random.one_in(2) {
        return Ok(set_step(library, lot, random.byte())?.0);
    }
    let flags = random.bytes(2);
    Ok(set_batch(library, lot, &flags)?.0)
}

/// A set of few cells after some steps, with so many further records.
fn some_set(library: &dyn Library, random: &mut Random, further: usize) -> Check<SetLot> {
    let count = if random.one_in(5) { MAX_RULES } else { random.size(1, 9) };
    let rules = random::rules_within(random, random::some_rule, count, 1_200);
    let steps = random.size(0, 12);
    honest_set(library, random, &rules, further, steps)
}

/// Every number of every record of honest sets, two further ones included, made another.
pub fn disturbed_records(library: &dyn Library, seed: u64, sets: usize) -> Check<Numbers> {
    let mut random = Random::new(seed);
    let mut numbers = Numbers::default();
    for _ in 0..sets {
        let lot = some_set(library, &mut random, 2)?;
        for place in 0..8 * lot.records.length() {
            let (record, at) = (place / 8, place % 8);
            let (number, bits) = lot.records.seen()[record].numbers()[at];
            for number in others(&mut random, number, bits) {
                let mut disturbed = lot.clone();
                put_number(&mut disturbed, record, at, number);
                numbers.add(take_one(library, &mut random, &mut disturbed)?);
            }
        }
    }
    Ok(numbers)
}

/// Off by one, extreme, with another bit at the top or in the middle, random; and one that adds
/// up to little with the size, in 32 bits. All in so many bits.
fn others(random: &mut Random, number: u64, bits: u32) -> [u64; 8] {
    let (more, less) = (number.wrapping_add(1), number.wrapping_sub(1));
    let (top, middle) = (number ^ 1 << (bits - 1), number ^ 1 << (bits / 2));
    [more, less, 0, u64::MAX, u64::MAX - 2, top, middle, random.word()]
}

fn put_number(lot: &mut SetLot, record: usize, at: usize, number: u64) {
    lot.records.part()[record] = lot.records.seen()[record].with_number(at, number);
}

/// Records exchanged, copied over one another, moved along; also with their first cells put
/// right, which is not noticed.
pub fn exchanged_records(library: &dyn Library, seed: u64, sets: usize) -> Check<Numbers> {
    let mut random = Random::new(seed);
    let mut numbers = Numbers::default();
    for _ in 0..sets {
        let lot = some_set(library, &mut random, 1)?;
        let rules = lot.records.length() - 1;
        for place in 0..rules * rules {
            let (one, other) = (place / rules, place % rules);
            for mut changed in exchanged(&mut random, &lot, one, other) {
                numbers.add(take_one(library, &mut random, &mut changed)?);
            }
        }
        let mut moved = lot.clone();
        moved.records.part().rotate_left(1);
        numbers.add(take_one(library, &mut random, &mut moved)?);
    }
    Ok(numbers)
}

fn exchanged(random: &mut Random, lot: &SetLot, one: usize, other: usize) -> [SetLot; 4] {
    let mut whole = lot.clone();
    whole.records.part().swap(one, other);
    let mut copied = lot.clone();
    copied.records.part()[one] = lot.records.seen()[other];
    let mut number = lot.clone();
    let at = random.below(8);
    put_number(&mut number, one, at, lot.records.seen()[other].numbers()[at].0);
    put_number(&mut number, other, at, lot.records.seen()[one].numbers()[at].0);
    let mut in_line = whole.clone();
    put_in_line(in_line.records.part());
    [whole, copied, number, in_line]
}

/// Each record's cells where those of the record before it end.
fn put_in_line(records: &mut [Running]) {
    let mut first = 0;
    for record in records {
        record.first = first;
        first = first.wrapping_add(record.cells);
    }
}

/// Honest records with another sheet: cut, longer, with another byte, with the bodies in
/// another order, or of other rules.
pub fn other_sheets(library: &dyn Library, seed: u64, sets: usize) -> Check<Numbers> {
    let mut random = Random::new(seed);
    let mut numbers = Numbers::default();
    for _ in 0..sets {
        let further = random.below(2);
        let lot = some_set(library, &mut random, further)?;
        for sheet in sheets_like(&mut random, lot.sheet.seen()) {
            let mut other = SetLot { sheet: Lent::new(&sheet), ..lot.clone() };
            numbers.add(take_one(library, &mut random, &mut other)?);
        }
    }
    Ok(numbers)
}

fn sheets_like(random: &mut Random, sheet: &[u8]) -> Vec<Vec<u8>> {
    let shorter = random.size(0, sheet.len());
    let cuts = (0..40).chain(shorter..shorter + 40).chain(sheet.len() - 3..sheet.len());
    let mut all: Vec<_> = cuts.filter_map(|end| sheet.get(..end)).map(<[u8]>::to_vec).collect();
    all.push([sheet, &random.bytes(3)].concat());
    for count in (0..=40).chain([255]) {
        let mut other = sheet.to_vec();
        other[0] = count;
        all.push(other);
    }
    for at in 0..sheet.len() {
        let mut other = sheet.to_vec();
        other[at] = if random.one_in(2) { random.byte() } else { other[at].wrapping_add(1) };
        all.push(other);
    }
    let mut rules = set_rules(sheet).expect("an honest sheet");
    rules.rotate_left(1);
    let body = |rule: &paper::SetRule| sheet[rule.start..rule.start + rule.size].to_vec();
    all.push(random::sheet_of(&rules.iter().map(body).collect::<Vec<_>>()));
    all.push(random::any_set_sheet(random));
    all
}

/// Records that are in line but which no opening gave: bodies of their sheet in any order and
/// number, parts of bodies among them, any tick and any live count, tables of noise, in lots of
/// about the right lengths.
pub fn forged_records(library: &dyn Library, seed: u64, count: usize) -> Check<Numbers> {
    let mut random = Random::new(seed);
    let mut numbers = Numbers::default();
    for _ in 0..count {
        let mut lot = forged_lot(&mut random);
        take_some(library, &mut random, &mut lot, 2, &mut numbers)?;
    }
    Ok(numbers)
}

fn forged_lot(random: &mut Random) -> SetLot {
    let rules = random::rule_set_of(random, random::some_rule);
    let mut sheet = random::sheet_of_rules(&rules);
    let places = rule_places(&sheet);
    let count = random.size(1, MAX_RULES.min(3 + rules.len()));
    sheet[0] = count as u8;
    let next = random.pick(&[0, 1, 5_000, MAX_TICKS - 2, MAX_TICKS - 1, MAX_TICKS]);
    let next = if random.one_in(4) { random.pick(&HIGH_TICKS) } else { next };
    let chosen: Vec<_> = (0..count).map(|_| random.pick(&places)).collect();
    let largest = chosen.iter().map(|place| place.history).max().unwrap_or(0);
    let opened = random.pick(&[largest, largest, largest + 1, largest.max(1) - 1, 4096, 4097]);
    let live = random.pick(&[0, 3, 300, u32::MAX]);
    let mut records: Vec<_> =
        chosen.iter().map(|place| Running { opened, next, live, ..place.record }).collect();
    put_in_line(&mut records);
    records.extend((0..random.below(3)).map(Running::guard));
    let cells: usize = records[..count].iter().map(|record| record.cells as usize).sum();
    let pairs: usize = records[..count].iter().map(|record| record.delay as usize + 1).sum();
    let words = CELL_WORDS * cells;
    let table = if random.one_in(6) { words - 1 } else { words + random.below(2) };
    let room = random.pick(&[2 * pairs, 3 * pairs, 6 * pairs, 6 * pairs, 2 * pairs - 1]);
    let length = if random.one_in(8) { opened + 1 } else { opened } as usize;
    SetLot {
        sheet: Lent::new(&sheet),
        records: Lent::new(&records),
        history: Lent::new(&random.bytes(length)),
        cells: Lent::new(&random_table(random, table)),
        report: Lent::new(&random.long_words(room)),
    }
}

/// A part of a sheet that opens as a body.
#[derive(Clone, Copy)]
struct RulePlace {
    record: Running,
    history: u16,
}

/// All of them: the rules' own bodies, and the formulas in them that name no variable of a
/// range around them.
fn rule_places(sheet: &[u8]) -> Vec<RulePlace> {
    let parts = set_rules(sheet).expect("the rules open together").into_iter().flat_map(|rule| {
        let end = rule.start + rule.size;
        (rule.start..end).flat_map(move |start| [(start, end), (start, start + 3)])
    });
    let place = |(start, end): (usize, usize)| {
        let figures = paper::figures(sheet.get(start..end)?).ok()?;
        let record = Running {
            start: start as u32,
            size: (end - start) as u32,
            cells: figures.cells as u32,
            delay: figures.delay as u16,
            ..Running::default()
        };
        Some(RulePlace { record, history: figures.history as u16 })
    };
    parts.filter_map(place).collect()
}

/// Records of 4,096 cells together and of more, of sheets that are refused with 27.
pub fn summed_records(library: &dyn Library) -> Check<Numbers> {
    let mut numbers = Numbers::default();
    let largest = |count| vec![4096; count];
    let sums: [(Vec<u64>, u32); 7] = [
        (vec![4095, 1], 0),
        (vec![4095, 2], 21),
        (vec![1; 32], 0),
        ([vec![4066], vec![1; 31]].concat(), 21),
        ([vec![1; 31], vec![4066]].concat(), 21),
        (largest(16), 21),
        (largest(32), 21),
    ];
    for (cells, due) in sums {
        let rules: Vec<Rule> = cells.iter().map(|&cells| random::rule_of_cells(cells)).collect();
        let mut lot = unopened(&rules);
        let number = set_step(library, &mut lot, 1)?.0;
        demand!(number == due, "records of {cells:?} cells answered {number}, due is {due}");
        numbers.add(number);
    }
    Ok(numbers)
}

/// What an opening would give, were the rules few enough, with memory for it.
pub(super) fn unopened(rules: &[Rule]) -> SetLot {
    let sheet = random::sheet_of_rules(rules);
    let rules = paper::sheet_rules(&sheet).expect("each rule opens by itself");
    let set = paper::OpenedSet { rules, history_length: MAX_HISTORY };
    SetLot {
        sheet: Lent::new(&sheet),
        records: Lent::new(&records::fresh(&set)),
        history: Lent::new(&[0; MAX_HISTORY]),
        cells: Lent::new(&vec![0; set.needed_words()]),
        report: Lent::new(&vec![0; set.needed_report()]),
    }
}

/// Tables of noise and overwritten histories: "any other sheet, records or cell table [..] are
/// not noticed", and no other number comes either.
pub fn overwritten_sets(library: &dyn Library, seed: u64, sets: usize) -> Check<u64> {
    let mut random = Random::new(seed);
    let mut steps = 0;
    for _ in 0..sets {
        let mut lot = some_set(library, &mut random, 0)?;
        for _ in 0..12 {
            overwrite(&mut random, &mut lot.history);
            if random.one_in(3) {
                let noise = random_table(&mut random, lot.cells.length());
                lot.cells.part().copy_from_slice(&noise);
            }
            let number = take_one(library, &mut random, &mut lot)?;
            let about = || hex(lot.sheet.seen());
            demand!(number == 0, "memory overwritten: answered {number} for {}", about());
            steps += 1;
        }
    }
    Ok(steps)
}

/// "No rule's cells are touched by another's": one rule goes on as by itself, while the cells
/// and live counts of all others are overwritten.
pub fn disturbed_neighbours(library: &dyn Library, seed: u64, sets: usize) -> Check<u64> {
    let mut random = Random::new(seed);
    let mut reported = 0;
    for _ in 0..sets {
        let count = random.size(2, 9);
        let rules = random::rules_within(&mut random, random::some_rule, count, 1_200);
        let mut lot = honest_set(library, &mut random, &rules, 0, 0)?;
        let own = random.below(count);
        let mut watch = Watch::new(rules[own].formula.clone());
        for flag in random::stream(&mut random, 40) {
            disturb_all_but(&mut random, &mut lot, own);
            let (number, pairs, _) = set_step(library, &mut lot, flag)?;
            demand!(number == 0, "cells of others overwritten: answered {number}");
            let due = watch.step(flag);
            let words = lot.report.seen()[..2 * pairs].chunks(2);
            let part: Vec<u64> =
                words.filter(|pair| pair[0] == own as u64).map(|pair| pair[1]).collect();
            let live = lot.records.seen()[own].live as usize;
            let same = (&part, live) == (&due.report, due.live);
            demand!(same, "beside others: {part:?} and {live} live, due is {due:?}");
            reported += part.len() as u64;
        }
    }
    Ok(reported)
}

fn disturb_all_but(random: &mut Random, lot: &mut SetLot, own: usize) {
    let words = |record: &Running| {
        let first = CELL_WORDS * record.first as usize;
        first..first + CELL_WORDS * record.cells as usize
    };
    let kept = words(&lot.records.seen()[own]);
    let noise = random_table(random, lot.cells.length());
    for (at, word) in lot.cells.part().iter_mut().enumerate() {
        if !kept.contains(&at) {
            *word = noise[at];
        }
    }
    for (rule, record) in lot.records.part().iter_mut().enumerate() {
        if rule != own {
            record.live = random.word() as u32;
        }
    }
}
