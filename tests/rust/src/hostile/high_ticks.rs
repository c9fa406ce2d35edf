//! States and records that are forged to stand where 32 bits end, where ticks end that are
//! taken, and above: with histories and tables of noise, and with lengths that are right. "A
//! forged state gets some ending step or its refusal."

use super::lot::{batch, step, Lot};
use super::random_table;
use super::set_lot::{set_batch, set_step, SetLot};
use super::sets::unopened;
use crate::compare::{Check, Numbers};
use crate::demand;
use crate::lent::Lent;
use crate::library::Library;
use crate::paper::{CELL_WORDS, MAX_HISTORY, MAX_TICKS};
use crate::random::{self, Random};
use crate::states::{self, put_number, LIVE_AT, NEXT_AT};

/// Ticks around which something could change: where 32 bits end, where ticks end that are
/// taken, where a signed number of 64 bits ends, and where 64 bits end.
pub const HIGH_TICKS: [u64; 16] = [
    (1 << 32) - 3,
    (1 << 32) - 2,
    (1 << 32) - 1,
    1 << 32,
    (1 << 32) + 1,
    MAX_TICKS - 4,
    MAX_TICKS - 3,
    MAX_TICKS - 2,
    MAX_TICKS - 1,
    MAX_TICKS,
    MAX_TICKS + 1,
    MAX_TICKS + (1 << 32) - 1,
    (1 << 63) - 1,
    1 << 63,
    (1 << 63) + MAX_TICKS,
    u64::MAX,
];

/// The flags of a batch, of which a report has room for every step.
const FLAGS: usize = 3;

/// What a step and a batch at such a tick answer, and how many flags the batch takes.
fn due(tick: u64) -> (u32, u32, usize) {
    match MAX_TICKS.saturating_sub(tick) {
        0 => (20, 20, 0),
        left => (0, 0, FLAGS.min(left as usize)),
    }
}

/// Random rules at each of these ticks.
pub fn high_states(library: &dyn Library, seed: u64, rules: usize) -> Check<Numbers> {
    let mut random = Random::new(seed);
    let mut numbers = Numbers::default();
    for _ in 0..rules {
        let rule = random::some_rule(&mut random);
        let least = rule.figures.history as usize;
        let length = random.pick(&[least, (least + 1).min(MAX_HISTORY), MAX_HISTORY]);
        let words = CELL_WORDS * rule.figures.cells as usize;
        let room = 2 * FLAGS * (rule.figures.delay as usize + 1);
        for tick in HIGH_TICKS {
            let mut state = states::fresh(&rule.body, length);
            put_number(&mut state, NEXT_AT, tick);
            put_number(&mut state, LIVE_AT, random.below(rule.figures.delay as usize + 2) as u64);
            let table = random_table(&mut random, words);
            let history = random.bytes(length);
            let mut lot = Lot::new(&state, &history, &table, &random.long_words(room));
            high_state(library, &mut random, &mut lot, tick, &mut numbers)?;
        }
    }
    Ok(numbers)
}

fn high_state(
    library: &dyn Library,
    random: &mut Random,
    lot: &mut Lot,
    tick: u64,
    numbers: &mut Numbers,
) -> Check {
    let one = step(library, &mut lot.clone(), random.byte())?.0;
    let (many, taken) = batch(library, lot, &random.bytes(FLAGS))?;
    let seen = (one, many, if many == 0 { taken } else { 0 });
    demand!(seen == due(tick), "a state at {tick}: {seen:?}, due is {:?}", due(tick));
    numbers.add(one);
    numbers.add(many);
    if tick.saturating_add(FLAGS as u64) >= MAX_TICKS {
        // The batch came to the end: nothing is taken any more, also where there is no flag.
        let one = step(library, lot, random.byte())?.0;
        let (many, none) = (batch(library, lot, &[1, 2])?.0, batch(library, lot, &[])?.0);
        demand!([one, many, none] == [20; 3], "after the last tick: {one}, {many} and {none}");
    }
    Ok(())
}

/// Random sets at each of these ticks.
pub fn high_records(library: &dyn Library, seed: u64, sets: usize) -> Check<Numbers> {
    let mut random = Random::new(seed);
    let mut numbers = Numbers::default();
    for _ in 0..sets {
        let count = random.size(1, 6);
        let rules = random::rules_within(&mut random, random::some_rule, count, 1_200);
        let least = rules.iter().map(|rule| rule.figures.history as usize).max().unwrap_or(0);
        let length = random.pick(&[least, (least + 1).min(MAX_HISTORY), MAX_HISTORY]);
        let lot = unopened(&rules);
        let room = 3 * FLAGS * lot.report.length() / 2;
        for tick in HIGH_TICKS {
            let mut lot = SetLot {
                history: Lent::new(&random.bytes(length)),
                cells: Lent::new(&random_table(&mut random, lot.cells.length())),
                report: Lent::new(&random.long_words(room)),
                ..lot.clone()
            };
            for record in lot.records.part() {
                record.opened = length as u16;
                record.next = tick;
                record.live = random.below(usize::from(record.delay) + 2) as u32;
            }
            high_record(library, &mut random, &mut lot, tick, &mut numbers)?;
        }
    }
    Ok(numbers)
}

fn high_record(
    library: &dyn Library,
    random: &mut Random,
    lot: &mut SetLot,
    tick: u64,
    numbers: &mut Numbers,
) -> Check {
    let one = set_step(library, &mut lot.clone(), random.byte())?.0;
    let (many, taken) = set_batch(library, lot, &random.bytes(FLAGS))?;
    let seen = (one, many, if many == 0 { taken } else { 0 });
    demand!(seen == due(tick), "records at {tick}: {seen:?}, due is {:?}", due(tick));
    numbers.add(one);
    numbers.add(many);
    if tick.saturating_add(FLAGS as u64) >= MAX_TICKS {
        let one = set_step(library, lot, random.byte())?.0;
        let (many, none) = (set_batch(library, lot, &[1, 2])?.0, set_batch(library, lot, &[])?.0);
        demand!([one, many, none] == [20; 3], "after the last tick: {one}, {many} and {none}");
    }
    Ok(())
}
