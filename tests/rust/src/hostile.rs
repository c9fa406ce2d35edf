//! Hostile input: states and tables that no opening and no step left, lengths
//! of all sizes, overwritten histories. Guards stand around all that is lent. One rule
//! in three has many ranges that are always empty.
//!
//! "For another dishonest state or table it [21] may come before any other; one
//! not caught gets some ending step, which writes at most one history byte, the
//! cell table and the report." The library says exactly which are caught, so the
//! number of every call is checked (`lot`, `states`). The same of sets, whose state are
//! records (`sets`, `set_lot`, `records`), and of steps with a calendar (`calendars`).

mod calendars;
mod high_ticks;
mod lengths;
mod lot;
mod set_lengths;
mod set_lot;
mod sets;

use crate::compare::{self, hex, Check, Numbers, MARK};
use crate::demand;
use crate::lent::Lent;
use crate::library::{Library, StepAnswer, StepLent, StepsAnswer, STATE_BYTES};
use crate::paper::{CELL_WORDS, MAX_HISTORY, MAX_TICKS};
use crate::random::{self, Random, Rule, WriterInput};
use crate::states::{number_at, put_number, LIVE_AT, NEXT_AT, OPENED_AT, SIZE_AT};
pub use calendars::{calendar_states, empty_calendars, every_calendar_length, huge_calendars};
use high_ticks::HIGH_TICKS;
pub use high_ticks::{high_records, high_states};
pub use lengths::every_length;
use lot::{batch, honest, step, Lot};
pub use set_lengths::{
    empty_set_slices, every_set_length, forged_set_lengths, forged_set_ticks, huge_set_lengths,
    set_step_orders, DUE_SET_TICKS,
};
pub use sets::{
    disturbed_neighbours, disturbed_records, exchanged_records, forged_records, other_sheets,
    overwritten_sets, random_records, summed_records,
};

/// States and tables of random content, in lots of random lengths.
pub fn random_states(library: &dyn Library, seed: u64, count: usize) -> Check<Numbers> {
    let mut random = Random::new(seed);
    let mut numbers = Numbers::default();
    for _ in 0..count {
        let state = random_state(&mut random);
        let history_length = random.pick(&[0, 1, 2, 7, 64, 255, MAX_HISTORY, MAX_HISTORY + 1]);
        let (words, room) = (random.pick(&[0, 3, 12, 84, 900, 16_384]), random.size(0, 300));
        let (history, cells) = (random.bytes(history_length), random_table(&mut random, words));
        let mut lot = Lot::new(&state, &history, &cells, &random.long_words(room));
        take_some(library, &mut random, &mut lot, 3, &mut numbers)?;
    }
    Ok(numbers)
}

/// So many steps, then a batch of up to nine flags.
fn take_some(
    library: &dyn Library,
    random: &mut Random,
    lot: &mut Lot,
    steps: usize,
    numbers: &mut Numbers,
) -> Check {
    for _ in 0..steps {
        numbers.add(step(library, lot, random.byte())?.0);
    }
    let count = random.size(0, 9);
    let flags = random.bytes(count);
    numbers.add(batch(library, lot, &flags)?.0);
    Ok(())
}

fn random_state(random: &mut Random) -> Vec<u8> {
    match random.below(5) {
        0 => vec![random.pick(&[0, 1, 255]); STATE_BYTES],
        1 => (0..STATE_BYTES).map(|_| random.size(0, 5) as u8).collect(),
        2 => {
            // A body somewhere in it.
            let mut state: Vec<u8> = vec![0; STATE_BYTES];
            let body = random::some_rule(random).body;
            let at = random.below(STATE_BYTES - body.len());
            state[at..at + body.len()].copy_from_slice(&body);
            for _ in 0..random.size(0, 8) {
                let place = random.below(STATE_BYTES);
                state[place] = random.byte();
            }
            state
        }
        _ => random.bytes(STATE_BYTES),
    }
}

fn random_table(random: &mut Random, words: usize) -> Vec<u32> {
    match random.below(3) {
        0 => vec![random.pick(&[0, 1, u32::MAX]); words],
        1 => (0..words).map(|_| random.size(0, 4) as u32).collect(),
        _ => random.words(words),
    }
}

/// States of accepted rules whose numbers are around every limit, with noise in
/// the room after the body and in the table, in lots of about the right lengths.
pub fn forged_states(library: &dyn Library, seed: u64, count: usize) -> Check<Numbers> {
    let mut random = Random::new(seed);
    let mut numbers = Numbers::default();
    for _ in 0..count {
        let rule = random::some_rule(&mut random);
        let mut lot = forged_lot(&mut random, &rule);
        take_some(library, &mut random, &mut lot, 3, &mut numbers)?;
    }
    Ok(numbers)
}

fn forged_lot(random: &mut Random, rule: &Rule) -> Lot {
    let state = forged_state(random, rule);
    let own = (number_at(&state, OPENED_AT) as usize).min(2 * MAX_HISTORY);
    let length = if random.one_in(8) { random.pick(&[0, own + 1, MAX_HISTORY]) } else { own };
    let needed = CELL_WORDS * rule.figures.cells as usize;
    let words = random.pick(&[needed, needed, needed, needed + 3, needed - 1]);
    let one = rule.figures.delay as usize + 1;
    let room = random.pick(&[one, 2 * one, 2 * one + 3, 8 * one, 2 * one - 1, one - 1, 0]);
    let (history, cells) = (random.bytes(length), random_table(random, words));
    Lot::new(&state, &history, &cells, &random.long_words(room))
}

fn forged_state(random: &mut Random, rule: &Rule) -> Vec<u8> {
    let (body, least) = (forged_body(random, rule), rule.figures.history);
    let size = body.len() as u64;
    let sizes = [0, size - 1, size + 1, 512, 513, 65_536 + size, (1 << 32) + size, u64::MAX];
    let long = [least.saturating_sub(1), 4096, 4097, 65_536 + least, (1 << 32) + least, u64::MAX];
    let late = [MAX_TICKS, MAX_TICKS - 1, MAX_TICKS - 2, MAX_TICKS + 1, u64::MAX];
    let late = [&late[..], &HIGH_TICKS].concat();
    let early = random.below(1 << 20) as u64;
    let live = random.below(300) as u64;
    let mut state = random.bytes(STATE_BYTES);
    state[..body.len()].copy_from_slice(&body);
    let mut put = |at, right, wrong: &[u64], seldom| {
        let number = if random.one_in(seldom) { random.pick(wrong) } else { right };
        put_number(&mut state, at, number);
    };
    put(SIZE_AT, size, &sizes, 8);
    put(OPENED_AT, least, &long, 4);
    put(NEXT_AT, early, &late, 3);
    put(LIVE_AT, live, &[256, 1 << 32, u64::MAX], 4);
    state
}

/// The rule's body, or now and then one that is read but has no figures, or one of about 64
/// formulas.
fn forged_body(random: &mut Random, rule: &Rule) -> Vec<u8> {
    match random.below(20) {
        0 | 1 => {
            let number = random.size(11, 15) as u32;
            random::neighbours(random, number).outside
        }
        2 => random::crowded(random),
        _ => rule.body.clone(),
    }
}

/// Honest states and tables with some bytes or words changed, or not of one
/// another.
pub fn damaged_states(library: &dyn Library, seed: u64, count: usize) -> Check<Numbers> {
    let mut random = Random::new(seed);
    let mut numbers = Numbers::default();
    for _ in 0..count {
        let rule = random::some_rule(&mut random);
        let steps = random.size(0, 30);
        let mut lot = honest(library, &mut random, &rule, steps)?;
        match random.below(4) {
            0 => damage_state(&mut random, &mut lot),
            1 => damage_cells(&mut random, &mut lot),
            2 => {
                damage_state(&mut random, &mut lot);
                damage_cells(&mut random, &mut lot);
            }
            _ => take_foreign_state(library, &mut random, &mut lot)?,
        }
        take_some(library, &mut random, &mut lot, 6, &mut numbers)?;
    }
    Ok(numbers)
}

/// Some bytes of the body, or of the four numbers after it.
fn damage_state(random: &mut Random, lot: &mut Lot) {
    for _ in 0..random.size(1, 3) {
        let numbers = random.one_in(2);
        let at =
            if numbers { random.size(SIZE_AT, STATE_BYTES - 1) } else { random.below(SIZE_AT) };
        lot.state.part()[at] = match random.below(3) {
            0 => random.byte(),
            1 => lot.state.seen()[at] ^ (1 << random.below(8)),
            _ => lot.state.seen()[at].wrapping_add(1),
        };
    }
}

fn damage_cells(random: &mut Random, lot: &mut Lot) {
    let length = lot.cells.length();
    for _ in 0..random.size(1, 6) {
        let at = random.below(length);
        lot.cells.part()[at] = match random.below(4) {
            0 => random.word() as u32,
            1 => random.size(0, 300) as u32,
            2 => u32::MAX,
            _ => lot.cells.seen()[at].wrapping_add(1),
        };
    }
}

/// The state of another rule, or of another moment, in place of its own.
fn take_foreign_state(library: &dyn Library, random: &mut Random, lot: &mut Lot) -> Check {
    let rule = random::some_rule(random);
    let steps = random.size(0, 30);
    let other = honest(library, random, &rule, steps)?;
    lot.state.part().copy_from_slice(other.state.seen());
    if random.one_in(2) {
        lot.history = other.history;
    }
    if random.one_in(2) {
        lot.report = other.report;
    }
    let room = other.cells.length();
    if room > lot.cells.length() {
        let mut cells = lot.cells.seen().to_vec();
        cells.resize(room, 0);
        lot.cells = Lent::new(&cells);
    }
    Ok(())
}

/// "It [21] never comes for state and cells that an opening and its steps left,
/// [..] whichever history bytes were overwritten in between." As the lengths are
/// right, no other number comes either.
pub fn overwritten_histories(library: &dyn Library, seed: u64, count: usize) -> Check<u64> {
    let mut random = Random::new(seed);
    let mut steps = 0;
    for _ in 0..count {
        let rule = random::some_rule(&mut random);
        let taken = random.size(0, 20);
        let mut lot = honest(library, &mut random, &rule, taken)?;
        for _ in 0..30 {
            overwrite(&mut random, &mut lot.history);
            let number = step(library, &mut lot, random.byte())?.0;
            let about = hex(&rule.body);
            demand!(number == 0, "history overwritten: answered {number} for {about}");
            steps += 1;
        }
    }
    Ok(steps)
}

fn overwrite(random: &mut Random, history: &mut Lent<u8>) {
    let length = history.length();
    if length == 0 {
        return;
    }
    match random.below(3) {
        0 => {
            let noise = random.bytes(length);
            history.part().copy_from_slice(&noise);
        }
        1 => {
            let at = random.below(length);
            history.part()[at] = random.byte();
        }
        _ => {}
    }
}

/// "It [21] always comes, first of all, for a state whose L is above 4,096."
pub fn forged_lengths(library: &dyn Library) -> Check<u64> {
    let mut refused = 0;
    for length in [4097, 4098, 65_535, 65_536 + 513, (1 << 32) + 513, u64::MAX] {
        for lent in [0, 513, MAX_HISTORY, MAX_HISTORY + 1] {
            for (words, room) in [(4, 2), (0, 0)] {
                let mut lot = bare_flag(library, 513)?;
                put_number(lot.state.part(), OPENED_AT, length);
                lot.history = Lent::new(&vec![9; lent]);
                lot.cells = Lent::new(&vec![0; words]);
                lot.report = Lent::new(&vec![0; room]);
                let one = step(library, &mut lot, 0)?.0;
                let many = batch(library, &mut lot, &[0, 1])?.0;
                demand!((one, many) == (21, 21), "L {length}: answered {one} and {many}");
                refused += 2;
            }
        }
    }
    Ok(refused)
}

/// "Refusal 20 moves to every tick from 4,611,686,018,427,387,904 on." No test can take so many steps;
/// the tick is put into the state. For each tick: what a step answered, what a
/// batch of two flags after it answered, and how many of them it took.
pub const DUE_TICKS: &[(u64, u32, u32, usize)] = &[
    ((1 << 32) - 3, 0, 0, 2),
    ((1 << 32) - 2, 0, 0, 2),
    ((1 << 32) - 1, 0, 0, 2),
    (1 << 32, 0, 0, 2),
    (1 << 61, 0, 0, 2),
    (MAX_TICKS - 4, 0, 0, 2),
    (MAX_TICKS - 3, 0, 0, 2),
    (MAX_TICKS - 2, 0, 0, 1),
    (MAX_TICKS - 1, 0, 20, 0),
    (MAX_TICKS, 20, 20, 0),
    (MAX_TICKS + 1, 20, 20, 0),
    (MAX_TICKS + 6, 20, 20, 0),
    ((1 << 63) - 1, 20, 20, 0),
    (1 << 63, 20, 20, 0),
    ((1 << 63) + MAX_TICKS, 20, 20, 0),
    (u64::MAX - 1, 20, 20, 0),
    (u64::MAX, 20, 20, 0),
];

/// What came for the ticks of `DUE_TICKS`.
pub fn forged_ticks(library: &dyn Library) -> Check<Vec<(u64, u32, u32, usize)>> {
    DUE_TICKS.iter().map(|due| forged_tick(library, due.0)).collect()
}

fn forged_tick(library: &dyn Library, tick: u64) -> Check<(u64, u32, u32, usize)> {
    let mut lot = bare_flag(library, 0)?;
    put_number(lot.state.part(), NEXT_AT, tick);
    lot.report = Lent::new(&[0; 9]);
    let one = step(library, &mut lot, 0)?.0;
    let (many, taken) = batch(library, &mut lot, &[0, 1])?;
    Ok((tick, one, many, if many == 0 { taken } else { 0 }))
}

/// The rule "flag 0 at X", which has no history, no delay and one cell, opened
/// with a history of `length` bytes.
fn bare_flag(library: &dyn Library, length: usize) -> Check<Lot> {
    let sheet = random::sheet_of(&[vec![1, 0, 0]]);
    let mut lot = Lot::new(&[0; STATE_BYTES], &vec![0; length], &[0; 4], &[0; 2]);
    let (state, lent) = lot.lend();
    let number = library.open(&sheet, 0, lent.history, &[0; 4], state);
    demand!(number == 0, "opening a bare flag answered {number}");
    Ok(lot)
}

/// Empty slices, whose pointers dangle.
pub fn empty_slices(library: &dyn Library) -> Check {
    let (mut a, mut b) = (MARK as usize, MARK as usize);
    let (mut x, mut y, mut z) = (MARK, MARK, MARK);
    let mut verdict = MARK as u32;
    let flag = [1, 0, 0];
    let answers = [
        ("place", library.rule_place(&[], 0, &mut a, &mut b), 1),
        ("write", library.write_sheet(&[], &[], &mut [], &mut a), 1),
        ("write no bodies", library.write_sheet(&[1], &[], &mut [], &mut a), 2),
        ("write no room", library.write_sheet(&[1], &[0], &mut [], &mut a), 22),
        ("text", library.rule_from_text(&[], &mut [], &mut a), 25),
        ("text no room", library.rule_from_text(b"monitor x : @x.0", &mut [], &mut a), 22),
        ("print", library.rule_to_text(&[], &mut [], &mut a), 4),
        ("print no room", library.rule_to_text(&flag, &mut [], &mut a), 22),
        ("figures", library.figures(&[], &mut x, &mut y, &mut z), 4),
        ("outcome", library.outcome(&[], &[], 0, &mut verdict, &mut x), 4),
        ("no recording", library.outcome(&flag, &[], 0, &mut verdict, &mut x), 16),
        ("open", library.open(&[], 0, &mut [], &[], &mut [7; STATE_BYTES]), 1),
    ];
    for (call, number, due) in answers {
        demand!(number == due, "empty slices: {call} answered {number}, due is {due}");
    }
    let kept = a == MARK as usize && b == a && x == MARK && y == x && z == x;
    demand!(kept && verdict == MARK as u32, "empty slices: a refused call wrote an answer");
    empty_history(library)
}

/// "L = 0 stores nothing": a bare flag has no history, no delay, one cell.
fn empty_history(library: &dyn Library) -> Check {
    let sheet = random::sheet_of(&[vec![1, 0, 0]]);
    let mut state = [7; STATE_BYTES];
    let refused = library.open(&sheet, 0, &mut [], &[], &mut state);
    demand!(refused == 18 && state == [7; STATE_BYTES], "an empty table: answered {refused}");
    let mut cells = [9; 4];
    let number = library.open(&sheet, 0, &mut [], &cells, &mut state);
    demand!(number == 0, "an empty history: opening answered {number}");
    let (mut reported, mut live) = (5, 5);
    let lent = StepLent { history: &mut [], cells: &mut cells, report: &mut [] };
    let answer = StepAnswer { reported: &mut reported, live: &mut live };
    let number = library.step(&mut state, 0, lent, answer);
    demand!((number, reported, live) == (19, 5, 5), "an empty report: answered {number}");
    let mut report = [77];
    let lent = StepLent { history: &mut [], cells: &mut cells, report: &mut report };
    let answer = StepAnswer { reported: &mut reported, live: &mut live };
    let number = library.step(&mut state, 0, lent, answer);
    demand!((number, reported, live, report) == (0, 1, 0, [0]), "an empty history: {number}");
    let lent = StepLent { history: &mut [], cells: &mut cells, report: &mut [1, 2] };
    let (mut taken, mut pairs) = (5, 5);
    let answer = StepsAnswer { taken: &mut taken, pairs: &mut pairs, live: &mut live };
    let number = library.steps(&mut state, &[], lent, answer);
    demand!((number, taken, pairs, live) == (0, 0, 0, 0), "a batch of none: answered {number}");
    Ok(())
}

/// Buffers of many megabytes.
pub fn huge_lengths(library: &dyn Library) -> Check {
    const HUGE: usize = 1 << 22;
    let mut random = Random::new(5);
    let rule = random::some_rule(&mut random);
    let sheet = random::sheet_of(std::slice::from_ref(&rule.body));
    let mut followed = rule.body.clone();
    followed.resize(HUGE, 1);
    let mut long_sheet = sheet.clone();
    long_sheet.resize(HUGE, 0);
    let needed = CELL_WORDS * rule.figures.cells as usize;
    let least = rule.figures.history as usize;
    let noise = vec![0xA7; HUGE];
    let answers = [
        ("nots", compare::figures(library, &vec![2; HUGE])?, 9),
        ("bytes left over", compare::figures(library, &followed)?, 10),
        ("recording", compare::outcome(library, &rule.body, &noise, 0)?, 16),
        ("sheet", compare::place(library, &long_sheet, 0)?, 2),
        ("history", compare::opening(library, &mut random, &sheet, 0, (HUGE, needed))?, 17),
        ("table", compare::opening(library, &mut random, &sheet, 0, (least, HUGE))?, 0),
        ("lengths", compare::write(library, &mut random, &writer(vec![1; HUGE], 9, 9))?, 1),
        ("bodies", compare::write(library, &mut random, &writer(vec![1], HUGE, HUGE))?, 2),
        ("room", compare::write(library, &mut random, &writer(vec![1], 1, HUGE))?, 0),
        ("text", compare::from_text(library, &vec![b'~'; HUGE], 512)?, 25),
        ("text that begins well", compare::from_text(library, &typed(HUGE), 512)?, 25),
        ("room for a body", compare::from_text(library, b"monitor x : @x.0", HUGE)?, 0),
        ("nots to print", compare::to_text(library, &vec![2; HUGE], 512)?, 9),
        ("bytes left over to print", compare::to_text(library, &followed, 512)?, 10),
        ("room for a text", compare::to_text(library, &rule.body, HUGE)?, 0),
    ];
    for (call, number, due) in answers {
        demand!(number == due, "huge {call}: answered {number}, due is {due}");
    }
    huge_step(library, &mut random, HUGE)
}

fn writer(lengths: Vec<u16>, size: usize, room: usize) -> WriterInput {
    WriterInput { lengths, bodies: vec![0xB5; size], room }
}

/// The beginning of a rule, of so many bytes.
fn typed(length: usize) -> Vec<u8> {
    let mut text = b"monitor x : ".to_vec();
    text.resize(length, b'(');
    text
}

/// A step with a huge history, refused; with a huge table and report, taken.
fn huge_step(library: &dyn Library, random: &mut Random, huge: usize) -> Check {
    let rule = random::some_rule(random);
    let mut lot = honest(library, random, &rule, 5)?;
    let own = lot.history.clone();
    lot.history = Lent::new(&vec![3; huge]);
    let number = step(library, &mut lot, 1)?.0;
    demand!(number == 17, "a step with a huge history answered {number}");
    lot.history = own;
    let needed = lot.cells.length();
    let mut cells = lot.cells.seen().to_vec();
    cells.resize(huge, 0x0BAD_CE11);
    lot.cells = Lent::new(&cells);
    lot.report = Lent::new(&vec![0x0BAD_F00D; huge]);
    let (number, reported, _) = step(library, &mut lot, 1)?;
    demand!(number == 0, "a step with a huge table and report answered {number}");
    let tail = lot.cells.seen()[needed..].iter().all(|&word| word == 0x0BAD_CE11);
    demand!(tail, "a step wrote table words after the needed cells");
    let rest = lot.report.seen()[reported..].iter().all(|&word| word == 0x0BAD_F00D);
    demand!(rest, "a step wrote report words after its own");
    Ok(())
}
