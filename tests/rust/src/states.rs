//! The 544 bytes of a state, as the header says: 512 for the rule's body, then
//! four numbers of 64 bits, low byte first. And which number a step or a batch
//! is due on any such bytes, honest or not: the contract of the library leaves
//! nothing open there (crates/demand/specs/Contract.antt: `admit-lengths`, `Batched`).

use crate::library::{State, STATE_BYTES};
use crate::paper::{self, Lengths, Opened, Refusal, MAX_BODY, MAX_DELAY, MAX_HISTORY};

/// Where the numbers lie: the body's size, the opened history's length, the
/// next tick, the live count.
pub const SIZE_AT: usize = 512;
pub const OPENED_AT: usize = 520;
pub const NEXT_AT: usize = 528;
pub const LIVE_AT: usize = 536;

pub fn number_at(state: &[u8], at: usize) -> u64 {
    u64::from_le_bytes(state[at..at + 8].try_into().expect("eight bytes"))
}

pub fn put_number(state: &mut [u8], at: usize, number: u64) {
    state[at..at + 8].copy_from_slice(&number.to_le_bytes());
}

/// What an accepted opening writes: "the body with 0 after it, its size, the
/// history's length, next tick 0, 0 live".
pub fn fresh(body: &[u8], history_length: usize) -> State {
    let mut state = [0; STATE_BYTES];
    state[..body.len()].copy_from_slice(body);
    put_number(&mut state, SIZE_AT, body.len() as u64);
    put_number(&mut state, OPENED_AT, history_length as u64);
    state
}

/// What so many steps make of a state: the next tick and the live count are new,
/// "its other bytes are as they were".
pub fn put_taken(state: &mut [u8], steps: usize, live: usize) {
    let next = number_at(state, NEXT_AT) + steps as u64;
    put_number(state, NEXT_AT, next);
    put_number(state, LIVE_AT, live as u64);
}

/// The rule's body: the first `size` bytes; none for a size that has no room.
fn body(state: &[u8]) -> &[u8] {
    let size = number_at(state, SIZE_AT);
    if size > MAX_BODY as u64 {
        return &[];
    }
    &state[..size as usize]
}

/// What a step that is lent these lengths stands on, or the number it is refused
/// with. 21 comes first, for a state that no opening gives; then 17 to 20. A next tick that
/// no steps leave is not 21, but 20, in its place.
pub fn admit_step(state: &[u8], lent: Lengths) -> Result<Opened, Refusal> {
    let (length, next) = (number_at(state, OPENED_AT), number_at(state, NEXT_AT));
    if length > MAX_HISTORY as u64 {
        return Err(21);
    }
    let formula = paper::read_body(body(state)).map_err(|_| 21u32)?;
    let figures = paper::formula_figures(&formula).map_err(|_| 21u32)?;
    if length < figures.history {
        return Err(21);
    }
    let opened = Opened { formula, figures, history_length: length as usize };
    match paper::step_refusal(&opened, lent, next) {
        Some(number) => Err(number),
        None => Ok(opened),
    }
}

/// The same of a batch: it is refused as its first step would be whose report is
/// long enough, and so never with 19; also where there are no flags.
pub fn admit_batch(state: &[u8], lent: Lengths) -> Result<Opened, Refusal> {
    admit_step(state, Lengths { report: MAX_DELAY as usize + 1, ..lent })
}
