//! A flag calendar, over lent words: marking ticks, and questions.
//!
//! Eight words keep 64 ticks: run r of flag k is word 8r + k, and in it the bit worth 2^i
//! tells whether the flag was up at tick 64r + i. A last group of fewer than eight words
//! keeps no ticks and is left as it is.

use crate::raw;
use crate::refusal::Refusal;

/// How many ticks these words keep, from tick 0 on: 64 for each full group of eight.
///
/// ```
/// use station_watch::calendar_kept;
///
/// assert_eq!(calendar_kept(&[0; 16]), 128);
/// assert_eq!(calendar_kept(&[0; 23]), 128);
/// ```
pub fn calendar_kept(words: &[u64]) -> u64 {
    64 * (words.len() as u64 / 8)
}

/// Zeroes the words, as an opening does: no flag is up at any tick.
///
/// ```
/// use station_watch::calendar_clear;
///
/// let mut words = [9; 10];
/// calendar_clear(&mut words);
/// assert_eq!(words, [0, 0, 0, 0, 0, 0, 0, 0, 9, 9]);
/// ```
pub fn calendar_clear(words: &mut [u64]) {
    // SAFETY: the pointer and length of a slice, which is borrowed alone.
    unsafe { raw::sw_calendar_clear(words.as_mut_ptr(), words.len()) }
}

/// Marks the ticks from `tick` on, one for each flag byte. Ticks past the words are not
/// kept. A mark stays: each tick is filled in once after the words were zeroed.
///
/// ```
/// use station_watch::calendar_fill;
///
/// let mut words = [0; 8];
/// calendar_fill(&mut words, 62, &[0x81, 0x01, 0xFF]); // the last is tick 64, past the words
/// assert_eq!(words, [3 << 62, 0, 0, 0, 0, 0, 0, 1 << 62]);
/// ```
pub fn calendar_fill(words: &mut [u64], tick: u64, flags: &[u8]) {
    // SAFETY: pointers and lengths of slices; the words, which are written, are borrowed alone.
    unsafe {
        raw::sw_calendar_fill(words.as_mut_ptr(), words.len(), tick, flags.as_ptr(), flags.len())
    }
}

/// At how many ticks from `first` to `last` the flag was up. Both ends are in the range; it
/// is empty if `first` is the larger, and is cut after the last kept tick. Refusal 7.
///
/// ```
/// use station_watch::{calendar_fill, calendar_ups, Refusal};
///
/// let mut words = [0; 8];
/// calendar_fill(&mut words, 10, &[1, 1, 0, 1]);
/// assert_eq!(calendar_ups(&words, 0, 11, 13), Ok(2));
/// assert_eq!(calendar_ups(&words, 0, 13, 11), Ok(0));
/// assert_eq!(calendar_ups(&words, 8, 11, 13), Err(Refusal::NoSuchFlag));
/// ```
pub fn calendar_ups(words: &[u64], flag: u8, first: u64, last: u64) -> Result<u64, Refusal> {
    asked_of_range(raw::sw_calendar_ups, words, flag, first, last)
}

/// The first tick from `first` to `last` at which the flag was up, if there is one in the
/// range, which is as that of [`calendar_ups`]. Refusal 7.
///
/// ```
/// use station_watch::{calendar_fill, calendar_first};
///
/// let mut words = [0; 8];
/// calendar_fill(&mut words, 10, &[1, 1, 0, 1]);
/// assert_eq!(calendar_first(&words, 0, 0, 12), Ok(Some(10)));
/// assert_eq!(calendar_first(&words, 0, 12, 12), Ok(None));
/// ```
pub fn calendar_first(
    words: &[u64],
    flag: u8,
    first: u64,
    last: u64,
) -> Result<Option<u64>, Refusal> {
    asked_of_range(raw::sw_calendar_first, words, flag, first, last).map(some_tick)
}

/// The last tick from `first` to `last` at which the flag was up, if there is one in the
/// range, which is as that of [`calendar_ups`]. Refusal 7.
///
/// ```
/// use station_watch::{calendar_fill, calendar_last};
///
/// let mut words = [0; 8];
/// calendar_fill(&mut words, 10, &[1, 1, 0, 1]);
/// assert_eq!(calendar_last(&words, 0, 0, 12), Ok(Some(11)));
/// assert_eq!(calendar_last(&words, 0, 0, u64::MAX), Ok(Some(13)));
/// ```
pub fn calendar_last(
    words: &[u64],
    flag: u8,
    first: u64,
    last: u64,
) -> Result<Option<u64>, Refusal> {
    asked_of_range(raw::sw_calendar_last, words, flag, first, last).map(some_tick)
}

/// The kept tick nearest to `tick` at which the flag was up, if there is one: the earlier
/// of two that are equally near. Refusal 7.
///
/// ```
/// use station_watch::{calendar_fill, calendar_nearest};
///
/// let mut words = [0; 8];
/// calendar_fill(&mut words, 10, &[1, 0, 1]);
/// assert_eq!(calendar_nearest(&words, 0, 11), Ok(Some(10)));
/// assert_eq!(calendar_nearest(&words, 0, 4_000), Ok(Some(12)));
/// assert_eq!(calendar_nearest(&words, 1, 11), Ok(None));
/// ```
pub fn calendar_nearest(words: &[u64], flag: u8, tick: u64) -> Result<Option<u64>, Refusal> {
    let mut nearest = 0;
    // SAFETY: the pointer and length of a slice, and a number of this frame.
    Refusal::unless_0(unsafe {
        raw::sw_calendar_nearest(words.as_ptr(), words.len(), flag, tick, &mut nearest)
    })?;
    Ok(some_tick(nearest))
}

/// A function that answers a question about a range of ticks.
type RangeQuestion = unsafe extern "C" fn(*const u64, usize, u8, u64, u64, answer: *mut u64) -> u32;

fn asked_of_range(
    question: RangeQuestion,
    words: &[u64],
    flag: u8,
    first: u64,
    last: u64,
) -> Result<u64, Refusal> {
    let mut answer = 0;
    // SAFETY: one of the three questions of raw.rs about a range; the pointer and length of
    // a slice, and a number of this frame.
    Refusal::unless_0(unsafe {
        question(words.as_ptr(), words.len(), flag, first, last, &mut answer)
    })?;
    Ok(answer)
}

fn some_tick(tick: u64) -> Option<u64> {
    (tick != raw::NO_TICK).then_some(tick)
}
