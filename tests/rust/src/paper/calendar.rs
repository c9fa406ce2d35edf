//! Document 02, point 5: "A flag calendar beside the stream." Tick by tick, and bit by bit.

use super::Refusal;

/// "Each run of 64 ticks", and the flags, each of which has a word in it.
const RUN: u64 = 64;
const FLAGS: u8 = 8;

/// How many ticks the words keep: those of the runs that have all of their words.
pub fn kept_ticks(words: &[u64]) -> u64 {
    RUN * (words.len() as u64 / u64::from(FLAGS))
}

/// "Run r of flag k is word 8r + k, its tick 64r + i the bit worth 2^i."
fn place(flag: u8, tick: u64) -> (usize, u64) {
    let (run, bit) = (tick / RUN, tick % RUN);
    ((8 * run + u64::from(flag)) as usize, 1 << bit)
}

/// Whether the flag was up at a kept tick.
pub fn is_up(words: &[u64], flag: u8, tick: u64) -> bool {
    let (word, bit) = place(flag, tick);
    words[word] & bit != 0
}

/// "Opening zeroes the words, and a last group under eight keeps its content."
pub fn clear(words: &mut [u64]) {
    let kept = kept_ticks(words);
    for tick in 0..kept {
        for flag in 0..FLAGS {
            let (word, bit) = place(flag, tick);
            words[word] &= !bit;
        }
    }
}

/// "A bit for every tick at which the flag was up." "Ticks past the lent words are not kept."
pub fn mark(words: &mut [u64], tick: u64, flags: u8) {
    if tick >= kept_ticks(words) {
        return;
    }
    for flag in 0..FLAGS {
        if flags >> flag & 1 == 1 {
            let (word, bit) = place(flag, tick);
            words[word] |= bit;
        }
    }
}

/// The flag bytes of the ticks from `tick` on. There are no ticks past 64 bits.
pub fn fill(words: &mut [u64], tick: u64, bytes: &[u8]) {
    for (tick, &flags) in (tick..=u64::MAX).zip(bytes) {
        mark(words, tick, flags);
    }
}

/// "The words agree with the stream": a flag is up at the kept ticks at which the stream has
/// it, and at no other.
pub fn agrees(words: &[u64], stream: &[u8]) -> bool {
    (0..kept_ticks(words)).all(|tick| {
        let flags = stream.get(tick as usize).copied().unwrap_or(0);
        (0..FLAGS).all(|flag| is_up(words, flag, tick) == (flags >> flag & 1 == 1))
    })
}

/// The ticks of a range at which a flag was up. "A range has both its ends in it and is empty
/// if the first is the larger. A range past the last kept tick is cut there". "A flag above 7
/// gets 7."
fn ticks_up(
    words: &[u64],
    flag: u8,
    first: u64,
    last: u64,
) -> Result<impl Iterator<Item = u64> + '_, Refusal> {
    if flag >= FLAGS {
        return Err(7);
    }
    let range = (first..kept_ticks(words)).take_while(move |&tick| tick <= last);
    Ok(range.filter(move |&tick| is_up(words, flag, tick)))
}

/// "The number of ups in any tick range."
pub fn ups(words: &[u64], flag: u8, first: u64, last: u64) -> Result<u64, Refusal> {
    Ok(ticks_up(words, flag, first, last)?.count() as u64)
}

/// "The first and last up in it." "None" is "where no tick in the range so cut is up".
pub fn first_up(words: &[u64], flag: u8, first: u64, last: u64) -> Result<Option<u64>, Refusal> {
    Ok(ticks_up(words, flag, first, last)?.next())
}

pub fn last_up(words: &[u64], flag: u8, first: u64, last: u64) -> Result<Option<u64>, Refusal> {
    Ok(ticks_up(words, flag, first, last)?.last())
}

/// "The up nearest to a tick, the earlier of two equally near." "The nearest is sought among
/// all kept ticks."
pub fn nearest_up(words: &[u64], flag: u8, tick: u64) -> Result<Option<u64>, Refusal> {
    let mut nearest: Option<u64> = None;
    for up in ticks_up(words, flag, 0, u64::MAX)? {
        if nearest.is_none_or(|nearest| up.abs_diff(tick) < nearest.abs_diff(tick)) {
            nearest = Some(up);
        }
    }
    Ok(nearest)
}
