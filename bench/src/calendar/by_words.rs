//! A calendar plainly in Rust, word by word: the same loops as the library's, with the ones
//! counted and the zeros before or after them. `rust_tests::paper::calendar` has it tick by tick.

/// The words of a flag that have ticks of the range, each with the tick of its lowest bit, and
/// with the bits outside of the range down.
fn masked(
    words: &[u64],
    flag: u8,
    first: u64,
    last: u64,
) -> impl DoubleEndedIterator<Item = (u64, u64)> + '_ {
    let end = last.saturating_add(1).min(64 * (words.len() as u64 / 8));
    let runs = if first < end { first / 64..end.div_ceil(64) } else { 0..0 };
    runs.map(move |run| {
        let tick = 64 * run;
        let from_first = u64::MAX << first.saturating_sub(tick);
        let to_last = u64::MAX >> (tick + 64).saturating_sub(end);
        (tick, words[(8 * run) as usize + flag as usize] & from_first & to_last)
    })
}

pub fn ups(words: &[u64], flag: u8, first: u64, last: u64) -> u64 {
    masked(words, flag, first, last).map(|(_, word)| u64::from(word.count_ones())).sum()
}

pub fn first_up(words: &[u64], flag: u8, first: u64, last: u64) -> Option<u64> {
    let (tick, word) = masked(words, flag, first, last).find(|(_, word)| *word != 0)?;
    Some(tick + u64::from(word.trailing_zeros()))
}

pub fn last_up(words: &[u64], flag: u8, first: u64, last: u64) -> Option<u64> {
    let (tick, word) = masked(words, flag, first, last).rfind(|(_, word)| *word != 0)?;
    Some(tick + 63 - u64::from(word.leading_zeros()))
}

/// The last up to the tick, or the first after it that is nearer.
pub fn nearest_up(words: &[u64], flag: u8, tick: u64) -> Option<u64> {
    let Some(before) = last_up(words, flag, 0, tick) else {
        return first_up(words, flag, tick, u64::MAX);
    };
    if before == tick {
        return Some(tick);
    }
    let nearer = (tick - before - 1).saturating_add(tick);
    first_up(words, flag, tick, nearer).or(Some(before))
}

pub fn fill(words: &mut [u64], tick: u64, flags: &[u8]) {
    let kept = 64 * (words.len() as u64 / 8);
    for (tick, &byte) in (tick..kept).zip(flags) {
        let run = 8 * (tick / 64) as usize;
        for (flag, word) in words[run..run + 8].iter_mut().enumerate() {
            *word |= u64::from(byte >> flag & 1) << (tick % 64);
        }
    }
}
