//! Words of calendars, and ticks at their edges.

use super::Random;
use crate::paper::calendar::kept_ticks;

/// How many words are lent: full groups of eight, one more or less, or any.
pub fn calendar_length(random: &mut Random) -> usize {
    match random.below(8) {
        0 => random.below(8),
        1 => random.below(90),
        2 => 8,
        3 => 16,
        _ => (8 * random.size(1, 6) + random.pick(&[0, 0, 1, 3])) - random.below(2),
    }
}

/// So many words of any content: none or all up, single ups or downs, at the ends of runs,
/// noise.
pub fn calendar_words(random: &mut Random, length: usize) -> Vec<u64> {
    let kind = random.below(7);
    let seldom = random.size(1, 20);
    let mut word = || match kind {
        0 => 0,
        1 => u64::MAX,
        2 if random.one_in(seldom) => 1 << random.below(64),
        3 if random.one_in(seldom) => !(1 << random.below(64)),
        3 => u64::MAX,
        4 if random.one_in(seldom) => random.pick(&[1, 1 << 63, 1 | 1 << 63, 3, 3 << 62]),
        2 | 4 => 0,
        _ => random.word(),
    };
    (0..length).map(|_| word()).collect()
}

/// Ticks at every edge of these words and of 64 bits, and some between.
pub fn edge_ticks(random: &mut Random, words: &[u64]) -> Vec<u64> {
    let kept = kept_ticks(words);
    let near = |middle: u64| (middle.saturating_sub(1)..=middle + 1).collect::<Vec<_>>();
    let mut ticks = [near(0), near(64), near(kept), near(1 << 32), near(1 << 63)].concat();
    ticks.extend([2, 64].map(|back| kept.saturating_sub(back)));
    ticks.extend([kept + 64, u64::MAX - 1, u64::MAX]);
    ticks.extend((0..5).map(|_| random.below(kept as usize + 70) as u64));
    ticks.sort_unstable();
    ticks.dedup();
    ticks
}
