//! Streams of flag bytes: each flag has long runs, single ups, single downs,
//! alternations or noise, one after the other.

use super::Random;

/// A stream of flag bytes.
pub fn stream(random: &mut Random, length: usize) -> Vec<u8> {
    if random.one_in(10) {
        return random.bytes(length);
    }
    let mut bytes = vec![0u8; length];
    for flag in 0..8 {
        for (byte, up) in bytes.iter_mut().zip(wave(random, length)) {
            *byte |= (up as u8) << flag;
        }
    }
    bytes
}

/// One flag over time, made of stretches of different patterns.
fn wave(random: &mut Random, length: usize) -> Vec<bool> {
    let mut ups = Vec::with_capacity(length);
    while ups.len() < length {
        let stretch = random.size(1, 60);
        let pattern = random.below(7);
        let level = random.one_in(2);
        let period = random.size(2, 9);
        for k in 0..stretch {
            ups.push(match pattern {
                // A long run.
                0 | 1 => level,
                // Mostly up, or mostly down.
                2 => level ^ random.one_in(12),
                // Up, with single downs at random.
                3 => !random.one_in(period),
                // Single ups, or single downs, at a period.
                4 => level ^ (k % period == 0),
                // Alternation of runs.
                5 => (k / (period / 2)) % 2 == 0,
                _ => random.one_in(2),
            });
        }
    }
    ups.truncate(length);
    ups
}
