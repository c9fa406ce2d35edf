//! Ticks in columns, and the round numbers of an axis.

/// The ticks from the first to the last, both of them included.
#[derive(Clone, Copy, Debug, PartialEq, Eq)]
pub struct Stretch {
    pub first: u64,
    pub last: u64,
}

impl Stretch {
    /// Every tick that a file can have.
    pub const ALL: Stretch = Stretch { first: 0, last: u64::MAX };

    pub fn ticks(self) -> u64 {
        self.last - self.first + 1
    }

    pub fn has(self, tick: u64) -> bool {
        (self.first..=self.last).contains(&tick)
    }

    /// Its columns of so many ticks. They begin at round ticks, wherever the stretch does, so
    /// that the first and the last may have fewer.
    pub fn columns(self, each: u64) -> impl Iterator<Item = Stretch> {
        (self.first / each..=self.last / each).map(move |column| Stretch {
            first: self.first.max(column * each),
            last: self.last.min(column * each + (each - 1)),
        })
    }

    /// The column of a tick that it has.
    pub fn column_of(self, tick: u64, each: u64) -> usize {
        (tick / each - self.first / each) as usize
    }

    /// The fewest ticks of a column, as a round number, with which at most so many columns
    /// are enough.
    pub fn column_ticks(self, most: usize) -> u64 {
        round(|each| self.last / each - self.first / each < most as u64)
    }

    /// The ticks that an axis names: the multiples of a number, or the first tick where there
    /// is none.
    pub fn named(self, step: u64) -> Vec<u64> {
        let multiples = self.first.div_ceil(step)..=self.last / step;
        let named: Vec<u64> = multiples.map(|times| times * step).collect();
        if named.is_empty() {
            return vec![self.first];
        }
        named
    }
}

/// The smallest of 1, 2, 5, 10, 20, 50, 100, .. that is enough.
pub fn round(enough: impl Fn(u64) -> bool) -> u64 {
    let powers = (0..20).map(|power| 10_u64.pow(power));
    let mut numbers = powers.flat_map(|power| [1, 2, 5].map(|times| power.saturating_mul(times)));
    numbers.find(|number| enough(*number)).unwrap_or(u64::MAX)
}
