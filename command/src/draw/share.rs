//! How many ticks of a stretch are marked, and the share in words and shades.

use super::scale::Stretch;
use station_watch::{Calendar, Refusal};

/// Marked ticks: those at which a flag is up, or a rule is broken. They are a flag of a
/// calendar, which is asked.
#[derive(Clone, Copy)]
pub struct Marked<'a> {
    pub calendar: &'a Calendar,
    pub flag: u8,
}

impl Marked<'_> {
    pub fn count(self, within: Stretch) -> Result<u64, Refusal> {
        self.calendar.ups(self.flag, within.first, within.last)
    }

    /// From the first of them to the last.
    pub fn extent(self, within: Stretch) -> Result<Option<Stretch>, Refusal> {
        let first = self.calendar.first_up(self.flag, within.first, within.last)?;
        let last = self.calendar.last_up(self.flag, within.first, within.last)?;
        Ok(first.zip(last).map(|(first, last)| Stretch { first, last }))
    }

    pub fn counts(self, columns: &[Stretch]) -> Result<Vec<u64>, Refusal> {
        columns.iter().map(|column| self.count(*column)).collect()
    }
}

/// The largest shade.
pub const ALL: usize = 5;

/// The shades in words: the share of ticks that are marked. Flags are up seldom, so that the
/// small shares are told apart.
pub const SHADES: [(&str, usize); ALL + 1] = [
    ("none", 0),
    ("under 1/100", 1),
    ("under 1/10", 2),
    ("under 1/2", 3),
    ("under all", 4),
    ("all", ALL),
];

/// The shades in words where every tick has its own column: of a flag at one tick.
const ONE_TICK: [(&str, usize); 2] = [("down", 0), ("up", ALL)];

/// The shades in words of a flag in columns of so many ticks.
pub fn flag_shades(each: u64) -> &'static [(&'static str, usize)] {
    match each {
        1 => &ONE_TICK,
        _ => &SHADES,
    }
}

/// The shade of so many marked ticks among all of a column.
pub fn shade(marked: u64, ticks: u64) -> usize {
    let under = |part: u64| marked.saturating_mul(part) < ticks;
    match marked {
        0 => 0,
        _ if marked == ticks => ALL,
        _ => 4 - [100, 10, 2].into_iter().filter(|part| under(*part)).count(),
    }
}
