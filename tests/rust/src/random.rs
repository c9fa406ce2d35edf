//! Random rules, bodies, streams and sheets, the same on every run: all come
//! from a fixed seed.

mod bodies;
mod calendars;
mod empty_ranges;
mod formulas;
mod sets;
mod sheets;
mod streams;
mod texts;

pub use bodies::{
    aimed, any_body, begun, crowded, endings, faulty_bounds, figure_boundary, loose_bytes,
    neighbours, places, twice_damaged, Neighbours, Place,
};
pub use calendars::{calendar_length, calendar_words, edge_ticks};
pub use empty_ranges::{often_empty_formula, often_empty_rule, some_rule, under_empty_range};
pub use formulas::{accepted_rule, depth, quantifiers, size, visits, wild_formula, Maker, Rule};
pub use sets::{
    any_set_sheet, refused_with, rule_ahead, rule_of, rule_of_cells, rule_set, rule_set_of,
    rules_within, sheet_of_rules,
};
pub use sheets::{damaged_sheet, sheet_bodies, sheet_of, sheet_with, writer_input, WriterInput};
pub use streams::stream;
pub use texts::{any_text, damage, deep_text, loose_text, typed};

/// The generator "splitmix64".
pub struct Random {
    state: u64,
}

impl Random {
    pub fn new(seed: u64) -> Random {
        Random { state: seed }
    }

    pub fn word(&mut self) -> u64 {
        self.state = self.state.wrapping_add(0x9E37_79B9_7F4A_7C15);
        let mut z = self.state;
        z = (z ^ (z >> 30)).wrapping_mul(0xBF58_476D_1CE4_E5B9);
        z = (z ^ (z >> 27)).wrapping_mul(0x94D0_49BB_1331_11EB);
        z ^ (z >> 31)
    }

    /// A number below `n`, which is not 0.
    pub fn below(&mut self, n: usize) -> usize {
        (self.word() % n as u64) as usize
    }

    /// A number from `low` to `high`, both included.
    pub fn between(&mut self, low: i64, high: i64) -> i64 {
        low + self.below((high - low + 1) as usize) as i64
    }

    pub fn size(&mut self, low: usize, high: usize) -> usize {
        low + self.below(high - low + 1)
    }

    pub fn one_in(&mut self, n: usize) -> bool {
        self.below(n) == 0
    }

    pub fn pick<T: Copy>(&mut self, from: &[T]) -> T {
        from[self.below(from.len())]
    }

    pub fn byte(&mut self) -> u8 {
        self.word() as u8
    }

    pub fn bytes(&mut self, count: usize) -> Vec<u8> {
        (0..count).map(|_| self.byte()).collect()
    }

    /// Words of a cell table.
    pub fn words(&mut self, count: usize) -> Vec<u32> {
        (0..count).map(|_| self.word() as u32).collect()
    }

    /// Words of a report.
    pub fn long_words(&mut self, count: usize) -> Vec<u64> {
        (0..count).map(|_| self.word()).collect()
    }
}
