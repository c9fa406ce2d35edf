//! Document 01, with what document 02 changed of it, read literally. Comments in
//! quotation marks are their sentences.
//! Nothing here is shared with the library, and nothing is meant to be fast.

mod body;
pub mod calendar;
mod calls;
mod figures;
mod meaning;
mod sets;
mod sheet;
pub mod text;

pub use body::{read_body, write_body, Bound, Formula};
pub use calls::{answer_at, decided_by, open, step_refusal, Answer, Lengths, Opened, Watch};
pub use figures::{
    always_empty, exact_cells, figures, figures_without, formula_figures, tick_pair, variable_pair,
    Figures, Low, Pair, Uncounted,
};
pub use meaning::{evaluate, outcome, rule_outcome, Outcome, Verdict};
pub use sets::{
    all_cells, open_set, set_rules, set_step_refusal, sheet_rules, OpenedSet, SetAnswer,
    SetLengths, SetRule, SetWatch,
};
pub use sheet::{rule_body, rule_place, write_sheet};
pub use text::{body_of_text, text_of_body};

/// A refusal is its number in documents 01 and 02.
pub type Refusal = u32;

/// The last one.
pub const LAST_REFUSAL: Refusal = 27;
/// What a rule is refused with: for its bytes, then for its figures.
pub const RULE_REFUSALS: &[Refusal] = &[4, 5, 6, 7, 8, 9, 10, 23, 24, 11, 12, 13, 14, 15];
pub const BODY_REFUSALS: &[Refusal] = RULE_REFUSALS.split_at(9).0;

/// "A lent history of L bytes": at most this many (refusals 14 and 17).
pub const MAX_HISTORY: usize = 4096;
/// Refusal 12.
pub const MAX_DELAY: i64 = 255;
/// Refusal 15.
pub const MAX_CELLS: i128 = 4096;
/// "A cell has four 32-bit words."
pub const CELL_WORDS: usize = 4;
/// "At most 64 formulas in a body and 4 quantifiers nested."
pub const MAX_FORMULAS: usize = 64;
pub const MAX_NESTED: usize = 4;
/// "A signed 16-bit offset [..] from -4,095 to 4,095."
pub const MAX_OFFSET: i64 = 4095;
/// "A lent recording of up to 65,535 bytes."
pub const MAX_RECORDING: usize = 65_535;
/// "The number of rules n, 1 to 32."
pub const MAX_RULES: usize = 32;
/// "A length is 1 to 512."
pub const MAX_BODY: usize = 512;
/// How many ticks a rule can take. "Refusal 20 moves to every tick from 4,611,686,018,427,387,904 on."
pub const MAX_TICKS: u64 = 4_611_686_018_427_387_904;
