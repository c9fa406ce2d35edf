//! The sizes that the papers fix, and the library's own.

/// The most rules of a sheet.
pub const MAX_RULES: usize = 32;

/// The most bytes of a rule's body.
pub const MAX_BODY: usize = 512;

/// The bytes of the largest sheet: a count, an entry of four bytes for each rule, and
/// the bodies.
///
/// ```
/// assert_eq!(station_watch::MAX_SHEET, 16_513);
/// ```
pub const MAX_SHEET: usize = 1 + MAX_RULES * (4 + MAX_BODY);

/// The most bytes of a rule's text; enough also for the text of any body.
pub const MAX_TEXT: usize = 4_096;

/// The most flag bytes of a recording.
pub const MAX_RECORDING: usize = 65_535;

/// The longest history that a rule can need, in bytes.
pub const MAX_HISTORY: usize = 4_096;

/// The largest delay of a rule, in ticks.
pub const MAX_DELAY: usize = 255;

/// The most cells that a rule can need.
pub const MAX_CELLS: usize = 4_096;

/// The words of a cell.
pub const CELL_WORDS: usize = 4;

/// The words of the largest cell table.
///
/// ```
/// assert_eq!(station_watch::MAX_CELL_WORDS, 16_384);
/// ```
pub const MAX_CELL_WORDS: usize = CELL_WORDS * MAX_CELLS;

/// The longest report that a rule can need: so many words for a step, and so many
/// pairs for a batch of steps.
///
/// ```
/// assert_eq!(station_watch::MAX_REPORT, 256);
/// ```
pub const MAX_REPORT: usize = MAX_DELAY + 1;

/// The longest report that a set of rules can need: so many pairs for a step, and so
/// many triples for a batch of steps. A rule has at least delay + 1 cells, and all rules
/// of a set have at most `MAX_CELLS`.
pub const MAX_SET_REPORT: usize = MAX_CELLS;

/// How many ticks a rule can take: 0 to 4,611,686,018,427,387,903. The next one, and each after
/// it, is refusal 20. At 200 ticks a second they last for over 700 million years.
///
/// ```
/// assert_eq!(station_watch::MAX_TICKS, 4_611_686_018_427_387_904);
/// ```
pub const MAX_TICKS: u64 = 1 << 62;

/// The bytes of a state.
pub const STATE_BYTES: usize = 544;

/// The bytes that are enough for the sentence of every refusal and the 0 after it.
pub const MAX_SENTENCE: usize = 128;

/// The bytes of stack of any call of the library, measured: docs/PERFORMANCE.md.
pub const MAX_STACK: usize = 49_152;
