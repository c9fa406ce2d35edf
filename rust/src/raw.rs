//! The functions of include/station_watch.h, as C sees them.
//!
//! The header says of each what it answers, what memory holds afterwards, and what a
//! caller owes: pointers that are not null, aligned, and apart from each other.
//!
//! ```
//! use station_watch::raw::sw_figures;
//!
//! let body = [1, 0, 7]; // flag 7 at X
//! let (mut history, mut delay, mut cells) = (0, 0, 0);
//! // SAFETY: the pointer and length of an array, and three numbers of this frame.
//! let answer = unsafe {
//!     sw_figures(body.as_ptr(), body.len(), &mut history, &mut delay, &mut cells)
//! };
//! assert_eq!((answer, history, delay, cells), (0, 0, 0, 1));
//! ```

use crate::report::Pair;
use crate::set::Running;

/// What `sw_outcome` answers as a verdict: open.
pub const OPEN: u32 = 0;
/// What `sw_outcome` answers as a verdict: true.
pub const TRUE: u32 = 1;
/// What `sw_outcome` answers as a verdict: false.
pub const FALSE: u32 = 2;

/// What `sw_check_report` answers: the list is the complete report.
pub const REPORT_SAME: u32 = 0;
/// What `sw_check_report` answers: the complete report has another violation there.
pub const REPORT_DIFFERS: u32 = 1;
/// What `sw_check_report` answers: the complete report has ended where the list goes on.
pub const REPORT_ENDS: u32 = 2;

/// What a question to a calendar answers as a tick where there is none.
pub const NO_TICK: u64 = u64::MAX;

extern "C" {
    /// Where the body of a rule lies in a sheet.
    pub fn sw_rule_place(
        sheet: *const u8,
        sheet_len: usize,
        rule: usize,
        start: *mut usize,
        size: *mut usize,
    ) -> u32;

    /// Writes the sheet of bodies.
    pub fn sw_write_sheet(
        lengths: *const u16,
        count: usize,
        bodies: *const u8,
        bodies_len: usize,
        out: *mut u8,
        out_len: usize,
        written: *mut usize,
    ) -> u32;

    /// The body of a rule's text.
    pub fn sw_rule_from_text(
        text: *const u8,
        text_len: usize,
        body: *mut u8,
        body_len: usize,
        written: *mut usize,
    ) -> u32;

    /// A body as text.
    pub fn sw_rule_to_text(
        body: *const u8,
        body_len: usize,
        text: *mut u8,
        text_len: usize,
        written: *mut usize,
    ) -> u32;

    /// The figures of a body.
    pub fn sw_figures(
        body: *const u8,
        body_len: usize,
        history: *mut u64,
        delay: *mut u64,
        cells: *mut u64,
    ) -> u32;

    /// The outcome of a body at a tick of a recording.
    pub fn sw_outcome(
        body: *const u8,
        body_len: usize,
        recording: *const u8,
        recording_len: usize,
        tick: usize,
        verdict: *mut u32,
        step: *mut u64,
    ) -> u32;

    /// Opens a rule of a sheet.
    pub fn sw_open(
        sheet: *const u8,
        sheet_len: usize,
        rule: usize,
        history: *mut u8,
        history_len: usize,
        cells: *const u32,
        cells_len: usize,
        state: *mut u8,
    ) -> u32;

    /// Takes one flag byte.
    pub fn sw_step(
        state: *mut u8,
        flag: u8,
        history: *mut u8,
        history_len: usize,
        cells: *mut u32,
        cells_len: usize,
        report: *mut u64,
        report_len: usize,
        reported: *mut usize,
        live: *mut usize,
    ) -> u32;

    /// Takes flag bytes one after another.
    pub fn sw_steps(
        state: *mut u8,
        flags: *const u8,
        flags_len: usize,
        history: *mut u8,
        history_len: usize,
        cells: *mut u32,
        cells_len: usize,
        report: *mut u64,
        report_len: usize,
        taken: *mut usize,
        pairs: *mut usize,
        live: *mut usize,
    ) -> u32;

    /// What all rules of a sheet need together.
    pub fn sw_set_figures(
        sheet: *const u8,
        sheet_len: usize,
        rules: *mut usize,
        history: *mut u64,
        cells: *mut u64,
        pairs: *mut u64,
    ) -> u32;

    /// Opens all rules of a sheet.
    pub fn sw_set_open(
        sheet: *const u8,
        sheet_len: usize,
        records: *mut Running,
        records_len: usize,
        history: *mut u8,
        history_len: usize,
        cells: *const u32,
        cells_len: usize,
    ) -> u32;

    /// Takes one flag byte for all rules.
    pub fn sw_set_step(
        sheet: *const u8,
        sheet_len: usize,
        records: *mut Running,
        records_len: usize,
        flag: u8,
        history: *mut u8,
        history_len: usize,
        cells: *mut u32,
        cells_len: usize,
        report: *mut u64,
        report_len: usize,
        pairs: *mut usize,
        live: *mut usize,
    ) -> u32;

    /// Takes flag bytes one after another for all rules.
    pub fn sw_set_steps(
        sheet: *const u8,
        sheet_len: usize,
        records: *mut Running,
        records_len: usize,
        flags: *const u8,
        flags_len: usize,
        history: *mut u8,
        history_len: usize,
        cells: *mut u32,
        cells_len: usize,
        report: *mut u64,
        report_len: usize,
        taken: *mut usize,
        triples: *mut usize,
        live: *mut usize,
    ) -> u32;

    /// Opens a rule of a sheet, and a calendar.
    pub fn sw_calendar_open(
        sheet: *const u8,
        sheet_len: usize,
        rule: usize,
        history: *mut u8,
        history_len: usize,
        cells: *const u32,
        cells_len: usize,
        words: *mut u64,
        words_len: usize,
        state: *mut u8,
    ) -> u32;

    /// Takes one flag byte, and marks its tick.
    pub fn sw_calendar_step(
        state: *mut u8,
        flag: u8,
        history: *mut u8,
        history_len: usize,
        cells: *mut u32,
        cells_len: usize,
        report: *mut u64,
        report_len: usize,
        words: *mut u64,
        words_len: usize,
        reported: *mut usize,
        live: *mut usize,
    ) -> u32;

    /// Takes flag bytes one after another, and marks their ticks.
    pub fn sw_calendar_steps(
        state: *mut u8,
        flags: *const u8,
        flags_len: usize,
        history: *mut u8,
        history_len: usize,
        cells: *mut u32,
        cells_len: usize,
        report: *mut u64,
        report_len: usize,
        words: *mut u64,
        words_len: usize,
        taken: *mut usize,
        pairs: *mut usize,
        live: *mut usize,
    ) -> u32;

    /// Zeroes the words of a calendar.
    pub fn sw_calendar_clear(words: *mut u64, words_len: usize);

    /// Marks the ticks of flag bytes.
    pub fn sw_calendar_fill(
        words: *mut u64,
        words_len: usize,
        tick: u64,
        flags: *const u8,
        flags_len: usize,
    );

    /// At how many ticks of a range a flag was up.
    pub fn sw_calendar_ups(
        words: *const u64,
        words_len: usize,
        flag: u8,
        first: u64,
        last: u64,
        ups: *mut u64,
    ) -> u32;

    /// The first tick of a range at which a flag was up.
    pub fn sw_calendar_first(
        words: *const u64,
        words_len: usize,
        flag: u8,
        first: u64,
        last: u64,
        tick: *mut u64,
    ) -> u32;

    /// The last tick of a range at which a flag was up.
    pub fn sw_calendar_last(
        words: *const u64,
        words_len: usize,
        flag: u8,
        first: u64,
        last: u64,
        tick: *mut u64,
    ) -> u32;

    /// The tick nearest to another at which a flag was up.
    pub fn sw_calendar_nearest(
        words: *const u64,
        words_len: usize,
        flag: u8,
        tick: u64,
        nearest: *mut u64,
    ) -> u32;

    /// Compares a list of violations with the complete report of a recording.
    pub fn sw_check_report(
        sheet: *const u8,
        sheet_len: usize,
        rule: usize,
        recording: *const u8,
        recording_len: usize,
        claimed: *const Pair,
        claimed_len: usize,
        difference: *mut u32,
        entry: *mut usize,
        tick: *mut u64,
        step: *mut u64,
    ) -> u32;

    /// Writes the complete report of a recording.
    pub fn sw_complete_report(
        sheet: *const u8,
        sheet_len: usize,
        rule: usize,
        recording: *const u8,
        recording_len: usize,
        report: *mut Pair,
        report_len: usize,
        written: *mut usize,
    ) -> u32;

    /// The sentence of a refusal, in ASCII with a 0 after it.
    pub fn sw_sentence(refusal: u32, out: *mut u8, out_len: usize, written: *mut usize) -> u32;
}
