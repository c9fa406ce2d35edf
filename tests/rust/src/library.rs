//! The boundary to the library: all calls but `sw_sentence`. "Every function answers 0 or 01's
//! refusal number; on a refusal nothing lent is changed."

/// The bytes of a state.
pub const STATE_BYTES: usize = 544;

pub type State = [u8; STATE_BYTES];

/// A record of a set: a running rule, in 32 bytes.
#[derive(Clone, Copy, Debug, Default, PartialEq, Eq)]
#[repr(C)]
pub struct Running {
    /// Its body in the sheet.
    pub start: u32,
    pub size: u32,
    /// Its part of the cell table, in cells.
    pub first: u32,
    pub cells: u32,
    pub delay: u16,
    /// The opened history's length, the same in all records.
    pub opened: u16,
    pub live: u32,
    /// The next tick, the same in all records.
    pub next: u64,
}

impl Running {
    /// The record that these 32 bytes are.
    pub fn of_words(words: [u32; 8]) -> Running {
        let [start, size, first, cells, delay_opened, live, low, high] = words;
        Running {
            start,
            size,
            first,
            cells,
            delay: delay_opened as u16,
            opened: (delay_opened >> 16) as u16,
            live,
            next: u64::from(high) << 32 | u64::from(low),
        }
    }

    /// Its numbers in their order, and how many bits each has.
    pub fn numbers(self) -> [(u64, u32); 8] {
        let Running { start, size, first, cells, delay, opened, live, next } = self;
        let [start, size, first, cells, live] =
            [start, size, first, cells, live].map(|number| (u64::from(number), 32));
        let [delay, opened] = [delay, opened].map(|number| (u64::from(number), 16));
        [start, size, first, cells, delay, opened, live, (next, 64)]
    }

    /// The record with another number at a place, of which it takes the bits that it has.
    pub fn with_number(mut self, at: usize, number: u64) -> Running {
        match at {
            0 => self.start = number as u32,
            1 => self.size = number as u32,
            2 => self.first = number as u32,
            3 => self.cells = number as u32,
            4 => self.delay = number as u16,
            5 => self.opened = number as u16,
            6 => self.live = number as u32,
            _ => self.next = number,
        }
        self
    }
}

/// How `outcome` answers a verdict.
pub const OPEN: u32 = 0;
pub const TRUE: u32 = 1;
pub const FALSE: u32 = 2;

/// How a question to a calendar answers that there is no such tick.
pub const NO_TICK: u64 = u64::MAX;

/// What a calendar is asked about a flag. A range is its first tick and its last.
#[derive(Clone, Copy, Debug)]
pub enum Question {
    /// At how many ticks of a range it was up.
    Ups(u64, u64),
    /// The first of them, or `NO_TICK`.
    First(u64, u64),
    /// The last of them, or `NO_TICK`.
    Last(u64, u64),
    /// The tick nearest to this one at which it was up, or `NO_TICK`.
    Nearest(u64),
}

/// Where `open`, `step` and `steps` write.
pub struct StepAnswer<'a> {
    pub reported: &'a mut usize,
    pub live: &'a mut usize,
}

pub struct StepsAnswer<'a> {
    pub taken: &'a mut usize,
    pub pairs: &'a mut usize,
    pub live: &'a mut usize,
}

/// Where the calls on a set write their answers.
pub struct SetFiguresAnswer<'a> {
    pub rules: &'a mut usize,
    pub history: &'a mut u64,
    pub cells: &'a mut u64,
    pub pairs: &'a mut u64,
}

pub struct SetStepAnswer<'a> {
    pub pairs: &'a mut usize,
    pub live: &'a mut usize,
}

pub struct SetStepsAnswer<'a> {
    pub taken: &'a mut usize,
    pub triples: &'a mut usize,
    pub live: &'a mut usize,
}

/// What a step of a set is lent, with the sheet.
pub struct SetLent<'a> {
    pub records: &'a mut [Running],
    pub history: &'a mut [u8],
    pub cells: &'a mut [u32],
    pub report: &'a mut [u64],
}

/// What a step is lent.
pub struct StepLent<'a> {
    pub history: &'a mut [u8],
    pub cells: &'a mut [u32],
    pub report: &'a mut [u64],
}

impl StepLent<'_> {
    /// The same, lent again.
    pub fn again(&mut self) -> StepLent<'_> {
        StepLent { history: self.history, cells: self.cells, report: self.report }
    }
}

/// These calls, with slices for pointers and lengths.
pub trait Library {
    /// Where a rule's body lies in its sheet.
    fn rule_place(&self, sheet: &[u8], rule: usize, start: &mut usize, size: &mut usize) -> u32;

    fn write_sheet(
        &self,
        lengths: &[u16],
        bodies: &[u8],
        out: &mut [u8],
        written: &mut usize,
    ) -> u32;

    /// The body of a rule's text.
    fn rule_from_text(&self, text: &[u8], body: &mut [u8], written: &mut usize) -> u32;

    /// A body as text.
    fn rule_to_text(&self, body: &[u8], text: &mut [u8], written: &mut usize) -> u32;

    fn figures(&self, body: &[u8], history: &mut u64, delay: &mut u64, cells: &mut u64) -> u32;

    fn outcome(
        &self,
        body: &[u8],
        recording: &[u8],
        tick: usize,
        verdict: &mut u32,
        step: &mut u64,
    ) -> u32;

    fn open(
        &self,
        sheet: &[u8],
        rule: usize,
        history: &mut [u8],
        cells: &[u32],
        state: &mut State,
    ) -> u32;

    fn step(&self, state: &mut State, flag: u8, lent: StepLent, answer: StepAnswer) -> u32;

    /// Many steps at once. The report gets pairs of tick and deciding step. It
    /// stops before a step for which fewer than 2 * (delay + 1) report words are
    /// left.
    fn steps(&self, state: &mut State, flags: &[u8], lent: StepLent, answer: StepsAnswer) -> u32;

    /// What all rules of a sheet need together.
    fn set_figures(&self, sheet: &[u8], answer: SetFiguresAnswer) -> u32;

    /// Opens all rules of a sheet.
    fn set_open(
        &self,
        sheet: &[u8],
        records: &mut [Running],
        history: &mut [u8],
        cells: &[u32],
    ) -> u32;

    /// A flag byte for all rules. The report gets pairs of rule and tick.
    fn set_step(&self, sheet: &[u8], flag: u8, lent: SetLent, answer: SetStepAnswer) -> u32;

    /// Many flag bytes. The report gets triples of rule, tick and deciding step. It stops
    /// before a step for which fewer than 3 * (sum of all delay + 1) report words are left.
    fn set_steps(&self, sheet: &[u8], flags: &[u8], lent: SetLent, answer: SetStepsAnswer) -> u32;

    /// As `open`, and zeroes the words of a calendar.
    fn calendar_open(
        &self,
        sheet: &[u8],
        rule: usize,
        history: &mut [u8],
        cells: &[u32],
        words: &mut [u64],
        state: &mut State,
    ) -> u32;

    /// As `step`, and marks its tick.
    fn calendar_step(
        &self,
        state: &mut State,
        flag: u8,
        lent: StepLent,
        words: &mut [u64],
        answer: StepAnswer,
    ) -> u32;

    /// As `steps`, and marks the ticks taken.
    fn calendar_steps(
        &self,
        state: &mut State,
        flags: &[u8],
        lent: StepLent,
        words: &mut [u64],
        answer: StepsAnswer,
    ) -> u32;

    fn calendar_clear(&self, words: &mut [u64]);

    /// Marks the ticks from `tick` on, each by its flag byte.
    fn calendar_fill(&self, words: &mut [u64], tick: u64, flags: &[u8]);

    /// A question about a flag.
    fn calendar_ask(&self, words: &[u64], flag: u8, question: Question, answer: &mut u64) -> u32;
}

#[cfg(feature = "library")]
pub use linked::Linked;

#[cfg(feature = "library")]
mod linked {
    use super::{
        Library, Question, Running, SetFiguresAnswer, SetLent, SetStepAnswer, SetStepsAnswer,
        State, StepAnswer, StepLent, StepsAnswer,
    };
    use station_watch::raw::*;

    /// The Rattle static library. Each call lends what its slices cover and no
    /// more; the pointer of an empty slice may dangle.
    pub struct Linked;

    impl Library for Linked {
        fn rule_place(
            &self,
            sheet: &[u8],
            rule: usize,
            start: &mut usize,
            size: &mut usize,
        ) -> u32 {
            // SAFETY: what slices cover, and what is written is borrowed alone.
            unsafe { sw_rule_place(sheet.as_ptr(), sheet.len(), rule, start, size) }
        }

        fn write_sheet(
            &self,
            lengths: &[u16],
            bodies: &[u8],
            out: &mut [u8],
            written: &mut usize,
        ) -> u32 {
            // SAFETY: what slices cover, and what is written is borrowed alone.
            unsafe {
                sw_write_sheet(
                    lengths.as_ptr(),
                    lengths.len(),
                    bodies.as_ptr(),
                    bodies.len(),
                    out.as_mut_ptr(),
                    out.len(),
                    written,
                )
            }
        }

        fn rule_from_text(&self, text: &[u8], body: &mut [u8], written: &mut usize) -> u32 {
            let (out, room) = (body.as_mut_ptr(), body.len());
            // SAFETY: what slices cover, and what is written is borrowed alone.
            unsafe { sw_rule_from_text(text.as_ptr(), text.len(), out, room, written) }
        }

        fn rule_to_text(&self, body: &[u8], text: &mut [u8], written: &mut usize) -> u32 {
            let (out, room) = (text.as_mut_ptr(), text.len());
            // SAFETY: what slices cover, and what is written is borrowed alone.
            unsafe { sw_rule_to_text(body.as_ptr(), body.len(), out, room, written) }
        }

        fn figures(&self, body: &[u8], history: &mut u64, delay: &mut u64, cells: &mut u64) -> u32 {
            // SAFETY: what slices cover, and what is written is borrowed alone.
            unsafe { sw_figures(body.as_ptr(), body.len(), history, delay, cells) }
        }

        fn outcome(
            &self,
            body: &[u8],
            recording: &[u8],
            tick: usize,
            verdict: &mut u32,
            step: &mut u64,
        ) -> u32 {
            // SAFETY: what slices cover, and what is written is borrowed alone.
            unsafe {
                sw_outcome(
                    body.as_ptr(),
                    body.len(),
                    recording.as_ptr(),
                    recording.len(),
                    tick,
                    verdict,
                    step,
                )
            }
        }

        fn open(
            &self,
            sheet: &[u8],
            rule: usize,
            history: &mut [u8],
            cells: &[u32],
            state: &mut State,
        ) -> u32 {
            // SAFETY: what slices cover, and what is written is borrowed alone.
            unsafe {
                sw_open(
                    sheet.as_ptr(),
                    sheet.len(),
                    rule,
                    history.as_mut_ptr(),
                    history.len(),
                    cells.as_ptr(),
                    cells.len(),
                    state.as_mut_ptr(),
                )
            }
        }

        fn step(&self, state: &mut State, flag: u8, lent: StepLent, answer: StepAnswer) -> u32 {
            // SAFETY: what slices cover, and what is written is borrowed alone.
            unsafe {
                sw_step(
                    state.as_mut_ptr(),
                    flag,
                    lent.history.as_mut_ptr(),
                    lent.history.len(),
                    lent.cells.as_mut_ptr(),
                    lent.cells.len(),
                    lent.report.as_mut_ptr(),
                    lent.report.len(),
                    answer.reported,
                    answer.live,
                )
            }
        }

        fn steps(
            &self,
            state: &mut State,
            flags: &[u8],
            lent: StepLent,
            answer: StepsAnswer,
        ) -> u32 {
            // SAFETY: what slices cover, and what is written is borrowed alone.
            unsafe {
                sw_steps(
                    state.as_mut_ptr(),
                    flags.as_ptr(),
                    flags.len(),
                    lent.history.as_mut_ptr(),
                    lent.history.len(),
                    lent.cells.as_mut_ptr(),
                    lent.cells.len(),
                    lent.report.as_mut_ptr(),
                    lent.report.len(),
                    answer.taken,
                    answer.pairs,
                    answer.live,
                )
            }
        }

        fn set_figures(&self, sheet: &[u8], answer: SetFiguresAnswer) -> u32 {
            let SetFiguresAnswer { rules, history, cells, pairs } = answer;
            // SAFETY: what slices cover, and what is written is borrowed alone.
            unsafe { sw_set_figures(sheet.as_ptr(), sheet.len(), rules, history, cells, pairs) }
        }

        fn set_open(
            &self,
            sheet: &[u8],
            records: &mut [Running],
            history: &mut [u8],
            cells: &[u32],
        ) -> u32 {
            // SAFETY: what slices cover, and what is written is borrowed alone; a record is
            // the same 32 bytes here and there (tests/header.rs).
            unsafe {
                sw_set_open(
                    sheet.as_ptr(),
                    sheet.len(),
                    records.as_mut_ptr().cast(),
                    records.len(),
                    history.as_mut_ptr(),
                    history.len(),
                    cells.as_ptr(),
                    cells.len(),
                )
            }
        }

        fn set_step(&self, sheet: &[u8], flag: u8, lent: SetLent, answer: SetStepAnswer) -> u32 {
            // SAFETY: as of `set_open`.
            unsafe {
                sw_set_step(
                    sheet.as_ptr(),
                    sheet.len(),
                    lent.records.as_mut_ptr().cast(),
                    lent.records.len(),
                    flag,
                    lent.history.as_mut_ptr(),
                    lent.history.len(),
                    lent.cells.as_mut_ptr(),
                    lent.cells.len(),
                    lent.report.as_mut_ptr(),
                    lent.report.len(),
                    answer.pairs,
                    answer.live,
                )
            }
        }

        fn set_steps(
            &self,
            sheet: &[u8],
            flags: &[u8],
            lent: SetLent,
            answer: SetStepsAnswer,
        ) -> u32 {
            // SAFETY: as of `set_open`.
            unsafe {
                sw_set_steps(
                    sheet.as_ptr(),
                    sheet.len(),
                    lent.records.as_mut_ptr().cast(),
                    lent.records.len(),
                    flags.as_ptr(),
                    flags.len(),
                    lent.history.as_mut_ptr(),
                    lent.history.len(),
                    lent.cells.as_mut_ptr(),
                    lent.cells.len(),
                    lent.report.as_mut_ptr(),
                    lent.report.len(),
                    answer.taken,
                    answer.triples,
                    answer.live,
                )
            }
        }

        fn calendar_open(
            &self,
            sheet: &[u8],
            rule: usize,
            history: &mut [u8],
            cells: &[u32],
            words: &mut [u64],
            state: &mut State,
        ) -> u32 {
            // SAFETY: what slices cover, and what is written is borrowed alone.
            unsafe {
                sw_calendar_open(
                    sheet.as_ptr(),
                    sheet.len(),
                    rule,
                    history.as_mut_ptr(),
                    history.len(),
                    cells.as_ptr(),
                    cells.len(),
                    words.as_mut_ptr(),
                    words.len(),
                    state.as_mut_ptr(),
                )
            }
        }

        fn calendar_step(
            &self,
            state: &mut State,
            flag: u8,
            lent: StepLent,
            words: &mut [u64],
            answer: StepAnswer,
        ) -> u32 {
            // SAFETY: what slices cover, and what is written is borrowed alone.
            unsafe {
                sw_calendar_step(
                    state.as_mut_ptr(),
                    flag,
                    lent.history.as_mut_ptr(),
                    lent.history.len(),
                    lent.cells.as_mut_ptr(),
                    lent.cells.len(),
                    lent.report.as_mut_ptr(),
                    lent.report.len(),
                    words.as_mut_ptr(),
                    words.len(),
                    answer.reported,
                    answer.live,
                )
            }
        }

        fn calendar_steps(
            &self,
            state: &mut State,
            flags: &[u8],
            lent: StepLent,
            words: &mut [u64],
            answer: StepsAnswer,
        ) -> u32 {
            // SAFETY: what slices cover, and what is written is borrowed alone.
            unsafe {
                sw_calendar_steps(
                    state.as_mut_ptr(),
                    flags.as_ptr(),
                    flags.len(),
                    lent.history.as_mut_ptr(),
                    lent.history.len(),
                    lent.cells.as_mut_ptr(),
                    lent.cells.len(),
                    lent.report.as_mut_ptr(),
                    lent.report.len(),
                    words.as_mut_ptr(),
                    words.len(),
                    answer.taken,
                    answer.pairs,
                    answer.live,
                )
            }
        }

        fn calendar_clear(&self, words: &mut [u64]) {
            // SAFETY: what slices cover, and what is written is borrowed alone.
            unsafe { sw_calendar_clear(words.as_mut_ptr(), words.len()) }
        }

        fn calendar_fill(&self, words: &mut [u64], tick: u64, flags: &[u8]) {
            let (out, room) = (words.as_mut_ptr(), words.len());
            // SAFETY: what slices cover, and what is written is borrowed alone.
            unsafe { sw_calendar_fill(out, room, tick, flags.as_ptr(), flags.len()) }
        }

        fn calendar_ask(
            &self,
            words: &[u64],
            flag: u8,
            question: Question,
            answer: &mut u64,
        ) -> u32 {
            let (start, length) = (words.as_ptr(), words.len());
            // SAFETY: what slices cover, and what is written is borrowed alone.
            unsafe {
                match question {
                    Question::Ups(first, last) => {
                        sw_calendar_ups(start, length, flag, first, last, answer)
                    }
                    Question::First(first, last) => {
                        sw_calendar_first(start, length, flag, first, last, answer)
                    }
                    Question::Last(first, last) => {
                        sw_calendar_last(start, length, flag, first, last, answer)
                    }
                    Question::Nearest(tick) => {
                        sw_calendar_nearest(start, length, flag, tick, answer)
                    }
                }
            }
        }
    }
}
