//! A rule that runs on a stream, over lent memory.

use crate::limits::{MAX_BODY, STATE_BYTES};
use crate::raw;
use crate::refusal::Refusal;
use crate::report::{as_words, Pair, Step, Steps};
use core::fmt;

/// Where the numbers lie in a state, after the body's 512 bytes.
const SIZE_AT: usize = 512;
const HISTORY_AT: usize = 520;
const NEXT_AT: usize = 528;
const LIVE_AT: usize = 536;

/// What an opened rule carries from step to step, over a history and a cell table that
/// the caller lends: hand every step the same two. (`Watch` keeps all three together.)
///
/// ```
/// use station_watch::{figures, rule_body, Refusal, State};
///
/// // For all Y from X - 1 to X, flag 0 at Y.
/// let sheet = [1, 5, 0, 12, 0, 5, 2, 0, 0xFF, 0xFF, 2, 0, 0, 0, 1, 1, 0];
/// let needs = figures(rule_body(&sheet, 0)?)?;
/// let mut history = vec![0; needs.history];
/// let mut cells = vec![0; needs.cell_words()];
/// let mut report = vec![0; needs.report_len()];
///
/// let mut state = State::open(&sheet, 0, &mut history, &cells)?;
/// let step = state.step(1, &mut history, &mut cells, &mut report)?;
/// assert_eq!((step.step, step.ticks, step.live), (0, &[][..], 0));
/// let step = state.step(0, &mut history, &mut cells, &mut report)?;
/// assert_eq!((step.step, step.ticks, step.live), (1, &[1][..], 0));
/// assert_eq!((state.next_tick(), state.live()), (2, 0));
/// # Ok::<(), Refusal>(())
/// ```
#[derive(Clone, PartialEq, Eq, Hash)]
pub struct State([u8; STATE_BYTES]);

impl State {
    /// Opens a rule of a sheet over a history, which is zeroed, and a cell table, which
    /// is only measured. Refusals 1 to 15, 23, 24, 17, 18.
    ///
    /// ```
    /// use station_watch::{Refusal, State};
    ///
    /// // Flag 0 at X needs 1 cell of 4 words and no history.
    /// let sheet = [1, 5, 0, 3, 0, 1, 0, 0];
    /// assert!(State::open(&sheet, 0, &mut [], &[0; 4]).is_ok());
    /// assert_eq!(State::open(&sheet, 0, &mut [], &[0; 3]), Err(Refusal::CellTableTooShort));
    /// ```
    pub fn open(
        sheet: &[u8],
        rule: usize,
        history: &mut [u8],
        cells: &[u32],
    ) -> Result<State, Refusal> {
        let mut bytes = [0; STATE_BYTES];
        // SAFETY: pointers and lengths of slices, and an array of a state's size; what is
        // written, the history and that array, is borrowed alone.
        Refusal::unless_0(unsafe {
            raw::sw_open(
                sheet.as_ptr(),
                sheet.len(),
                rule,
                history.as_mut_ptr(),
                history.len(),
                cells.as_ptr(),
                cells.len(),
                bytes.as_mut_ptr(),
            )
        })?;
        Ok(State(bytes))
    }

    /// Takes one flag byte, with a report of at least delay + 1 words. Refusals 17 to
    /// 20; 21 for a state that no opening gives.
    ///
    /// ```
    /// use station_watch::{Refusal, State};
    ///
    /// // Flag 0 at X.
    /// let mut cells = [0; 4];
    /// let mut state = State::open(&[1, 5, 0, 3, 0, 1, 0, 0], 0, &mut [], &cells)?;
    /// assert_eq!(state.step(0, &mut [], &mut cells, &mut []), Err(Refusal::ReportTooShort));
    /// assert_eq!(state.step(0, &mut [], &mut cells, &mut [0])?.ticks, [0]);
    /// # Ok::<(), Refusal>(())
    /// ```
    pub fn step<'r>(
        &mut self,
        flag: u8,
        history: &mut [u8],
        cells: &mut [u32],
        report: &'r mut [u64],
    ) -> Result<Step<'r>, Refusal> {
        let step = self.next_tick();
        let (mut reported, mut live) = (0, 0);
        // SAFETY: pointers and lengths of slices, an array of a state's size, and two
        // numbers of this frame; all are written, and each is borrowed alone.
        Refusal::unless_0(unsafe {
            raw::sw_step(
                self.0.as_mut_ptr(),
                flag,
                history.as_mut_ptr(),
                history.len(),
                cells.as_mut_ptr(),
                cells.len(),
                report.as_mut_ptr(),
                report.len(),
                &mut reported,
                &mut live,
            )
        })?;
        Ok(Step { step, ticks: &report[..reported], live })
    }

    /// Takes flag bytes one after another. It stops before a step for which fewer than
    /// delay + 1 pairs are left in the report: go on with the flags that were not taken.
    /// A report that is too short for one step takes none. Refusals 17, 18, 20, 21 of the
    /// first step, also where there are no flags; 20 later ends the batch before it.
    ///
    /// ```
    /// use station_watch::{Pair, Refusal, State};
    ///
    /// // Flag 0 at X.
    /// let mut cells = [0; 4];
    /// let mut state = State::open(&[1, 5, 0, 3, 0, 1, 0, 0], 0, &mut [], &cells)?;
    /// let mut report = [Pair::default(); 8];
    /// let steps = state.steps(&[1, 0, 1, 0], &mut [], &mut cells, &mut report)?;
    /// assert_eq!(steps.taken, 4);
    /// assert_eq!(steps.pairs, [Pair { tick: 1, step: 1 }, Pair { tick: 3, step: 3 }]);
    /// # Ok::<(), Refusal>(())
    /// ```
    pub fn steps<'r>(
        &mut self,
        flags: &[u8],
        history: &mut [u8],
        cells: &mut [u32],
        report: &'r mut [Pair],
    ) -> Result<Steps<'r>, Refusal> {
        let (mut taken, mut pairs, mut live) = (0, 0, 0);
        let words = as_words(report);
        // SAFETY: pointers and lengths of slices, an array of a state's size, and three
        // numbers of this frame; all but the flags are written, and each is borrowed alone.
        Refusal::unless_0(unsafe {
            raw::sw_steps(
                self.0.as_mut_ptr(),
                flags.as_ptr(),
                flags.len(),
                history.as_mut_ptr(),
                history.len(),
                cells.as_mut_ptr(),
                cells.len(),
                words.as_mut_ptr(),
                words.len(),
                &mut taken,
                &mut pairs,
                &mut live,
            )
        })?;
        Ok(Steps { taken, pairs: &report[..pairs], live })
    }

    /// Opens as [`open`](State::open) does, and zeroes the words of a calendar: every full
    /// group of eight, which keeps 64 ticks. Lend every step all of the words.
    ///
    /// ```
    /// use station_watch::{calendar_ups, Refusal, State};
    ///
    /// // Flag 0 at X.
    /// let (sheet, mut cells, mut words) = ([1, 5, 0, 3, 0, 1, 0, 0], [0; 4], [9; 8]);
    /// let mut state = State::calendar_open(&sheet, 0, &mut [], &cells, &mut words)?;
    /// assert_eq!(words, [0; 8]);
    /// state.calendar_step(0x81, &mut [], &mut cells, &mut [0], &mut words)?;
    /// state.calendar_step(0x01, &mut [], &mut cells, &mut [0], &mut words)?;
    /// assert_eq!(words, [3, 0, 0, 0, 0, 0, 0, 1]);
    /// assert_eq!(calendar_ups(&words, 0, 0, 1)?, 2);
    /// # Ok::<(), Refusal>(())
    /// ```
    pub fn calendar_open(
        sheet: &[u8],
        rule: usize,
        history: &mut [u8],
        cells: &[u32],
        words: &mut [u64],
    ) -> Result<State, Refusal> {
        let mut bytes = [0; STATE_BYTES];
        // SAFETY: pointers and lengths of slices, and an array of a state's size; what is
        // written, the history, the words and that array, is borrowed alone.
        Refusal::unless_0(unsafe {
            raw::sw_calendar_open(
                sheet.as_ptr(),
                sheet.len(),
                rule,
                history.as_mut_ptr(),
                history.len(),
                cells.as_ptr(),
                cells.len(),
                words.as_mut_ptr(),
                words.len(),
                bytes.as_mut_ptr(),
            )
        })?;
        Ok(State(bytes))
    }

    /// Takes one flag byte as [`step`](State::step) does, and marks its tick in the words of
    /// a calendar, if they keep it.
    ///
    /// ```
    /// use station_watch::{calendar_first, Refusal, State};
    ///
    /// // Flag 0 at X.
    /// let (sheet, mut cells, mut words) = ([1, 5, 0, 3, 0, 1, 0, 0], [0; 4], [0; 8]);
    /// let mut state = State::calendar_open(&sheet, 0, &mut [], &cells, &mut words)?;
    /// let mut report = [0];
    /// let step = state.calendar_step(0x80, &mut [], &mut cells, &mut report, &mut words)?;
    /// assert_eq!(step.ticks, [0]);
    /// assert_eq!(calendar_first(&words, 7, 0, 63)?, Some(0));
    /// # Ok::<(), Refusal>(())
    /// ```
    pub fn calendar_step<'r>(
        &mut self,
        flag: u8,
        history: &mut [u8],
        cells: &mut [u32],
        report: &'r mut [u64],
        words: &mut [u64],
    ) -> Result<Step<'r>, Refusal> {
        let step = self.next_tick();
        let (mut reported, mut live) = (0, 0);
        // SAFETY: pointers and lengths of slices, an array of a state's size, and two
        // numbers of this frame; all are written, and each is borrowed alone.
        Refusal::unless_0(unsafe {
            raw::sw_calendar_step(
                self.0.as_mut_ptr(),
                flag,
                history.as_mut_ptr(),
                history.len(),
                cells.as_mut_ptr(),
                cells.len(),
                report.as_mut_ptr(),
                report.len(),
                words.as_mut_ptr(),
                words.len(),
                &mut reported,
                &mut live,
            )
        })?;
        Ok(Step { step, ticks: &report[..reported], live })
    }

    /// Takes flag bytes one after another as [`steps`](State::steps) does, and marks the
    /// ticks of those that were taken in the words of a calendar, as far as they keep them.
    ///
    /// ```
    /// use station_watch::{calendar_last, Pair, Refusal, State};
    ///
    /// // Flag 0 at X.
    /// let (sheet, mut cells, mut words) = ([1, 5, 0, 3, 0, 1, 0, 0], [0; 4], [0; 8]);
    /// let mut state = State::calendar_open(&sheet, 0, &mut [], &cells, &mut words)?;
    /// let mut report = [Pair::default(); 1];
    /// let steps =
    ///     state.calendar_steps(&[1, 0, 1], &mut [], &mut cells, &mut report, &mut words)?;
    /// assert_eq!((steps.taken, steps.pairs), (2, &[Pair { tick: 1, step: 1 }][..]));
    /// assert_eq!(calendar_last(&words, 0, 0, 63)?, Some(0));
    /// # Ok::<(), Refusal>(())
    /// ```
    pub fn calendar_steps<'r>(
        &mut self,
        flags: &[u8],
        history: &mut [u8],
        cells: &mut [u32],
        report: &'r mut [Pair],
        words: &mut [u64],
    ) -> Result<Steps<'r>, Refusal> {
        let (mut taken, mut pairs, mut live) = (0, 0, 0);
        let report_words = as_words(report);
        // SAFETY: pointers and lengths of slices, an array of a state's size, and three
        // numbers of this frame; all but the flags are written, and each is borrowed alone.
        Refusal::unless_0(unsafe {
            raw::sw_calendar_steps(
                self.0.as_mut_ptr(),
                flags.as_ptr(),
                flags.len(),
                history.as_mut_ptr(),
                history.len(),
                cells.as_mut_ptr(),
                cells.len(),
                report_words.as_mut_ptr(),
                report_words.len(),
                words.as_mut_ptr(),
                words.len(),
                &mut taken,
                &mut pairs,
                &mut live,
            )
        })?;
        Ok(Steps { taken, pairs: &report[..pairs], live })
    }

    /// The rule's body, as it was opened.
    ///
    /// ```
    /// use station_watch::{Refusal, State};
    ///
    /// let state = State::open(&[1, 5, 0, 3, 0, 1, 0, 7], 0, &mut [], &[0; 4])?;
    /// assert_eq!(state.body(), [1, 0, 7]);
    /// # Ok::<(), Refusal>(())
    /// ```
    pub fn body(&self) -> &[u8] {
        match usize::try_from(self.number_at(SIZE_AT)) {
            Ok(size) if size <= MAX_BODY => &self.0[..size],
            _ => &[], // no opening gives it; to the library too it is an empty body
        }
    }

    /// The length of the history that it was opened over.
    ///
    /// ```
    /// use station_watch::{Refusal, State};
    ///
    /// let state = State::open(&[1, 5, 0, 3, 0, 1, 0, 7], 0, &mut [9; 6], &[0; 4])?;
    /// assert_eq!(state.history_len(), 6);
    /// # Ok::<(), Refusal>(())
    /// ```
    pub fn history_len(&self) -> u64 {
        self.number_at(HISTORY_AT)
    }

    /// The tick that the next step takes: how many steps were taken.
    ///
    /// ```
    /// use station_watch::{Refusal, State};
    ///
    /// let state = State::open(&[1, 5, 0, 3, 0, 1, 0, 7], 0, &mut [], &[0; 4])?;
    /// assert_eq!(state.next_tick(), 0);
    /// # Ok::<(), Refusal>(())
    /// ```
    pub fn next_tick(&self) -> u64 {
        self.number_at(NEXT_AT)
    }

    /// How many ticks are still open.
    ///
    /// ```
    /// use station_watch::{Refusal, State};
    ///
    /// let state = State::open(&[1, 5, 0, 3, 0, 1, 0, 7], 0, &mut [], &[0; 4])?;
    /// assert_eq!(state.live(), 0);
    /// # Ok::<(), Refusal>(())
    /// ```
    pub fn live(&self) -> u64 {
        self.number_at(LIVE_AT)
    }

    /// The state as bytes, to be stored beside its history and cells.
    ///
    /// ```
    /// use station_watch::{Refusal, State};
    ///
    /// let state = State::open(&[1, 5, 0, 3, 0, 1, 0, 7], 0, &mut [], &[0; 4])?;
    /// assert_eq!(State::from_bytes(*state.as_bytes()), state);
    /// # Ok::<(), Refusal>(())
    /// ```
    pub fn as_bytes(&self) -> &[u8; STATE_BYTES] {
        &self.0
    }

    /// A state that was stored. Any bytes will do: each step looks at them anew.
    ///
    /// ```
    /// use station_watch::{Refusal, State, STATE_BYTES};
    ///
    /// let mut none = State::from_bytes([0; STATE_BYTES]);
    /// assert_eq!(none.step(1, &mut [], &mut [], &mut []), Err(Refusal::StateNotOpened));
    /// ```
    pub fn from_bytes(bytes: [u8; STATE_BYTES]) -> State {
        State(bytes)
    }

    /// A number of 64 bits, low byte first.
    fn number_at(&self, at: usize) -> u64 {
        let mut bytes = [0; 8];
        bytes.copy_from_slice(&self.0[at..at + 8]);
        u64::from_le_bytes(bytes)
    }
}

impl fmt::Debug for State {
    fn fmt(&self, f: &mut fmt::Formatter<'_>) -> fmt::Result {
        f.debug_struct("State")
            .field("body", &format_args!("{} bytes", self.number_at(SIZE_AT)))
            .field("history", &format_args!("{} bytes", self.history_len()))
            .field("next_tick", &self.next_tick())
            .field("live", &self.live())
            .finish()
    }
}
