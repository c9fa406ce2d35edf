//! A rule that runs on a stream, with the memory that it needs.

use crate::calendar::Calendar;
use crate::figures::{figures, Figures};
use crate::limits::MAX_REPORT;
use crate::refusal::Refusal;
use crate::report::{as_words, Pair, Step};
use crate::sheet::rule_body;
use crate::state::State;
use alloc::vec;
use alloc::vec::Vec;
use core::fmt;

/// A rule that runs on a stream. It keeps its state, history, cells and report
/// together, so that a step can only be refused when tick numbers are used up (20).
///
/// ```
/// use station_watch::{sheet_of, Refusal, Watch};
///
/// // For all Y from X to X + 1, flag 0 at Y.
/// let sheet = sheet_of(&[&[5, 2, 0, 0, 0, 2, 0, 1, 0, 1, 1, 0]])?;
/// let mut watch = Watch::open(&sheet, 0)?;
/// let mut said = Vec::new();
/// for flag in [1, 1, 0] {
///     for violation in watch.step(flag)?.pairs() {
///         said.push(format!("violation {} at {}", violation.tick, violation.step));
///     }
/// }
/// assert_eq!(said, ["violation 1 at 2", "violation 2 at 2"]);
/// # Ok::<(), Refusal>(())
/// ```
#[derive(Clone)]
pub struct Watch {
    figures: Figures,
    state: State,
    history: Vec<u8>,
    cells: Vec<u32>,
    report: Vec<Pair>,
    /// Without words, unless one was asked for: then it keeps no ticks.
    calendar: Calendar,
}

impl Watch {
    /// Opens a rule of a sheet. Refusals 1 to 15, 23, 24.
    ///
    /// ```
    /// use station_watch::{sheet_of, Refusal, Watch};
    ///
    /// let sheet = sheet_of(&[&[1, 0, 7]])?;
    /// assert_eq!(Watch::open(&sheet, 0)?.next_tick(), 0);
    /// assert_eq!(Watch::open(&sheet, 1).unwrap_err(), Refusal::NoSuchRule);
    /// # Ok::<(), Refusal>(())
    /// ```
    pub fn open(sheet: &[u8], rule: usize) -> Result<Watch, Refusal> {
        Watch::calendar_open(sheet, rule, 0)
    }

    /// Opens a rule of a sheet, with a calendar that has room for at least so many ticks, a
    /// byte for each. Each step marks its tick in it; later ticks are not kept. Refusals as
    /// of [`open`](Watch::open). More ticks than there is memory for end as in
    /// [`Calendar::new`].
    ///
    /// ```
    /// use station_watch::{sheet_of, Refusal, Watch};
    ///
    /// // Flag 7 at X, for a day of one tick a second.
    /// let mut watch = Watch::calendar_open(&sheet_of(&[&[1, 0, 7]])?, 0, 86_400)?;
    /// watch.steps(&[0x01, 0x80, 0x81], |_| {})?;
    /// assert_eq!(watch.calendar().ups(7, 0, 86_399)?, 2);
    /// assert_eq!(watch.calendar().first_up(7, 0, 86_399)?, Some(1));
    /// # Ok::<(), Refusal>(())
    /// ```
    pub fn calendar_open(sheet: &[u8], rule: usize, ticks: u64) -> Result<Watch, Refusal> {
        let figures = figures(rule_body(sheet, rule)?)?;
        let mut history = vec![0; figures.history];
        let cells = vec![0; figures.cell_words()];
        let mut calendar = Calendar::new(ticks);
        let words = calendar.words_mut();
        let state = State::calendar_open(sheet, rule, &mut history, &cells, words)?;
        Ok(Watch { figures, state, history, cells, report: report(), calendar })
    }

    /// Takes one flag byte. Refusal 20.
    ///
    /// ```
    /// use station_watch::{sheet_of, Refusal, Watch};
    ///
    /// // Not flag 7 at X.
    /// let mut watch = Watch::open(&sheet_of(&[&[2, 1, 0, 7]])?, 0)?;
    /// assert_eq!(watch.step(0x7F)?.ticks, []);
    /// assert_eq!(watch.step(0x80)?.ticks, [1]);
    /// # Ok::<(), Refusal>(())
    /// ```
    pub fn step(&mut self, flag: u8) -> Result<Step<'_>, Refusal> {
        let (report, words) = (as_words(&mut self.report), self.calendar.words_mut());
        self.state.calendar_step(flag, &mut self.history, &mut self.cells, report, words)
    }

    /// Takes all of these flag bytes, one after another, and hands over the violations
    /// in the order in which they are decided. Refusal 20 where tick numbers are used up
    /// before the last flag: then the violations of the flags that were taken have been
    /// handed over, and `next_tick` tells how many those are.
    ///
    /// ```
    /// use station_watch::{sheet_of, Pair, Refusal, Watch};
    ///
    /// // Flag 0 at X.
    /// let mut watch = Watch::open(&sheet_of(&[&[1, 0, 0]])?, 0)?;
    /// let mut violations = Vec::new();
    /// watch.steps(&[1, 0, 1, 0], |violation| violations.push(violation))?;
    /// assert_eq!(violations, [Pair { tick: 1, step: 1 }, Pair { tick: 3, step: 3 }]);
    /// # Ok::<(), Refusal>(())
    /// ```
    pub fn steps(&mut self, flags: &[u8], mut take: impl FnMut(Pair)) -> Result<(), Refusal> {
        let mut rest = flags;
        while !rest.is_empty() {
            let (history, cells) = (&mut self.history, &mut self.cells);
            let (report, words) = (&mut self.report, self.calendar.words_mut());
            let steps = self.state.calendar_steps(rest, history, cells, report, words)?;
            steps.pairs.iter().copied().for_each(&mut take);
            rest = &rest[steps.taken..];
        }
        Ok(())
    }

    /// The calendar that its steps mark. One that was opened without keeps no ticks.
    ///
    /// ```
    /// use station_watch::{sheet_of, Refusal, Watch};
    ///
    /// let sheet = sheet_of(&[&[1, 0, 7]])?;
    /// assert_eq!(Watch::open(&sheet, 0)?.calendar().kept(), 0);
    /// assert_eq!(Watch::calendar_open(&sheet, 0, 100)?.calendar().kept(), 128);
    /// # Ok::<(), Refusal>(())
    /// ```
    pub fn calendar(&self) -> &Calendar {
        &self.calendar
    }

    /// The watch with this calendar, as it is, in place of its own: its next steps mark it.
    /// So a watch of stored parts goes on with the calendar that was stored beside them.
    ///
    /// ```
    /// use station_watch::{sheet_of, Calendar, Refusal, Watch};
    ///
    /// let mut watch = Watch::calendar_open(&sheet_of(&[&[1, 0, 7]])?, 0, 64)?;
    /// watch.step(0x80)?;
    /// let (bytes, words) = (watch.to_bytes(), watch.calendar().words().to_vec());
    ///
    /// let calendar = Calendar::from_words(words);
    /// let mut again = Watch::from_bytes(&bytes)?.with_calendar(calendar);
    /// again.step(0x80)?;
    /// assert_eq!(again.calendar().ups(7, 0, 63)?, 2);
    /// # Ok::<(), Refusal>(())
    /// ```
    pub fn with_calendar(self, calendar: Calendar) -> Watch {
        Watch { calendar, ..self }
    }

    /// What the rule needs.
    ///
    /// ```
    /// use station_watch::{sheet_of, Figures, Refusal, Watch};
    ///
    /// let watch = Watch::open(&sheet_of(&[&[1, 0, 7]])?, 0)?;
    /// assert_eq!(watch.figures(), Figures { history: 0, delay: 0, cells: 1 });
    /// # Ok::<(), Refusal>(())
    /// ```
    pub fn figures(&self) -> Figures {
        self.figures
    }

    /// The tick that the next step takes: how many steps were taken.
    ///
    /// ```
    /// use station_watch::{sheet_of, Refusal, Watch};
    ///
    /// let mut watch = Watch::open(&sheet_of(&[&[1, 0, 7]])?, 0)?;
    /// watch.step(0x80)?;
    /// assert_eq!(watch.next_tick(), 1);
    /// # Ok::<(), Refusal>(())
    /// ```
    pub fn next_tick(&self) -> u64 {
        self.state.next_tick()
    }

    /// How many ticks are still open.
    ///
    /// ```
    /// use station_watch::{sheet_of, Refusal, Watch};
    ///
    /// // For all Y from X to X + 1, flag 0 at Y.
    /// let sheet = sheet_of(&[&[5, 2, 0, 0, 0, 2, 0, 1, 0, 1, 1, 0]])?;
    /// let mut watch = Watch::open(&sheet, 0)?;
    /// watch.step(1)?;
    /// assert_eq!(watch.live(), 1);
    /// # Ok::<(), Refusal>(())
    /// ```
    pub fn live(&self) -> u64 {
        self.state.live()
    }

    /// State, history and cells. The report is not part of it: each step writes it anew. Nor
    /// is the calendar.
    ///
    /// ```
    /// use station_watch::{sheet_of, Refusal, Watch};
    ///
    /// let watch = Watch::open(&sheet_of(&[&[1, 0, 7]])?, 0)?;
    /// let (state, history, cells) = watch.parts();
    /// assert_eq!((state.as_bytes().len(), history.len(), cells.len()), (544, 0, 4));
    /// # Ok::<(), Refusal>(())
    /// ```
    pub fn parts(&self) -> (&State, &[u8], &[u32]) {
        (&self.state, &self.history, &self.cells)
    }

    /// A watch of stored parts, which goes on where they were left, without a calendar.
    /// Refusals 21, 17, 18, 20, as of a first step; after that only 20 can come. Of the cells
    /// it keeps those that the rule needs. Parts that were not left together by one watch, or were
    /// changed, or are of a version in which the rule had other figures, may go unnoticed: their
    /// steps report something.
    ///
    /// ```
    /// use station_watch::{sheet_of, Refusal, Watch};
    ///
    /// // For all Y from X to X + 1, flag 0 at Y.
    /// let sheet = sheet_of(&[&[5, 2, 0, 0, 0, 2, 0, 1, 0, 1, 1, 0]])?;
    /// let mut watch = Watch::open(&sheet, 0)?;
    /// watch.step(1)?;
    /// let (state, history, cells) = watch.parts();
    /// let mut again = Watch::from_parts(state.clone(), history.to_vec(), cells.to_vec())?;
    /// assert_eq!(again.step(0)?.ticks, [0, 1]);
    /// # Ok::<(), Refusal>(())
    /// ```
    pub fn from_parts(
        mut state: State,
        mut history: Vec<u8>,
        mut cells: Vec<u32>,
    ) -> Result<Watch, Refusal> {
        // A batch of no flags changes nothing and is refused as a first step would be.
        state.calendar_steps(&[], &mut history, &mut cells, &mut [], &mut [])?;
        let figures = figures(state.body())?;
        cells.truncate(figures.cell_words());
        let calendar = Calendar::default();
        Ok(Watch { figures, state, history, cells, report: report(), calendar })
    }
}

/// A report that is long enough for the steps and batches of every rule.
fn report() -> Vec<Pair> {
    vec![Pair::default(); MAX_REPORT]
}

impl fmt::Debug for Watch {
    fn fmt(&self, f: &mut fmt::Formatter<'_>) -> fmt::Result {
        f.debug_struct("Watch")
            .field("figures", &self.figures)
            .field("next_tick", &self.next_tick())
            .field("live", &self.live())
            .finish_non_exhaustive()
    }
}
