//! All rules of a sheet on one stream, with the memory that they need.

use crate::figures::{figures, Figures};
use crate::limits::MAX_SET_REPORT;
use crate::refusal::Refusal;
use crate::report::{RuleTick, SetStep, Triple};
use crate::set::{set_figures, set_open, set_step, set_steps, Running, SetFigures};
use alloc::vec;
use alloc::vec::Vec;
use core::fmt;

/// All rules of a sheet that run on one stream. It keeps the sheet, a record for each rule,
/// history, cells and reports together, so that a step can only be refused when tick numbers
/// are used up (20).
///
/// ```
/// use station_watch::{body_from_text, sheet_of, Refusal, WatchSet};
///
/// let clipping = body_from_text("monitor x : ~(@x.0 /\\ @x.1)")?;
/// let quiet = body_from_text("monitor x : ~(@x.0 /\\ forall y in x-1..x+2 : @y.0)")?;
/// let mut set = WatchSet::open(&sheet_of(&[&clipping, &quiet])?)?;
/// let mut said = Vec::new();
/// for flag in [0, 1, 3, 1, 1, 0] {
///     for violation in set.step(flag)?.triples() {
///         said.push(format!("rule {}, tick {}", violation.rule, violation.tick));
///     }
/// }
/// assert_eq!(said, ["rule 0, tick 2", "rule 1, tick 2"]);
/// # Ok::<(), Refusal>(())
/// ```
#[derive(Clone)]
pub struct WatchSet {
    figures: SetFigures,
    rule_figures: Vec<Figures>,
    sheet: Vec<u8>,
    records: Vec<Running>,
    history: Vec<u8>,
    cells: Vec<u32>,
    /// The report of a step, and that of a batch.
    pairs: Vec<RuleTick>,
    triples: Vec<Triple>,
}

impl WatchSet {
    /// Opens all rules of a sheet, which is copied. Refusals 1, 2; then the first of a rule,
    /// in rule order (4 to 15, 23, 24); then 27.
    ///
    /// ```
    /// use station_watch::{sheet_of, Refusal, WatchSet};
    ///
    /// let sheet = sheet_of(&[&[1, 0, 7], &[2, 1, 0, 7]])?;
    /// assert_eq!(WatchSet::open(&sheet)?.next_tick(), 0);
    /// let sheet = sheet_of(&[&[1, 0, 7], &[1, 0, 8]])?;
    /// assert_eq!(WatchSet::open(&sheet).unwrap_err(), Refusal::NoSuchFlag);
    /// # Ok::<(), Refusal>(())
    /// ```
    pub fn open(sheet: &[u8]) -> Result<WatchSet, Refusal> {
        let needs = set_figures(sheet)?;
        let mut records = vec![Running::default(); needs.rules];
        let mut history = vec![0; needs.history];
        let cells = vec![0; needs.cell_words()];
        set_open(sheet, &mut records, &mut history, &cells)?;
        WatchSet::with_reports(sheet.to_vec(), records, history, cells)
    }

    /// A set of records that an opening of this sheet, or a step, accepted.
    fn with_reports(
        sheet: Vec<u8>,
        records: Vec<Running>,
        history: Vec<u8>,
        cells: Vec<u32>,
    ) -> Result<WatchSet, Refusal> {
        let body = |record: &Running| &sheet[record.start as usize..][..record.size as usize];
        let rule_figures: Result<Vec<Figures>, Refusal> =
            records.iter().map(|record| figures(body(record))).collect();
        let rule_figures = rule_figures?;
        let figures = together(&rule_figures);
        let pairs = vec![RuleTick::default(); figures.pairs];
        let triples = vec![Triple::default(); MAX_SET_REPORT];
        Ok(WatchSet { figures, rule_figures, sheet, records, history, cells, pairs, triples })
    }

    /// Takes one flag byte for all rules. Refusal 20.
    ///
    /// ```
    /// use station_watch::{sheet_of, Refusal, RuleTick, WatchSet};
    ///
    /// // Flag 7 at X, and not flag 7 at X.
    /// let mut set = WatchSet::open(&sheet_of(&[&[1, 0, 7], &[2, 1, 0, 7]])?)?;
    /// assert_eq!(set.step(0x7F)?.pairs, [RuleTick { rule: 0, tick: 0 }]);
    /// assert_eq!(set.step(0x80)?.pairs, [RuleTick { rule: 1, tick: 1 }]);
    /// # Ok::<(), Refusal>(())
    /// ```
    pub fn step(&mut self, flag: u8) -> Result<SetStep<'_>, Refusal> {
        let (records, history, cells) = (&mut self.records, &mut self.history, &mut self.cells);
        set_step(&self.sheet, records, flag, history, cells, &mut self.pairs)
    }

    /// Takes all of these flag bytes, one after another, for all rules, and hands over the
    /// violations in the order in which they are decided, and by rule, then by tick, where
    /// one step decides several. Refusal 20 where tick numbers are used up before the last
    /// flag: then the violations of the flags that were taken have been handed over. How many
    /// those are is how far `next_tick` went.
    ///
    /// ```
    /// use station_watch::{sheet_of, Refusal, Triple, WatchSet};
    ///
    /// // Flag 7 at X, and not flag 7 at X.
    /// let mut set = WatchSet::open(&sheet_of(&[&[1, 0, 7], &[2, 1, 0, 7]])?)?;
    /// let mut violations = Vec::new();
    /// set.steps(&[0x7F, 0x80], |violation| violations.push(violation))?;
    /// let due = [Triple { rule: 0, tick: 0, step: 0 }, Triple { rule: 1, tick: 1, step: 1 }];
    /// assert_eq!(violations, due);
    /// # Ok::<(), Refusal>(())
    /// ```
    pub fn steps(&mut self, flags: &[u8], mut take: impl FnMut(Triple)) -> Result<(), Refusal> {
        let mut rest = flags;
        while !rest.is_empty() {
            let (records, history, cells) = (&mut self.records, &mut self.history, &mut self.cells);
            let steps = set_steps(&self.sheet, records, rest, history, cells, &mut self.triples)?;
            steps.triples.iter().copied().for_each(&mut take);
            rest = &rest[steps.taken..];
        }
        Ok(())
    }

    /// What the rules need together.
    ///
    /// ```
    /// use station_watch::{sheet_of, Refusal, SetFigures, WatchSet};
    ///
    /// let set = WatchSet::open(&sheet_of(&[&[1, 0, 7], &[2, 1, 0, 7]])?)?;
    /// assert_eq!(set.figures(), SetFigures { rules: 2, history: 0, cells: 2, pairs: 2 });
    /// # Ok::<(), Refusal>(())
    /// ```
    pub fn figures(&self) -> SetFigures {
        self.figures
    }

    /// What each rule needs, in rule order.
    ///
    /// ```
    /// use station_watch::{sheet_of, Figures, Refusal, WatchSet};
    ///
    /// let set = WatchSet::open(&sheet_of(&[&[1, 0, 7], &[2, 1, 0, 7]])?)?;
    /// assert_eq!(set.rule_figures(), [Figures { history: 0, delay: 0, cells: 1 }; 2]);
    /// # Ok::<(), Refusal>(())
    /// ```
    pub fn rule_figures(&self) -> &[Figures] {
        &self.rule_figures
    }

    /// The tick that the next step takes: how many steps were taken.
    ///
    /// ```
    /// use station_watch::{sheet_of, Refusal, WatchSet};
    ///
    /// let mut set = WatchSet::open(&sheet_of(&[&[1, 0, 7], &[2, 1, 0, 7]])?)?;
    /// set.step(0x80)?;
    /// assert_eq!(set.next_tick(), 1);
    /// # Ok::<(), Refusal>(())
    /// ```
    pub fn next_tick(&self) -> u64 {
        self.records.first().map_or(0, |record| record.next)
    }

    /// How many ticks are still open, the sum over all rules.
    ///
    /// ```
    /// use station_watch::{sheet_of, Refusal, WatchSet};
    ///
    /// // Flag 0 at X; for all Y from X to X + 1, flag 0 at Y, twice.
    /// let ahead = [5, 2, 0, 0, 0, 2, 0, 1, 0, 1, 1, 0];
    /// let mut set = WatchSet::open(&sheet_of(&[&[1, 0, 0], &ahead, &ahead])?)?;
    /// set.step(1)?;
    /// assert_eq!(set.live(), 2);
    /// assert!(set.live_counts().eq([0, 1, 1]));
    /// # Ok::<(), Refusal>(())
    /// ```
    pub fn live(&self) -> u64 {
        self.live_counts().sum()
    }

    /// How many ticks of each rule are still open, in rule order.
    ///
    /// ```
    /// use station_watch::{sheet_of, Refusal, WatchSet};
    ///
    /// let set = WatchSet::open(&sheet_of(&[&[1, 0, 7], &[2, 1, 0, 7]])?)?;
    /// assert!(set.live_counts().eq([0, 0]));
    /// # Ok::<(), Refusal>(())
    /// ```
    pub fn live_counts(&self) -> impl ExactSizeIterator<Item = u64> + '_ {
        self.records.iter().map(|record| u64::from(record.live))
    }

    /// Sheet, records, history and cells. The reports are not part of it: each step writes
    /// them anew.
    ///
    /// ```
    /// use station_watch::{sheet_of, Refusal, WatchSet};
    ///
    /// let set = WatchSet::open(&sheet_of(&[&[1, 0, 7], &[2, 1, 0, 7]])?)?;
    /// let (sheet, records, history, cells) = set.parts();
    /// assert_eq!((sheet.len(), records.len(), history.len(), cells.len()), (16, 2, 0, 8));
    /// # Ok::<(), Refusal>(())
    /// ```
    pub fn parts(&self) -> (&[u8], &[Running], &[u8], &[u32]) {
        (&self.sheet, &self.records, &self.history, &self.cells)
    }

    /// A set of stored parts, which goes on where they were left. Refusals 21, 17, 18, 20,
    /// as of a first step; after that only 20 can come. Of records and cells it keeps those
    /// that the rules need. Parts that were not left together by one set, or were changed,
    /// may go unnoticed: their steps report something.
    ///
    /// ```
    /// use station_watch::{sheet_of, Refusal, RuleTick, WatchSet};
    ///
    /// // For all Y from X to X + 1, flag 0 at Y.
    /// let mut set = WatchSet::open(&sheet_of(&[&[5, 2, 0, 0, 0, 2, 0, 1, 0, 1, 1, 0]])?)?;
    /// set.step(1)?;
    /// let (sheet, records, history, cells) = set.parts();
    /// let (sheet, records) = (sheet.to_vec(), records.to_vec());
    /// let mut again = WatchSet::from_parts(sheet, records, history.to_vec(), cells.to_vec())?;
    /// assert_eq!(again.step(0)?.pairs, [0, 1].map(|tick| RuleTick { rule: 0, tick }));
    /// # Ok::<(), Refusal>(())
    /// ```
    pub fn from_parts(
        sheet: Vec<u8>,
        mut records: Vec<Running>,
        mut history: Vec<u8>,
        mut cells: Vec<u32>,
    ) -> Result<WatchSet, Refusal> {
        // A batch of no flags changes nothing and is refused as a first step would be.
        set_steps(&sheet, &mut records, &[], &mut history, &mut cells, &mut [])?;
        records.truncate(usize::from(sheet[0]));
        let mut set = WatchSet::with_reports(sheet, records, history, cells)?;
        set.cells.truncate(set.figures.cell_words());
        Ok(set)
    }
}

/// What so many rules need together.
fn together(rules: &[Figures]) -> SetFigures {
    SetFigures {
        rules: rules.len(),
        history: rules.iter().map(|rule| rule.history).max().unwrap_or(0),
        cells: rules.iter().map(|rule| rule.cells).sum(),
        pairs: rules.iter().map(|rule| rule.report_len()).sum(),
    }
}

impl fmt::Debug for WatchSet {
    fn fmt(&self, f: &mut fmt::Formatter<'_>) -> fmt::Result {
        f.debug_struct("WatchSet")
            .field("figures", &self.figures)
            .field("next_tick", &self.next_tick())
            .field("live", &self.live())
            .finish_non_exhaustive()
    }
}
