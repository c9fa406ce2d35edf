//! All rules of a sheet on one stream, over lent memory.

use crate::limits::CELL_WORDS;
use crate::raw;
use crate::refusal::Refusal;
use crate::report::{as_words, RuleTick, SetStep, SetSteps, Triple};
use core::fmt;

/// A running rule of a set: one of its records, which together are its state. They belong
/// to the sheet that was opened and to the cell table that its steps wrote. Any numbers
/// are safe to lend: each step looks at them anew.
///
/// ```
/// use station_watch::{set_open, sheet_of, Refusal, Running};
///
/// // Flag 0 at X, which has 1 cell; for all Y from X to X + 1, flag 0 at Y, which has 8.
/// let sheet = sheet_of(&[&[1, 0, 0], &[5, 2, 0, 0, 0, 2, 0, 1, 0, 1, 1, 0]])?;
/// let mut records = [Running::default(); 2];
/// set_open(&sheet, &mut records, &mut [], &[0; 36])?;
/// assert_eq!((records[0].start, records[0].size), (9, 3));
/// assert_eq!((records[1].first, records[1].cells, records[1].delay), (1, 8, 1));
/// # Ok::<(), Refusal>(())
/// ```
#[derive(Clone, Copy, Debug, Default, PartialEq, Eq, Hash)]
#[repr(C)]
pub struct Running {
    /// Where its body begins in the sheet.
    pub start: u32,
    /// The bytes of its body.
    pub size: u32,
    /// Where its own part of the cell table begins: how many cells are before it.
    pub first: u32,
    /// The cells of its own part, of four words each.
    pub cells: u32,
    /// Its delay in ticks.
    pub delay: u16,
    /// The length of the opened history, the same in all records of a set.
    pub opened: u16,
    /// How many of its ticks are still open.
    pub live: u32,
    /// The tick that the next step takes, the same in all records of a set.
    pub next: u64,
}

// Eight numbers end to end in 32 bytes, as in C.
const _: () = assert!(size_of::<Running>() == 32 && align_of::<Running>() == align_of::<u64>());

/// What all rules of a sheet need together.
///
/// ```
/// use station_watch::SetFigures;
///
/// let needs = SetFigures { rules: 2, history: 1, cells: 22, pairs: 4 };
/// assert_eq!(needs.to_string(), "rules 2 history 1 cells 22 pairs 4");
/// ```
#[derive(Clone, Copy, Debug, Default, PartialEq, Eq, Hash)]
pub struct SetFigures {
    /// How many rules there are: the least records.
    pub rules: usize,
    /// The largest of their history figures: the least bytes of a history.
    pub history: usize,
    /// The sum of their cells, of four words each.
    pub cells: usize,
    /// The sum of all delay + 1: the most pairs that a step can report, and so the least
    /// pairs of a step's report, and the least triples of a batch's.
    pub pairs: usize,
}

impl SetFigures {
    /// The words that the cell table needs.
    ///
    /// ```
    /// # use station_watch::SetFigures;
    /// assert_eq!(SetFigures { rules: 2, history: 1, cells: 22, pairs: 4 }.cell_words(), 88);
    /// ```
    pub fn cell_words(self) -> usize {
        CELL_WORDS * self.cells
    }
}

impl fmt::Display for SetFigures {
    fn fmt(&self, f: &mut fmt::Formatter<'_>) -> fmt::Result {
        let SetFigures { rules, history, cells, pairs } = self;
        write!(f, "rules {rules} history {history} cells {cells} pairs {pairs}")
    }
}

/// What all rules of a sheet need together. Refusals 1, 2; then the first that
/// [`figures`](crate::figures) finds in a rule, in rule order (4 to 15, 23, 24); then 27.
///
/// ```
/// use station_watch::{set_figures, sheet_of, Refusal, SetFigures};
///
/// // For all Y from X to X + 62, flag 0 at Y: 4,095 cells. And flag 0 at X: one.
/// let (wide, flag) = ([5, 2, 0, 0, 0, 2, 0, 62, 0, 1, 1, 0], [1, 0, 0]);
/// let needs = set_figures(&sheet_of(&[&wide, &flag])?);
/// assert_eq!(needs, Ok(SetFigures { rules: 2, history: 0, cells: 4_096, pairs: 64 }));
/// let needs = set_figures(&sheet_of(&[&wide, &flag, &flag])?);
/// assert_eq!(needs, Err(Refusal::SetCellsAboveLimit));
/// # Ok::<(), Refusal>(())
/// ```
pub fn set_figures(sheet: &[u8]) -> Result<SetFigures, Refusal> {
    let (mut rules, mut history, mut cells, mut pairs) = (0, 0, 0, 0);
    // SAFETY: the pointer and length of a slice, and four numbers of this frame.
    Refusal::unless_0(unsafe {
        raw::sw_set_figures(
            sheet.as_ptr(),
            sheet.len(),
            &mut rules,
            &mut history,
            &mut cells,
            &mut pairs,
        )
    })?;
    let (history, cells, pairs) = (history as usize, cells as usize, pairs as usize);
    Ok(SetFigures { rules, history, cells, pairs })
}

/// Opens all rules of a sheet over one history, which is zeroed, and one cell table, which
/// is only measured. The first records, one for each rule, are set; further ones stay.
/// Refusals as of [`set_figures`], then 17, 18, the latter also for fewer records than rules.
/// (`WatchSet` keeps all of it together.)
///
/// ```
/// use station_watch::{set_figures, set_open, set_step, sheet_of, Refusal, Running, RuleTick};
///
/// // For all Y from X - 1 to X, flag 0 at Y; and flag 1 at X.
/// let sheet = sheet_of(&[&[5, 2, 0, 0xFF, 0xFF, 2, 0, 0, 0, 1, 1, 0], &[1, 0, 1]])?;
/// let needs = set_figures(&sheet)?;
/// let mut records = vec![Running::default(); needs.rules];
/// let mut history = vec![0; needs.history];
/// let mut cells = vec![0; needs.cell_words()];
/// let mut report = vec![RuleTick::default(); needs.pairs];
///
/// set_open(&sheet, &mut records, &mut history, &cells)?;
/// let step = set_step(&sheet, &mut records, 3, &mut history, &mut cells, &mut report)?;
/// assert_eq!((step.step, step.pairs, step.live), (0, &[][..], 0));
/// let step = set_step(&sheet, &mut records, 0, &mut history, &mut cells, &mut report)?;
/// let due = [RuleTick { rule: 0, tick: 1 }, RuleTick { rule: 1, tick: 1 }];
/// assert_eq!((step.step, step.pairs, step.live), (1, &due[..], 0));
/// # Ok::<(), Refusal>(())
/// ```
pub fn set_open(
    sheet: &[u8],
    records: &mut [Running],
    history: &mut [u8],
    cells: &[u32],
) -> Result<(), Refusal> {
    // SAFETY: pointers and lengths of slices; what is written, records and history, is
    // borrowed alone.
    Refusal::unless_0(unsafe {
        raw::sw_set_open(
            sheet.as_ptr(),
            sheet.len(),
            records.as_mut_ptr(),
            records.len(),
            history.as_mut_ptr(),
            history.len(),
            cells.as_ptr(),
            cells.len(),
        )
    })
}

/// Takes one flag byte for all rules of a set, with the sheet that was opened and a report
/// of at least as many pairs as the figure `pairs`. Refusals 21, then 17 to 20. 21 comes for
/// records that were not left by an opening of this sheet and its steps, where that is noticed
/// (the header says exactly where); else such records report something.
///
/// ```
/// use station_watch::{set_open, set_step, sheet_of, Refusal, Running, RuleTick};
///
/// // Flag 0 at X, and flag 1 at X.
/// let sheet = sheet_of(&[&[1, 0, 0], &[1, 0, 1]])?;
/// let (mut records, mut cells) = ([Running::default(); 2], [0; 8]);
/// set_open(&sheet, &mut records, &mut [], &cells)?;
/// let mut report = [RuleTick::default(); 2];
/// let short = set_step(&sheet, &mut records, 1, &mut [], &mut cells, &mut report[..1]);
/// assert_eq!(short, Err(Refusal::ReportTooShort));
/// let step = set_step(&sheet, &mut records, 1, &mut [], &mut cells, &mut report)?;
/// assert_eq!(step.pairs, [RuleTick { rule: 1, tick: 0 }]);
/// # Ok::<(), Refusal>(())
/// ```
pub fn set_step<'r>(
    sheet: &[u8],
    records: &mut [Running],
    flag: u8,
    history: &mut [u8],
    cells: &mut [u32],
    report: &'r mut [RuleTick],
) -> Result<SetStep<'r>, Refusal> {
    let step = records.first().map_or(0, |record| record.next);
    let (mut pairs, mut live) = (0, 0);
    let words = as_words(report);
    // SAFETY: pointers and lengths of slices, and two numbers of this frame; all but the
    // sheet are written, and each is borrowed alone.
    Refusal::unless_0(unsafe {
        raw::sw_set_step(
            sheet.as_ptr(),
            sheet.len(),
            records.as_mut_ptr(),
            records.len(),
            flag,
            history.as_mut_ptr(),
            history.len(),
            cells.as_mut_ptr(),
            cells.len(),
            words.as_mut_ptr(),
            words.len(),
            &mut pairs,
            &mut live,
        )
    })?;
    Ok(SetStep { step, pairs: &report[..pairs], live })
}

/// Takes flag bytes one after another for all rules of a set. It stops before a step for
/// which fewer triples than the figure `pairs` are left in the report: go on with the flags
/// that were not taken. A report that is too short for one step takes none. Refusals 21, 17,
/// 18, 20 of the first step, also where there are no flags; 20 later ends the batch before it.
///
/// ```
/// use station_watch::{set_open, set_steps, sheet_of, Refusal, Running, Triple};
///
/// // Flag 0 at X, and flag 1 at X.
/// let sheet = sheet_of(&[&[1, 0, 0], &[1, 0, 1]])?;
/// let (mut records, mut cells) = ([Running::default(); 2], [0; 8]);
/// set_open(&sheet, &mut records, &mut [], &cells)?;
/// let mut report = [Triple::default(); 8];
/// let steps = set_steps(&sheet, &mut records, &[3, 2, 0], &mut [], &mut cells, &mut report)?;
/// let due = [(0, 1, 1), (0, 2, 2), (1, 2, 2)].map(|(rule, tick, step)| Triple { rule, tick, step });
/// assert_eq!((steps.taken, steps.triples, steps.live), (3, &due[..], 0));
/// # Ok::<(), Refusal>(())
/// ```
pub fn set_steps<'r>(
    sheet: &[u8],
    records: &mut [Running],
    flags: &[u8],
    history: &mut [u8],
    cells: &mut [u32],
    report: &'r mut [Triple],
) -> Result<SetSteps<'r>, Refusal> {
    let (mut taken, mut triples, mut live) = (0, 0, 0);
    let words = as_words(report);
    // SAFETY: pointers and lengths of slices, and three numbers of this frame; all but
    // sheet and flags are written, and each is borrowed alone.
    Refusal::unless_0(unsafe {
        raw::sw_set_steps(
            sheet.as_ptr(),
            sheet.len(),
            records.as_mut_ptr(),
            records.len(),
            flags.as_ptr(),
            flags.len(),
            history.as_mut_ptr(),
            history.len(),
            cells.as_mut_ptr(),
            cells.len(),
            words.as_mut_ptr(),
            words.len(),
            &mut taken,
            &mut triples,
            &mut live,
        )
    })?;
    Ok(SetSteps { taken, triples: &report[..triples], live })
}
