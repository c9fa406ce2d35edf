//! What steps report.

/// A violation: a tick at which the rule is false, and the step that decided it.
///
/// ```
/// use station_watch::Pair;
///
/// let violation = Pair { tick: 5, step: 7 };
/// assert_eq!(format!("violation {} at {}", violation.tick, violation.step), "violation 5 at 7");
/// ```
#[derive(Clone, Copy, Debug, Default, PartialEq, Eq, Hash, PartialOrd, Ord)]
#[repr(C)]
pub struct Pair {
    /// The tick at which the rule is false.
    pub tick: u64,
    /// The step that decided it.
    pub step: u64,
}

/// A violation of one of a set's rules, as a step reports it: the rule's number, and a
/// tick at which it is false.
///
/// ```
/// use station_watch::RuleTick;
///
/// assert!(RuleTick { rule: 0, tick: 9 } < RuleTick { rule: 1, tick: 5 });
/// ```
#[derive(Clone, Copy, Debug, Default, PartialEq, Eq, Hash, PartialOrd, Ord)]
#[repr(C)]
pub struct RuleTick {
    /// The number of the rule in its sheet, from 0 on.
    pub rule: u64,
    /// The tick at which the rule is false.
    pub tick: u64,
}

/// A violation of one of a set's rules, as a batch reports it: the rule's number, a tick
/// at which it is false, and the step that decided it.
///
/// ```
/// use station_watch::Triple;
///
/// let violation = Triple { rule: 3, tick: 5, step: 7 };
/// let Triple { rule, tick, step } = violation;
/// assert_eq!(format!("violation {rule} {tick} at {step}"), "violation 3 5 at 7");
/// ```
#[derive(Clone, Copy, Debug, Default, PartialEq, Eq, Hash)]
#[repr(C)]
pub struct Triple {
    /// The number of the rule in its sheet, from 0 on.
    pub rule: u64,
    /// The tick at which the rule is false.
    pub tick: u64,
    /// The step that decided it.
    pub step: u64,
}

/// What a report is made of.
///
/// # Safety
///
/// It is so many words of 64 bits end to end and aligned as they are, as the library writes them,
/// and any words make one.
pub(crate) unsafe trait Entry: Sized {
    const WORDS: usize = size_of::<Self>() / size_of::<u64>();
}

// SAFETY: two words each, and three, with `repr(C)`.
unsafe impl Entry for Pair {}
unsafe impl Entry for RuleTick {}
unsafe impl Entry for Triple {}

/// Whether an entry is so many words and nothing else, aligned as they are.
const fn is_words<E: Entry>(words: usize) -> bool {
    size_of::<E>() == words * size_of::<u64>() && align_of::<E>() == align_of::<u64>()
}

const _: () = assert!(is_words::<Pair>(2) && is_words::<RuleTick>(2) && is_words::<Triple>(3));

/// A report as the words that it is made of.
pub(crate) fn as_words<E: Entry>(report: &mut [E]) -> &mut [u64] {
    let count = E::WORDS * report.len();
    // SAFETY: an entry is words end to end, so these are the same bytes, borrowed as
    // before; any words make an entry.
    unsafe { core::slice::from_raw_parts_mut(report.as_mut_ptr().cast::<u64>(), count) }
}

/// A step that was taken.
///
/// ```
/// use station_watch::{sheet_of, Refusal, Watch};
///
/// // Flag 0 at X.
/// let mut watch = Watch::open(&sheet_of(&[&[1, 0, 0]])?, 0)?;
/// watch.step(1)?;
/// let step = watch.step(0)?;
/// assert_eq!((step.step, step.ticks, step.live), (1, &[1][..], 0));
/// # Ok::<(), Refusal>(())
/// ```
#[derive(Clone, Copy, Debug, PartialEq, Eq, Hash)]
#[non_exhaustive]
pub struct Step<'r> {
    /// Its number: the tick that it took.
    pub step: u64,
    /// The ticks whose outcome is false at this step, ascending: the first words of
    /// the report.
    pub ticks: &'r [u64],
    /// How many ticks are still open.
    pub live: usize,
}

impl<'r> Step<'r> {
    /// The same ticks as pairs of tick and deciding step.
    ///
    /// ```
    /// use station_watch::{sheet_of, Pair, Refusal, Watch};
    ///
    /// // Flag 0 at X.
    /// let mut watch = Watch::open(&sheet_of(&[&[1, 0, 0]])?, 0)?;
    /// assert!(watch.step(0)?.pairs().eq([Pair { tick: 0, step: 0 }]));
    /// # Ok::<(), Refusal>(())
    /// ```
    pub fn pairs(&self) -> impl Iterator<Item = Pair> + 'r {
        let step = self.step;
        self.ticks.iter().map(move |&tick| Pair { tick, step })
    }
}

/// Many steps that were taken over lent memory.
///
/// ```
/// use station_watch::{write_sheet, Pair, Refusal, State};
///
/// // Flag 0 at X: history 0, delay 0, 1 cell of 4 words.
/// let mut sheet = [0; 8];
/// write_sheet(&[3], &[1, 0, 0], &mut sheet)?;
/// let (mut cells, mut report) = ([0; 4], [Pair::default(); 1]);
/// let mut state = State::open(&sheet, 0, &mut [], &cells)?;
/// let steps = state.steps(&[1, 0, 1], &mut [], &mut cells, &mut report)?;
/// // The report is full: the third flag was not taken.
/// assert_eq!((steps.taken, steps.pairs, steps.live), (2, &[Pair { tick: 1, step: 1 }][..], 0));
/// # Ok::<(), Refusal>(())
/// ```
#[derive(Clone, Copy, Debug, PartialEq, Eq, Hash)]
#[non_exhaustive]
pub struct Steps<'r> {
    /// How many flags were taken. Fewer than were brought: the report is full, or tick
    /// numbers are used up.
    pub taken: usize,
    /// A pair for each violation, in the order of steps and ascending in each: the
    /// first pairs of the lent report.
    pub pairs: &'r [Pair],
    /// How many ticks are still open.
    pub live: usize,
}

/// A step that all rules of a set took.
///
/// ```
/// use station_watch::{sheet_of, Refusal, RuleTick, WatchSet};
///
/// // Flag 0 at X, and flag 1 at X.
/// let mut set = WatchSet::open(&sheet_of(&[&[1, 0, 0], &[1, 0, 1]])?)?;
/// set.step(3)?;
/// let step = set.step(1)?;
/// let due = [RuleTick { rule: 1, tick: 1 }];
/// assert_eq!((step.step, step.pairs, step.live), (1, &due[..], 0));
/// # Ok::<(), Refusal>(())
/// ```
#[derive(Clone, Copy, Debug, PartialEq, Eq, Hash)]
#[non_exhaustive]
pub struct SetStep<'r> {
    /// Its number: the tick that it took.
    pub step: u64,
    /// A pair for each violation, ascending by rule and then by tick: the first pairs of
    /// the report.
    pub pairs: &'r [RuleTick],
    /// How many ticks are still open, the sum over all rules.
    pub live: usize,
}

impl<'r> SetStep<'r> {
    /// The same pairs as triples of rule, tick and deciding step.
    ///
    /// ```
    /// use station_watch::{sheet_of, Refusal, Triple, WatchSet};
    ///
    /// // Flag 0 at X.
    /// let mut set = WatchSet::open(&sheet_of(&[&[1, 0, 0]])?)?;
    /// assert!(set.step(0)?.triples().eq([Triple { rule: 0, tick: 0, step: 0 }]));
    /// # Ok::<(), Refusal>(())
    /// ```
    pub fn triples(&self) -> impl Iterator<Item = Triple> + 'r {
        let step = self.step;
        self.pairs.iter().map(move |&RuleTick { rule, tick }| Triple { rule, tick, step })
    }
}

/// Many steps that all rules of a set took over lent memory.
///
/// ```
/// use station_watch::{set_open, set_steps, Refusal, Running, Triple};
///
/// // Flag 0 at X: history 0, delay 0, 1 cell of 4 words.
/// let sheet = [1, 5, 0, 3, 0, 1, 0, 0];
/// let (mut records, mut cells) = ([Running::default(); 1], [0; 4]);
/// set_open(&sheet, &mut records, &mut [], &cells)?;
/// let mut report = [Triple::default(); 1];
/// let steps = set_steps(&sheet, &mut records, &[1, 0, 1], &mut [], &mut cells, &mut report)?;
/// // The report is full: the third flag was not taken.
/// let due = [Triple { rule: 0, tick: 1, step: 1 }];
/// assert_eq!((steps.taken, steps.triples, steps.live), (2, &due[..], 0));
/// # Ok::<(), Refusal>(())
/// ```
#[derive(Clone, Copy, Debug, PartialEq, Eq, Hash)]
#[non_exhaustive]
pub struct SetSteps<'r> {
    /// How many flags were taken. Fewer than were brought: the report is full, or tick
    /// numbers are used up.
    pub taken: usize,
    /// A triple for each violation, by step, then by rule, then by tick: the first triples
    /// of the lent report.
    pub triples: &'r [Triple],
    /// How many ticks are still open, the sum over all rules.
    pub live: usize,
}
