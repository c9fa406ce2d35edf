//! Why a call was refused.

use crate::limits::MAX_SENTENCE;
use crate::raw;
use core::error::Error;
use core::fmt;

/// Why a call was refused, with its number. Nothing that was lent to
/// the call has changed; only `Watch::steps` and `WatchSet::steps` may have taken some of
/// their flags.
///
/// ```
/// use station_watch::{figures, Refusal};
///
/// let refusal = figures(&[]).unwrap_err();
/// assert_eq!(refusal, Refusal::BodyEndsEarly);
/// assert_eq!(refusal.number(), 4);
/// assert_eq!(refusal.to_string(), "refused 4: the body ends too early");
/// ```
#[derive(Clone, Copy, Debug, PartialEq, Eq, Hash)]
#[non_exhaustive]
pub enum Refusal {
    /// 1: sheet empty, not 1 to 32 rules, or its table of contents is cut short.
    RuleCount,
    /// 2: an entry of the sheet breaks the layout.
    EntryLayout,
    /// 3: no such rule.
    NoSuchRule,
    /// 4: the body ends too early.
    BodyEndsEarly,
    /// 5: unknown code or kind.
    UnknownCode,
    /// 6: a variable that is not bound here.
    UnboundVariable,
    /// 7: a flag above 7.
    NoSuchFlag,
    /// 8: an offset outside -4,095 to 4,095.
    OffsetOutOfRange,
    /// 9: a 65th formula or a 5th nested quantifier.
    BodyTooLarge,
    /// 10: bytes left over after the formula.
    BytesLeftOver,
    /// 11: the delay is infinite.
    DelayInfinite,
    /// 12: the delay is above 255.
    DelayAboveLimit,
    /// 13: the history is infinite.
    HistoryInfinite,
    /// 14: the history is above 4,096.
    HistoryAboveLimit,
    /// 15: more than 4,096 cells.
    CellsAboveLimit,
    /// 16: the recording is too long, or the tick is not in it.
    NotInRecording,
    /// 17: the history has a wrong length.
    HistoryLength,
    /// 18: the cell table is too short.
    CellTableTooShort,
    /// 19: the report is too short.
    ReportTooShort,
    /// 20: tick numbers are used up.
    TicksUsedUp,
    /// 21: state and cells were not left by one opening and its steps.
    StateNotOpened,
    /// 22: the buffer is too short.
    BufferTooShort,
    /// 23: a bound of kind 0 or 1 whose variable byte is not 0.
    VariableByteNotZero,
    /// 24: an infinity with an offset.
    OffsetOnInfinity,
    /// 25: the text is misspelt or above 4,096 bytes.
    Misspelt,
    /// 26: a name that is not bound here.
    UnboundName,
    /// 27: more than 4,096 cells in all rules.
    SetCellsAboveLimit,
    /// A number that this version has no name for: the library that was linked is a
    /// later one. Only `from_number` makes it, so that no refusal has two forms:
    ///
    /// ```compile_fail,E0639
    /// let fifteen = station_watch::Refusal::Other { number: 15 };
    /// ```
    #[non_exhaustive]
    Other {
        /// The number that the library answered.
        number: u32,
    },
}

/// Every refusal that has a name; number n stands at place n - 1.
const NAMED: [Refusal; 27] = [
    Refusal::RuleCount,
    Refusal::EntryLayout,
    Refusal::NoSuchRule,
    Refusal::BodyEndsEarly,
    Refusal::UnknownCode,
    Refusal::UnboundVariable,
    Refusal::NoSuchFlag,
    Refusal::OffsetOutOfRange,
    Refusal::BodyTooLarge,
    Refusal::BytesLeftOver,
    Refusal::DelayInfinite,
    Refusal::DelayAboveLimit,
    Refusal::HistoryInfinite,
    Refusal::HistoryAboveLimit,
    Refusal::CellsAboveLimit,
    Refusal::NotInRecording,
    Refusal::HistoryLength,
    Refusal::CellTableTooShort,
    Refusal::ReportTooShort,
    Refusal::TicksUsedUp,
    Refusal::StateNotOpened,
    Refusal::BufferTooShort,
    Refusal::VariableByteNotZero,
    Refusal::OffsetOnInfinity,
    Refusal::Misspelt,
    Refusal::UnboundName,
    Refusal::SetCellsAboveLimit,
];

impl Refusal {
    /// The number that the library answers.
    ///
    /// ```
    /// use station_watch::Refusal;
    ///
    /// assert_eq!(Refusal::CellsAboveLimit.number(), 15);
    /// ```
    pub fn number(self) -> u32 {
        match self {
            Refusal::Other { number } => number,
            named => 1 + NAMED.iter().take_while(|&&before| before != named).count() as u32,
        }
    }

    /// The refusal of a number; `None` for 0, which is the answer of a call that was
    /// not refused. A number without a name is kept.
    ///
    /// ```
    /// use station_watch::Refusal;
    ///
    /// assert_eq!(Refusal::from_number(15), Some(Refusal::CellsAboveLimit));
    /// assert_eq!(Refusal::from_number(1_000).unwrap().number(), 1_000);
    /// assert_eq!(Refusal::from_number(0), None);
    /// ```
    pub fn from_number(number: u32) -> Option<Refusal> {
        let place = (number as usize).checked_sub(1)?;
        Some(NAMED.get(place).copied().unwrap_or(Refusal::Other { number }))
    }

    /// `Ok` for an answer of 0.
    pub(crate) fn unless_0(answer: u32) -> Result<(), Refusal> {
        match Refusal::from_number(answer) {
            None => Ok(()),
            Some(refusal) => Err(refusal),
        }
    }
}

/// Number and sentence: `refused 3: no such rule`. The sentence is the library's own.
impl fmt::Display for Refusal {
    fn fmt(&self, f: &mut fmt::Formatter<'_>) -> fmt::Result {
        write!(f, "refused {}", self.number())?;
        match sentence(self.number(), &mut [0; MAX_SENTENCE]) {
            Some(sentence) => write!(f, ": {sentence}"),
            None => Ok(()),
        }
    }
}

impl Error for Refusal {}

/// The library's sentence for a number; `None` where a later library has a longer one.
fn sentence(number: u32, room: &mut [u8; MAX_SENTENCE]) -> Option<&str> {
    let mut written = 0;
    // SAFETY: the pointer and length of an array that is lent here alone, and a number
    // of this frame.
    let answer = unsafe { raw::sw_sentence(number, room.as_mut_ptr(), room.len(), &mut written) };
    if answer != 0 {
        return None;
    }
    core::str::from_utf8(room.get(..written)?).ok()
}
