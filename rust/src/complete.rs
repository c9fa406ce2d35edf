//! The complete report of a recording, and a list of violations beside it.

use crate::raw;
use crate::refusal::Refusal;
use crate::report::Pair;
#[cfg(feature = "alloc")]
use {crate::limits::MAX_RECORDING, alloc::vec::Vec};

/// How a list of violations compares with the complete report. Entries are counted from 0.
///
/// ```
/// use station_watch::{check_report, Comparison, Pair, Refusal};
///
/// // Flag 0 at X, broken at ticks 1 and 3.
/// let (sheet, flags) = ([1, 5, 0, 3, 0, 1, 0, 0], [1, 0, 1, 0]);
/// let (one, two) = (Pair { tick: 1, step: 1 }, Pair { tick: 2, step: 2 });
/// let three = Pair { tick: 3, step: 3 };
/// let compare = |list: &[Pair]| check_report(&sheet, 0, &flags, list);
/// assert_eq!(compare(&[one, three])?, Comparison::Same);
/// assert_eq!(compare(&[one, two])?, Comparison::Differs { entry: 1, violation: three });
/// assert_eq!(compare(&[one])?, Comparison::Differs { entry: 1, violation: three });
/// assert_eq!(compare(&[one, three, three])?, Comparison::Ends { entry: 2 });
/// # Ok::<(), Refusal>(())
/// ```
#[derive(Clone, Copy, Debug, PartialEq, Eq, Hash)]
pub enum Comparison {
    /// The list is the complete report.
    Same,
    /// The list has another entry, or none, where the complete report has this violation.
    /// All entries before it are the same.
    Differs {
        /// The first entry that differs.
        entry: usize,
        /// What stands there in the complete report.
        violation: Pair,
    },
    /// The list goes on where the complete report has ended. All entries before are the same.
    Ends {
        /// How many violations the complete report has, and so the first entry too many.
        entry: usize,
    },
}

/// Compares a list of violations with the complete report of a sheet's rule over a recording of
/// up to 65,535 flag bytes. The complete report has each tick at which the rule is false, once,
/// with the step that decides it, ordered by step and then by tick; ticks that are open where
/// the recording ends are not in it. The rule need not be one that opens, and the list may have
/// any length and content. Refusals 1 to 10, 23, 24, and 16 for a longer recording.
///
/// ```
/// use station_watch::{body_from_text, check_report, sheet_of, Comparison, Pair, Refusal};
///
/// let body = body_from_text("monitor x : ~(@x.0 /\\ forall y in x-1..x+2 : @y.0)")?;
/// let sheet = sheet_of(&[&body])?;
/// let flags = [0, 1, 1, 0, 1, 1, 1, 1, 0, 0];
/// let violation = Pair { tick: 5, step: 7 };
/// assert_eq!(check_report(&sheet, 0, &flags, &[violation])?, Comparison::Same);
/// let claimed = [Pair { tick: 5, step: 6 }];
/// let differs = Comparison::Differs { entry: 0, violation };
/// assert_eq!(check_report(&sheet, 0, &flags, &claimed)?, differs);
/// assert_eq!(check_report(&sheet, 1, &flags, &claimed), Err(Refusal::NoSuchRule));
/// // An empty recording has the empty report.
/// assert_eq!(check_report(&sheet, 0, &[], &[])?, Comparison::Same);
/// # Ok::<(), Refusal>(())
/// ```
pub fn check_report(
    sheet: &[u8],
    rule: usize,
    recording: &[u8],
    claimed: &[Pair],
) -> Result<Comparison, Refusal> {
    let (mut difference, mut entry, mut violation) = (raw::REPORT_SAME, 0, Pair::default());
    // SAFETY: pointers and lengths of three slices that are only read, and four numbers of
    // this frame.
    Refusal::unless_0(unsafe {
        raw::sw_check_report(
            sheet.as_ptr(),
            sheet.len(),
            rule,
            recording.as_ptr(),
            recording.len(),
            claimed.as_ptr(),
            claimed.len(),
            &mut difference,
            &mut entry,
            &mut violation.tick,
            &mut violation.step,
        )
    })?;
    Ok(match difference {
        raw::REPORT_SAME => Comparison::Same,
        raw::REPORT_DIFFERS => Comparison::Differs { entry, violation },
        _ => Comparison::Ends { entry },
    })
}

/// Writes the complete report of a sheet's rule over a recording, as [`check_report`] says it,
/// at the start of a lent list, and answers how many violations it has. Entries after them stay.
/// A list with an entry for each tick of the recording is always long enough; with a shorter one
/// the report is measured first, which takes as long again. Refusals 1 to 10, 23, 24, 16, then
/// 22 for a list that is too short.
///
/// ```
/// use station_watch::{complete_report_into, Pair, Refusal};
///
/// // Flag 0 at X, broken at ticks 1 and 3.
/// let (sheet, flags) = ([1, 5, 0, 3, 0, 1, 0, 0], [1, 0, 1, 0]);
/// let mut list = [Pair { tick: 9, step: 9 }; 4];
/// assert_eq!(complete_report_into(&sheet, 0, &flags, &mut list), Ok(2));
/// let (one, three) = (Pair { tick: 1, step: 1 }, Pair { tick: 3, step: 3 });
/// assert_eq!(list, [one, three, Pair { tick: 9, step: 9 }, Pair { tick: 9, step: 9 }]);
/// let short = complete_report_into(&sheet, 0, &flags, &mut list[..1]);
/// assert_eq!(short, Err(Refusal::BufferTooShort));
/// ```
pub fn complete_report_into(
    sheet: &[u8],
    rule: usize,
    recording: &[u8],
    list: &mut [Pair],
) -> Result<usize, Refusal> {
    let mut written = 0;
    // SAFETY: pointers and lengths of three slices; `list` is borrowed alone, so it is apart
    // from the others, as is the number of this frame.
    Refusal::unless_0(unsafe {
        raw::sw_complete_report(
            sheet.as_ptr(),
            sheet.len(),
            rule,
            recording.as_ptr(),
            recording.len(),
            list.as_mut_ptr(),
            list.len(),
            &mut written,
        )
    })?;
    Ok(written)
}

/// The complete report of a sheet's rule over a recording, as [`check_report`] says it.
/// Refusals 1 to 10, 23, 24, 16.
///
/// ```
/// use station_watch::{body_from_text, complete_report, sheet_of, Pair, Refusal, Watch};
///
/// // The clock has never been unlocked, from the first tick on. The engine cannot open it.
/// let body = body_from_text("monitor x : forall y in 0..x : ~@y.2")?;
/// let sheet = sheet_of(&[&body])?;
/// assert_eq!(Watch::open(&sheet, 0).err(), Some(Refusal::HistoryInfinite));
/// let report = complete_report(&sheet, 0, &[0, 4, 0])?;
/// assert_eq!(report, [Pair { tick: 1, step: 1 }, Pair { tick: 2, step: 2 }]);
/// # Ok::<(), Refusal>(())
/// ```
#[cfg(feature = "alloc")]
pub fn complete_report(sheet: &[u8], rule: usize, recording: &[u8]) -> Result<Vec<Pair>, Refusal> {
    // An entry for each tick: a longer recording is refused, so no more are asked for.
    let mut list = alloc::vec![Pair::default(); recording.len().min(MAX_RECORDING)];
    let written = complete_report_into(sheet, rule, recording, &mut list)?;
    list.truncate(written);
    list.shrink_to_fit();
    Ok(list)
}
