//! How a rule stands at a tick of a recording.

use crate::raw;
use crate::refusal::Refusal;
use core::fmt;

/// What a rule turned out to be at a tick.
///
/// ```
/// use station_watch::Verdict;
///
/// assert_eq!(Verdict::True.to_string(), "true");
/// assert_eq!(Verdict::False.to_string(), "false");
/// ```
#[derive(Clone, Copy, Debug, PartialEq, Eq, Hash)]
pub enum Verdict {
    /// The rule holds.
    True,
    /// The rule is broken: a violation.
    False,
}

/// The outcome of a rule at a tick: a verdict that carries its step, or open.
///
/// ```
/// use station_watch::{Outcome, Verdict};
///
/// assert_eq!(Outcome::Decided(Verdict::False, 7).to_string(), "false at 7");
/// assert_eq!(Outcome::Open.to_string(), "open");
/// ```
#[derive(Clone, Copy, Debug, PartialEq, Eq, Hash)]
pub enum Outcome {
    /// The verdict, and the step that decided it.
    Decided(Verdict, u64),
    /// The recording ends before it is decided.
    Open,
}

impl Outcome {
    /// Whether the rule is broken.
    ///
    /// ```
    /// use station_watch::{Outcome, Verdict};
    ///
    /// assert!(Outcome::Decided(Verdict::False, 7).is_violation());
    /// assert!(!Outcome::Decided(Verdict::True, 7).is_violation());
    /// assert!(!Outcome::Open.is_violation());
    /// ```
    pub fn is_violation(self) -> bool {
        matches!(self, Outcome::Decided(Verdict::False, _))
    }
}

impl fmt::Display for Verdict {
    fn fmt(&self, f: &mut fmt::Formatter<'_>) -> fmt::Result {
        f.write_str(match self {
            Verdict::True => "true",
            Verdict::False => "false",
        })
    }
}

impl fmt::Display for Outcome {
    fn fmt(&self, f: &mut fmt::Formatter<'_>) -> fmt::Result {
        match self {
            Outcome::Decided(verdict, step) => write!(f, "{verdict} at {step}"),
            Outcome::Open => f.write_str("open"),
        }
    }
}

/// The outcome of a body at a tick of a recording of up to 65,535 flag bytes, also
/// for a body that cannot be opened. Refusals 4 to 10, 23, 24, 16.
///
/// ```
/// use station_watch::{outcome, Outcome, Refusal, Verdict};
///
/// // For all Y from X to X + 1, flag 0 at Y.
/// let body = [5, 2, 0, 0, 0, 2, 0, 1, 0, 1, 1, 0];
/// let flags = [1, 1, 0];
/// assert_eq!(outcome(&body, &flags, 0), Ok(Outcome::Decided(Verdict::True, 1)));
/// assert_eq!(outcome(&body, &flags, 1), Ok(Outcome::Decided(Verdict::False, 2)));
/// assert_eq!(outcome(&body, &flags[..2], 1), Ok(Outcome::Open));
/// assert_eq!(outcome(&body, &flags, 3), Err(Refusal::NotInRecording));
/// ```
pub fn outcome(body: &[u8], recording: &[u8], tick: usize) -> Result<Outcome, Refusal> {
    let (mut verdict, mut step) = (raw::OPEN, 0);
    // SAFETY: pointers and lengths of two slices that are only read, and two numbers of
    // this frame.
    Refusal::unless_0(unsafe {
        raw::sw_outcome(
            body.as_ptr(),
            body.len(),
            recording.as_ptr(),
            recording.len(),
            tick,
            &mut verdict,
            &mut step,
        )
    })?;
    Ok(match verdict {
        raw::TRUE => Outcome::Decided(Verdict::True, step),
        raw::FALSE => Outcome::Decided(Verdict::False, step),
        _ => Outcome::Open,
    })
}
