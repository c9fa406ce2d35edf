//! The station watch engine for Rust: safe functions over the proved library
//! `libstation_watch.a`, which `bin/library` builds.
//!
//! A station sends one flag byte a tick. A sheet of rules says what may not happen,
//! and each tick that breaks a rule is reported with the step that decided it. The
//! sheet's bytes and the meaning of a rule are told in docs/RULES.md.
//!
//! [`Watch`] runs a rule on a live stream:
//!
//! ```
//! use station_watch::{body_from_text, sheet_of, Pair, Refusal, Watch};
//!
//! // A detector that is up may not stay up from one tick before to two ticks after.
//! let body = body_from_text("monitor x : ~(@x.0 /\\ forall y in x-1..x+2 : @y.0)")?;
//! let sheet = sheet_of(&[&body])?;
//!
//! let mut watch = Watch::open(&sheet, 0)?;
//! assert_eq!(watch.figures().to_string(), "history 1 delay 2 cells 21");
//!
//! let mut violations = Vec::new();
//! watch.steps(&[0, 1, 1, 0, 1, 1, 1, 1, 0, 0], |violation| violations.push(violation))?;
//! assert_eq!(violations, [Pair { tick: 5, step: 7 }]);
//! assert_eq!((watch.next_tick(), watch.live()), (10, 0));
//! # Ok::<(), Refusal>(())
//! ```
//!
//! [`WatchSet`] runs all rules of a sheet on one stream, and reports each violation with
//! its rule's number.
//!
//! [`Calendar`] keeps at which ticks each flag was up, and answers how often, when first and
//! last, and when nearest to a tick. A `Watch` can keep one beside its stream.
//!
//! [`check_report`] compares a list of violations, of another monitor too, with the complete
//! report of a recording; [`complete_report`] gives that report, and
//! [`complete_report_into`] writes it to a lent list.
//!
//! [`State`] is a watch over memory that the caller lends, as in C, and so are [`set_open`],
//! [`set_step`] and [`set_steps`] a set, and [`calendar_fill`], [`calendar_ups`] and those
//! beside them a calendar. [`figures`] says what a rule needs, [`set_figures`]
//! what all rules of a sheet need together, [`outcome`] how a rule stands at a tick of a
//! recording, [`rule_body`], [`bodies`] and [`write_sheet`] read and write sheets,
//! [`rule_from_text`] and [`rule_to_text`] rules as text. A call that cannot be answered gives
//! a [`Refusal`] and has changed nothing; only [`Watch::steps`] and [`WatchSet::steps`] may
//! have taken some of their flags before tick numbers were used up.
//!
//! The crate needs no `std`. Without its feature `alloc`, which is on unless it is
//! turned off, `Watch`, `WatchSet`, `Calendar`, `complete_report`, `sheet_of`, `body_from_text`
//! and `text_from_body` are gone and nothing is allocated.
//!
//! [`raw`] has the functions as C sees them. All `unsafe` of this crate are calls of
//! these with the pointer and length of a slice, and one view of a report as words.

#![no_std]
#![deny(missing_docs)]
#![warn(unsafe_op_in_unsafe_fn)]

#[cfg(feature = "alloc")]
extern crate alloc;

#[cfg(feature = "alloc")]
mod calendar;
mod calendar_words;
mod complete;
mod figures;
mod limits;
mod outcome;
pub mod raw;
mod refusal;
mod report;
mod set;
mod sheet;
mod state;
#[cfg(feature = "alloc")]
mod stored;
mod text;
#[cfg(feature = "alloc")]
mod watch;
#[cfg(feature = "alloc")]
mod watch_set;

/// The version of this crate, which is that of the library.
///
/// ```
/// assert_eq!(station_watch::VERSION, "0.8.0");
/// ```
pub const VERSION: &str = env!("CARGO_PKG_VERSION");

#[cfg(feature = "alloc")]
pub use calendar::Calendar;
pub use calendar_words::{
    calendar_clear, calendar_fill, calendar_first, calendar_kept, calendar_last, calendar_nearest,
    calendar_ups,
};
#[cfg(feature = "alloc")]
pub use complete::complete_report;
pub use complete::{check_report, complete_report_into, Comparison};
pub use figures::{figures, Figures};
pub use limits::*;
pub use outcome::{outcome, Outcome, Verdict};
pub use refusal::Refusal;
pub use report::{Pair, RuleTick, SetStep, SetSteps, Step, Steps, Triple};
pub use set::{set_figures, set_open, set_step, set_steps, Running, SetFigures};
#[cfg(feature = "alloc")]
pub use sheet::sheet_of;
pub use sheet::{bodies, rule_body, write_sheet};
pub use state::State;
#[cfg(feature = "alloc")]
pub use text::{body_from_text, text_from_body};
pub use text::{rule_from_text, rule_to_text};
#[cfg(feature = "alloc")]
pub use watch::Watch;
#[cfg(feature = "alloc")]
pub use watch_set::WatchSet;
