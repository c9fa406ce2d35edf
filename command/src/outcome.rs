//! `outcome SHEET RULE FLAGS TICK`.

use crate::answer::{Answer, Stop};
use crate::files;
use station_watch::{outcome, rule_body};
use std::path::Path;

/// A line with the outcome of a rule at a tick of a recording.
pub fn at_tick(sheet: &Path, rule: usize, flags: &Path, tick: usize) -> Result<Answer, Stop> {
    let sheet = files::read_sheet(sheet)?;
    let flags = files::read_recording(flags)?;
    let outcome = outcome(rule_body(&sheet, rule)?, &flags, tick)?;
    Ok(Answer::given(format!("tick {tick} {outcome}\n")))
}
