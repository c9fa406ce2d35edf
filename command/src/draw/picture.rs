//! What is drawn, whatever it is drawn with.

use super::scale::Stretch;
use super::share::Marked;
use super::violations::{RuleViolations, Rules};
use crate::calendar::FLAGS;
use crate::recorded::Recorded;
use station_watch::Refusal;

/// A stretch of a file of flag bytes and, if a sheet is given, what its rules report of it.
pub struct Picture<'a> {
    /// What the file is called.
    pub flags: &'a str,
    /// How many ticks the file has.
    pub ticks: u64,
    pub stretch: Stretch,
    pub rows: Vec<Marked<'a>>,
    pub sheet: Option<Sheet<'a>>,
}

pub struct Sheet<'a> {
    /// What it is called.
    pub name: &'a str,
    pub rules: Vec<RuleViolations<'a>>,
}

impl<'a> Picture<'a> {
    pub fn of(flags: &'a str, recorded: &'a Recorded, stretch: Stretch) -> Picture<'a> {
        let Recorded { calendar, ticks } = recorded;
        let rows = (0..FLAGS).map(|flag| Marked { calendar, flag }).collect();
        Picture { flags, ticks: *ticks, stretch, rows, sheet: None }
    }

    pub fn with(self, name: &'a str, rules: &'a Rules) -> Result<Picture<'a>, Refusal> {
        let sheet = Some(Sheet { name, rules: rules.all()? });
        Ok(Picture { sheet, ..self })
    }

    /// All violations of all rules.
    pub fn violations(&self) -> u64 {
        self.rules().iter().map(|rule| rule.count).sum()
    }

    pub fn rules(&self) -> &[RuleViolations<'a>] {
        self.sheet.as_ref().map_or(&[], |sheet| &sheet.rules)
    }
}
