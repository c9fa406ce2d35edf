//! `check SHEET RULE FLAGS CLAIMS`.

use crate::answer::{self, Answer, Stop};
use crate::claims::{self, Claims, Wanted};
use crate::files::{self, Pieces};
use station_watch::{check_report, Comparison, Pair, MAX_RECORDING};
use std::path::Path;

/// Whether a list is the complete report of a rule over a recording, and the first difference.
pub fn list(sheet: &Path, rule: usize, flags: &Path, claimed: &Path) -> Result<Answer, Stop> {
    let sheet = files::read_sheet(sheet)?;
    let recording = files::read_recording(flags)?;
    refuse(&sheet, rule, flags, &recording)?;
    let ticks = recording.len();
    // A complete report has at most a violation for each tick: no later entry is the first that
    // differs.
    let wanted = Wanted { rule: rule as u64, steps: ticks as u64, most: ticks + 1 };
    let claims = claims::read(Pieces::open(claimed)?, wanted)?;
    let comparison = check_report(&sheet, rule, &recording, &claims.list)?;
    Ok(told(comparison, &claims, ticks))
}

/// What is refused is refused before the list is read. No tick is evaluated for it.
fn refuse(sheet: &[u8], rule: usize, flags: &Path, recording: &[u8]) -> Result<(), Stop> {
    check_report(sheet, rule, &[], &[])?;
    if recording.len() > MAX_RECORDING {
        let name = files::input_name(flags);
        answer::remark(&format!(
            "{name} has more than 65,535 ticks: check a part of it, \
             and the list that the other monitor makes of this part alone"
        ));
        check_report(sheet, rule, recording, &[])?;
    }
    Ok(())
}

fn told(comparison: Comparison, claims: &Claims, ticks: usize) -> Answer {
    match comparison {
        Comparison::Same => {
            let violations = claims.list.len();
            let same = "yes: the list is the complete report";
            Answer::given(format!("{same}, ticks {ticks} violations {violations}\n"))
        }
        Comparison::Differs { entry, violation } => Answer::no(differs(entry, violation, claims)),
        Comparison::Ends { entry } => Answer::no(ends(entry, claims)),
    }
}

/// The complete report has another violation at an entry, or one more.
fn differs(entry: usize, violation: Pair, claims: &Claims) -> String {
    let (due, count) = (text(violation), entries(entry));
    match claims.at(entry) {
        Some((claimed, line)) => {
            let claimed = format!("entry {entry} (line {line}) is {}", text(claimed));
            format!("no: {claimed}, but the complete report has {due} there\n")
        }
        None => {
            format!("no: the list ends after {count}, but the complete report goes on with {due}\n")
        }
    }
}

/// The list has an entry more.
fn ends(entry: usize, claims: &Claims) -> String {
    let (claimed, line) = claims.at(entry).unwrap_or_default();
    let (count, claimed) = (entries(entry), text(claimed));
    let more = format!("but the list goes on with {claimed} (line {line})");
    format!("no: the complete report ends after {count}, {more}\n")
}

fn text(violation: Pair) -> String {
    format!("violation {} at {}", violation.tick, violation.step)
}

fn entries(count: usize) -> String {
    format!("{count} {}", if count == 1 { "entry" } else { "entries" })
}
