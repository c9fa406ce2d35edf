//! `watch SHEET`.

use crate::answer::{self, Answer, Failure, Stop};
use crate::files::{self, Pieces};
use station_watch::{bodies, figures, Refusal, Triple, WatchSet, MAX_CELLS};
use std::io::Read;
use std::path::Path;

/// The most flag bytes that are read at once. Their lines are written before more is read.
const CHUNK: usize = 4_096;

/// Runs all rules of a sheet over standard input: writes a line for each rule and for each
/// violation, as it comes, and gives the line of the end.
pub fn all_rules(sheet: &Path) -> Result<Answer, Stop> {
    let mut set = open(sheet)?;
    files::write_lines(figures_lines(&set).as_bytes())?;
    let input = Pieces::open(files::INPUT.as_ref())?;
    let violations = follow(&mut set, input, files::write_lines)?;
    let (steps, live) = (set.next_tick(), set.live());
    Ok(Answer::given(format!("end {steps} steps {violations} violations {live} live\n")))
}

/// All rules of a sheet, opened. Where they are refused, standard error names the rule.
pub fn open(sheet: &Path) -> Result<WatchSet, Stop> {
    let bytes = files::read_sheet(sheet)?;
    let set = WatchSet::open(&bytes).inspect_err(|refusal| name_rule(sheet, &bytes, *refusal))?;
    Ok(set)
}

fn figures_lines(set: &WatchSet) -> String {
    let rules = set.rule_figures().iter().enumerate();
    rules.map(|(rule, figures)| format!("rule {rule} {figures}\n")).collect()
}

/// Takes an input to its end, or until tick numbers are used up. What was read is taken, and
/// its lines are written, before more is read: a pipe is followed. Answers how many
/// violations there were.
pub fn follow(
    set: &mut WatchSet,
    mut input: Pieces<impl Read>,
    mut write: impl FnMut(&[u8]) -> Result<(), Failure>,
) -> Result<u64, Stop> {
    let mut buffer = [0; CHUNK];
    let mut violations = 0;
    loop {
        let flags = input.read(&mut buffer)?;
        if flags.is_empty() {
            return Ok(violations);
        }
        let mut lines = String::new();
        let taken = set.steps(flags, |Triple { rule, tick, step }| {
            violations += 1;
            lines += &format!("violation {rule} {tick} at {step}\n");
        });
        write(lines.as_bytes())?;
        taken?;
    }
}

/// Says on standard error which rule a set is refused for: the library answers the number
/// alone.
fn name_rule(sheet: &Path, bytes: &[u8], refusal: Refusal) {
    let Ok(bodies) = bodies(bytes) else { return };
    let sheet = sheet.display();
    let mut cells = 0;
    for (rule, body) in bodies.enumerate() {
        cells += match figures(body) {
            Ok(figures) => figures.cells,
            Err(_) => return answer::remark(&format!("rule {rule} of {sheet} is refused")),
        };
        if refusal == Refusal::SetCellsAboveLimit && cells > MAX_CELLS {
            return answer::remark(&format!("rules 0 to {rule} of {sheet} need {cells} cells"));
        }
    }
}
