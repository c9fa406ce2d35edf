//! `calendar FLAGS ..`.

use crate::answer::{Answer, Stop};
use crate::recorded::{self, Recorded};
use station_watch::{Calendar, Refusal};
use std::path::Path;

/// How many flags a byte has.
pub const FLAGS: u8 = 8;

/// What is asked about the flags of a file.
pub enum Question {
    /// Each flag over the whole file.
    All,
    /// A flag over the whole file.
    Whole { flag: u8 },
    /// A flag from the first tick to the last.
    Range { flag: u8, first: u64, last: u64 },
    /// The up of a flag that is nearest to a tick.
    Nearest { flag: u8, tick: u64 },
}

pub fn ask(flags: &Path, question: Question) -> Result<Answer, Stop> {
    let Recorded { calendar, ticks } = recorded::read(flags, |_| Ok(()))?;
    let text = match question {
        Question::All => table(&calendar, ticks)?,
        Question::Whole { flag } => {
            format!("flag {flag} {}\n", ups(&calendar, flag, 0, u64::MAX)?.line([0; 3]))
        }
        Question::Range { flag, first, last } => {
            let ups = ups(&calendar, flag, first, last)?.line([0; 3]);
            format!("flag {flag} from {first} to {last} {ups}\n")
        }
        Question::Nearest { flag, tick } => {
            let nearest = calendar.nearest_up(flag, tick)?;
            format!("flag {flag} tick {tick} nearest {}\n", or_none(nearest))
        }
    };
    Ok(Answer::given(text))
}

/// The ups of a flag in a range: how many, the first and the last, as they are printed.
struct Ups([String; 3]);

fn ups(calendar: &Calendar, flag: u8, first: u64, last: u64) -> Result<Ups, Refusal> {
    Ok(Ups([
        calendar.ups(flag, first, last)?.to_string(),
        or_none(calendar.first_up(flag, first, last)?),
        or_none(calendar.last_up(flag, first, last)?),
    ]))
}

fn or_none(tick: Option<u64>) -> String {
    tick.map_or("none".to_string(), |tick| tick.to_string())
}

impl Ups {
    /// Each at least so wide.
    fn line(&self, widths: [usize; 3]) -> String {
        let Ups([ups, first, last]) = self;
        let [w, x, y] = widths;
        format!("ups {ups:>w$} first {first:>x$} last {last:>y$}")
    }
}

/// How many ticks there are, and a line for each flag, with the numbers below one another.
fn table(calendar: &Calendar, ticks: u64) -> Result<String, Refusal> {
    let rows: Result<Vec<Ups>, Refusal> =
        (0..FLAGS).map(|flag| ups(calendar, flag, 0, u64::MAX)).collect();
    let rows = rows?;
    let width = |part: usize| rows.iter().map(|Ups(parts)| parts[part].len()).max().unwrap_or(0);
    let widths = [width(0), width(1), width(2)];
    let mut text = format!("ticks {ticks}\n");
    for (flag, row) in rows.iter().enumerate() {
        text += &format!("flag {flag} {}\n", row.line(widths));
    }
    Ok(text)
}
