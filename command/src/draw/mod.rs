//! `draw FLAGS ..`. The library counts: how many ticks of a column are up, or break a rule, are
//! questions to a calendar, of the flags or of the violations. What is decided here is where
//! it is put:
//!
//! - A column has as few ticks as there is room for, always a round number, and begins at a
//!   multiple of it: the next stretch has the same columns.
//! - A violation is drawn at its tick. Those of ticks outside the stretch are not drawn, also
//!   where their step is inside.
//! - Violations are drawn one by one, each joined to its step, as long as they can be told
//!   apart; then they are counted.

mod picture;
mod scale;
mod share;
mod svg;
mod text;
mod violations;
mod words;

use crate::answer::{Answer, Failure, Stop};
use crate::files;
use crate::recorded::{self, Recorded};
use picture::Picture;
use scale::Stretch;
use std::env;
use std::path::{Path, PathBuf};
use violations::{Rules, Watched};

/// What is to be drawn, and where it goes.
pub struct Drawing {
    pub flags: PathBuf,
    /// The first tick and the last; the whole file where they are not said.
    pub ticks: Option<(u64, u64)>,
    pub sheet: Option<PathBuf>,
    /// The file of the picture; without it, the picture is text on standard output.
    pub svg: Option<PathBuf>,
}

pub fn draw(drawing: &Drawing) -> Result<Answer, Stop> {
    keep_inputs(drawing)?;
    let asked = drawing.ticks.map_or(Stretch::ALL, |(first, last)| Stretch { first, last });
    let (recorded, rules) = read(drawing, asked)?;
    let name = files::input_name(&drawing.flags);
    let stretch = cut(asked, &name, recorded.ticks)?;
    let mut picture = Picture::of(&name, &recorded, stretch);
    let sheet = drawing.sheet.as_ref().map(|sheet| sheet.display().to_string());
    if let (Some(sheet), Some(rules)) = (&sheet, &rules) {
        picture = picture.with(sheet, rules)?;
    }
    match &drawing.svg {
        Some(out) => write(out, &picture),
        None => Ok(Answer::given(text::drawn(&picture, columns())?)),
    }
}

/// The picture may not be written over what it is drawn from.
fn keep_inputs(drawing: &Drawing) -> Result<(), Failure> {
    let Some(out) = &drawing.svg else { return Ok(()) };
    files::refuse_same(&drawing.flags, out)?;
    drawing.sheet.iter().try_for_each(|sheet| files::refuse_same(sheet, out))
}

fn read(drawing: &Drawing, asked: Stretch) -> Result<(Recorded, Option<Rules>), Stop> {
    let open = |sheet: &PathBuf| Watched::open(sheet, asked);
    let mut watched = drawing.sheet.as_ref().map(open).transpose()?;
    let recorded = recorded::read(&drawing.flags, |flags| match &mut watched {
        Some(watched) => watched.take(flags),
        None => Ok(()),
    })?;
    Ok((recorded, watched.map(Watched::ended).transpose()?))
}

/// The ticks that are asked for and that the file has. There must be one.
fn cut(asked: Stretch, name: &str, ticks: u64) -> Result<Stretch, Failure> {
    let Stretch { first, last } = asked;
    if first < ticks && first <= last {
        return Ok(Stretch { first, last: last.min(ticks - 1) });
    }
    let why = match ticks {
        0 => "it has no ticks".to_string(),
        _ => format!("it has {ticks} ticks, and none from {first} to {last}"),
    };
    Err(Failure::Draw(name.to_string(), why))
}

/// Writes the picture to a file, and gives a line with what it shows.
fn write(out: &Path, picture: &Picture) -> Result<Answer, Stop> {
    let svg = svg::drawn(picture)?;
    files::write(out, svg.as_bytes())?;
    let (out, ticks, violations) = (out.display(), picture.stretch.ticks(), picture.violations());
    let size = svg.len();
    Ok(Answer::given(format!("svg {out} ticks {ticks} violations {violations} bytes {size}\n")))
}

/// How wide a text may be: what the environment says of the terminal, or 80.
fn columns() -> usize {
    let said = env::var("COLUMNS").ok().and_then(|columns| columns.parse().ok());
    said.unwrap_or(80).clamp(40, 500)
}
