//! A picture as text for a terminal, in plain ASCII: it can be shown, mailed and compared
//! everywhere.

mod layout;
mod list;
mod rules;

use super::picture::Picture;
use super::scale::Stretch;
use super::share::{flag_shades, shade, ALL};
use super::words::{counted, elided};
use layout::{wrapped, Layout};
use station_watch::Refusal;

/// A mark, and the last of the shades that it stands for. Shares under 1/10 are not told apart.
const MARKS: [(char, usize); 5] = [('.', 0), ('-', 2), ('+', 3), ('%', 4), ('#', ALL)];

pub fn drawn(picture: &Picture, width: usize) -> Result<String, Refusal> {
    let layout = Layout::of(picture.stretch, width);
    let mut text = title(picture, width) + "\n" + &layout.axis();
    for (flag, marked) in picture.rows.iter().enumerate() {
        let counts = marked.counts(&layout.columns)?;
        let marks = shaded(&layout.columns, &counts);
        text += &layout.row(&format!("flag {flag}"), &marks, counts.iter().sum());
    }
    for (place, violations) in picture.rules().iter().enumerate() {
        if place == 0 {
            text += &layout.headed("", "violations");
        }
        text += &rules::rows(&layout, violations)?;
    }
    text += &format!("\n{}", legend(&layout));
    if picture.sheet.is_some() {
        text += &rules::legend(&layout);
    }
    if picture.violations() > 0 {
        text += &format!("\n{}", list::all(picture.rules(), picture.violations()));
    }
    Ok(text)
}

fn title(picture: &Picture, width: usize) -> String {
    let Stretch { first, last } = picture.stretch;
    let line = |name, rest: String| elided(name, (width + 1).saturating_sub(rest.len())) + &rest;
    let ticks = format!(": ticks {first} to {last} of {}\n", picture.ticks);
    let mut title = line(picture.flags, ticks);
    if let Some(sheet) = &picture.sheet {
        let rules = counted(&sheet.rules.len().to_string(), "rule");
        let violations = counted(&picture.violations().to_string(), "violation");
        title += &line(sheet.name, format!(": {rules}, {violations}\n"));
    }
    title
}

/// A mark for the shade of each column.
fn shaded(columns: &[Stretch], counts: &[u64]) -> String {
    let shades = columns.iter().zip(counts).map(|(column, count)| shade(*count, column.ticks()));
    shades.map(|shade| MARKS[MARKS.iter().filter(|(_, last)| *last < shade).count()].0).collect()
}

/// The marks with the names of the shades that they stand for, of several the last.
fn legend(layout: &Layout) -> String {
    let mut phrases = Vec::new();
    if layout.each > 1 {
        phrases.push(format!("Of {} ticks, up:", layout.each));
    }
    for (mark, last) in MARKS.iter().rev() {
        let named = flag_shades(layout.each).iter().find(|(_, shade)| shade == last);
        phrases.extend(named.map(|(name, _)| format!("{mark} {name}")));
    }
    wrapped(&phrases.join("  "), layout.width)
}
