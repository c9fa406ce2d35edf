//! A strip of columns, each shaded by the share of its ticks that are marked.

use super::page::{Page, LEAST};
use super::xml::px;
use crate::draw::scale::Stretch;
use crate::draw::share::{self, shade};

/// Draws it around the height y: first what is not marked, then shade by shade.
pub fn strip(page: &mut Page, class: &str, y: f64, columns: &[Stretch], counts: &[u64]) {
    page.across(&format!("{class}0"), y);
    let runs = runs(columns, counts);
    for shade in 1..=share::ALL {
        let mut path = String::new();
        for (place, run) in runs.iter().enumerate().filter(|(_, run)| run.shade == shade) {
            let (start, width) = placed(page, run.ticks, alone(page, &runs, place));
            path += &format!("M{} {}h{}", px(start), px(y), px(width));
        }
        page.path(&format!("{class}{shade}"), &path);
    }
}

/// Columns with one shade, side by side.
struct Run {
    shade: usize,
    ticks: Stretch,
}

fn runs(columns: &[Stretch], counts: &[u64]) -> Vec<Run> {
    let mut runs: Vec<Run> = Vec::new();
    for (column, count) in columns.iter().zip(counts) {
        let shade = shade(*count, column.ticks());
        match runs.last_mut() {
            Some(run) if run.shade == shade => run.ticks.last = column.last,
            _ => runs.push(Run { shade, ticks: *column }),
        }
    }
    runs
}

/// Whether nothing marked is next to a run.
fn alone(page: &Page, runs: &[Run], place: usize) -> bool {
    let free = |run: &Run| run.shade == 0 && page.width(run.ticks) >= 2.0 * LEAST;
    let before = place.checked_sub(1).and_then(|before| runs.get(before));
    before.map_or(true, free) && runs.get(place + 1).map_or(true, free)
}

/// Where ticks begin, and how wide they are drawn. Those that stand alone are widened where
/// they are too narrow to be seen well.
fn placed(page: &Page, ticks: Stretch, alone: bool) -> (f64, f64) {
    if alone {
        return page.placed(ticks);
    }
    (page.start(ticks.first), page.width(ticks).max(1.0))
}
