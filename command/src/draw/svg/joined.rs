//! Violations one by one: each tick above, its deciding step below, and a line between.

use super::page::{wide, Page, LEFT, RIGHT};
use super::xml::px;
use crate::draw::violations::Violation;
use crate::draw::words::grouped;

/// A dot around the place where a line ends.
pub const DOT: &str = "m-2 0a2 2 0 1 0 4 0a2 2 0 1 0 -4 0";

/// Ticks that are nearer have one label.
const NEAR: f64 = 12.0;

pub fn draw(page: &mut Page, listed: &[Violation]) {
    let (top, bottom) = (page.y + 6.0, page.y + 28.0);
    for (name, y) in [("tick", top), ("step", bottom)] {
        page.words("side", (LEFT - 8.0, y + 4.0), name);
        page.across("base", y);
    }
    for Violation { tick, step } in listed {
        let path = mark(page, *tick, *step, (top, bottom));
        let said = format!("tick {}, certain at step {}", grouped(*tick), grouped(*step));
        page.body +=
            &format!("<path class=\"violation\" d=\"{path}\"><title>{said}</title></path>\n");
    }
    labels(page, listed, bottom + 17.0);
    page.y += 52.0;
}

/// A diamond at the tick, a line, and a dot at the step. Where that is after the last tick,
/// the line goes as far as the ticks.
fn mark(page: &Page, tick: u64, step: u64, (top, bottom): (f64, f64)) -> String {
    let (from, to) = (page.middle(tick), page.middle(step));
    let part = if to > RIGHT { (RIGHT - from) / (to - from) } else { 1.0 };
    let end = (from + part * (to - from), top + part * (bottom - top));
    let line = format!("M{} {}L{} {}", px(from), px(top), px(end.0), px(end.1));
    let dot = if part < 1.0 { "" } else { DOT };
    let wide = (page.tick() / 2.0).clamp(2.0, 4.0);
    diamond((from, top), wide) + &line + dot
}

/// A diamond around a place.
pub fn diamond((x, y): (f64, f64), wide: f64) -> String {
    let tall = wide + 1.5;
    let (top, wide, tall) = (px(y - tall), px(wide), px(tall));
    format!("M{} {top}l{wide} {tall} -{wide} {tall} -{wide} -{tall}z", px(x))
}

/// What is told below violations: of one its tick and its step; of several, where the words
/// of each would touch, their first and their last tick.
struct Label {
    first: Violation,
    last: Violation,
}

impl Label {
    fn words(&self) -> String {
        let first = grouped(self.first.tick);
        if self.first.tick == self.last.tick {
            return format!("{first} at {}", grouped(self.first.step));
        }
        format!("{first} to {}", grouped(self.last.tick))
    }

    /// From where to where it goes.
    fn extent(&self, page: &Page) -> (f64, f64) {
        let middle = (page.middle(self.first.tick) + page.middle(self.last.tick)) / 2.0;
        let half = wide(&self.words()) / 2.0 + 4.0;
        (middle - half, middle + half)
    }

    fn is_apart(&self, next: &Label, page: &Page) -> bool {
        let between = page.middle(next.first.tick) - page.middle(self.last.tick);
        between >= NEAR && self.extent(page).1 <= next.extent(page).0
    }
}

fn labels(page: &mut Page, listed: &[Violation], y: f64) {
    for label in joined(page, listed) {
        let (left, right) = label.extent(page);
        page.words("label", ((left + right) / 2.0, y), &label.words());
    }
}

/// The labels by tick. One that touches the one before, or is of ticks near to those of the
/// one before, takes it in.
fn joined(page: &Page, listed: &[Violation]) -> Vec<Label> {
    let mut by_tick = listed.to_vec();
    by_tick.sort_unstable_by_key(|violation| violation.tick);
    let mut labels: Vec<Label> = Vec::new();
    for violation in by_tick {
        let mut label = Label { first: violation, last: violation };
        while let Some(before) = labels.last() {
            if before.is_apart(&label, page) {
                break;
            }
            label.first = before.first;
            labels.pop();
        }
        labels.push(label);
    }
    labels
}
