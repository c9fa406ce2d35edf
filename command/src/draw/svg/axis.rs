//! Tick numbers, and the lines that lead down from them.

use super::page::{wide, Page, LETTER};
use super::xml::px;
use crate::draw::scale::round;
use crate::draw::words::grouped;

/// Lines are drawn between ticks that are as wide as this.
const WIDE: f64 = 8.0;

/// The ticks that are named: round ones, as far apart as their numbers need.
fn named(page: &Page) -> Vec<u64> {
    let room = wide(&grouped(page.stretch.last)) + 3.0 * LETTER;
    page.stretch.named(round(|step| step as f64 * page.tick() >= room))
}

/// Their numbers.
pub fn numbers(page: &mut Page) {
    for tick in named(page) {
        page.words("number", (page.middle(tick), page.y), &grouped(tick));
    }
}

/// Their lines, from one height to another.
pub fn lines(page: &mut Page, top: f64, bottom: f64) {
    let line = |tick| format!("M{} {}V{}", px(page.middle(tick)), px(top), px(bottom));
    let path: String = named(page).into_iter().map(line).collect();
    page.path("grid", &path);
}

/// Lines between ticks, where these are wide enough.
pub fn between(page: &mut Page, top: f64, bottom: f64) {
    if page.tick() < WIDE {
        return;
    }
    let line = |tick| format!("M{} {}V{}", px(page.start(tick)), px(top), px(bottom));
    let path: String = (page.stretch.first + 1..=page.stretch.last).map(line).collect();
    page.path("between", &path);
}
