//! The page that is drawn on: where ticks lie across it, and what is drawn so far.

use super::xml::{escaped, px};
use crate::draw::scale::Stretch;

/// Across: where names of rows begin, where ticks begin and end, and where counts begin.
pub const WIDTH: f64 = 1220.0;
pub const NAMES: f64 = 10.0;
pub const LEFT: f64 = 72.0;
pub const TICKS: f64 = 1000.0;
pub const RIGHT: f64 = LEFT + TICKS;
pub const COUNTS: f64 = RIGHT + 10.0;

/// A digit or a letter of the small font is at most so wide.
pub const LETTER: f64 = 7.0;

/// The least width of marked ticks that stand alone, so that one of very many is seen.
pub const LEAST: f64 = 2.0;

/// How wide words of the small font are at most.
pub fn wide(words: &str) -> f64 {
    words.len() as f64 * LETTER
}

pub struct Page {
    pub stretch: Stretch,
    /// How far it is drawn, from the top.
    pub y: f64,
    pub body: String,
}

impl Page {
    pub fn new(stretch: Stretch) -> Page {
        Page { stretch, y: 0.0, body: String::new() }
    }

    /// How wide a tick is.
    pub fn tick(&self) -> f64 {
        TICKS / self.stretch.ticks() as f64
    }

    /// Where a tick begins.
    pub fn start(&self, tick: u64) -> f64 {
        LEFT + (tick - self.stretch.first) as f64 * self.tick()
    }

    pub fn middle(&self, tick: u64) -> f64 {
        self.start(tick) + self.tick() / 2.0
    }

    pub fn width(&self, ticks: Stretch) -> f64 {
        ticks.ticks() as f64 * self.tick()
    }

    /// Where ticks that stand alone begin, and how wide they are drawn.
    pub fn placed(&self, ticks: Stretch) -> (f64, f64) {
        let width = self.width(ticks).max(LEAST);
        (self.start(ticks.first).min(RIGHT - width), width)
    }

    /// Words of a class, which says whether they begin, end or have their middle there.
    pub fn words(&mut self, class: &str, (x, y): (f64, f64), words: &str) {
        let (x, y, words) = (px(x), px(y), escaped(words));
        self.body += &format!("<text class=\"{class}\" x=\"{x}\" y=\"{y}\">{words}</text>\n");
    }

    /// A line of a class across all ticks.
    pub fn across(&mut self, class: &str, y: f64) {
        self.path(class, &format!("M{} {}H{}", px(LEFT), px(y), px(RIGHT)));
    }

    /// Lines of a class, as a path says them.
    pub fn path(&mut self, class: &str, path: &str) {
        if !path.is_empty() {
            self.body += &format!("<path class=\"{class}\" d=\"{path}\"/>\n");
        }
    }
}
