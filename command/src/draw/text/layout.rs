//! Where things stand in a text: names at the left, columns of ticks, counts at the right.

use crate::draw::scale::{round, Stretch};

/// The width of a row's name.
const NAME: usize = 8;

pub struct Layout {
    pub stretch: Stretch,
    /// The width of all of it.
    pub width: usize,
    /// The width of a count.
    count: usize,
    /// How many ticks a column has.
    pub each: u64,
    pub columns: Vec<Stretch>,
}

impl Layout {
    pub fn of(stretch: Stretch, width: usize) -> Layout {
        let count = stretch.ticks().to_string().len().max("ups".len());
        let each = stretch.column_ticks(width - NAME - 2 - count);
        let columns = stretch.columns(each).collect();
        Layout { stretch, width, count, each, columns }
    }

    /// Round tick numbers, each above a bar at the column that has the tick.
    pub fn axis(&self) -> String {
        let room = self.stretch.last.to_string().len() as u64 + 2;
        let step = round(|step| step % self.each == 0 && step / self.each >= room);
        let (mut numbers, mut bars) = (String::new(), String::new());
        for tick in self.stretch.named(step) {
            let place = NAME + self.stretch.column_of(tick, self.each);
            let number = tick.to_string();
            if place + number.len() <= self.width {
                numbers = format!("{numbers:place$}{number}");
            }
            bars = format!("{bars:place$}|");
        }
        format!("{numbers}\n{}", self.headed(&bars, "ups"))
    }

    /// A line that ends with what the counts below it are called.
    pub fn headed(&self, line: &str, name: &str) -> String {
        let end = NAME + self.columns.len() + 2 + self.count;
        let place = end.saturating_sub(name.len());
        format!("{line:place$}{name}\n")
    }

    /// A name, a mark for each column, and a count.
    pub fn row(&self, name: &str, marks: &str, count: u64) -> String {
        format!("{name:NAME$}{marks}  {count:>0$}\n", self.count)
    }

    /// A row that has no count.
    pub fn row_below(&self, name: &str, marks: &str) -> String {
        let row = format!("{name:NAME$}{marks}");
        format!("{}\n", row.trim_end())
    }
}

/// Phrases between which are two blanks, in lines of at most this width.
pub fn wrapped(phrases: &str, width: usize) -> String {
    let mut lines: Vec<String> = Vec::new();
    for phrase in phrases.split("  ") {
        match lines.last_mut() {
            Some(line) if line.len() + 2 + phrase.len() <= width => *line += &format!("  {phrase}"),
            _ => lines.push(phrase.to_string()),
        }
    }
    lines.join("\n") + "\n"
}
