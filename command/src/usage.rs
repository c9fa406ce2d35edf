//! What the command takes: the texts of usage/. bin/station-watch shows the first before
//! anything is built.

pub const ALL: &str = include_str!("../usage/station-watch.txt");
pub const CALENDAR: &str = include_str!("../usage/calendar.txt");
pub const CHECK: &str = include_str!("../usage/check.txt");
pub const COMPILE: &str = include_str!("../usage/compile.txt");
pub const DRAW: &str = include_str!("../usage/draw.txt");
pub const FIGURES: &str = include_str!("../usage/figures.txt");
pub const OUTCOME: &str = include_str!("../usage/outcome.txt");
pub const PRINT: &str = include_str!("../usage/print.txt");
pub const SHEET: &str = include_str!("../usage/sheet.txt");
pub const WATCH: &str = include_str!("../usage/watch.txt");

/// The usage of a command by its name.
pub fn of(command: &str) -> Option<&'static str> {
    match command {
        "calendar" => Some(CALENDAR),
        "check" => Some(CHECK),
        "compile" => Some(COMPILE),
        "draw" => Some(DRAW),
        "figures" => Some(FIGURES),
        "outcome" => Some(OUTCOME),
        "print" => Some(PRINT),
        "sheet" => Some(SHEET),
        "watch" => Some(WATCH),
        _ => None,
    }
}

/// Its first line.
pub fn line(usage: &'static str) -> &'static str {
    usage.lines().next().unwrap_or(usage)
}
