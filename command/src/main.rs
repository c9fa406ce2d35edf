//! The command `station-watch`: what a C programmer calls, a person can type. It has no
//! logic of its own, but for `column`, for the rule that `watch` names where a sheet is
//! refused, for how `check` reads a list, and for where `draw` puts what it shows: it reads
//! arguments and files, asks the library, and writes what that answers. `usage` says what it takes, prints, and ends with.

mod answer;
mod arguments;
mod calendar;
mod check;
mod claims;
mod column;
mod draw;
mod figures;
mod files;
mod hexadecimal;
mod outcome;
mod recorded;
mod rules;
mod sheet;
mod usage;
mod watch;

use answer::{Answer, Stop};
use arguments::Command;
use std::env;
use std::ffi::OsString;
use std::process::ExitCode;

fn main() -> ExitCode {
    let words: Vec<OsString> = env::args_os().skip(1).collect();
    let command = arguments::read(&words).map_err(Stop::from);
    answer::finish(command.and_then(run))
}

fn run(command: Command) -> Result<Answer, Stop> {
    match command {
        Command::Calendar { flags, question } => calendar::ask(&flags, question),
        Command::Check { sheet, rule, flags, claims } => check::list(&sheet, rule, &flags, &claims),
        Command::Compile { rules, out } => rules::compile(&rules, &out),
        Command::Draw(drawing) => draw::draw(&drawing),
        Command::Figures { sheet } => figures::of_sheet(&sheet),
        Command::Outcome { sheet, rule, flags, tick } => {
            outcome::at_tick(&sheet, rule, &flags, tick)
        }
        Command::Print { sheet } => rules::print(&sheet),
        Command::Sheet { out, bodies } => sheet::write(&out, &bodies),
        Command::Watch { sheet } => watch::all_rules(&sheet),
        Command::Help(text) => Ok(Answer::given(text.to_string())),
        Command::Version => {
            Ok(Answer::given(format!("station-watch {}\n", station_watch::VERSION)))
        }
    }
}
