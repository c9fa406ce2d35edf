//! How a command ends: what it says, where, and its exit status.

use crate::files;
use station_watch::Refusal;
use std::io::{self, Write};
use std::process::ExitCode;

/// The exit statuses.
const ANSWERED: u8 = 0;
const REFUSED: u8 = 1;
const FAILED: u8 = 2;
const NO: u8 = 3;

/// What goes to standard output, and the exit status.
pub struct Answer {
    pub text: String,
    status: u8,
}

impl Answer {
    pub fn given(text: String) -> Answer {
        Answer { text, status: ANSWERED }
    }

    pub fn refused(text: String) -> Answer {
        Answer { text, status: REFUSED }
    }

    /// The answer no to a question that is answered yes or no.
    pub fn no(text: String) -> Answer {
        Answer { text, status: NO }
    }

    /// A refusal is in it.
    pub fn refuse(&mut self) {
        self.status = REFUSED;
    }
}

/// What went wrong before the library was asked, or after it answered.
pub enum Failure {
    /// The arguments: what is wrong with them, and the usage that it is told with.
    Usage(String, &'static str),
    /// A file, by name, cannot be read.
    Read(String, io::Error),
    /// A file, by name, cannot be written.
    Write(String, io::Error),
    /// Of a file, by name, nothing can be drawn, and why.
    Draw(String, String),
    /// A file, by name, is no list that can be checked, and why.
    Check(String, String),
}

/// Why a command stopped early.
pub enum Stop {
    Refused(Refusal),
    Failed(Failure),
}

impl From<Refusal> for Stop {
    fn from(refusal: Refusal) -> Stop {
        Stop::Refused(refusal)
    }
}

impl From<Failure> for Stop {
    fn from(failure: Failure) -> Stop {
        Stop::Failed(failure)
    }
}

/// Says how a command ended, and gives its exit status.
pub fn finish(ended: Result<Answer, Stop>) -> ExitCode {
    let printed = match ended {
        Ok(answer) => print(answer),
        Err(Stop::Refused(refusal)) => print(Answer::refused(format!("{refusal}\n"))),
        Err(Stop::Failed(failure)) => Err(failure),
    };
    ExitCode::from(printed.unwrap_or_else(|failure| {
        complain(&failure);
        FAILED
    }))
}

fn print(answer: Answer) -> Result<u8, Failure> {
    files::write_output(answer.text.as_bytes())?;
    Ok(answer.status)
}

/// What went wrong, on standard error.
fn complain(failure: &Failure) {
    let text = match failure {
        Failure::Usage(said, usage) => format!("{said}\n{}", usage.trim_end()),
        Failure::Read(name, error) => format!("cannot read {name}: {error}"),
        Failure::Write(name, error) => format!("cannot write {name}: {error}"),
        Failure::Draw(name, why) => format!("cannot draw {name}: {why}"),
        Failure::Check(name, why) => format!("cannot check {name}: {why}"),
    };
    remark(&text);
}

/// Says something on standard error. Where even that fails, the exit status tells.
pub fn remark(text: &str) {
    let _ = writeln!(io::stderr(), "station-watch: {text}");
}
