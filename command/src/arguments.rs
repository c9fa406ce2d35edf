//! The arguments, read.

use crate::answer::Failure;
use crate::calendar::Question;
use crate::draw::Drawing;
use crate::files::INPUT;
use crate::hexadecimal;
use crate::usage;
use std::ffi::OsString;
use std::path::PathBuf;

/// What was asked for.
pub enum Command {
    Calendar { flags: PathBuf, question: Question },
    Check { sheet: PathBuf, rule: usize, flags: PathBuf, claims: PathBuf },
    Compile { rules: PathBuf, out: PathBuf },
    Draw(Drawing),
    Figures { sheet: PathBuf },
    Outcome { sheet: PathBuf, rule: usize, flags: PathBuf, tick: usize },
    Print { sheet: PathBuf },
    Sheet { out: PathBuf, bodies: Vec<Vec<u8>> },
    Watch { sheet: PathBuf },
    Help(&'static str),
    Version,
}

pub fn read(words: &[OsString]) -> Result<Command, Failure> {
    let Some((first, rest)) = words.split_first() else {
        return Err(Failure::Usage("no command".to_string(), usage::ALL));
    };
    match (&*first.to_string_lossy(), rest) {
        ("help" | "--help" | "-h", []) => Ok(Command::Help(usage::ALL)),
        ("help", [name]) => usage_of(&name.to_string_lossy()).map(Command::Help),
        ("--version", []) => Ok(Command::Version),
        (name @ ("help" | "--help" | "-h" | "--version"), _) => {
            Err(wrong_number(name, rest, usage::ALL))
        }
        (name, _) => command(name, rest),
    }
}

fn wrong_number(name: &str, rest: &[OsString], usage: &'static str) -> Failure {
    Failure::Usage(format!("{name}: wrong number of arguments ({})", rest.len()), usage)
}

fn usage_of(name: &str) -> Result<&'static str, Failure> {
    usage::of(name).ok_or_else(|| Failure::Usage(format!("no command '{name}'"), usage::ALL))
}

fn command(name: &str, rest: &[OsString]) -> Result<Command, Failure> {
    let usage = usage_of(name)?;
    let asks_help = rest.first().is_some_and(|word| word == "--help" || word == "-h");
    match (name, rest) {
        (_, [_]) if asks_help => Ok(Command::Help(usage)),
        _ if asks_help => Err(wrong_number(name, rest, usage::line(usage))),
        ("calendar", [flags, asked @ ..]) if matches!(asked.len(), 0 | 1 | 3) => {
            Ok(Command::Calendar { flags: flags.into(), question: question(asked, usage)? })
        }
        ("check", [_, _, flags, claims]) if flags == INPUT && claims == INPUT => {
            let said = "FLAGS and CLAIMS cannot both be standard input".to_string();
            Err(Failure::Usage(said, usage::line(usage)))
        }
        ("check", [sheet, rule, flags, claims]) => Ok(Command::Check {
            sheet: sheet.into(),
            rule: number("RULE", rule, usage)?,
            flags: flags.into(),
            claims: claims.into(),
        }),
        ("compile", [rules, out]) => Ok(Command::Compile { rules: rules.into(), out: out.into() }),
        ("draw", _) => drawing(rest, usage).map(Command::Draw),
        ("figures", [sheet]) => Ok(Command::Figures { sheet: sheet.into() }),
        ("outcome", [sheet, rule, flags, tick]) => Ok(Command::Outcome {
            sheet: sheet.into(),
            rule: number("RULE", rule, usage)?,
            flags: flags.into(),
            tick: number("TICK", tick, usage)?,
        }),
        ("print", [sheet]) => Ok(Command::Print { sheet: sheet.into() }),
        ("sheet", [out, bodies @ ..]) => {
            Ok(Command::Sheet { out: out.into(), bodies: all_bytes(bodies, usage)? })
        }
        ("watch", [sheet]) => Ok(Command::Watch { sheet: sheet.into() }),
        _ => Err(wrong_number(name, rest, usage::line(usage))),
    }
}

/// What the words after the file ask: nothing, FLAG, FLAG FIRST LAST, or FLAG near TICK.
fn question(asked: &[OsString], usage: &'static str) -> Result<Question, Failure> {
    let [word, range @ ..] = asked else { return Ok(Question::All) };
    // One above a byte's largest number is as little a flag: the library refuses both.
    let flag = number("FLAG", word, usage)?.try_into().unwrap_or(u8::MAX);
    let tick = |what, word| number(what, word, usage).map(|tick| tick as u64);
    match range {
        [near, word] if near == "near" => Ok(Question::Nearest { flag, tick: tick("TICK", word)? }),
        [first, last] => {
            Ok(Question::Range { flag, first: tick("FIRST", first)?, last: tick("LAST", last)? })
        }
        _ => Ok(Question::Whole { flag }),
    }
}

/// FLAGS, or FLAGS FIRST LAST, with the options at any place among them.
fn drawing(rest: &[OsString], usage: &'static str) -> Result<Drawing, Failure> {
    let mut words = rest.to_vec();
    let sheet = option("--sheet", &mut words, usage)?;
    let svg = option("--svg", &mut words, usage)?;
    if let Some(left) = words.iter().find(|word| word.to_string_lossy().starts_with("--")) {
        let said = format!("draw: unknown or repeated option '{}'", left.to_string_lossy());
        return Err(Failure::Usage(said, usage::line(usage)));
    }
    let (flags, ticks) = match &words[..] {
        [flags] => (flags, None),
        [flags, first, last] => {
            let (first, last) = (number("FIRST", first, usage)?, number("LAST", last, usage)?);
            (flags, Some((first as u64, last as u64)))
        }
        _ => return Err(wrong_number("draw", rest, usage::line(usage))),
    };
    Ok(Drawing { flags: flags.into(), ticks, sheet, svg })
}

/// Takes an option and the file after it out of the words, if it is there.
fn option(
    name: &str,
    words: &mut Vec<OsString>,
    usage: &'static str,
) -> Result<Option<PathBuf>, Failure> {
    let Some(place) = words.iter().position(|word| word == name) else { return Ok(None) };
    if place + 1 == words.len() {
        return Err(Failure::Usage(format!("no file after {name}"), usage::line(usage)));
    }
    Ok(words.drain(place..place + 2).next_back().map(PathBuf::from))
}

/// A number in decimal digits. One too large for the machine is as large as can be,
/// which no rule and no tick has.
fn number(what: &str, word: &OsString, usage: &'static str) -> Result<usize, Failure> {
    let text = word.to_string_lossy();
    if text.is_empty() || !text.bytes().all(|byte| byte.is_ascii_digit()) {
        return Err(Failure::Usage(format!("{what} is no number: '{text}'"), usage::line(usage)));
    }
    Ok(text.parse().unwrap_or(usize::MAX))
}

/// The bytes of each BODY.
fn all_bytes(bodies: &[OsString], usage: &'static str) -> Result<Vec<Vec<u8>>, Failure> {
    let mut all = Vec::new();
    for (rule, body) in bodies.iter().enumerate() {
        let wrong =
            |said| Failure::Usage(format!("body of rule {rule}: {said}"), usage::line(usage));
        all.push(hexadecimal::bytes(&body.to_string_lossy()).map_err(wrong)?);
    }
    Ok(all)
}
