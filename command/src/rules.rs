//! Rules as lines of text: `compile RULES SHEET` and `print SHEET`.

use crate::answer::{Answer, Stop};
use crate::column;
use crate::files;
use crate::hexadecimal;
use crate::sheet;
use station_watch::{bodies, body_from_text, figures, text_from_body, Refusal};
use std::path::Path;

/// Writes the sheet of a file's rules, and gives a line with what it holds.
pub fn compile(rules: &Path, out: &Path) -> Result<Answer, Stop> {
    files::refuse_same(rules, out)?;
    let text = files::read_rules(rules)?;
    let mut bodies = Vec::new();
    for (number, line) in numbered_rules(&text) {
        match body_from_text(line) {
            Ok(body) => bodies.push(body),
            Err(refusal) => return Ok(Answer::refused(at_line(number, line, refusal))),
        }
    }
    match sheet::write(out, &bodies) {
        Err(Stop::Refused(refusal)) => {
            Ok(Answer::refused(format!("rules {} {refusal}\n", bodies.len())))
        }
        ended => ended,
    }
}

/// The lines that have a rule, without their ends, and their numbers from 1.
fn numbered_rules(text: &[u8]) -> impl Iterator<Item = (usize, &[u8])> {
    let lines = text.split_inclusive(|byte| *byte == b'\n').map(|line| {
        let ended = line.strip_suffix(b"\r\n").or(line.strip_suffix(b"\n"));
        ended.unwrap_or(line)
    });
    (1..).zip(lines).filter(|(_, line)| !line.is_empty() && !line.starts_with(b"#"))
}

/// The line of a refusal; of a misspelt text the column of its first wrong byte, too.
fn at_line(number: usize, line: &[u8], refusal: Refusal) -> String {
    match column::first_wrong(line) {
        Some(at) if refusal == Refusal::Misspelt => {
            format!("line {number} column {} {refusal}\n", at + 1)
        }
        _ => format!("line {number} {refusal}\n"),
    }
}

/// Each rule as a comment with its figures or its refusal, and its text. A rule whose body
/// is refused has no text: its bytes are shown in a comment.
pub fn print(sheet: &Path) -> Result<Answer, Stop> {
    let sheet = files::read_sheet(sheet)?;
    let mut answer = Answer::given(String::new());
    for (rule, body) in bodies(&sheet)?.enumerate() {
        answer.text += &match figures(body) {
            Ok(figures) => format!("# rule {rule} {figures}\n"),
            Err(refusal) => format!("# rule {rule} {refusal}\n"),
        };
        match text_from_body(body) {
            Ok(text) => answer.text += &format!("{text}\n"),
            Err(_) => {
                answer.text += &format!("# no text: {}\n", hexadecimal::text(body));
                answer.refuse();
            }
        }
    }
    Ok(answer)
}
