//! Document 02, point 2, "Rules typed as in the paper": a rule's text, its reader with
//! refusals 25 and 26, and its writer.

mod bytes;
mod reader;
mod writer;

use super::{read_body, Refusal};
pub use bytes::{digits_value, to_bytes};
pub use reader::read_text;
pub use writer::write_text;

/// What is spelt how. The tests of the suites read texts spelt otherwise.
#[derive(Clone, Copy)]
pub struct Spelling {
    /// "Misspelt text, or text above 4,096 bytes, is 25".
    pub text: usize,
    /// "Names of 1 to 8 lower-case letters".
    pub letters: usize,
    /// "The words monitor, forall, in and infinity are no names."
    pub no_names: &'static [&'static str],
    /// "Offsets have 1 to 4 decimal digits".
    pub digits: usize,
}

pub const SPELLING: Spelling = Spelling {
    text: 4096,
    letters: 8,
    no_names: &["monitor", "forall", "in", "infinity"],
    digits: 4,
};

/// A name, as it stands in the text.
pub type Name<'a> = &'a [u8];

/// "A bound is 0, infinity or a name".
#[derive(Clone, Copy, Debug, PartialEq, Eq)]
pub enum Base<'a> {
    Start,
    Infinity,
    Name(Name<'a>),
}

/// "With at most one offset, as in 0+5": its sign and its digits.
#[derive(Clone, Copy, Debug, PartialEq, Eq)]
pub struct End<'a> {
    pub base: Base<'a>,
    pub offset: Option<(u8, &'a [u8])>,
}

/// A formula without its parts.
#[derive(Clone, Copy, Debug, PartialEq, Eq)]
pub enum Part<'a> {
    /// "@x.3": a name, and the flag's digit as a number.
    Flag(Name<'a>, u8),
    /// "~F"
    Not,
    /// "(F && G)"
    Then,
    /// "(F /\ G)"
    Beside,
    /// "forall y in x-1..x+2 : F"
    ForAll(Name<'a>, End<'a>, End<'a>),
}

/// "The whole is monitor x : F": the rule's name, and its formula in prefix order, as in
/// a body.
#[derive(Clone, Debug, PartialEq, Eq)]
pub struct Typed<'a> {
    pub name: Name<'a>,
    pub parts: Vec<Part<'a>>,
}

/// The body of a text: "25 and an unbound name 26, in this order; then 01's refusals 4 to
/// 10, with 23 and 24, apply to the result, and last 22 if the lent buffer is shorter than
/// the body".
pub fn body_of_text(text: &[u8], room: usize) -> Result<Vec<u8>, Refusal> {
    let body = to_bytes(&read_text(text, &SPELLING)?)?;
    read_body(&body)?;
    fitted(body, room)
}

/// A body as text: its own refusals, and last 22.
pub fn text_of_body(body: &[u8], room: usize) -> Result<Vec<u8>, Refusal> {
    fitted(write_text(&read_body(body)?).into_bytes(), room)
}

fn fitted(bytes: Vec<u8>, room: usize) -> Result<Vec<u8>, Refusal> {
    if room < bytes.len() {
        return Err(22);
    }
    Ok(bytes)
}
