//! A text, read from left to right. Nothing recurses: a text may open thousands of
//! brackets.

use super::{Base, End, Name, Part, Spelling, Typed};
use crate::paper::Refusal;

/// Misspelt.
const MISSPELT: Refusal = 25;

/// The reading of a text, of which there is at most one; or 25.
pub fn read_text<'a>(text: &'a [u8], spelling: &'a Spelling) -> Result<Typed<'a>, Refusal> {
    if text.len() > spelling.text {
        return Err(MISSPELT);
    }
    let mut reader = Reader { rest: text, spelling };
    reader.word("monitor ")?;
    let name = reader.name()?;
    reader.word(" : ")?;
    let parts = reader.formula()?;
    if !reader.rest.is_empty() {
        return Err(MISSPELT);
    }
    Ok(Typed { name, parts })
}

struct Reader<'a> {
    /// What is to be read.
    rest: &'a [u8],
    spelling: &'a Spelling,
}

/// A bracket whose end is awaited.
enum Bracket {
    /// Its first part is being read; the place of its connective among the parts.
    First(usize),
    Second,
}

impl<'a> Reader<'a> {
    /// A whole formula in prefix order.
    fn formula(&mut self) -> Result<Vec<Part<'a>>, Refusal> {
        let mut parts = Vec::new();
        let mut brackets = Vec::new();
        loop {
            // A formula begins here. "~" and "forall" end with the formula that follows.
            if self.takes("~") {
                parts.push(Part::Not);
            } else if self.takes("(") {
                brackets.push(Bracket::First(parts.len()));
                parts.push(Part::Then); // until its connective is read
            } else if self.takes("forall ") {
                parts.push(self.range()?);
            } else {
                parts.push(self.flag()?);
                if self.closed(&mut brackets, &mut parts)? {
                    return Ok(parts);
                }
            }
        }
    }

    /// Where a formula has ended: whether it is the whole. Else a second part follows.
    fn closed(
        &mut self,
        brackets: &mut Vec<Bracket>,
        parts: &mut [Part<'a>],
    ) -> Result<bool, Refusal> {
        loop {
            match brackets.pop() {
                None => return Ok(true),
                Some(Bracket::Second) => self.word(")")?,
                Some(Bracket::First(at)) => {
                    parts[at] = self.connective()?;
                    brackets.push(Bracket::Second);
                    return Ok(false);
                }
            }
        }
    }

    fn connective(&mut self) -> Result<Part<'a>, Refusal> {
        if self.takes(" && ") {
            return Ok(Part::Then);
        }
        self.word(" /\\ ")?;
        Ok(Part::Beside)
    }

    /// "@x.3", and "a flag has one" digit.
    fn flag(&mut self) -> Result<Part<'a>, Refusal> {
        self.word("@")?;
        let name = self.name()?;
        self.word(".")?;
        match self.rest {
            [digit @ b'0'..=b'9', rest @ ..] => {
                self.rest = rest;
                Ok(Part::Flag(name, digit - b'0'))
            }
            _ => Err(MISSPELT),
        }
    }

    /// What stands after "forall " and before its formula.
    fn range(&mut self) -> Result<Part<'a>, Refusal> {
        let name = self.name()?;
        self.word(" in ")?;
        let first = self.end()?;
        self.word("..")?;
        let second = self.end()?;
        self.word(" : ")?;
        Ok(Part::ForAll(name, first, second))
    }

    fn end(&mut self) -> Result<End<'a>, Refusal> {
        let base = self.base()?;
        let offset = match self.rest {
            [sign @ (b'+' | b'-'), rest @ ..] => {
                self.rest = rest;
                Some((*sign, self.digits()?))
            }
            _ => None,
        };
        Ok(End { base, offset })
    }

    fn base(&mut self) -> Result<Base<'a>, Refusal> {
        if self.takes("0") {
            return Ok(Base::Start);
        }
        let letters = self.run(|byte| byte.is_ascii_lowercase());
        if letters == b"infinity" {
            return Ok(Base::Infinity);
        }
        self.checked_name(letters).map(Base::Name)
    }

    fn digits(&mut self) -> Result<&'a [u8], Refusal> {
        let digits = self.run(|byte| byte.is_ascii_digit());
        if digits.is_empty() || digits.len() > self.spelling.digits {
            return Err(MISSPELT);
        }
        Ok(digits)
    }

    fn name(&mut self) -> Result<Name<'a>, Refusal> {
        let letters = self.run(|byte| byte.is_ascii_lowercase());
        self.checked_name(letters)
    }

    fn checked_name(&self, letters: &'a [u8]) -> Result<Name<'a>, Refusal> {
        let reserved = self.spelling.no_names.iter().any(|word| word.as_bytes() == letters);
        if letters.is_empty() || letters.len() > self.spelling.letters || reserved {
            return Err(MISSPELT);
        }
        Ok(letters)
    }

    /// The longest beginning of what is left whose bytes all pass a test.
    fn run(&mut self, passes: fn(&u8) -> bool) -> &'a [u8] {
        let length = self.rest.iter().take_while(|byte| passes(byte)).count();
        let (run, rest) = self.rest.split_at(length);
        self.rest = rest;
        run
    }

    fn takes(&mut self, word: &str) -> bool {
        match self.rest.strip_prefix(word.as_bytes()) {
            None => false,
            Some(rest) => {
                self.rest = rest;
                true
            }
        }
    }

    fn word(&mut self, word: &str) -> Result<(), Refusal> {
        if self.takes(word) {
            Ok(())
        } else {
            Err(MISSPELT)
        }
    }
}
