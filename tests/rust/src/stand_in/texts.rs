//! The stand-in's texts: document 02's spelling, or another one, and names looked up
//! rightly or not.

use super::{Flaw, Reader, StandIn};
use crate::paper::text::{
    digits_value, read_text, to_bytes, write_text, Base, End, Name, Part, Spelling, Typed, SPELLING,
};
use crate::paper::{self, read_body, Formula, Refusal};

/// An answer, and what a refused one writes all the same.
pub(super) struct Given {
    answer: Result<Vec<u8>, Refusal>,
    before_22: Option<Vec<u8>>,
}

impl StandIn {
    pub(super) fn give(&self, given: Given, out: &mut [u8], written: &mut usize) -> u32 {
        match given.answer {
            Err(number) => {
                let short = given.before_22.unwrap_or_default();
                if self.has(Flaw::WritesShortBody) {
                    let room = out.len().min(short.len());
                    out[..room].copy_from_slice(&short[..room]);
                }
                if self.has(Flaw::AnswersLengthOn22) && !short.is_empty() {
                    *written = short.len();
                }
                number
            }
            Ok(bytes) => {
                out[..bytes.len()].copy_from_slice(&bytes);
                if self.has(Flaw::ClearsBodyRoom) {
                    out[bytes.len()..].fill(0);
                }
                if self.has(Flaw::PrintsZeroByte) && out.len() > bytes.len() {
                    out[bytes.len()] = 0;
                }
                *written = bytes.len();
                0
            }
        }
    }

    fn fitted(&self, answer: Result<Vec<u8>, Refusal>, room: usize) -> Given {
        match answer {
            Ok(bytes) if bytes.len() > room => Given { answer: Err(22), before_22: Some(bytes) },
            answer => Given { answer, before_22: None },
        }
    }

    pub(super) fn body_of_text(&self, text: &[u8], room: usize) -> Given {
        let answer = self.body_before_22(text);
        if self.has(Flaw::RoomBeforeFlag) && answer == Err(7) && room == 0 {
            return Given { answer: Err(22), before_22: None };
        }
        self.fitted(answer, room)
    }

    fn body_before_22(&self, text: &[u8]) -> Result<Vec<u8>, Refusal> {
        let text = match text {
            [rule @ .., b'\n'] if self.has(Flaw::TakesLineEnd) => rule,
            text => text,
        };
        let spelling = self.spelling();
        let typed = read_text(text, &spelling);
        if self.has(Flaw::UnboundBeforeMisspelt) && typed.is_err() && begins_unbound(text) {
            return Err(26);
        }
        let typed = typed?;
        self.spelling_of_offsets(&typed)?;
        let body = self.bytes(&typed)?;
        read_body(&body)?;
        Ok(body)
    }

    fn spelling(&self) -> Spelling {
        match self.flaw {
            Flaw::NineLetters => Spelling { letters: 9, ..SPELLING },
            Flaw::KeywordsAreNames => Spelling { no_names: &[], ..SPELLING },
            Flaw::FiveDigits => Spelling { digits: 5, ..SPELLING },
            Flaw::FourThousandAndNinetySeven => Spelling { text: 4097, ..SPELLING },
            _ => SPELLING,
        }
    }

    fn spelling_of_offsets(&self, typed: &Typed) -> Result<(), Refusal> {
        for end in typed.parts.iter().flat_map(ends) {
            let Some((sign, digits)) = end.offset else {
                continue;
            };
            let leading = digits.len() > 1 && digits[0] == b'0';
            if self.has(Flaw::LeadingZeroIsMisspelt) && leading {
                return Err(25);
            }
            if self.has(Flaw::MinusZeroIsMisspelt) && sign == b'-' && digits_value(digits) == 0 {
                return Err(25);
            }
            if self.has(Flaw::InfinityPlusZeroIs24) && end.base == Base::Infinity {
                return Err(24);
            }
        }
        Ok(())
    }

    fn bytes(&self, typed: &Typed) -> Result<Vec<u8>, Refusal> {
        let meant = Typed { name: typed.name, parts: self.meant_parts(typed) };
        let bytes = to_bytes(&meant);
        let high = typed.parts.iter().any(|part| matches!(part, Part::Flag(_, 8 | 9)));
        if self.has(Flaw::FlagBeforeUnbound) && bytes == Err(26) && high {
            return Err(7);
        }
        let ranges = typed.parts.iter().filter(|part| matches!(part, Part::ForAll(..))).count();
        if self.has(Flaw::KeepsSixtyFourNames) && ranges >= 64 {
            return Err(26);
        }
        let mut bytes = bytes?;
        if self.has(Flaw::OffsetsOfOneByte) {
            // The first bound's offset alone, where the rule is a range.
            if let [5, _, _, _, high, ..] = &mut bytes[..] {
                *high = 0;
            }
        }
        Ok(bytes)
    }

    /// The parts that a flawed reader takes for those typed.
    fn meant_parts<'a>(&self, typed: &Typed<'a>) -> Vec<Part<'a>> {
        match self.flaw {
            Flaw::ExchangesConnectives => {
                let exchanged = |part: &Part<'a>| match part {
                    Part::Then => Part::Beside,
                    Part::Beside => Part::Then,
                    other => *other,
                };
                typed.parts.iter().map(exchanged).collect()
            }
            Flaw::OutermostNameWins => outermost(typed),
            Flaw::BoundsSeeOwnName => own_bounds(typed),
            Flaw::NamesOutliveRanges => outliving(typed),
            _ => typed.parts.clone(),
        }
    }

    pub(super) fn text_of_body(&self, body: &[u8], room: usize) -> Given {
        self.fitted(self.text_before_22(body), room)
    }

    fn text_before_22(&self, body: &[u8]) -> Result<Vec<u8>, Refusal> {
        let unchecked = self.has(Flaw::PrintsUncheckedFlags);
        let text = match read_body(body) {
            Err(7) if unchecked && body.len() == 3 => write_text(&Formula::Flag(0, body[2])),
            Err(number) => return Err(self.at_the_65th(Reader::Printer, body, number)),
            Ok(formula) => write_text(&formula),
        };
        Ok(self.printed(text).into_bytes())
    }

    fn printed(&self, text: String) -> String {
        match self.flaw {
            Flaw::PrintsPlusZero => text.replace("..x :", "..x+0 :"),
            Flaw::PrintsFourDigits => text.replace("x+1.", "x+0001."),
            Flaw::PrintsWForU => text.replace("forall u ", "forall w "),
            _ => text,
        }
    }
}

/// Whether a beginning of the text is a rule with an unbound name.
fn begins_unbound(text: &[u8]) -> bool {
    (1..=4).any(|cut| {
        let Some(length) = text.len().checked_sub(cut) else {
            return false;
        };
        paper::body_of_text(&text[..length], usize::MAX) == Err(26)
    })
}

fn ends<'a>(part: &Part<'a>) -> Vec<End<'a>> {
    match part {
        Part::ForAll(_, first, second) => vec![*first, *second],
        _ => Vec::new(),
    }
}

/// An inner range does not get a name that an outer one has.
fn outermost<'a>(typed: &Typed<'a>) -> Vec<Part<'a>> {
    let mut awaited = vec![vec![typed.name]];
    let mut parts = typed.parts.clone();
    for part in &mut parts {
        let scope = awaited.pop().expect("as many formulas as are awaited");
        match part {
            Part::Flag(..) => {}
            Part::Not => awaited.push(scope),
            Part::Then | Part::Beside => awaited.extend([scope.clone(), scope]),
            Part::ForAll(name, ..) => {
                if scope.contains(name) {
                    *name = b"nothing";
                }
                awaited.push([&scope[..], &[*name]].concat());
            }
        }
    }
    parts
}

/// A bound that has its own range's name is taken for the rule's tick.
fn own_bounds<'a>(typed: &Typed<'a>) -> Vec<Part<'a>> {
    let own = |name: Name<'a>, end: End<'a>| match end.base {
        Base::Name(base) if base == name => End { base: Base::Name(typed.name), ..end },
        _ => end,
    };
    let change = |part: &Part<'a>| match *part {
        Part::ForAll(name, first, second) => {
            Part::ForAll(name, own(name, first), own(name, second))
        }
        other => other,
    };
    typed.parts.iter().map(change).collect()
}

/// A name of an earlier range, where it is bound no more, is taken for the rule's tick.
fn outliving<'a>(typed: &Typed<'a>) -> Vec<Part<'a>> {
    if to_bytes(typed) != Err(26) {
        return typed.parts.clone();
    }
    let mut ranges: Vec<Name> = Vec::new();
    let change = |part: &Part<'a>| match *part {
        Part::ForAll(name, ..) => {
            ranges.push(name);
            *part
        }
        Part::Flag(name, flag) if ranges.contains(&name) => Part::Flag(typed.name, flag),
        other => other,
    };
    typed.parts.iter().map(change).collect()
}
