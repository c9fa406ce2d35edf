//! "The body": formulas, their reader with refusals 4 to 10, 23 and 24, their
//! writer.

use super::{Refusal, MAX_FORMULAS, MAX_NESTED, MAX_OFFSET};

/// "A bound has 4 bytes: kind (0 the stream's position 0, 1 infinity, 2 a
/// variable), variable, and a signed 16-bit offset".
#[derive(Clone, Copy, Debug, PartialEq, Eq)]
pub enum Bound {
    /// The stream's position 0, plus an offset.
    Start(i64),
    Infinity,
    /// A variable, and an offset.
    Variable(usize, i64),
}

#[derive(Clone, Debug, PartialEq, Eq)]
pub enum Formula {
    /// "01 v k: flag k at variable v."
    Flag(usize, u8),
    /// "02 F: not F."
    Not(Box<Formula>),
    /// "03 F G: F, then G."
    Then(Box<Formula>, Box<Formula>),
    /// "04 F G: F beside G."
    Beside(Box<Formula>, Box<Formula>),
    /// "05 B1 B2 F: for all positions from B1 to B2, F."
    ForAll(Bound, Bound, Box<Formula>),
}

/// "One formula in prefix order, nothing after it".
pub fn read_body(bytes: &[u8]) -> Result<Formula, Refusal> {
    let mut reader = Reader { bytes, at: 0, formulas: 0 };
    let formula = reader.formula(0)?;
    // "10: bytes left over."
    if reader.at < bytes.len() {
        return Err(10);
    }
    Ok(formula)
}

struct Reader<'a> {
    bytes: &'a [u8],
    /// The byte to be read next.
    at: usize,
    /// How many formulas were begun.
    formulas: usize,
}

impl Reader<'_> {
    /// A formula nested under `nested` quantifiers: variables 0 to `nested` are
    /// bound here.
    fn formula(&mut self, nested: usize) -> Result<Formula, Refusal> {
        match self.code(nested)? {
            1 => self.flag(nested),
            2 => Ok(Formula::Not(self.part(nested)?)),
            3 => Ok(Formula::Then(self.part(nested)?, self.part(nested)?)),
            4 => Ok(Formula::Beside(self.part(nested)?, self.part(nested)?)),
            _ => self.for_all(nested),
        }
    }

    fn part(&mut self, nested: usize) -> Result<Box<Formula>, Refusal> {
        Ok(Box::new(self.formula(nested)?))
    }

    /// "Code present (4), known (5), 9", the last: "a 65th formula or a 5th
    /// nested quantifier".
    fn code(&mut self, nested: usize) -> Result<u8, Refusal> {
        let code = *self.bytes.get(self.at).ok_or(4u32)?;
        if !(1..=5).contains(&code) {
            return Err(5);
        }
        if self.formulas == MAX_FORMULAS || (code == 5 && nested == MAX_NESTED) {
            return Err(9);
        }
        self.at += 1;
        self.formulas += 1;
        Ok(code)
    }

    /// "Its fixed bytes present (4)".
    fn fixed(&mut self, count: usize) -> Result<&[u8], Refusal> {
        if self.bytes.len() - self.at < count {
            return Err(4);
        }
        self.at += count;
        Ok(&self.bytes[self.at - count..self.at])
    }

    /// "Then for a flag 6, 7".
    fn flag(&mut self, nested: usize) -> Result<Formula, Refusal> {
        let fixed = self.fixed(2)?;
        let (variable, flag) = (fixed[0] as usize, fixed[1]);
        if variable > nested {
            return Err(6);
        }
        if flag > 7 {
            return Err(7);
        }
        Ok(Formula::Flag(variable, flag))
    }

    /// "Bounds see only variables bound outside their quantifier."
    fn for_all(&mut self, nested: usize) -> Result<Formula, Refusal> {
        let fixed = self.fixed(8)?;
        let first = bound(&fixed[..4], nested)?;
        let second = bound(&fixed[4..], nested)?;
        Ok(Formula::ForAll(first, second, self.part(nested + 1)?))
    }
}

/// "For each bound 5, 6", and then: "In the place of 8, the variable byte is looked
/// at first with 23, then an infinity's offset with 24, then 8."
fn bound(bytes: &[u8], nested: usize) -> Result<Bound, Refusal> {
    let (kind, variable) = (bytes[0], bytes[1] as usize);
    let offset = i16::from_le_bytes([bytes[2], bytes[3]]) as i64;
    if kind > 2 {
        return Err(5);
    }
    if kind == 2 && variable > nested {
        return Err(6);
    }
    // "For kinds 0 and 1 the variable byte is 0; for infinity the offset is 0."
    if kind != 2 && variable != 0 {
        return Err(23);
    }
    if kind == 1 && offset != 0 {
        return Err(24);
    }
    // "8 means an offset outside -4,095 to 4,095."
    if !(-MAX_OFFSET..=MAX_OFFSET).contains(&offset) {
        return Err(8);
    }
    Ok(match kind {
        0 => Bound::Start(offset),
        1 => Bound::Infinity,
        _ => Bound::Variable(variable, offset),
    })
}

/// The bytes of a formula, as `read_body` reads them. It checks nothing: what
/// doesn't fit is the reader's to refuse.
pub fn write_body(formula: &Formula) -> Vec<u8> {
    let mut bytes = Vec::new();
    write_formula(formula, &mut bytes);
    bytes
}

fn write_formula(formula: &Formula, bytes: &mut Vec<u8>) {
    match formula {
        Formula::Flag(variable, flag) => bytes.extend([1, *variable as u8, *flag]),
        Formula::Not(part) => {
            bytes.push(2);
            write_formula(part, bytes);
        }
        Formula::Then(f, g) => write_pair(3, f, g, bytes),
        Formula::Beside(f, g) => write_pair(4, f, g, bytes),
        Formula::ForAll(first, second, part) => {
            bytes.push(5);
            write_bound(*first, bytes);
            write_bound(*second, bytes);
            write_formula(part, bytes);
        }
    }
}

fn write_pair(code: u8, f: &Formula, g: &Formula, bytes: &mut Vec<u8>) {
    bytes.push(code);
    write_formula(f, bytes);
    write_formula(g, bytes);
}

fn write_bound(bound: Bound, bytes: &mut Vec<u8>) {
    let (kind, variable, offset) = match bound {
        Bound::Start(offset) => (0, 0, offset),
        Bound::Infinity => (1, 0, 0),
        Bound::Variable(variable, offset) => (2, variable as u8, offset),
    };
    bytes.extend([kind, variable]);
    bytes.extend((offset as i16).to_le_bytes());
}
