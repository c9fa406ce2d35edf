//! Where a rule's text is misspelt. The library says that it is (25), and not where; this
//! reader goes from left to right to the first wrong byte. It is not proved: its tests hold
//! it to the library, and what it finds is only told, never decided upon.

use station_watch::MAX_TEXT;

/// The most letters of a name, and the most digits of an offset.
const LETTERS: usize = 8;
const DIGITS: usize = 4;

/// The words that are no names. The last is a bound.
const NO_NAMES: [&[u8]; 4] = [b"monitor", b"forall", b"in", b"infinity"];

/// What must come next.
#[derive(Clone, Copy)]
enum Awaited {
    Word(&'static str),
    Name,
    Digit,
    Formula,
    /// The rest of a connective after its first blank, and the blank after it.
    Connective,
    Bound,
    /// Or none.
    Offset,
}

use Awaited::{Bound, Connective, Digit, Formula, Name, Offset, Word};

/// The whole, and each form of a formula.
const RULE: [Awaited; 4] = [Word("monitor "), Name, Word(" : "), Formula];
const FLAG: [Awaited; 4] = [Word("@"), Name, Word("."), Digit];
const NOT: [Awaited; 2] = [Word("~"), Formula];
const PAIR: [Awaited; 6] = [Word("("), Formula, Word(" "), Connective, Formula, Word(")")];
const RANGE: [Awaited; 8] =
    [Word("forall "), Name, Word(" in "), Bound, Word(".."), Bound, Word(" : "), Formula];

/// The place of the first wrong byte: with it, the line begins as no rule of any length does. It is the
/// line's length where the line is a rule's beginning, but ends too early, and 4,096 where
/// nothing before is wrong but the line is longer. `None` where nothing is wrong.
pub fn first_wrong(line: &[u8]) -> Option<usize> {
    let enough = &line[..line.len().min(MAX_TEXT + 1)];
    let read = Reader { line: enough, at: 0, awaited: Vec::new() }.read();
    let wrong = read.err().or((line.len() > MAX_TEXT).then_some(MAX_TEXT));
    wrong.map(|at| at.min(MAX_TEXT))
}

struct Reader<'a> {
    line: &'a [u8],
    /// The byte to be read next.
    at: usize,
    /// The last comes first. A text can open thousands of brackets, so nothing recurses.
    awaited: Vec<Awaited>,
}

/// The place of a wrong byte.
type Wrong = usize;

impl Reader<'_> {
    fn read(&mut self) -> Result<(), Wrong> {
        self.await_all(&RULE);
        while let Some(next) = self.awaited.pop() {
            match next {
                Word(word) => word.bytes().try_for_each(|byte| self.byte(byte))?,
                Name => self.name(&NO_NAMES)?,
                Digit => self.digit()?,
                Formula => self.formula()?,
                Connective => self.connective(),
                Bound => self.bound()?,
                Offset => self.offset()?,
            }
        }
        if self.at < self.line.len() {
            Err(self.at)
        } else {
            Ok(())
        }
    }

    /// The parts of a form, in their order.
    fn await_all(&mut self, parts: &[Awaited]) {
        self.awaited.extend(parts.iter().rev());
    }

    fn next(&self) -> Option<u8> {
        self.line.get(self.at).copied()
    }

    fn byte(&mut self, byte: u8) -> Result<(), Wrong> {
        if self.next() != Some(byte) {
            return Err(self.at);
        }
        self.at += 1;
        Ok(())
    }

    fn digit(&mut self) -> Result<(), Wrong> {
        match self.next() {
            Some(b'0'..=b'9') => self.at += 1,
            _ => return Err(self.at),
        }
        Ok(())
    }

    /// By its first byte.
    fn formula(&mut self) -> Result<(), Wrong> {
        match self.next() {
            Some(b'@') => self.await_all(&FLAG),
            Some(b'~') => self.await_all(&NOT),
            Some(b'(') => self.await_all(&PAIR),
            Some(b'f') => self.await_all(&RANGE),
            _ => return Err(self.at),
        }
        Ok(())
    }

    fn connective(&mut self) {
        let and = self.next() == Some(b'&');
        self.awaited.push(Word(if and { "&& " } else { "/\\ " }));
    }

    fn bound(&mut self) -> Result<(), Wrong> {
        self.awaited.push(Offset);
        match self.next() {
            Some(b'0') => self.byte(b'0'),
            _ => self.name(&NO_NAMES[..3]),
        }
    }

    /// A digit too many is no beginning of what follows a bound.
    fn offset(&mut self) -> Result<(), Wrong> {
        if !matches!(self.next(), Some(b'+' | b'-')) {
            return Ok(());
        }
        self.at += 1;
        self.digit()?;
        for _ in 1..DIGITS {
            if !self.next().is_some_and(|byte| byte.is_ascii_digit()) {
                break;
            }
            self.at += 1;
        }
        Ok(())
    }

    /// 1 to 8 letters, but none of these words. Such a word of fewer letters can still become
    /// a name by another one, so that only the byte after it is wrong.
    fn name(&mut self, no_names: &[&[u8]]) -> Result<(), Wrong> {
        let rest = &self.line[self.at..];
        let letters = rest.iter().take_while(|byte| byte.is_ascii_lowercase()).count();
        let name = &rest[..letters.min(LETTERS)];
        let no_name = no_names.contains(&name);
        if no_name && name.len() == LETTERS {
            return Err(self.at + LETTERS - 1);
        }
        self.at += name.len();
        if name.is_empty() || no_name || letters > LETTERS {
            return Err(self.at);
        }
        Ok(())
    }
}
