//! A list of violations as another monitor sends it: lines of text, as `watch` and
//! `station-watch watch` print them. A file of any size is read with little memory.

use crate::answer::Failure;
use crate::files::Pieces;
use station_watch::Pair;
use std::io::Read;

/// The most bytes that are read at once.
const PIECE: usize = 65_536;

/// The most bytes of a line that is no comment: enough for four numbers of 64 bits, and for zeros
/// before them.
const LONGEST: usize = 256;

/// What a list must fit to.
pub struct Wanted {
    /// The rule whose violations are kept.
    pub rule: u64,
    /// How many steps an end line tells.
    pub steps: u64,
    /// How many violations are kept. Those after them are read and not kept.
    pub most: usize,
}

/// The violations of a rule that a list has, from the first on, and the line of each, from 1.
#[derive(Default)]
pub struct Claims {
    pub list: Vec<Pair>,
    pub lines: Vec<u64>,
}

impl Claims {
    /// An entry, counted from 0, and its line.
    pub fn at(&self, entry: usize) -> Option<(Pair, u64)> {
        self.list.get(entry).copied().zip(self.lines.get(entry).copied())
    }
}

/// Reads a list to its end. The first line that is none of a list, or contradicts the others or
/// what is wanted, is a failure.
pub fn read(mut input: Pieces<impl Read>, wanted: Wanted) -> Result<Claims, Failure> {
    let name = input.name.clone();
    let mut reader = Reader::new(wanted);
    let taken = for_each_line(&mut input, |number, line| {
        let take = |line| reader.take(number, line);
        let wrong = |why| Failure::Check(name.clone(), format!("line {number} {why}"));
        read_line(line).and_then(take).map_err(wrong)
    });
    taken?;
    match reader.ended() {
        Ok(claims) => Ok(claims),
        Err(why) => Err(Failure::Check(name, why)),
    }
}

/// Hands over each line without its end, and its number from 1. Of a longer line than any of a
/// list, a part that is longer, too.
fn for_each_line(
    input: &mut Pieces<impl Read>,
    mut take: impl FnMut(u64, &[u8]) -> Result<(), Failure>,
) -> Result<(), Failure> {
    let mut buffer = vec![0; PIECE];
    let (mut number, mut line) = (1, Vec::new());
    loop {
        let piece = input.read(&mut buffer)?;
        if piece.is_empty() {
            break;
        }
        for part in piece.split_inclusive(|byte| *byte == b'\n') {
            let room = LONGEST + 2 - line.len(); // a line end has two bytes at most
            line.extend_from_slice(&part[..part.len().min(room)]);
            if part.ends_with(b"\n") {
                take(number, without_end(&line))?;
                line.clear();
                number += 1;
            }
        }
    }
    if line.is_empty() {
        return Ok(());
    }
    take(number, without_end(&line))
}

fn without_end(line: &[u8]) -> &[u8] {
    let line = line.strip_suffix(b"\n").unwrap_or(line);
    line.strip_suffix(b"\r").unwrap_or(line)
}

/// A line of a list.
enum Line {
    /// An empty line or a comment.
    Nothing,
    /// The figures of a rule.
    Figures { rule: u64 },
    /// A violation; with its rule, if it is told.
    Violation { rule: Option<u64>, violation: Pair },
    /// How many steps there were, and violations of all rules.
    End { steps: u64, violations: u64 },
}

/// What is wrong with a line.
type Wrong = String;

fn read_line(line: &[u8]) -> Result<Line, Wrong> {
    if line.is_empty() || line.starts_with(b"#") {
        return Ok(Line::Nothing);
    }
    if line.len() > LONGEST {
        return Err(format!("has more than {LONGEST} bytes"));
    }
    let words: Vec<&[u8]> = line.split(|byte| *byte == b' ').collect();
    match words[..] {
        [b"rule", rule, b"history", history, b"delay", delay, b"cells", cells] => {
            [history, delay, cells].into_iter().try_for_each(|word| number(word).map(drop))?;
            Ok(Line::Figures { rule: number(rule)? })
        }
        [b"violation", tick, b"at", step] => {
            Ok(Line::Violation { rule: None, violation: pair(tick, step)? })
        }
        [b"violation", rule, tick, b"at", step] => {
            Ok(Line::Violation { rule: Some(number(rule)?), violation: pair(tick, step)? })
        }
        [b"end", steps, b"steps", violations, b"violations", live, b"live"] => {
            number(live)?;
            Ok(Line::End { steps: number(steps)?, violations: number(violations)? })
        }
        _ => Err(no_line()),
    }
}

fn no_line() -> Wrong {
    "is none of a list of violations".to_string()
}

fn pair(tick: &[u8], step: &[u8]) -> Result<Pair, Wrong> {
    Ok(Pair { tick: number(tick)?, step: number(step)? })
}

/// A number in decimal digits, of up to 64 bits.
fn number(word: &[u8]) -> Result<u64, Wrong> {
    if word.is_empty() || !word.iter().all(u8::is_ascii_digit) {
        return Err(no_line());
    }
    let digit = |sum: u64, digit: &u8| sum.checked_mul(10)?.checked_add(u64::from(digit - b'0'));
    word.iter().try_fold(0, digit).ok_or_else(|| "has a number above 64 bits".to_string())
}

/// What was read so far.
struct Reader {
    wanted: Wanted,
    claims: Claims,
    /// How many lines of figures there were, and whether one was of the wanted rule.
    figures: u64,
    own_figures: bool,
    /// How many violations there were, of all rules, and whether these told their rule.
    violations: u64,
    with_rules: bool,
    ended: bool,
}

impl Reader {
    fn new(wanted: Wanted) -> Reader {
        Reader {
            wanted,
            claims: Claims::default(),
            figures: 0,
            own_figures: false,
            violations: 0,
            with_rules: false,
            ended: false,
        }
    }

    fn take(&mut self, number: u64, line: Line) -> Result<(), Wrong> {
        if self.ended && !matches!(line, Line::Nothing) {
            return Err("stands after the end line".to_string());
        }
        match line {
            Line::Nothing => Ok(()),
            Line::Figures { rule } => self.take_figures(rule),
            Line::Violation { rule, violation } => self.take_violation(number, rule, violation),
            Line::End { steps, violations } => self.take_end(steps, violations),
        }
    }

    fn take_figures(&mut self, rule: u64) -> Result<(), Wrong> {
        if self.violations > 0 {
            return Err("has a rule's figures after a violation".to_string());
        }
        self.figures += 1;
        self.own_figures |= rule == self.wanted.rule;
        Ok(())
    }

    fn take_violation(
        &mut self,
        number: u64,
        rule: Option<u64>,
        violation: Pair,
    ) -> Result<(), Wrong> {
        if self.violations > 0 && self.with_rules != rule.is_some() {
            return Err("and lines before it differ in whether they tell a rule".to_string());
        }
        self.violations += 1;
        self.with_rules = rule.is_some();
        let own = rule.map_or(true, |rule| rule == self.wanted.rule);
        if own && self.claims.list.len() < self.wanted.most {
            self.claims.list.push(violation);
            self.claims.lines.push(number);
        }
        Ok(())
    }

    fn take_end(&mut self, steps: u64, violations: u64) -> Result<(), Wrong> {
        self.ended = true;
        if violations != self.violations {
            let listed = self.violations;
            return Err(format!("tells of {violations} violations, and the list has {listed}"));
        }
        if steps != self.wanted.steps {
            let ticks = self.wanted.steps;
            return Err(format!("tells of {steps} steps, and the recording has {ticks} ticks"));
        }
        Ok(())
    }

    /// Whose violations they are must be clear.
    fn ended(self) -> Result<Claims, Wrong> {
        let rule = self.wanted.rule;
        if self.figures > 0 && !self.own_figures {
            return Err(format!("it has figures of other rules, and none of rule {rule}"));
        }
        if self.figures > 1 && self.violations > 0 && !self.with_rules {
            return Err("it has figures of several rules, and violations tell none".to_string());
        }
        Ok(self.claims)
    }
}
