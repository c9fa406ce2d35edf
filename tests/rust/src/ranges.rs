//! The ranges of a formula, each with the pairs of the variables and with what it stands in.

use crate::paper::{tick_pair, variable_pair, Bound, Formula, Pair};

/// A formula that a range stands in, and in which of its parts.
#[derive(Clone, Copy, Debug, PartialEq, Eq)]
pub enum Around {
    Not,
    ThenFirst,
    ThenSecond,
    BesideFirst,
    BesideSecond,
    Range,
    /// A range that is always empty, or one in the body of such a range.
    EmptyRange,
}

/// A range and its place.
#[derive(Clone, Debug)]
pub struct Placed {
    pub bounds: (Bound, Bound),
    /// Of its own variable.
    pub pair: Pair,
    /// Of the ranges around it, the outermost first.
    pub outer: Vec<Pair>,
    pub around: Vec<Around>,
}

impl Placed {
    pub fn always_empty(&self) -> bool {
        self.pair.always_empty()
    }

    /// Whether no range around it is always empty.
    pub fn counted(&self) -> bool {
        !self.outer.iter().any(|pair| pair.always_empty())
    }
}

/// In the order of the body's bytes.
pub fn ranges(formula: &Formula) -> Vec<Placed> {
    let mut walk = Walk { pairs: tick_pair(), around: Vec::new(), found: Vec::new() };
    walk.formula(formula);
    walk.found
}

struct Walk {
    pairs: Vec<Pair>,
    around: Vec<Around>,
    found: Vec<Placed>,
}

impl Walk {
    fn formula(&mut self, formula: &Formula) {
        match formula {
            Formula::Flag(..) => {}
            Formula::Not(part) => self.part(Around::Not, part),
            Formula::Then(f, g) => {
                self.part(Around::ThenFirst, f);
                self.part(Around::ThenSecond, g);
            }
            Formula::Beside(f, g) => {
                self.part(Around::BesideFirst, f);
                self.part(Around::BesideSecond, g);
            }
            Formula::ForAll(first, second, part) => self.range(*first, *second, part),
        }
    }

    fn part(&mut self, around: Around, part: &Formula) {
        self.around.push(around);
        self.formula(part);
        self.around.pop();
    }

    fn range(&mut self, first: Bound, second: Bound, part: &Formula) {
        let pair = variable_pair(first, second, &self.pairs);
        let outer = self.pairs[1..].to_vec();
        let range = Placed { bounds: (first, second), pair, outer, around: self.around.clone() };
        let counted = range.counted() && !range.always_empty();
        self.found.push(range);
        self.pairs.push(pair);
        self.part(if counted { Around::Range } else { Around::EmptyRange }, part);
        self.pairs.pop();
    }
}
