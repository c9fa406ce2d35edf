//! What the stand-in does wrong at ranges that are always empty (02, point 6).

use super::{Flaw, StandIn};
use crate::paper::{
    self, always_empty, tick_pair, variable_pair, Bound, Figures, Formula, Low, Pair, Refusal,
    Uncounted,
};
use crate::ranges::ranges;

#[derive(Clone, Copy, Debug, PartialEq, Eq)]
pub enum EmptyRangeFlaw {
    /// A range of one position is taken for an empty one.
    EqualIsEmpty,
    /// So is one whose bounds name the same variable, the first with the larger offset.
    ByTypedBounds,
    /// So is one whose bounds are at position 0, the first with the larger offset.
    FromZeroIsEmpty,
    /// The delay is that of document 01, which counts every range.
    CountsDelay,
    /// A range from infinity to a position counts.
    CountsFiniteEnd,
    /// The history is that of document 01.
    CountsHistory,
    /// The bytes of the body are not looked at.
    LeavesBodyUnread,
    /// True at the end of the range, and open before.
    WaitsForTheEnd,
}

impl EmptyRangeFlaw {
    /// What is not counted in delay, history and cells.
    fn uncounted(self) -> [Uncounted; 3] {
        match self {
            EmptyRangeFlaw::EqualIsEmpty => [empty_or_one; 3],
            EmptyRangeFlaw::ByTypedBounds => [empty_as_typed; 3],
            EmptyRangeFlaw::FromZeroIsEmpty => [empty_from_0; 3],
            EmptyRangeFlaw::CountsFiniteEnd => [empty_without_end; 3],
            EmptyRangeFlaw::CountsDelay => [none, always_empty, always_empty],
            EmptyRangeFlaw::CountsHistory => [always_empty, none, always_empty],
            EmptyRangeFlaw::LeavesBodyUnread | EmptyRangeFlaw::WaitsForTheEnd => [always_empty; 3],
        }
    }
}

impl StandIn {
    fn at_empty_range(&self, flaw: EmptyRangeFlaw) -> bool {
        self.flaw == Flaw::EmptyRange(flaw)
    }

    /// The figures, with no flaw but one at such ranges.
    pub(super) fn counted(&self, formula: &Formula) -> Result<Figures, Refusal> {
        match self.flaw {
            Flaw::EmptyRange(flaw) => paper::figures_without(formula, flaw.uncounted()),
            _ => paper::formula_figures(formula),
        }
    }

    /// The figures of a body that is refused inside of the range with which it begins.
    pub(super) fn unread_figures(&self, body: &[u8]) -> Option<Figures> {
        if !self.at_empty_range(EmptyRangeFlaw::LeavesBodyUnread) {
            return None;
        }
        let over_flag = [body.get(..9)?, &[1, 0, 0]].concat();
        let range = ranges(&paper::read_body(&over_flag).ok()?).pop()?;
        range.always_empty().then_some(Figures { history: 0, delay: 0, cells: 2 })
    }

    /// The formula that an engine takes for the rule.
    pub(super) fn waiting(&self, formula: &Formula) -> Formula {
        if !self.at_empty_range(EmptyRangeFlaw::WaitsForTheEnd) {
            return formula.clone();
        }
        waiting(formula, &mut tick_pair())
    }
}

fn none(_: Bound, _: Bound, _: &[Pair]) -> bool {
    false
}

fn empty_or_one(first: Bound, second: Bound, pairs: &[Pair]) -> bool {
    let pair = variable_pair(first, second, pairs);
    pair.always_empty() || matches!((pair.l, pair.u), (Low::At(l), Some(u)) if l == u)
}

fn empty_as_typed(first: Bound, second: Bound, pairs: &[Pair]) -> bool {
    match (first, second) {
        (Bound::Variable(v, low), Bound::Variable(w, high)) if v == w => low > high,
        _ => always_empty(first, second, pairs),
    }
}

fn empty_from_0(first: Bound, second: Bound, pairs: &[Pair]) -> bool {
    match (first, second) {
        (Bound::Start(low), Bound::Start(high)) => low > high,
        _ => always_empty(first, second, pairs),
    }
}

fn empty_without_end(first: Bound, second: Bound, pairs: &[Pair]) -> bool {
    let pair = variable_pair(first, second, pairs);
    pair.always_empty() && (pair.l != Low::Infinity || pair.u.is_none())
}

/// The formula with a position at the end of each always empty range, where it is true.
fn waiting(formula: &Formula, pairs: &mut Vec<Pair>) -> Formula {
    match formula {
        Formula::Flag(..) => formula.clone(),
        Formula::Not(f) => Formula::Not(Box::new(waiting(f, pairs))),
        Formula::Then(f, g) => {
            Formula::Then(Box::new(waiting(f, pairs)), Box::new(waiting(g, pairs)))
        }
        Formula::Beside(f, g) => {
            Formula::Beside(Box::new(waiting(f, pairs)), Box::new(waiting(g, pairs)))
        }
        Formula::ForAll(first, second, f) => {
            let pair = variable_pair(*first, *second, pairs);
            if pair.always_empty() {
                return Formula::ForAll(*second, *second, Box::new(always_true()));
            }
            pairs.push(pair);
            let part = waiting(f, pairs);
            pairs.pop();
            Formula::ForAll(*first, *second, Box::new(part))
        }
    }
}

fn always_true() -> Formula {
    Formula::ForAll(Bound::Infinity, Bound::Infinity, Box::new(Formula::Flag(0, 0)))
}
