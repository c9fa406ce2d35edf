//! "Figures": delay, history and cells, with refusals 11 to 15. By 02, point 6, "a range whose l
//! is infinity, or whose l is greater than its u, now has delay 0, history 0 and one cell, and its
//! body isn't counted at all".

use super::{read_body, Bound, Formula, Refusal, MAX_CELLS, MAX_DELAY, MAX_HISTORY};

#[derive(Clone, Copy, Debug, PartialEq, Eq)]
pub struct Figures {
    pub history: u64,
    pub delay: u64,
    pub cells: u64,
}

/// The lower number of a pair.
#[derive(Clone, Copy, Debug, PartialEq, Eq)]
pub enum Low {
    MinusInfinity,
    At(i64),
    Infinity,
}

/// "Each variable has a pair (l, u): its position lies from p + l to p + u."
/// For u, `None` is infinity; minus infinity doesn't occur there.
#[derive(Clone, Copy, Debug, PartialEq, Eq)]
pub struct Pair {
    pub l: Low,
    pub u: Option<i64>,
}

impl Pair {
    /// "A range whose l is infinity, or whose l is greater than its u".
    pub fn always_empty(self) -> bool {
        match self.l {
            Low::MinusInfinity => false,
            Low::At(l) => self.u.is_some_and(|u| l > u),
            Low::Infinity => true,
        }
    }
}

/// Whether a range between these bounds is not counted, by the pairs of the variables around it.
pub type Uncounted = fn(Bound, Bound, &[Pair]) -> bool;

/// What the papers do not count.
pub fn always_empty(first: Bound, second: Bound, pairs: &[Pair]) -> bool {
    variable_pair(first, second, pairs).always_empty()
}

/// "Asked for a body's figures, the library answers all three or a refusal from
/// 4 to 15." And 23 and 24, with 4 to 10.
pub fn figures(body: &[u8]) -> Result<Figures, Refusal> {
    formula_figures(&read_body(body)?)
}

pub fn formula_figures(formula: &Formula) -> Result<Figures, Refusal> {
    figures_without(formula, [always_empty; 3])
}

/// "11: delay infinite. 12: above 255. 13: history infinite. 14: above 4,096.
/// 15: cells above 4,096." With what is not counted in delay, history and cells.
pub fn figures_without(formula: &Formula, not: [Uncounted; 3]) -> Result<Figures, Refusal> {
    let [mut of_delay, mut of_history, mut of_cells] = not.map(Scope::new);
    let delay = delay(formula, &mut of_delay).ok_or(11u32)?;
    if delay > MAX_DELAY {
        return Err(12);
    }
    let history = history(formula, 0, &mut of_history).ok_or(13u32)?;
    if history > MAX_HISTORY as i64 {
        return Err(14);
    }
    let cells = needed_cells(formula, delay, &mut of_cells);
    if cells > MAX_CELLS {
        return Err(15);
    }
    Ok(Figures { history: history as u64, delay: delay as u64, cells: cells as u64 })
}

/// The pairs of the variables that are bound at the rule: "Variable 0: (0, 0)."
pub fn tick_pair() -> Vec<Pair> {
    vec![Pair { l: Low::At(0), u: Some(0) }]
}

/// "The rule needs (delay + 1) times (1 + its cells)."
fn needed_cells(formula: &Formula, delay: i64, scope: &mut Scope) -> i128 {
    (delay as i128 + 1) * (1 + cells(formula, scope))
}

/// The cells that a rule needs, not compared with the limit; its delay must be
/// finite.
pub fn exact_cells(formula: &Formula) -> i128 {
    let mut scope = Scope::new(always_empty);
    let delay = delay(formula, &mut scope).expect("an infinite delay is refused with 11");
    needed_cells(formula, delay, &mut scope)
}

/// "Bounds: position 0 plus offset n, (-infinity, n); infinity, (infinity,
/// infinity); a variable, its pair plus n."
fn bound_pair(bound: Bound, pairs: &[Pair]) -> Pair {
    match bound {
        Bound::Start(n) => Pair { l: Low::MinusInfinity, u: Some(n) },
        Bound::Infinity => Pair { l: Low::Infinity, u: None },
        Bound::Variable(variable, n) => {
            let Pair { l, u } = pairs[variable];
            Pair { l: plus(l, n), u: u.map(|u| u + n) }
        }
    }
}

fn plus(l: Low, n: i64) -> Low {
    match l {
        Low::At(l) => Low::At(l + n),
        infinite => infinite,
    }
}

/// "A quantifier gives its variable l of B1 and u of B2."
pub fn variable_pair(first: Bound, second: Bound, pairs: &[Pair]) -> Pair {
    Pair { l: bound_pair(first, pairs).l, u: bound_pair(second, pairs).u }
}

/// "N(a) is a, or 0 if a is negative."
fn n(a: i64) -> i64 {
    if a < 0 {
        0
    } else {
        a
    }
}

/// The larger of two numbers of which `None` is infinity.
fn larger(a: Option<i64>, b: Option<i64>) -> Option<i64> {
    Some(a?.max(b?))
}

/// The variables that are bound at a formula.
struct Scope {
    pairs: Vec<Pair>,
    not: Uncounted,
}

impl Scope {
    fn new(not: Uncounted) -> Scope {
        Scope { pairs: tick_pair(), not }
    }

    /// The pair of a quantifier's variable, `None` where the range is not counted.
    fn counted(&self, first: Bound, second: Bound) -> Option<Pair> {
        let counts = !(self.not)(first, second, &self.pairs);
        counts.then(|| variable_pair(first, second, &self.pairs))
    }

    /// What `count` answers for the body of a quantifier whose variable has `pair`.
    fn inside<T>(&mut self, pair: Pair, count: impl FnOnce(&mut Scope) -> T) -> T {
        self.pairs.push(pair);
        let answer = count(self);
        self.pairs.pop();
        answer
    }
}

/// "Delay: flag 0; not, the part's; the conjunctions, the larger; for all, the
/// larger of the body's and N(u)." `None` is infinity.
fn delay(formula: &Formula, scope: &mut Scope) -> Option<i64> {
    match formula {
        Formula::Flag(..) => Some(0),
        Formula::Not(part) => delay(part, scope),
        Formula::Then(f, g) | Formula::Beside(f, g) => larger(delay(f, scope), delay(g, scope)),
        Formula::ForAll(first, second, body) => {
            let Some(pair) = scope.counted(*first, *second) else {
                return Some(0);
            };
            let of_body = scope.inside(pair, |scope| delay(body, scope));
            larger(of_body, pair.u.map(n))
        }
    }
}

/// "History, with latest start k, 0 for the rule: flag 0; not, the part's;
/// beside, the larger, same k; then, the larger of F's with k and G's with
/// max(k, delay of F); for all, the larger of N(k - l) and the body's with
/// max(k, N(u))." `None` is infinity; an infinite delay was refused before.
fn history(formula: &Formula, k: i64, scope: &mut Scope) -> Option<i64> {
    match formula {
        Formula::Flag(..) => Some(0),
        Formula::Not(part) => history(part, k, scope),
        Formula::Beside(f, g) => larger(history(f, k, scope), history(g, k, scope)),
        Formula::Then(f, g) => {
            let later = k.max(delay(f, scope)?);
            larger(history(f, k, scope), history(g, later, scope))
        }
        Formula::ForAll(first, second, body) => {
            let Some(pair) = scope.counted(*first, *second) else {
                return Some(0);
            };
            let later = k.max(n(pair.u?));
            let of_body = scope.inside(pair, |scope| history(body, later, scope));
            larger(reach_back(k, pair.l), of_body)
        }
    }
}

/// "N(k - l) is 0 if l is infinity and infinite if l is -infinity."
fn reach_back(k: i64, l: Low) -> Option<i64> {
    match l {
        Low::Infinity => Some(0),
        Low::MinusInfinity => None,
        Low::At(l) => Some(n(k - l)),
    }
}

/// "Cells: flag 0; not, the part's; then, 1 + the larger; beside, 1 + the sum;
/// for all, 1 + W times (1 + the body's)." Asked only once delay and history
/// are known to be finite. The largest, four ranges at full offsets times 60
/// formulas, is below 10^19: no 128-bit sum or product overflows.
fn cells(formula: &Formula, scope: &mut Scope) -> i128 {
    match formula {
        Formula::Flag(..) => 0,
        Formula::Not(part) => cells(part, scope),
        Formula::Then(f, g) => 1 + cells(f, scope).max(cells(g, scope)),
        Formula::Beside(f, g) => 1 + cells(f, scope) + cells(g, scope),
        Formula::ForAll(first, second, body) => {
            let Some(pair) = scope.counted(*first, *second) else {
                return 1;
            };
            let of_body = scope.inside(pair, |scope| cells(body, scope));
            1 + width(pair) * (1 + of_body)
        }
    }
}

/// "W is u - l + 1, or 0 if l is infinity or l > u."
fn width(pair: Pair) -> i128 {
    match (pair.l, pair.u) {
        (Low::At(l), Some(u)) => n(u - l + 1) as i128,
        (Low::Infinity, _) => 0,
        _ => panic!("an infinite u was refused with 11, and l of -infinity with 13"),
    }
}
