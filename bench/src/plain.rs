//! The library's incremental engine, plainly in Rust: the same cells (an outcome a
//! cell, a slot a position, a head cell of leading true positions a range), but the
//! rule is a tree of boxes that is built once, at opening.

use crate::outcome::{both, positions, Outcome};
use crate::ways::Stepping;
use rust_tests::paper::{Bound, Formula};
use station_watch::Figures;

/// A formula with the words that its parts need.
enum Node {
    Flag {
        variable: usize,
        flag: u8,
    },
    Not(Box<Node>),
    Then(Box<Node>, Box<Node>),
    /// The first part has this many words of its own.
    Beside(Box<Node>, usize, Box<Node>),
    /// Each position has a slot of this many words.
    ForAll {
        from: Bound,
        to: Bound,
        slot: usize,
        body: Box<Node>,
    },
}

pub struct Engine {
    rule: Node,
    /// The instances: tick p has the slot of number p mod (delay + 1).
    delay: u64,
    slot: usize,
    cells: Vec<u32>,
    history: Vec<u8>,
    next: u64,
}

/// The positions of the variables, and the flag bytes at them.
#[derive(Clone, Copy)]
struct Variables {
    count: usize,
    at: [u64; 5],
    byte: [u8; 5],
}

/// What a step has at hand.
struct Step<'a> {
    history: &'a [u8],
    flag: u8,
    t: u64,
}

impl Engine {
    pub fn open(rule: &Formula, needs: Figures) -> Engine {
        let (rule, words) = node(rule, &mut vec![(Some(0), 0)]);
        Engine {
            rule,
            delay: needs.delay as u64,
            slot: 4 + words,
            cells: vec![0; needs.cell_words()],
            history: vec![0; needs.history],
            next: 0,
        }
    }
}

impl Stepping for Engine {
    fn next(&self) -> u64 {
        self.next
    }

    fn step(&mut self, flag: u8, report: &mut Vec<u64>) -> usize {
        let t = self.next;
        let step = Step { history: &self.history, flag, t };
        report.clear();
        let mut live = 0;
        for tick in t.saturating_sub(self.delay)..=t {
            let at = (tick % (self.delay + 1)) as usize * self.slot;
            let none = Variables { count: 0, at: [0; 5], byte: [0; 5] };
            let slot = &mut self.cells[at..at + self.slot];
            match step.position(&self.rule, slot, &none, tick, tick) {
                None => live += 1,
                Some((false, decided)) if decided == t => report.push(tick),
                Some(_) => {}
            }
        }
        if !self.history.is_empty() {
            let place = (t % self.history.len() as u64) as usize;
            self.history[place] = flag;
        }
        self.next += 1;
        live
    }
}

impl Step<'_> {
    fn byte(&self, tick: u64) -> u8 {
        if tick == self.t {
            return self.flag;
        }
        self.history[(tick % self.history.len() as u64) as usize]
    }

    /// A position in its slot: its outcome, the byte at it, the body's words.
    fn position(
        &self,
        body: &Node,
        slot: &mut [u32],
        outer: &Variables,
        s: u64,
        q: u64,
    ) -> Outcome {
        let start = s.max(q);
        if self.t == start {
            slot[1] = self.byte(q) as u32;
        }
        let mut inner = *outer;
        inner.at[inner.count] = q;
        inner.byte[inner.count] = slot[1] as u8;
        inner.count += 1;
        let (cell, run) = slot.split_at_mut(4);
        self.part(body, cell, 0, run, &inner, start)
    }

    /// A formula whose outcome is kept in the words k and k + 2 of a cell.
    fn part(
        &self,
        node: &Node,
        cell: &mut [u32],
        k: usize,
        run: &mut [u32],
        variables: &Variables,
        s: u64,
    ) -> Outcome {
        let tick = variables.at[0];
        if self.t != s && cell[k] != 0 {
            return Some((cell[k] == 1, tick + cell[k + 2] as u64));
        }
        let outcome = self.advance(node, run, variables, s);
        cell[k] = 0;
        if let Some((verdict, step)) = outcome {
            cell[k] = if verdict { 1 } else { 2 };
            cell[k + 2] = (step - tick) as u32;
        }
        outcome
    }

    fn advance(&self, node: &Node, run: &mut [u32], variables: &Variables, s: u64) -> Outcome {
        match node {
            Node::Flag { variable, flag } => Some((variables.byte[*variable] >> flag & 1 == 1, s)),
            Node::Not(f) => {
                self.advance(f, run, variables, s).map(|(verdict, step)| (!verdict, step))
            }
            Node::Then(f, g) => {
                let (cell, rest) = run.split_at_mut(4);
                match self.part(f, cell, 0, rest, variables, s) {
                    Some((true, step)) => self.advance(g, rest, variables, step),
                    other => other,
                }
            }
            Node::Beside(f, words, g) => {
                let (cell, rest) = run.split_at_mut(4);
                let (first, second) = rest.split_at_mut(*words);
                let x = self.part(f, cell, 0, first, variables, s);
                let y = self.part(g, cell, 1, second, variables, s);
                both(x, y)
            }
            Node::ForAll { from, to, slot, body } => {
                let range = positions(*from, *to, &variables.at, self.t);
                let (head, slots) = run.split_at_mut(4);
                let tick = variables.at[0];
                let (mut leading, mut latest) = (0, s);
                if self.t != s && head[0] != 0 {
                    (leading, latest) = (head[0] as u64, tick + head[2] as u64);
                }
                let mut all = if range.ended { Some((true, s)) } else { None };
                for j in (leading..range.count).rev() {
                    let part = &mut slots[j as usize * slot..(j as usize + 1) * slot];
                    all = both(self.position(body, part, variables, s, range.first + j), all);
                }
                let before = latest;
                while leading < range.count && slots[leading as usize * slot] == 1 {
                    latest = latest.max(tick + slots[leading as usize * slot + 2] as u64);
                    leading += 1;
                }
                head[0] = leading as u32;
                head[2] = (latest - tick) as u32;
                both(Some((true, before)), all)
            }
        }
    }
}

/// The pair of a variable or bound of a rule that can be opened: l, `None` if it is
/// infinite, and u.
type Pair = (Option<i64>, i64);

/// The pair of a bound.
fn pair(bound: Bound, pairs: &[Pair]) -> Pair {
    match bound {
        Bound::Variable(v, offset) => (pairs[v].0.map(|l| l + offset), pairs[v].1 + offset),
        // Where l or u is infinite, the range is always empty or in the body of one that is.
        // What stands for an infinite number does not matter there.
        Bound::Start(offset) => (None, offset),
        Bound::Infinity => (None, 0),
    }
}

/// The tree of a formula, and the words that it needs.
fn node(formula: &Formula, pairs: &mut Vec<Pair>) -> (Node, usize) {
    match formula {
        Formula::Flag(variable, flag) => (Node::Flag { variable: *variable, flag: *flag }, 0),
        Formula::Not(f) => {
            let (f, words) = node(f, pairs);
            (Node::Not(Box::new(f)), words)
        }
        Formula::Then(f, g) => {
            let ((f, x), (g, y)) = (node(f, pairs), node(g, pairs));
            (Node::Then(Box::new(f), Box::new(g)), 4 + x.max(y))
        }
        Formula::Beside(f, g) => {
            let ((f, x), (g, y)) = (node(f, pairs), node(g, pairs));
            (Node::Beside(Box::new(f), x, Box::new(g)), 4 + x + y)
        }
        Formula::ForAll(from, to, body) => {
            let (l, u) = (pair(*from, pairs).0, pair(*to, pairs).1);
            pairs.push((l, u));
            let (body, words) = node(body, pairs);
            pairs.pop();
            let width = l.map_or(0, |l| (u - l + 1).max(0)) as usize;
            let slot = 4 + words;
            let (from, to, body) = (*from, *to, Box::new(body));
            (Node::ForAll { from, to, slot, body }, 4 + width * slot)
        }
    }
}
