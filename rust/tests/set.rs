//! All rules of a sheet at once over lent memory: against each rule by itself, with
//! answers of documents 01 and 02. Nothing here needs the feature `alloc`.

mod common;

use common::{rules_of_a_set, sheet, sheet_of_rules, stream, BODY, FIGURES, FLAG, FLAGS, LATE};
use station_watch::*;

/// What lent memory holds before a call.
const RECORD: Running = Running {
    start: 91,
    size: 92,
    first: 93,
    cells: 94,
    delay: 95,
    opened: 96,
    next: 97,
    live: 98,
};
const PAIR: RuleTick = RuleTick { rule: 60, tick: 61 };
const TRIPLE: Triple = Triple { rule: 70, tick: 71, step: 72 };
const WORD: u32 = 7;

/// A set and what the caller lends to it: two records, three cell words and some report
/// entries more than it needs.
#[derive(Clone, PartialEq, Debug)]
struct Lent {
    sheet: Vec<u8>,
    records: Vec<Running>,
    history: Vec<u8>,
    cells: Vec<u32>,
    pairs: Vec<RuleTick>,
    triples: Vec<Triple>,
}

impl Lent {
    fn open(bodies: &[&[u8]]) -> Lent {
        let sheet = sheet_of_rules(bodies);
        let needs = set_figures(&sheet).unwrap();
        let mut lent = Lent {
            sheet,
            records: vec![RECORD; needs.rules + 2],
            history: vec![9; needs.history],
            cells: vec![WORD; needs.cell_words() + 3],
            pairs: vec![PAIR; needs.pairs + 2],
            triples: vec![TRIPLE; needs.pairs + 2],
        };
        set_open(&lent.sheet, &mut lent.records, &mut lent.history, &lent.cells).unwrap();
        lent
    }

    fn step(&mut self, flag: u8) -> Result<SetStep<'_>, Refusal> {
        let Lent { sheet, records, history, cells, pairs, .. } = self;
        set_step(sheet, records, flag, history, cells, pairs)
    }

    fn steps(&mut self, flags: &[u8]) -> Result<SetSteps<'_>, Refusal> {
        let Lent { sheet, records, history, cells, triples, .. } = self;
        set_steps(sheet, records, flags, history, cells, triples)
    }

    /// The cells of one rule.
    fn own_cells(&self, rule: usize) -> &[u32] {
        let Running { first, cells, .. } = self.records[rule];
        &self.cells[4 * first as usize..][..4 * cells as usize]
    }
}

#[test]
fn figures_of_sheets() {
    let together = |rules, history, cells, pairs| SetFigures { rules, history, cells, pairs };
    let example = set_figures(&sheet(&BODY)).unwrap();
    assert_eq!(example, together(1, FIGURES.history, FIGURES.cells, FIGURES.report_len()));
    assert_eq!((example.cell_words(), FIGURES.cell_words()), (84, 84));
    let three = set_figures(&sheet_of_rules(&[&FLAG, &BODY, &LATE])).unwrap();
    assert_eq!(three, together(3, 1, 1 + 21 + 768, 1 + 3 + 256));
    assert_eq!(three.to_string(), "rules 3 history 1 cells 790 pairs 260");
    let most = set_figures(&sheet_of_rules(&[&FLAG[..]; 32])).unwrap();
    assert_eq!(most, together(32, 0, 32, 32));
}

#[test]
fn what_an_opening_sets() {
    let lent = Lent::open(&[&FLAG, &BODY, &LATE]);
    let opened = Running { opened: 1, next: 0, live: 0, ..RECORD };
    let due = [
        Running { start: 13, size: 3, first: 0, cells: 1, delay: 0, ..opened },
        Running { start: 16, size: 17, first: 1, cells: 21, delay: 2, ..opened },
        Running { start: 33, size: 12, first: 22, cells: 768, delay: 255, ..opened },
        RECORD,
        RECORD,
    ];
    assert_eq!(lent.records, due);
    assert_eq!(lent.history, [0]);
    assert!(lent.cells.iter().all(|&word| word == WORD));
}

#[test]
fn what_a_step_sets() {
    let mut lent = Lent::open(&[&FLAG, &BODY, &LATE]);
    let before = lent.clone();
    let step = lent.step(0).unwrap();
    // Flag 0 is down: the first rule is broken, the example is decided, the last waits.
    assert_eq!((step.step, step.pairs, step.live), (0, &[RuleTick { rule: 0, tick: 0 }][..], 1));
    assert_eq!(lent.pairs[1..], before.pairs[1..]);
    for (rule, live) in [0, 0, 1].into_iter().enumerate() {
        assert_eq!(lent.records[rule], Running { next: 1, live, ..before.records[rule] });
    }
    assert_eq!(lent.records[3..], [RECORD; 2]);
    assert_eq!(lent.cells[4 * 790..], [WORD; 3]);
    assert_eq!(lent.sheet, before.sheet);
    // A batch of no flags changes nothing.
    let before = lent.clone();
    let steps = lent.steps(&[]).unwrap();
    assert_eq!((steps.taken, steps.triples, steps.live), (0, &[][..], 1));
    assert_eq!(lent, before);
}

/// Rule 0 is the example; rule 1 wants flag 0 down. Ticks of one step come by rule first.
#[test]
fn single_steps() {
    let down = [2, 1, 0, 0];
    let mut lent = Lent::open(&[&BODY, &down]);
    let (mut triples, mut live) = (Vec::new(), Vec::new());
    for (tick, &flag) in FLAGS.iter().enumerate() {
        assert_eq!(lent.records[0].next as usize, tick);
        let step = lent.step(flag).unwrap();
        assert_eq!(step.step as usize, tick);
        triples.extend(step.triples().map(|triple| (triple.rule, triple.tick, triple.step)));
        live.push(step.live);
    }
    let due = [(1, 1, 1), (1, 2, 2), (1, 4, 4), (1, 5, 5), (1, 6, 6), (0, 5, 7), (1, 7, 7)];
    assert_eq!(triples, due);
    assert_eq!(live, [0, 0, 1, 0, 0, 1, 2, 2, 0, 0]);
}

/// A rule by itself, over a history of the same length.
struct Alone {
    state: State,
    history: Vec<u8>,
    cells: Vec<u32>,
    report: Vec<u64>,
}

impl Alone {
    fn open(body: &[u8], history_len: usize) -> Alone {
        let needs = figures(body).unwrap();
        let (mut history, cells) = (vec![9; history_len], vec![WORD; needs.cell_words()]);
        let state = State::open(&sheet(body), 0, &mut history, &cells).unwrap();
        Alone { state, history, cells, report: vec![0; needs.report_len()] }
    }

    fn step(&mut self, flag: u8) -> Step<'_> {
        self.state.step(flag, &mut self.history, &mut self.cells, &mut self.report).unwrap()
    }
}

#[test]
fn each_rule_as_by_itself() {
    let rules = rules_of_a_set();
    let bodies: Vec<&[u8]> = rules.iter().map(|body| &body[..]).collect();
    let mut lent = Lent::open(&bodies);
    let mut alone: Vec<Alone> =
        bodies.iter().map(|body| Alone::open(body, lent.history.len())).collect();
    let mut count = vec![0; rules.len()];
    for flag in stream(3_000) {
        let (mut due, mut live) = (Vec::new(), 0);
        for (rule, one) in alone.iter_mut().enumerate() {
            let step = one.step(flag);
            due.extend(step.ticks.iter().map(|&tick| RuleTick { rule: rule as u64, tick }));
            live += step.live;
            count[rule] += step.ticks.len();
        }
        let step = lent.step(flag).unwrap();
        assert_eq!((step.pairs, step.live), (&due[..], live));
        for (rule, one) in alone.iter().enumerate() {
            assert_eq!(lent.own_cells(rule), one.cells);
            assert_eq!(lent.history, one.history);
            let record = lent.records[rule];
            let numbers = (record.next, u64::from(record.live));
            assert_eq!(numbers, (one.state.next_tick(), one.state.live()));
        }
    }
    assert!(count.iter().all(|&ticks| ticks > 100), "{count:?}");
}

#[test]
fn batches_of_every_length() {
    let rules = rules_of_a_set();
    let bodies: Vec<&[u8]> = rules.iter().map(|body| &body[..]).collect();
    let (mut single, mut batch) = (Lent::open(&bodies), Lent::open(&bodies));
    let (mut due, mut triples) = (Vec::new(), Vec::new());
    let flags = stream(2_000);
    for &flag in &flags {
        due.extend(single.step(flag).unwrap().triples());
    }
    let mut rest = &flags[..];
    for length in (0..).map(|turn| turn % 50) {
        let part = &rest[..rest.len().min(length)];
        let steps = batch.steps(part).unwrap();
        assert!(steps.taken > 0 || part.is_empty());
        triples.extend_from_slice(steps.triples);
        rest = &rest[steps.taken..];
        if rest.is_empty() {
            break;
        }
    }
    assert_eq!(triples, due);
    assert_eq!(batch.records, single.records);
    assert_eq!((batch.history, batch.cells), (single.history, single.cells));
}

/// Two rules of one pair each: the report is full where less than two triples are left.
#[test]
fn a_batch_stops_where_its_report_is_full() {
    let mut lent = Lent::open(&[&FLAG, &[2, 1, 0, 0]]);
    lent.triples = vec![TRIPLE; 4];
    let triple = |rule, tick| Triple { rule, tick, step: tick };
    let steps = lent.steps(&[0, 1, 0, 0]).unwrap();
    let due = [triple(0, 0), triple(1, 1), triple(0, 2)];
    assert_eq!((steps.taken, steps.triples, steps.live), (3, &due[..], 0));
    assert_eq!(lent.triples[3..], [TRIPLE]);
    lent.triples.truncate(1);
    let before = lent.clone();
    let steps = lent.steps(&[0, 1]).unwrap();
    assert_eq!((steps.taken, steps.triples, steps.live), (0, &[][..], 0));
    assert_eq!(lent, before);
}

#[test]
fn stored_records_go_on() {
    let (mut lent, mut due) = (Lent::open(&[&LATE, &BODY]), Lent::open(&[&LATE, &BODY]));
    for &flag in &FLAGS[..7] {
        lent.step(flag).unwrap();
        due.step(flag).unwrap();
    }
    lent = lent.clone();
    let step = lent.step(FLAGS[7]).unwrap();
    assert_eq!((step.step, step.pairs), (7, &[RuleTick { rule: 1, tick: 5 }][..]));
    due.step(FLAGS[7]).unwrap();
    assert_eq!(lent, due);
}

#[test]
fn refused_calls_change_nothing() {
    let mut lent = Lent::open(&[&BODY, &FLAG]);
    for flag in FLAGS {
        lent.step(flag).unwrap();
    }
    let before = lent.clone();
    let Lent { sheet, records, history, cells, pairs, triples } = &mut lent;
    assert!(set_open(&sheet[1..], records, history, cells).is_err());
    assert!(set_open(sheet, &mut records[..1], history, cells).is_err());
    assert!(set_open(sheet, records, &mut [], cells).is_err());
    assert!(set_open(sheet, records, history, &cells[..87]).is_err());
    assert!(set_step(&[], records, 1, history, cells, pairs).is_err());
    assert!(set_step(sheet, &mut records[1..], 1, history, cells, pairs).is_err());
    assert!(set_step(sheet, records, 1, history, cells, &mut pairs[..3]).is_err());
    assert!(set_steps(sheet, records, &[1], &mut [], cells, triples).is_err());
    assert!(set_steps(sheet, records, &[1], history, &mut cells[..87], triples).is_err());
    assert_eq!(lent, before);
}
