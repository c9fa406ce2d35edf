//! `WatchSet`, which keeps its memory: against each rule by itself, and against the same
//! set over lent memory.

mod common;

use common::{
    rules_of_a_set, sheet, sheet_of_rules, stream, BODY, FIGURES, FLAG, FLAGS, LATE, WIDE,
};
use station_watch::{
    set_figures, set_open, set_step, Figures, Pair, Refusal, RuleTick, Running, SetFigures, Triple,
    Watch, WatchSet, MAX_TICKS,
};

fn open(bodies: &[&[u8]]) -> WatchSet {
    WatchSet::open(&sheet_of_rules(bodies)).unwrap()
}

fn open_all(rules: &[Vec<u8>]) -> WatchSet {
    open(&rules.iter().map(|body| &body[..]).collect::<Vec<&[u8]>>())
}

fn all_triples(set: &mut WatchSet, flags: &[u8]) -> Vec<Triple> {
    let mut triples = Vec::new();
    set.steps(flags, |triple| triples.push(triple)).unwrap();
    triples
}

/// Sheet, records, history and cells in vectors of their own.
fn stored(set: &WatchSet) -> (Vec<u8>, Vec<Running>, Vec<u8>, Vec<u32>) {
    let (sheet, records, history, cells) = set.parts();
    (sheet.to_vec(), records.to_vec(), history.to_vec(), cells.to_vec())
}

fn restored(set: &WatchSet) -> WatchSet {
    let (sheet, records, history, cells) = stored(set);
    WatchSet::from_parts(sheet, records, history, cells).unwrap()
}

#[test]
fn the_example_beside_a_flag() {
    let mut set = open(&[&FLAG, &BODY]);
    let figures = SetFigures { rules: 2, history: 1, cells: 22, pairs: 4 };
    assert_eq!((set.figures(), set.next_tick(), set.live()), (figures, 0, 0));
    assert_eq!(set.rule_figures(), [Figures { history: 0, delay: 0, cells: 1 }, FIGURES]);
    let (mut pairs, mut live) = (Vec::new(), Vec::new());
    for flag in FLAGS {
        let step = set.step(flag).unwrap();
        pairs.extend(step.pairs.iter().map(|pair| (pair.rule, pair.tick, step.step)));
        live.push(step.live as u64);
        assert_eq!((set.live(), set.live_counts().len()), (live[live.len() - 1], 2));
        assert!(set.live_counts().eq([0, set.live()]));
    }
    let due = [(0, 0, 0), (0, 3, 3), (1, 5, 7), (0, 8, 8), (0, 9, 9)];
    assert_eq!(pairs, due);
    assert_eq!(live, [0, 0, 1, 0, 0, 1, 2, 2, 0, 0]);
    assert_eq!(set.next_tick(), 10);

    let mut set = open(&[&FLAG, &BODY]);
    let triples = due.map(|(rule, tick, step)| Triple { rule, tick, step });
    assert_eq!(all_triples(&mut set, &FLAGS[..8]), triples[..3]);
    assert_eq!(all_triples(&mut set, &FLAGS[8..]), triples[3..]);
    assert_eq!(all_triples(&mut set, &[]), []);
    assert_eq!((set.next_tick(), set.live()), (10, 0));
}

#[test]
fn each_rule_as_by_itself() {
    let (rules, flags) = (rules_of_a_set(), stream(3_000));
    let (mut single, mut batch) = (open_all(&rules), open_all(&rules));
    let mut triples = Vec::new();
    for &flag in &flags {
        triples.extend(single.step(flag).unwrap().triples());
    }
    assert_eq!(all_triples(&mut batch, &flags), triples);
    assert_eq!(batch.parts(), single.parts());
    let order = |triple: &Triple| (triple.step, triple.rule, triple.tick);
    assert!(triples.windows(2).all(|two| order(&two[0]) < order(&two[1])));

    let (_, records, _, cells) = single.parts();
    for (rule, body) in rules.iter().enumerate() {
        let mut alone = Watch::open(&sheet(body), 0).unwrap();
        let mut due = Vec::new();
        alone.steps(&flags, |pair| due.push(pair)).unwrap();
        let of_rule = triples.iter().filter(|triple| triple.rule as usize == rule);
        let pairs: Vec<Pair> =
            of_rule.map(|&Triple { tick, step, .. }| Pair { tick, step }).collect();
        assert_eq!(pairs, due);
        assert_eq!(single.rule_figures()[rule], alone.figures());
        assert_eq!(single.live_counts().nth(rule), Some(alone.live()));
        let own = &cells[4 * records[rule].first as usize..][..alone.figures().cell_words()];
        assert_eq!(own, alone.parts().2);
    }
}

#[test]
fn as_over_lent_memory() {
    let (rules, flags) = (rules_of_a_set(), stream(500));
    let mut set = open_all(&rules);
    let sheet = set.parts().0.to_vec();
    let needs = set_figures(&sheet).unwrap();
    assert_eq!(needs, set.figures());
    let mut records = vec![Running::default(); needs.rules];
    let (mut history, mut cells) = (vec![0; needs.history], vec![0; needs.cell_words()]);
    let mut report = vec![RuleTick::default(); needs.pairs];
    set_open(&sheet, &mut records, &mut history, &cells).unwrap();
    for flag in flags {
        let due = set_step(&sheet, &mut records, flag, &mut history, &mut cells, &mut report);
        assert_eq!(set.step(flag), due);
        assert_eq!(set.parts(), (&sheet[..], &records[..], &history[..], &cells[..]));
    }
}

/// The most rules; each reports at each step, so that the batch's report fills up.
#[test]
fn thirty_two_rules() {
    let mut set = open(&[&FLAG[..]; 32]);
    let due: Vec<Triple> = (0..1_000)
        .flat_map(|tick| (0..32).map(move |rule| Triple { rule, tick, step: tick }))
        .collect();
    assert_eq!(all_triples(&mut set, &[0; 1_000]), due);
    assert_eq!((set.next_tick(), set.live(), set.rule_figures().len()), (1_000, 0, 32));
}

/// Five rules of the largest delay: all flags are taken where each step may report 1,280
/// pairs.
#[test]
fn the_largest_delays() {
    let mut set = open(&[&LATE[..]; 5]);
    let due: Vec<Triple> = (0..2_000 - 255)
        .flat_map(|tick| (0..5).map(move |rule| Triple { rule, tick, step: tick + 255 }))
        .collect();
    assert_eq!(set.figures().pairs, 1_280);
    assert_eq!(all_triples(&mut set, &[0; 2_000]), due);
    assert_eq!((set.next_tick(), set.live()), (2_000, 5 * 255));
    assert!(set.live_counts().eq([255; 5]));
}

#[test]
fn stored_and_restored_at_every_step() {
    let rules = rules_of_a_set();
    let (mut set, mut due) = (open_all(&rules), open_all(&rules));
    for flag in stream(300) {
        set = restored(&set);
        assert_eq!(set.step(flag), due.step(flag));
        assert_eq!((set.figures(), set.rule_figures()), (due.figures(), due.rule_figures()));
    }
    assert_eq!(set.parts(), due.parts());
}

/// Of more records, and of a longer cell table, a set keeps what its rules need.
#[test]
fn records_and_cells_that_no_step_needs() {
    let set = open(&[&FLAG, &BODY]);
    let (sheet, mut records, history, mut cells) = stored(&set);
    records.push(records[0]);
    cells.extend([9; 5]);
    let again = WatchSet::from_parts(sheet, records, history, cells).unwrap();
    assert_eq!(again.parts(), set.parts());
    assert_eq!((again.figures(), again.rule_figures()), (set.figures(), set.rule_figures()));
}

#[test]
fn a_copy_goes_on_by_itself() {
    let mut set = open(&[&FLAG, &BODY]);
    all_triples(&mut set, &FLAGS[..7]);
    let mut copy = set.clone();
    assert_eq!(copy.step(0).unwrap().pairs, [RuleTick { rule: 0, tick: 7 }]);
    assert_eq!(set.step(1).unwrap().pairs, [RuleTick { rule: 1, tick: 5 }]);
}

/// Two flags before tick numbers are used up: they are taken, and reported, and then
/// comes 20 for ever.
#[test]
fn ticks_used_up() {
    let near = |left: u64| {
        let (sheet, mut records, history, cells) = stored(&open(&[&FLAG, &FLAG]));
        records.iter_mut().for_each(|record| record.next = MAX_TICKS - left);
        WatchSet::from_parts(sheet, records, history, cells)
    };
    let tick = MAX_TICKS - 2;
    let mut set = near(2).unwrap();
    let mut triples = Vec::new();
    let answer = set.steps(&[0, 1, 0, 0], |triple| triples.push(triple));
    assert_eq!(answer, Err(Refusal::TicksUsedUp));
    assert_eq!(triples, [0, 1].map(|rule| Triple { rule, tick, step: tick }));
    assert_eq!(set.next_tick(), MAX_TICKS);
    assert_eq!(set.step(0), Err(Refusal::TicksUsedUp));
    assert_eq!(set.next_tick(), MAX_TICKS);

    let mut set = near(1).unwrap();
    assert_eq!(set.step(0).unwrap().pairs, [0, 1].map(|rule| RuleTick { rule, tick: tick + 1 }));
    assert_eq!(set.step(0), Err(Refusal::TicksUsedUp));
    assert_eq!(near(0).unwrap_err(), Refusal::TicksUsedUp);
}

#[test]
fn refused_openings() {
    let refused = |bodies: &[&[u8]]| WatchSet::open(&sheet_of_rules(bodies)).unwrap_err();
    assert_eq!(WatchSet::open(&[]).unwrap_err(), Refusal::RuleCount);
    assert_eq!(WatchSet::open(&sheet(&BODY)[..21]).unwrap_err(), Refusal::EntryLayout);
    assert_eq!(refused(&[&BODY, &[1, 0, 8]]), Refusal::NoSuchFlag);
    assert_eq!(refused(&[&WIDE, &BODY]), Refusal::SetCellsAboveLimit);
    assert_eq!(open(&[&WIDE, &FLAG]).figures().cells, 4_096);
}

#[test]
fn refused_parts() {
    let (sheet, records, history, cells) = stored(&open(&[&BODY, &FLAG]));
    let refused = |sheet: &[u8], records: &[Running], history: &[u8], cells: &[u32]| {
        let (sheet, records) = (sheet.to_vec(), records.to_vec());
        WatchSet::from_parts(sheet, records, history.to_vec(), cells.to_vec()).unwrap_err()
    };
    let none = [Running::default(); 2];
    assert_eq!(refused(&sheet, &none, &history, &cells), Refusal::StateNotOpened);
    assert_eq!(refused(&[], &records, &history, &cells), Refusal::StateNotOpened);
    assert_eq!(refused(&sheet, &records, &[0, 0], &cells), Refusal::HistoryLength);
    assert_eq!(refused(&sheet, &records[..1], &history, &cells), Refusal::CellTableTooShort);
    assert_eq!(refused(&sheet, &[], &history, &cells), Refusal::CellTableTooShort);
    assert_eq!(refused(&sheet, &records, &history, &cells[1..]), Refusal::CellTableTooShort);
}

#[test]
fn what_is_shown_of_a_set() {
    let mut set = open(&[&BODY, &FLAG]);
    all_triples(&mut set, &FLAGS[..7]);
    let due = "WatchSet { figures: SetFigures { rules: 2, history: 1, cells: 22, pairs: 4 }, \
               next_tick: 7, live: 2, .. }";
    assert_eq!(format!("{set:?}"), due);
}
