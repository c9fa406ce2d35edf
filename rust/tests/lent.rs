//! Every function over lent memory, with answers of document 01. Nothing here needs
//! the feature `alloc`.

mod common;

use common::{sheet, BODY, FIGURES, FLAG, FLAGS, LATE, TEXT};
use station_watch::*;

/// What the caller lends for the example rule.
struct Lent {
    history: Vec<u8>,
    cells: Vec<u32>,
    words: Vec<u64>,
    pairs: Vec<Pair>,
}

const MARK: Pair = Pair { tick: 50, step: 51 };

fn lent() -> Lent {
    let cells = vec![7; FIGURES.cell_words()];
    Lent { history: vec![9], cells, words: vec![8; 6], pairs: vec![MARK; 3] }
}

#[test]
fn a_written_sheet_reads_back() {
    let mut out = [0xEE; 30];
    assert_eq!(write_sheet(&[17], &BODY, &mut out), Ok(22));
    assert_eq!(out[..5], [1, 5, 0, 17, 0]);
    assert_eq!(out[22..], [0xEE; 8]);
    assert_eq!(rule_body(&out[..22], 0), Ok(&BODY[..]));
    assert_eq!(rule_body(&out[..22], 0).unwrap().as_ptr(), out[5..].as_ptr());
}

#[test]
fn all_bodies_of_a_sheet() {
    let mut out = [0; 49];
    let all = [&BODY[..], &FLAG, &LATE].concat();
    assert_eq!(write_sheet(&[17, 3, 12], &all, &mut out), Ok(45));
    let read: Vec<&[u8]> = bodies(&out[..45]).unwrap().collect();
    assert_eq!(read, [&BODY[..], &FLAG, &LATE]);
    assert_eq!(bodies(&out[..44]).err(), Some(Refusal::EntryLayout));
    assert_eq!(bodies(&[]).err(), Some(Refusal::RuleCount));
    let most = [&[32][..], &entries(32), &FLAG.repeat(32)].concat();
    assert_eq!(bodies(&most).unwrap().count(), 32);
}

/// The table of contents of so many bodies of three bytes.
fn entries(count: u16) -> Vec<u8> {
    let entry = |rule: u16| [(1 + 4 * count + 3 * rule).to_le_bytes(), [3, 0]].concat();
    (0..count).flat_map(entry).collect()
}

#[test]
fn a_typed_rule_is_its_body() {
    let mut body = [0xEE; 20];
    assert_eq!(rule_from_text(TEXT.as_bytes(), &mut body), Ok(17));
    assert_eq!(body[..17], BODY);
    assert_eq!(body[17..], [0xEE; 3]);
    let mut body = [0xEE; 17];
    assert_eq!(rule_from_text(TEXT.as_bytes(), &mut body), Ok(17));
    assert_eq!(body, BODY);
}

#[test]
fn a_body_is_printed() {
    let mut text = [0xEE; 60];
    assert_eq!(rule_to_text(&BODY, &mut text), Ok(TEXT.len()));
    assert_eq!(text[..TEXT.len()], *TEXT.as_bytes());
    assert_eq!(text[TEXT.len()..], [0xEE; 60][TEXT.len()..]);
    let mut text = vec![0xEE; TEXT.len()];
    assert_eq!(rule_to_text(&BODY, &mut text), Ok(TEXT.len()));
    assert_eq!(text, TEXT.as_bytes());
}

#[test]
fn refused_texts_change_nothing() {
    let (mut body, mut text) = ([0xEE; 17], [0xEE; 49]);
    for wrong in ["", "monitor x : @y.0", "monitor x : @x.8", &format!("{TEXT} ")] {
        assert!(rule_from_text(wrong.as_bytes(), &mut body).is_err(), "{wrong}");
    }
    assert!(rule_from_text(TEXT.as_bytes(), &mut body[..16]).is_err());
    assert!(rule_to_text(&BODY[..16], &mut text).is_err());
    assert!(rule_to_text(&BODY, &mut text[..TEXT.len() - 1]).is_err());
    assert_eq!((body, text), ([0xEE; 17], [0xEE; 49]));
}

#[test]
fn figures_of_rules() {
    assert_eq!(figures(&BODY), Ok(FIGURES));
    assert_eq!((FIGURES.cell_words(), FIGURES.report_len()), (84, 3));
    assert_eq!(FIGURES.to_string(), "history 1 delay 2 cells 21");
    assert_eq!(figures(&FLAG), Ok(Figures { history: 0, delay: 0, cells: 1 }));
    assert_eq!(figures(&LATE), Ok(Figures { history: 0, delay: 255, cells: 768 }));
}

#[test]
fn outcomes_of_the_example() {
    let at = |flags: &[u8], tick| outcome(&BODY, flags, tick).unwrap();
    assert_eq!(at(&FLAGS, 5), Outcome::Decided(Verdict::False, 7));
    assert_eq!(at(&FLAGS, 3), Outcome::Decided(Verdict::True, 3));
    assert_eq!(at(&FLAGS[..7], 5), Outcome::Open);
    let said: Vec<String> = (0..10).map(|tick| at(&FLAGS, tick).to_string()).collect();
    let due = "true at 0,true at 1,true at 3,true at 3,true at 4,false at 7,true at 8,true at 8";
    assert_eq!(said[..8].join(","), due);
    assert!(at(&FLAGS, 5).is_violation() && !at(&FLAGS, 3).is_violation());
    assert!(!Outcome::Open.is_violation());
}

/// Rules that the engine refuses to open have outcomes all the same.
#[test]
fn outcomes_without_figures() {
    let always = [5, 2, 0, 0, 0, 1, 0, 0, 0, 1, 1, 0]; // X..infinity
    assert_eq!(figures(&always), Err(Refusal::DelayInfinite));
    assert_eq!(outcome(&always, &[1, 1, 0], 0), Ok(Outcome::Decided(Verdict::False, 2)));
    assert_eq!(outcome(&always, &[1, 1, 1], 0), Ok(Outcome::Open));
}

#[test]
fn single_steps() {
    let mut lent = lent();
    let mut state = State::open(&sheet(&BODY), 0, &mut lent.history, &lent.cells).unwrap();
    assert_eq!((lent.history[0], state.body(), state.history_len()), (0, &BODY[..], 1));
    let (mut pairs, mut live) = (Vec::new(), Vec::new());
    for (tick, &flag) in FLAGS.iter().enumerate() {
        assert_eq!(state.next_tick(), tick as u64);
        let step = state.step(flag, &mut lent.history, &mut lent.cells, &mut lent.words).unwrap();
        assert_eq!(step.step as usize, tick);
        pairs.extend(step.pairs());
        live.push(step.live);
        assert_eq!(state.live(), *live.last().unwrap() as u64);
    }
    assert_eq!(pairs, [Pair { tick: 5, step: 7 }]);
    // Ticks 1 and 4 are decided at once, since the tick before is quiet; tick 2 waits
    // one step, tick 5 two, ticks 6 and 7 until step 8.
    assert_eq!(live, [0, 0, 1, 0, 0, 1, 2, 2, 0, 0]);
    assert_eq!(lent.words, [5, 8, 8, 8, 8, 8]);
}

#[test]
fn a_batch_stops_where_its_report_is_full() {
    let mut lent = lent();
    let mut state = State::open(&sheet(&BODY), 0, &mut lent.history, &lent.cells).unwrap();
    let Lent { history, cells, pairs, .. } = &mut lent;
    let steps = state.steps(&FLAGS, history, cells, pairs).unwrap();
    // After the pair of step 7 no room for the three of another step is left.
    let due = [Pair { tick: 5, step: 7 }];
    assert_eq!((steps.taken, steps.pairs, steps.live), (8, &due[..], 2));
    let steps = state.steps(&FLAGS[8..], history, cells, pairs).unwrap();
    assert_eq!((steps.taken, steps.pairs, steps.live), (2, &[][..], 0));
    assert_eq!(*pairs, [Pair { tick: 5, step: 7 }, MARK, MARK]);
    let steps = state.steps(&FLAGS, history, cells, &mut pairs[..2]).unwrap();
    assert_eq!((steps.taken, steps.pairs, steps.live), (0, &[][..], 0));
    assert_eq!(state.next_tick(), 10);
}

#[test]
fn single_steps_and_a_batch_leave_the_same() {
    let (mut one, mut many) = (lent(), lent());
    let mut single = State::open(&sheet(&BODY), 0, &mut one.history, &one.cells).unwrap();
    let mut batch = State::open(&sheet(&BODY), 0, &mut many.history, &many.cells).unwrap();
    for flag in FLAGS {
        single.step(flag, &mut one.history, &mut one.cells, &mut one.words).unwrap();
    }
    let mut report = [MARK; 8];
    let steps = batch.steps(&FLAGS, &mut many.history, &mut many.cells, &mut report).unwrap();
    assert_eq!(steps.taken, 10);
    assert_eq!((batch, many.history, many.cells), (single, one.history, one.cells));
}

#[test]
fn a_stored_state_goes_on() {
    let mut lent = lent();
    let mut state = State::open(&sheet(&BODY), 0, &mut lent.history, &lent.cells).unwrap();
    for &flag in &FLAGS[..7] {
        state.step(flag, &mut lent.history, &mut lent.cells, &mut lent.words).unwrap();
    }
    let mut again = State::from_bytes(*state.as_bytes());
    let step = again.step(FLAGS[7], &mut lent.history, &mut lent.cells, &mut lent.words).unwrap();
    assert_eq!((step.step, step.ticks, step.live), (7, &[5][..], 2));
}

#[test]
fn refused_calls_change_nothing() {
    let mut lent = lent();
    let mut state = State::open(&sheet(&BODY), 0, &mut lent.history, &lent.cells).unwrap();
    let before = state.clone();
    let Lent { history, cells, words, pairs } = &mut lent;
    assert!(state.step(1, &mut [], cells, words).is_err());
    assert!(state.step(1, history, cells, &mut words[..2]).is_err());
    assert!(state.steps(&[1], history, &mut cells[..83], pairs).is_err());
    assert!(state == before);
    assert_eq!((&history[..], &cells[..], &words[..]), (&[0][..], &[7; 84][..], &[8; 6][..]));
    assert_eq!(pairs[..], [MARK; 3]);
}

#[test]
fn what_is_shown_of_a_state() {
    let mut lent = lent();
    let mut state = State::open(&sheet(&BODY), 0, &mut lent.history, &lent.cells).unwrap();
    let Lent { history, cells, pairs, .. } = &mut lent;
    state.steps(&FLAGS[..7], history, cells, pairs).unwrap();
    let due = "State { body: 17 bytes, history: 1 bytes, next_tick: 7, live: 2 }";
    assert_eq!(format!("{state:?}"), due);
}

/// A size that no opening gives is an empty body, as it is to the library.
#[test]
fn the_body_of_any_state() {
    for size in [513, u64::MAX] {
        let mut bytes = [1; STATE_BYTES];
        bytes[512..520].copy_from_slice(&size.to_le_bytes());
        assert_eq!(State::from_bytes(bytes).body(), []);
    }
    assert_eq!(State::from_bytes([0; STATE_BYTES]).body(), []);
    let mut longest = [1; STATE_BYTES];
    longest[512..520].copy_from_slice(&512u64.to_le_bytes());
    assert_eq!(State::from_bytes(longest).body(), [1; 512]);
}

/// The sizes that the papers state.
#[test]
fn limits() {
    assert_eq!((MAX_RULES, MAX_BODY, MAX_SHEET), (32, 512, 16_513));
    assert_eq!((MAX_HISTORY, MAX_DELAY, MAX_CELLS), (4_096, 255, 4_096));
    assert_eq!((CELL_WORDS, MAX_CELL_WORDS, MAX_REPORT), (4, 16_384, 256));
    assert_eq!(MAX_SET_REPORT, 4_096);
    assert_eq!((MAX_RECORDING, MAX_TICKS, MAX_TEXT), (65_535, 4_611_686_018_427_387_904, 4_096));
    assert_eq!((STATE_BYTES, MAX_SENTENCE, VERSION), (544, 128, "0.8.0"));
}
