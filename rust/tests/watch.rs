//! `Watch`, which keeps its memory: against document 01, and against the same rule
//! over lent memory.

mod common;

use common::{sheet, stream, BODY, FIGURES, FLAG, FLAGS, LATE};
use station_watch::{
    figures, sheet_of, Figures, Pair, Refusal, State, Watch, MAX_BODY, MAX_TICKS, STATE_BYTES,
};

fn open(body: &[u8]) -> Watch {
    Watch::open(&sheet(body), 0).unwrap()
}

fn all_pairs(watch: &mut Watch, flags: &[u8]) -> Vec<Pair> {
    let mut pairs = Vec::new();
    watch.steps(flags, |pair| pairs.push(pair)).unwrap();
    pairs
}

#[test]
fn the_example_step_by_step() {
    let mut watch = open(&BODY);
    assert_eq!((watch.figures(), watch.next_tick(), watch.live()), (FIGURES, 0, 0));
    let (mut pairs, mut live) = (Vec::new(), Vec::new());
    for flag in FLAGS {
        let step = watch.step(flag).unwrap();
        pairs.extend(step.pairs());
        live.push(step.live);
    }
    assert_eq!(pairs, [Pair { tick: 5, step: 7 }]);
    assert_eq!(live, [0, 0, 1, 0, 0, 1, 2, 2, 0, 0]);
    assert_eq!((watch.next_tick(), watch.live()), (10, 0));
}

#[test]
fn the_example_at_once() {
    let mut watch = open(&BODY);
    assert_eq!(all_pairs(&mut watch, &FLAGS[..7]), []);
    assert_eq!((watch.next_tick(), watch.live()), (7, 2));
    assert_eq!(all_pairs(&mut watch, &FLAGS[7..]), [Pair { tick: 5, step: 7 }]);
    assert_eq!((watch.next_tick(), watch.live()), (10, 0));
    assert_eq!(all_pairs(&mut watch, &[]), []);
    assert_eq!(watch.next_tick(), 10);
}

/// All flags are taken where every step fills the report but for one pair.
#[test]
fn the_largest_delay() {
    let mut watch = open(&LATE);
    let due: Vec<Pair> = (0..2_000 - 255).map(|tick| Pair { tick, step: tick + 255 }).collect();
    assert_eq!(all_pairs(&mut watch, &[0; 2_000]), due);
    assert_eq!((watch.next_tick(), watch.live()), (2_000, 255));
}

/// A step that reports delay + 1 ticks: for all Y from X to X + 20, flag 0 at Y. Ticks 0
/// to 19 wait for tick 20, which breaks them all and itself.
#[test]
fn many_ticks_of_one_step() {
    let body = [5, 2, 0, 0, 0, 2, 0, 20, 0, 1, 1, 0];
    let flags = [&[1; 20][..], &[0]].concat();
    let due: Vec<Pair> = (0..=20).map(|tick| Pair { tick, step: 20 }).collect();
    assert_eq!(all_pairs(&mut open(&body), &flags), due);
    let mut watch = open(&body);
    for _ in 0..20 {
        watch.step(1).unwrap();
    }
    assert_eq!(watch.step(0).unwrap().ticks, (0..=20).collect::<Vec<u64>>());
}

/// Some rules: the example, a flag, the largest delay, X..X+62, "A then B", "A beside B".
fn rules() -> Vec<Vec<u8>> {
    let a = [5, 2, 0, 0, 0, 2, 0, 2, 0, 2, 1, 1, 3]; // for all of X..X+2, not flag 3
    let b = [5, 2, 0, 0xFF, 0xFF, 2, 0, 0, 0, 1, 1, 5]; // for all of X-1..X, flag 5
    let wide = vec![5, 2, 0, 0, 0, 2, 0, 62, 0, 2, 2, 1, 1, 1];
    let then = [&[3], &a[..], &b[..]].concat();
    let beside = [&[4], &a[..], &b[..]].concat();
    vec![BODY.to_vec(), FLAG.to_vec(), LATE.to_vec(), wide, then, beside]
}

/// What steps over lent memory report and leave.
fn lent_pairs(body: &[u8], flags: &[u8]) -> (Vec<Pair>, State, Vec<u8>, Vec<u32>) {
    let needs = figures(body).unwrap();
    let (mut history, mut cells) = (vec![0; needs.history], vec![0; needs.cell_words()]);
    let mut report = vec![0; needs.report_len()];
    let mut state = State::open(&sheet(body), 0, &mut history, &cells).unwrap();
    let mut pairs = Vec::new();
    for &flag in flags {
        pairs.extend(state.step(flag, &mut history, &mut cells, &mut report).unwrap().pairs());
    }
    (pairs, state, history, cells)
}

#[test]
fn as_over_lent_memory() {
    let flags = stream(3_000);
    for body in rules() {
        let (due, state, history, cells) = lent_pairs(&body, &flags);
        assert!(due.len() > 100, "{body:?} reports {}", due.len());
        let (mut single, mut batch) = (open(&body), open(&body));
        let mut pairs = Vec::new();
        for &flag in &flags {
            pairs.extend(single.step(flag).unwrap().pairs());
        }
        assert_eq!(pairs, due);
        assert_eq!(all_pairs(&mut batch, &flags), due);
        assert_eq!(single.parts(), (&state, &history[..], &cells[..]));
        assert_eq!(batch.parts(), (&state, &history[..], &cells[..]));
    }
}

#[test]
fn stored_and_restored_at_every_step() {
    let flags = stream(300);
    for body in rules() {
        let mut due = open(&body);
        let mut watch = open(&body);
        for &flag in &flags {
            let (state, history, cells) = watch.parts();
            let bytes = *state.as_bytes();
            let (history, cells) = (history.to_vec(), cells.to_vec());
            watch = Watch::from_parts(State::from_bytes(bytes), history, cells).unwrap();
            assert_eq!(watch.step(flag), due.step(flag));
            assert_eq!(watch.figures(), due.figures());
        }
    }
}

#[test]
fn stored_as_bytes() {
    let mut watch = open(&BODY);
    all_pairs(&mut watch, &FLAGS[..7]);
    let bytes = watch.to_bytes();
    let (state, history, cells) = watch.parts();
    assert_eq!(bytes.len(), STATE_BYTES + 1 + 4 * 84);
    assert_eq!(bytes[..STATE_BYTES], state.as_bytes()[..]);
    assert_eq!(bytes[STATE_BYTES..][..1], *history);
    assert_eq!(bytes[STATE_BYTES + 1..][..4], cells[0].to_le_bytes());
    assert_eq!(bytes[bytes.len() - 4..], cells[83].to_le_bytes());
    let mut again = Watch::from_bytes(&bytes).unwrap();
    assert_eq!((again.parts(), again.figures()), (watch.parts(), watch.figures()));
    assert_eq!(all_pairs(&mut again, &FLAGS[7..]), [Pair { tick: 5, step: 7 }]);
}

/// Bytes that are cut short are refused wherever the cut is, and so are bytes too many.
#[test]
fn stored_bytes_of_a_wrong_length() {
    let bytes = open(&BODY).to_bytes();
    for length in 0..bytes.len() {
        let due = match length {
            0..STATE_BYTES => Refusal::StateNotOpened,
            STATE_BYTES => Refusal::HistoryLength,
            _ => Refusal::CellTableTooShort,
        };
        assert_eq!(Watch::from_bytes(&bytes[..length]).unwrap_err(), due, "{length} bytes");
    }
    let mut bytes = bytes;
    for left_over in 1..=9 {
        bytes.push(0);
        let refused = Watch::from_bytes(&bytes).unwrap_err();
        assert_eq!(refused, Refusal::StateNotOpened, "{left_over} bytes left over");
    }
    let mut long = [0; STATE_BYTES];
    long[520..528].copy_from_slice(&u64::MAX.to_le_bytes());
    assert_eq!(Watch::from_bytes(&long).unwrap_err(), Refusal::StateNotOpened);
}

/// For all Y from infinity to X + 5, flag 0 at Y: 2 cells. Before 0.7.0 the rule had a delay of
/// 5 and 12 cells.
#[test]
fn stored_by_an_earlier_version() {
    let mut watch = open(&[5, 1, 0, 0, 0, 2, 0, 5, 0, 1, 1, 0]);
    all_pairs(&mut watch, &FLAGS);
    assert_eq!(watch.figures(), Figures { history: 0, delay: 0, cells: 2 });
    let mut bytes = watch.to_bytes();
    assert_eq!(Watch::from_bytes(&bytes).unwrap().to_bytes(), bytes);
    bytes.resize(STATE_BYTES + 12 * 16, 0);
    assert_eq!(Watch::from_bytes(&bytes).unwrap_err().number(), 21);
}

/// Of a longer cell table a watch keeps what its rule needs.
#[test]
fn cells_that_no_step_needs() {
    let (watch, mut long) = (open(&BODY), vec![9; 100]);
    let (state, history, cells) = watch.parts();
    long[..84].copy_from_slice(cells);
    let again = Watch::from_parts(state.clone(), history.to_vec(), long).unwrap();
    assert_eq!(again.parts(), watch.parts());
    assert_eq!(again.to_bytes(), watch.to_bytes());
}

#[test]
fn a_copy_goes_on_by_itself() {
    let mut watch = open(&BODY);
    all_pairs(&mut watch, &FLAGS[..7]);
    let mut copy = watch.clone();
    assert_eq!(copy.step(0).unwrap().ticks, []);
    assert_eq!(watch.step(1).unwrap().ticks, [5]);
}

/// Two flags before tick numbers are used up: they are taken, and reported, and then
/// comes 20 for ever.
#[test]
fn ticks_used_up() {
    let near = |left: u64| {
        let mut bytes = *open(&FLAG).parts().0.as_bytes();
        bytes[528..536].copy_from_slice(&(MAX_TICKS - left).to_le_bytes());
        Watch::from_parts(State::from_bytes(bytes), vec![], vec![0; 4])
    };
    let tick = MAX_TICKS - 2;
    let mut watch = near(2).unwrap();
    let mut pairs = Vec::new();
    let answer = watch.steps(&[0, 1, 0, 0], |pair| pairs.push(pair));
    assert_eq!(answer, Err(Refusal::TicksUsedUp));
    assert_eq!(pairs, [Pair { tick, step: tick }]);
    assert_eq!(watch.next_tick(), MAX_TICKS);
    assert_eq!(watch.step(0), Err(Refusal::TicksUsedUp));
    assert_eq!(watch.next_tick(), MAX_TICKS);

    let mut watch = near(1).unwrap();
    assert_eq!(watch.step(0).unwrap().ticks, [tick + 1]);
    assert_eq!(watch.step(0), Err(Refusal::TicksUsedUp));
    assert_eq!(near(0).unwrap_err(), Refusal::TicksUsedUp);
}

/// A watch that is `shift` ticks ahead of another, with its history and its cells, which count
/// steps from their own tick: they stand for it where the shift is a multiple of delay + 1 and
/// of the history's length.
fn ahead(watch: &Watch, shift: u64) -> Watch {
    let needs = watch.figures();
    let (state, history, cells) = watch.parts();
    assert!(shift % needs.report_len() as u64 == 0 && shift % needs.history.max(1) as u64 == 0);
    let mut bytes = *state.as_bytes();
    bytes[528..536].copy_from_slice(&(state.next_tick() + shift).to_le_bytes());
    Watch::from_parts(State::from_bytes(bytes), history.to_vec(), cells.to_vec()).unwrap()
}

/// The rules across tick 2^32, and near the last tick: what they report some ticks after 0, with
/// ticks and steps that much higher.
#[test]
fn as_from_tick_0() {
    let flags = stream(3_000);
    for body in rules() {
        let mut low = open(&body);
        all_pairs(&mut low, &flags[..1_000]);
        let round = low.figures().report_len() as u64 * low.figures().history.max(1) as u64;
        for middle in [1 << 32, MAX_TICKS - 1_000] {
            let shift = (middle - 2_000) / round * round;
            let (mut low, mut high) = (low.clone(), ahead(&low, shift));
            let due = all_pairs(&mut low, &flags[1_000..]);
            assert!(due[0].step + shift < middle && due[due.len() - 1].tick + shift > middle);
            let due: Vec<Pair> = due
                .iter()
                .map(|pair| Pair { tick: pair.tick + shift, step: pair.step + shift })
                .collect();
            assert_eq!(all_pairs(&mut high, &flags[1_000..]), due);
            assert_eq!((high.next_tick(), high.live()), (low.next_tick() + shift, low.live()));
            let (low, high) = (low.parts(), high.parts());
            assert_eq!((high.1, high.2), (low.1, low.2));
        }
    }
}

#[test]
fn refused_openings() {
    let refused = |sheet: &[u8], rule| Watch::open(sheet, rule).unwrap_err();
    assert_eq!(refused(&[], 0), Refusal::RuleCount);
    assert_eq!(refused(&sheet(&BODY)[..21], 0), Refusal::EntryLayout);
    assert_eq!(refused(&sheet(&BODY), 1), Refusal::NoSuchRule);
    assert_eq!(refused(&sheet(&[1, 0, 8]), 0), Refusal::NoSuchFlag);
    let wide = [5, 2, 0, 0, 0, 2, 0, 63, 0, 1, 1, 0];
    assert_eq!(refused(&sheet(&wide), 0), Refusal::CellsAboveLimit);
}

#[test]
fn refused_parts() {
    let watch = open(&BODY);
    let refused = |state: &State, history: &[u8], cells: &[u32]| {
        Watch::from_parts(state.clone(), history.to_vec(), cells.to_vec()).unwrap_err()
    };
    let (state, history, cells) = watch.parts();
    let none = State::from_bytes([0; STATE_BYTES]);
    assert_eq!(refused(&none, history, cells), Refusal::StateNotOpened);
    assert_eq!(refused(state, &[0, 0], cells), Refusal::HistoryLength);
    assert_eq!(refused(state, history, &cells[1..]), Refusal::CellTableTooShort);
}

#[test]
fn what_is_shown_of_a_watch() {
    let mut watch = open(&BODY);
    all_pairs(&mut watch, &FLAGS[..7]);
    let due = "Watch { figures: Figures { history: 1, delay: 2, cells: 21 }, \
               next_tick: 7, live: 2, .. }";
    assert_eq!(format!("{watch:?}"), due);
}

#[test]
fn sheets_of_bodies() {
    let two = [2, 9, 0, 17, 0, 26, 0, 3, 0];
    let due = [&two[..], &BODY, &FLAG].concat();
    assert_eq!(sheet_of(&[&BODY, &FLAG]), Ok(due));
    let long = [1; MAX_BODY];
    assert_eq!(sheet_of(&[&long[..]; 32]).unwrap().len(), station_watch::MAX_SHEET);
    assert_eq!(sheet_of(&[]), Err(Refusal::RuleCount));
    assert_eq!(sheet_of(&[&FLAG[..]; 33]), Err(Refusal::RuleCount));
    assert_eq!(sheet_of(&[&FLAG[..], &[]]), Err(Refusal::EntryLayout));
    // Also lengths that 16 bits would cut to a good one.
    for length in [MAX_BODY + 1, 65_535, 65_536, 65_537, 2 * 65_536 + 3] {
        assert_eq!(sheet_of(&[&vec![1; length][..]]), Err(Refusal::EntryLayout));
    }
}
