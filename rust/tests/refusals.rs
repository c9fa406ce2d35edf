//! Each refusal by its name, number and sentence.

mod common;

use common::{sheet, sheet_of_rules, BODY, FLAG, LATE, TEXT, WIDE};
use station_watch::{
    figures, outcome, rule_body, rule_from_text, rule_to_text, set_figures, set_open, set_step,
    set_steps, write_sheet, Pair, Refusal, RuleTick, Running, State, MAX_BODY, MAX_HISTORY,
    MAX_RECORDING, MAX_TEXT, MAX_TICKS, STATE_BYTES,
};
use std::error::Error;

/// The last number with a name.
const LAST: u32 = 27;

/// Numbers 1 to `LAST` have names, and the docs of each name are the library's sentence.
#[test]
fn names_numbers_and_sentences() {
    let source = include_str!("../src/refusal.rs");
    for number in 1..=LAST {
        let refusal = Refusal::from_number(number).unwrap();
        assert_eq!(refusal.number(), number);
        let shown = refusal.to_string();
        let sentence = shown.strip_prefix(&format!("refused {number}: ")).unwrap();
        let documented = format!("    /// {number}: {sentence}.\n    {refusal:?},\n");
        assert!(source.contains(&documented), "{documented}");
    }
}

#[test]
fn a_number_without_a_name_is_kept() {
    for number in [LAST + 1, LAST + 2, 128, 4_294_967_295] {
        let refusal = Refusal::from_number(number).unwrap();
        assert_eq!(refusal.number(), number);
        assert!(matches!(refusal, Refusal::Other { number: same, .. } if same == number));
        assert_eq!(refusal.to_string(), format!("refused {number}: no such refusal"));
        assert!((1..=LAST).all(|named| Refusal::from_number(named) != Some(refusal)));
    }
    assert_ne!(Refusal::from_number(LAST + 1), Refusal::from_number(LAST + 2));
}

#[test]
fn zero_is_no_refusal() {
    assert_eq!(Refusal::from_number(0), None);
}

#[test]
fn a_refusal_is_an_error() {
    let error: Box<dyn Error + Send + Sync> = Box::new(Refusal::NoSuchRule);
    assert_eq!(error.to_string(), "refused 3: no such rule");
    assert_eq!(format!("{:?}", Refusal::NoSuchRule), "NoSuchRule");
}

#[test]
fn of_a_sheet() {
    let sheet = sheet(&BODY);
    assert_eq!(rule_body(&[], 0), Err(Refusal::RuleCount));
    assert_eq!(rule_body(&sheet[..4], 0), Err(Refusal::RuleCount));
    assert_eq!(rule_body(&sheet[..21], 0), Err(Refusal::EntryLayout));
    assert_eq!(rule_body(&sheet, 1), Err(Refusal::NoSuchRule));
}

#[test]
fn of_the_writer() {
    assert_eq!(write_sheet(&[], &BODY, &mut [0; 30]), Err(Refusal::RuleCount));
    assert_eq!(write_sheet(&[16], &BODY, &mut [0; 30]), Err(Refusal::EntryLayout));
    assert_eq!(write_sheet(&[17], &BODY, &mut [0; 21]), Err(Refusal::BufferTooShort));
}

#[test]
fn of_a_text() {
    let refused = |text: &str| rule_from_text(text.as_bytes(), &mut [0; MAX_BODY]).unwrap_err();
    assert_eq!(refused(""), Refusal::Misspelt);
    assert_eq!(refused("monitor x : @x.0\n"), Refusal::Misspelt);
    assert_eq!(refused("monitor in : @in.0"), Refusal::Misspelt);
    assert_eq!(refused(&format!("monitor x : {}@x.0", "~".repeat(4_081))), Refusal::Misspelt);
    assert_eq!(refused("monitor x : @y.0"), Refusal::UnboundName);
    assert_eq!(refused("monitor x : forall y in y..x : @y.0"), Refusal::UnboundName);
    assert_eq!(refused("monitor x : @x.8"), Refusal::NoSuchFlag);
    assert_eq!(refused("monitor x : forall y in x..x+4096 : @y.0"), Refusal::OffsetOutOfRange);
    assert_eq!(refused(&format!("monitor x : {}@x.0", "~".repeat(4_080))), Refusal::BodyTooLarge);
    assert_eq!(refused("monitor x : forall y in x..infinity+1 : @y.0"), Refusal::OffsetOnInfinity);
    // In this order.
    assert_eq!(refused("monitor x : (@x.8 && (@y.0 && @x.0)"), Refusal::Misspelt);
    assert_eq!(refused("monitor x : (@x.8 && @y.0)"), Refusal::UnboundName);
    let short = |text: &str| rule_from_text(text.as_bytes(), &mut []).unwrap_err();
    assert_eq!(short("monitor x : @x.8"), Refusal::NoSuchFlag);
    assert_eq!(short("monitor x : @x.7"), Refusal::BufferTooShort);
}

#[test]
fn of_a_printed_body() {
    let refused = |body: &[u8]| rule_to_text(body, &mut [0; MAX_TEXT]).unwrap_err();
    assert_eq!(refused(&[]), Refusal::BodyEndsEarly);
    assert_eq!(refused(&[6]), Refusal::UnknownCode);
    assert_eq!(refused(&[1, 1, 0]), Refusal::UnboundVariable);
    assert_eq!(refused(&[1, 0, 8]), Refusal::NoSuchFlag);
    assert_eq!(refused(&[1, 0, 0, 0]), Refusal::BytesLeftOver);
    assert_eq!(rule_to_text(&[1, 0, 8], &mut []), Err(Refusal::NoSuchFlag));
    let room = TEXT.len() - 1;
    assert_eq!(rule_to_text(&BODY, &mut vec![0; room]), Err(Refusal::BufferTooShort));
}

#[test]
fn of_a_body() {
    let nots = [[2; 64].as_slice(), &FLAG].concat(); // 65 formulas
    let all = [5, 2, 0, 0, 0, 2, 0, 0, 0]; // for all positions from X to X
    assert_eq!(figures(&[]), Err(Refusal::BodyEndsEarly));
    assert_eq!(figures(&BODY[..16]), Err(Refusal::BodyEndsEarly));
    assert_eq!(figures(&[6]), Err(Refusal::UnknownCode));
    assert_eq!(figures(&[1, 1, 0]), Err(Refusal::UnboundVariable));
    assert_eq!(figures(&[1, 0, 8]), Err(Refusal::NoSuchFlag));
    // For all positions from this bound to X.
    let from = |bound: [u8; 4]| figures(&[&[5], &bound[..], &[2, 0, 0, 0, 1, 1, 0]].concat());
    assert_eq!(from([2, 0, 0, 0x10]), Err(Refusal::OffsetOutOfRange)); // 4,096
    assert_eq!(from([0, 1, 0, 0]), Err(Refusal::VariableByteNotZero));
    assert_eq!(from([1, 1, 0, 0x10]), Err(Refusal::VariableByteNotZero));
    assert_eq!(from([1, 0, 1, 0]), Err(Refusal::OffsetOnInfinity));
    assert_eq!(from([1, 0, 0, 0x10]), Err(Refusal::OffsetOnInfinity));
    assert_eq!(figures(&nots), Err(Refusal::BodyTooLarge));
    assert_eq!(figures(&nots[1..]).map(|figures| figures.cells), Ok(1));
    assert_eq!(figures(&[&all.repeat(5), &FLAG[..]].concat()), Err(Refusal::BodyTooLarge));
    assert_eq!(figures(&[1, 0, 0, 0]), Err(Refusal::BytesLeftOver));
}

#[test]
fn of_the_figures() {
    // X..infinity; X+256..X+256; 0..X; X..X+63.
    let over = |range: [u8; 8]| figures(&[&[5], &range[..], &[1, 1, 0]].concat());
    assert_eq!(over([2, 0, 0, 0, 1, 0, 0, 0]), Err(Refusal::DelayInfinite));
    assert_eq!(over([2, 0, 0, 1, 2, 0, 0, 1]), Err(Refusal::DelayAboveLimit));
    assert_eq!(over([0, 0, 0, 0, 2, 0, 0, 0]), Err(Refusal::HistoryInfinite));
    assert_eq!(over([2, 0, 0, 0, 2, 0, 63, 0]), Err(Refusal::CellsAboveLimit));
    // Y in X-4,095..X-4,095, inside it Z in Y-2..Y-2.
    let old = [5, 2, 0, 0x01, 0xF0, 2, 0, 0x01, 0xF0, 5, 2, 1, 0xFE, 0xFF, 2, 1, 0xFE, 0xFF];
    assert_eq!(figures(&[&old[..], &[1, 2, 0]].concat()), Err(Refusal::HistoryAboveLimit));
}

#[test]
fn of_a_recording() {
    let long = vec![0; MAX_RECORDING + 1];
    assert_eq!(outcome(&BODY, &[0; 10], 10), Err(Refusal::NotInRecording));
    assert_eq!(outcome(&BODY, &long, 0), Err(Refusal::NotInRecording));
    assert!(outcome(&BODY, &long[1..], 0).is_ok());
}

#[test]
fn of_an_opening() {
    let sheet = sheet(&BODY);
    assert_eq!(State::open(&[], 0, &mut [0], &[0; 84]), Err(Refusal::RuleCount));
    assert_eq!(State::open(&sheet, 0, &mut [], &[0; 84]), Err(Refusal::HistoryLength));
    assert_eq!(State::open(&sheet, 0, &mut [0], &[0; 83]), Err(Refusal::CellTableTooShort));
}

#[test]
fn of_a_step() {
    let (mut history, mut cells) = ([0], [0; 84]);
    let mut state = State::open(&sheet(&BODY), 0, &mut history, &cells).unwrap();
    let refused = |state: &mut State, history: &mut [u8], cells: &mut [u32], report: usize| {
        state.step(1, history, cells, &mut vec![0; report]).unwrap_err()
    };
    assert_eq!(refused(&mut state, &mut [], &mut cells, 3), Refusal::HistoryLength);
    assert_eq!(refused(&mut state, &mut history, &mut [0; 83], 3), Refusal::CellTableTooShort);
    assert_eq!(refused(&mut state, &mut history, &mut cells, 2), Refusal::ReportTooShort);
    for tick in [MAX_TICKS, MAX_TICKS + 1, 1 << 63, u64::MAX] {
        let mut last = *state.as_bytes();
        last[528..536].copy_from_slice(&tick.to_le_bytes());
        let mut last = State::from_bytes(last);
        assert_eq!(refused(&mut last, &mut history, &mut cells, 2), Refusal::ReportTooShort);
        assert_eq!(refused(&mut last, &mut history, &mut cells, 3), Refusal::TicksUsedUp);
    }
    let mut none = State::from_bytes([0; STATE_BYTES]);
    assert_eq!(refused(&mut none, &mut [], &mut [], 0), Refusal::StateNotOpened);
}

#[test]
fn of_a_batch() {
    let (mut history, mut cells, mut report) = ([0], [0; 84], [Pair::default(); 3]);
    let mut state = State::open(&sheet(&BODY), 0, &mut history, &cells).unwrap();
    let steps = state.steps(&[1], &mut [], &mut cells, &mut report);
    assert_eq!(steps, Err(Refusal::HistoryLength));
    let steps = state.steps(&[], &mut history, &mut [0; 83], &mut report);
    assert_eq!(steps, Err(Refusal::CellTableTooShort));
    let mut none = State::from_bytes([0; STATE_BYTES]);
    assert_eq!(none.steps(&[], &mut [], &mut [], &mut []), Err(Refusal::StateNotOpened));
}

/// "27, after all the rules' own 4 to 15 in rule order and before 17."
#[test]
fn of_the_figures_of_a_set() {
    let refused = |bodies: &[&[u8]]| set_figures(&sheet_of_rules(bodies)).unwrap_err();
    assert_eq!(set_figures(&[]), Err(Refusal::RuleCount));
    assert_eq!(set_figures(&sheet(&BODY)[..4]), Err(Refusal::RuleCount));
    assert_eq!(set_figures(&sheet(&BODY)[..21]), Err(Refusal::EntryLayout));
    let (wider, unknown) = ([5, 2, 0, 0, 0, 2, 0, 63, 0, 1, 1, 0], [6, 0, 0]);
    assert_eq!(refused(&[&BODY, &unknown, &wider]), Refusal::UnknownCode);
    assert_eq!(refused(&[&BODY, &wider, &unknown]), Refusal::CellsAboveLimit);
    // 4,095 cells and 1; 2 are above the limit, but not where a later rule has its own.
    assert_eq!(set_figures(&sheet_of_rules(&[&WIDE, &FLAG])).map(|needs| needs.cells), Ok(4_096));
    assert_eq!(refused(&[&WIDE, &FLAG, &FLAG]), Refusal::SetCellsAboveLimit);
    assert_eq!(refused(&[&FLAG, &FLAG, &WIDE]), Refusal::SetCellsAboveLimit);
    assert_eq!(refused(&[&FLAG, &FLAG, &WIDE, &unknown]), Refusal::UnknownCode);
}

#[test]
fn of_the_opening_of_a_set() {
    let mut records = [Running::default(); 2];
    let mut open = |sheet: &[u8], rules: usize, history: usize, words: usize| {
        set_open(sheet, &mut records[..rules], &mut vec![0; history], &vec![0; words])
    };
    assert_eq!(open(&[], 0, 0, 0), Err(Refusal::RuleCount));
    let wide = sheet_of_rules(&[&WIDE, &BODY]);
    assert_eq!(open(&wide, 0, 0, 0), Err(Refusal::SetCellsAboveLimit));
    let sheet = sheet_of_rules(&[&FLAG, &BODY]);
    assert_eq!(open(&sheet, 2, 1, 88), Ok(()));
    assert_eq!(open(&sheet, 2, MAX_HISTORY, 88), Ok(()));
    assert_eq!(open(&sheet, 0, 0, 0), Err(Refusal::HistoryLength));
    assert_eq!(open(&sheet, 2, MAX_HISTORY + 1, 88), Err(Refusal::HistoryLength));
    assert_eq!(open(&sheet, 2, 1, 87), Err(Refusal::CellTableTooShort));
    assert_eq!(open(&sheet, 1, 1, 88), Err(Refusal::CellTableTooShort));
}

#[test]
fn of_the_step_of_a_set() {
    let sheet = sheet_of_rules(&[&FLAG, &BODY]);
    let (mut records, mut history, mut cells) = ([Running::default(); 2], [0], [0; 88]);
    set_open(&sheet, &mut records, &mut history, &cells).unwrap();
    let mut step = |rules: usize, history: usize, words: usize, pairs: usize| {
        let (records, report) = (&mut records[..rules], &mut [RuleTick::default(); 4][..pairs]);
        set_step(&sheet, records, 1, &mut vec![0; history], &mut cells[..words], report)
            .map(|step| step.step)
    };
    assert_eq!(step(2, 0, 0, 0), Err(Refusal::HistoryLength));
    assert_eq!(step(2, 1, 87, 0), Err(Refusal::CellTableTooShort));
    assert_eq!(step(1, 1, 88, 0), Err(Refusal::CellTableTooShort));
    assert_eq!(step(0, 9, 88, 0), Err(Refusal::CellTableTooShort));
    assert_eq!(step(2, 1, 88, 3), Err(Refusal::ReportTooShort));
    assert_eq!(step(2, 1, 88, 4), Ok(0));
    for tick in [MAX_TICKS, MAX_TICKS + 1, 1 << 63, u64::MAX] {
        records.iter_mut().for_each(|record| record.next = tick);
        let mut last = |pairs: usize| {
            let report = &mut [RuleTick::default(); 4][..pairs];
            set_step(&sheet, &mut records, 1, &mut history, &mut cells, report).unwrap_err()
        };
        assert_eq!(last(3), Refusal::ReportTooShort);
        assert_eq!(last(4), Refusal::TicksUsedUp);
    }
}

#[test]
fn of_a_batch_of_a_set() {
    let sheet = sheet_of_rules(&[&FLAG, &BODY]);
    let (mut records, mut history, mut cells) = ([Running::default(); 2], [0], [0; 88]);
    set_open(&sheet, &mut records, &mut history, &cells).unwrap();
    let mut steps = |sheet: &[u8], history: &mut [u8], words: usize, flags: &[u8]| {
        set_steps(sheet, &mut records, flags, history, &mut cells[..words], &mut [])
            .map(|steps| steps.taken)
    };
    assert_eq!(steps(&sheet[..1], &mut [], 0, &[]), Err(Refusal::StateNotOpened));
    assert_eq!(steps(&sheet, &mut [], 0, &[]), Err(Refusal::HistoryLength));
    assert_eq!(steps(&sheet, &mut history, 87, &[1]), Err(Refusal::CellTableTooShort));
    assert_eq!(steps(&sheet, &mut history, 88, &[1]), Ok(0)); // never 19
    records.iter_mut().for_each(|record| record.next = MAX_TICKS);
    let answer = set_steps(&sheet, &mut records, &[], &mut history, &mut cells, &mut []);
    assert_eq!(answer, Err(Refusal::TicksUsedUp));
}

/// "Records are state to 21": every number of a record but its live count.
#[test]
fn of_records_that_no_opening_gives() {
    let sheet = sheet_of_rules(&[&FLAG, &BODY, &FLAG]);
    let (mut opened, mut history, mut cells) = ([Running::default(); 3], [0; 2], [0; 92]);
    set_open(&sheet, &mut opened, &mut history, &cells).unwrap();
    let mut answer = |sheet: &[u8], records: &[Running]| {
        let (mut records, mut report) = (records.to_vec(), [RuleTick::default(); 5]);
        set_step(sheet, &mut records, 1, &mut history, &mut cells, &mut report).err()
    };
    assert_eq!(answer(&sheet, &opened), None);
    let changes: [fn(&mut Running); 7] = [
        |record| record.start += 1,
        |record| record.size += 1,
        |record| record.first += 1,
        |record| record.cells += 1,
        |record| record.delay += 1,
        |record| record.opened += 1,
        |record| record.next += 1,
    ];
    for change in changes {
        for rule in 0..3 {
            let mut records = opened;
            change(&mut records[rule]);
            assert_eq!(answer(&sheet, &records), Some(Refusal::StateNotOpened), "{records:?}");
        }
    }
    // Opened lengths that no opening gives, in all records.
    for length in [0, 4_097, u16::MAX] {
        let records = opened.map(|record| Running { opened: length, ..record });
        assert_eq!(answer(&sheet, &records), Some(Refusal::StateNotOpened), "{records:?}");
    }
    // A live count is not looked at, and records after the rules' are not.
    let lively = opened.map(|record| Running { live: u32::MAX, ..record });
    assert_eq!(answer(&sheet, &lively), None);
    let mark = Running { start: u32::MAX, size: u32::MAX, ..opened[0] };
    assert_eq!(answer(&sheet, &[&opened[..], &[mark]].concat()), None);
    // A sheet that is cut short, no rule, too many, and another sheet.
    let short = &sheet[..sheet.len() - 1];
    assert_eq!(answer(short, &opened), Some(Refusal::StateNotOpened));
    let counted = |count: u8| [&[count], &sheet[1..]].concat();
    for sheet in [vec![], counted(0), counted(33), sheet_of_rules(&[&BODY, &FLAG, &FLAG])] {
        assert_eq!(answer(&sheet, &opened), Some(Refusal::StateNotOpened), "{sheet:?}");
    }
}

/// Six rules of 768 cells each that lie side by side, which no opening gives: 4,608 cells.
#[test]
fn of_records_with_too_many_cells() {
    let sheet = sheet_of_rules(&[&LATE[..]; 6]);
    let record = |rule: u32| {
        let (start, first) = (25 + 12 * rule, 768 * rule);
        Running { start, size: 12, first, cells: 768, delay: 255, ..Running::default() }
    };
    let step = |sheet: &[u8], count: u32| {
        let mut records: Vec<Running> = (0..count).map(record).collect();
        let (mut cells, mut report) = (vec![0; 4 * 4_608], vec![RuleTick::default(); 6 * 256]);
        set_step(sheet, &mut records, 1, &mut [], &mut cells, &mut report).err()
    };
    assert_eq!(step(&sheet, 6), Some(Refusal::StateNotOpened));
    assert_eq!(step(&sheet, 5), Some(Refusal::CellTableTooShort)); // a record too few
    assert_eq!(step(&[&[5], &sheet[1..]].concat(), 6), None); // five rules are looked at
}
