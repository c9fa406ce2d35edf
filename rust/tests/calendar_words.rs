//! A flag calendar over lent words, against document 02, point 5. Nothing here needs the
//! feature `alloc`.

mod common;

use common::{sheet, stream, BODY, FIGURES, FLAGS};
use station_watch::*;

/// What lent memory holds before a call.
const WORD: u64 = 0x5A5A_5A5A_5A5A_5A5A;

/// Three runs of 64 ticks, and a group of three words, which keeps no ticks.
const WORDS: usize = 3 * 8 + 3;
const KEPT: u64 = 192;

/// Words that agree with a stream: "run r of flag k is word 8r + k, its tick 64r + i the bit
/// worth 2^i".
fn words_of(stream: &[u8]) -> [u64; WORDS] {
    let mut words = [0; WORDS];
    words[24..].fill(WORD);
    for (tick, flags) in stream.iter().enumerate().take(KEPT as usize) {
        for k in 0..8 {
            words[8 * (tick / 64) + k] |= u64::from(flags >> k & 1) << (tick % 64);
        }
    }
    words
}

fn opened_words() -> [u64; WORDS] {
    words_of(&[])
}

/// The ticks of a range at which a flag was up in a stream.
fn ticks_up(stream: &[u8], flag: u8, first: u64, last: u64) -> Vec<u64> {
    let up = |&tick: &u64| first <= tick && tick <= last && stream[tick as usize] >> flag & 1 == 1;
    (0..KEPT.min(stream.len() as u64)).filter(up).collect()
}

#[test]
fn how_many_are_kept() {
    let words = [WORD; WORDS];
    for length in 0..=WORDS {
        assert_eq!(calendar_kept(&words[..length]), [0, 64, 128, 192][length / 8]);
    }
}

#[test]
fn what_a_clearing_leaves() {
    let mut words = [WORD; WORDS];
    calendar_clear(&mut words[..7]);
    assert_eq!(words, [WORD; WORDS]);
    calendar_clear(&mut words);
    assert_eq!(words, opened_words());
}

/// In parts of every length, and over the end.
#[test]
fn what_a_filling_marks() {
    let stream = stream(200);
    for part in 1..=200 {
        let mut words = opened_words();
        for (at, flags) in stream.chunks(part).enumerate() {
            calendar_fill(&mut words, (at * part) as u64, flags);
        }
        assert_eq!(words, words_of(&stream), "parts of {part}");
    }
    let mut words = opened_words();
    for tick in [KEPT, KEPT + 1, u64::from(u32::MAX), u64::MAX - 1, u64::MAX] {
        calendar_fill(&mut words, tick, &[0xFF; 3]);
        assert_eq!(words, opened_words(), "from tick {tick}");
    }
}

/// A mark stays where a tick is filled in again.
#[test]
fn what_is_marked_stays() {
    let mut words = opened_words();
    calendar_fill(&mut words, 0, &[0x0F]);
    calendar_fill(&mut words, 0, &[0x3C]);
    assert_eq!(words, words_of(&[0x3F]));
}

#[test]
fn questions_about_ranges() {
    let edges = [0, 1, 62, 63, 64, 65, 127, 128, 129, 190, 191, 192, 193, 5_000, u64::MAX];
    let mut empty = 0;
    // Few ups, so that words without any lie between them.
    let sparse: Vec<u8> = stream(200).chunks(2).flat_map(|two| [two[0] & two[1], 0]).collect();
    for stream in [stream(200), sparse, vec![0; 200], vec![0xFF; 200]] {
        let words = words_of(&stream);
        for (first, last) in edges.iter().flat_map(|&first| edges.map(|last| (first, last))) {
            for flag in 0..8 {
                let due = ticks_up(&stream, flag, first, last);
                let asked = format!("flag {flag} from {first} to {last}");
                let ups = Ok(due.len() as u64);
                assert_eq!(calendar_ups(&words, flag, first, last), ups, "{asked}");
                let (from, to) = (Ok(due.first().copied()), Ok(due.last().copied()));
                assert_eq!(calendar_first(&words, flag, first, last), from, "{asked}");
                assert_eq!(calendar_last(&words, flag, first, last), to, "{asked}");
                empty += due.is_empty() as u32;
            }
        }
    }
    assert!(empty > 1_000, "{empty} empty ranges");
}

#[test]
fn questions_about_the_nearest() {
    // Flag 0 at 10, 20 and 150; flag 1 at 63 and 65; flag 2 at 0; flag 3 at 191.
    let mut stream = [0; KEPT as usize];
    for (tick, flags) in [(10, 1), (20, 1), (150, 1), (63, 2), (65, 2), (0, 4), (191, 8)] {
        stream[tick] = flags;
    }
    let words = words_of(&stream);
    let nearest = |flag, tick| calendar_nearest(&words, flag, tick).unwrap();
    for (tick, due) in [(0, 10), (10, 10), (15, 10), (16, 20), (85, 20), (86, 150), (151, 150)] {
        assert_eq!(nearest(0, tick), Some(due), "flag 0 near {tick}");
    }
    assert_eq!((nearest(1, 0), nearest(1, 64), nearest(1, 65)), (Some(63), Some(63), Some(65)));
    assert_eq!((nearest(2, 191), nearest(2, u64::MAX)), (Some(0), Some(0)));
    assert_eq!((nearest(3, 0), nearest(3, u64::MAX)), (Some(191), Some(191)));
    assert_eq!((nearest(4, 0), nearest(4, u64::MAX)), (None, None));
}

#[test]
fn no_words() {
    assert_eq!(calendar_ups(&[], 7, 0, u64::MAX), Ok(0));
    assert_eq!(calendar_first(&[WORD; 7], 7, 0, u64::MAX), Ok(None));
    assert_eq!(calendar_last(&[WORD; 7], 7, 0, u64::MAX), Ok(None));
    assert_eq!(calendar_nearest(&[WORD; 7], 7, 0), Ok(None));
    calendar_clear(&mut []);
    calendar_fill(&mut [], 0, &[0xFF]);
}

/// "A flag above 7 gets 7", also where there is nothing to ask.
#[test]
fn flags_above_7() {
    for words in [&[][..], &[WORD; WORDS][..]] {
        for flag in 8..=u8::MAX {
            assert_eq!(calendar_ups(words, flag, 0, 9), Err(Refusal::NoSuchFlag));
            assert_eq!(calendar_first(words, flag, 9, 0), Err(Refusal::NoSuchFlag));
            assert_eq!(calendar_last(words, flag, 0, 9), Err(Refusal::NoSuchFlag));
            assert_eq!(calendar_nearest(words, flag, 9), Err(Refusal::NoSuchFlag));
        }
    }
}

/// The example over lent memory, twice: with a calendar and without.
struct Both {
    state: State,
    history: [u8; 1],
    cells: [u32; 84],
    words: [u64; WORDS],
    alone: (State, [u8; 1], [u32; 84]),
}

impl Both {
    fn open() -> Both {
        assert_eq!((FIGURES.history, FIGURES.cell_words()), (1, 84));
        let (sheet, cells) = (sheet(&BODY), [7; 84]);
        let (mut history, mut alone, mut words) = ([9], [9], [WORD; WORDS]);
        let state = State::calendar_open(&sheet, 0, &mut history, &cells, &mut words).unwrap();
        assert_eq!(words, opened_words());
        let alone = (State::open(&sheet, 0, &mut alone, &cells).unwrap(), alone, cells);
        Both { state, history, cells, words, alone }
    }

    /// Steps of both, which leave and report the same.
    fn steps(&mut self, flags: &[u8], room: usize) -> usize {
        let (mut report, mut without) = (vec![Pair::default(); room], vec![Pair::default(); room]);
        let Both { state, history, cells, words, alone } = self;
        let steps = state.calendar_steps(flags, history, cells, &mut report, words).unwrap();
        let due = alone.0.steps(flags, &mut alone.1, &mut alone.2, &mut without).unwrap();
        assert_eq!(steps, due);
        let taken = steps.taken;
        self.check();
        taken
    }

    fn step(&mut self, flag: u8) {
        let (mut report, mut without) = ([0; 3], [0; 3]);
        let Both { state, history, cells, words, alone } = self;
        let step = state.calendar_step(flag, history, cells, &mut report, words).unwrap();
        assert_eq!(step, alone.0.step(flag, &mut alone.1, &mut alone.2, &mut without).unwrap());
        self.check();
    }

    fn check(&self) {
        assert_eq!(
            (&self.state, self.history, self.cells),
            (&self.alone.0, self.alone.1, self.alone.2)
        );
    }
}

#[test]
fn single_steps_and_batches() {
    let stream = stream(220);
    let mut single = Both::open();
    for (tick, &flag) in stream.iter().enumerate() {
        single.step(flag);
        assert_eq!(single.words, words_of(&stream[..=tick]));
    }
    for room in [3, 4, 9, 500] {
        let mut batches = Both::open();
        let mut done = 0;
        while done < stream.len() {
            done += batches.steps(&stream[done..], room);
            assert_eq!(batches.words, words_of(&stream[..done]), "room for {room}");
        }
    }
}

/// A report that is too short for a step takes no flag, and marks none.
#[test]
fn a_short_report() {
    let mut both = Both::open();
    assert_eq!(both.steps(&FLAGS, 2), 0);
    assert_eq!(both.words, opened_words());
}

/// A refused call leaves the words.
#[test]
fn refused_calls() {
    let (sheet, mut history, mut cells, mut words) = (sheet(&BODY), [0], [0; 84], [WORD; WORDS]);
    let opened = State::calendar_open(&sheet, 0, &mut [], &cells, &mut words);
    assert_eq!(opened, Err(Refusal::HistoryLength));
    let opened = State::calendar_open(&sheet, 1, &mut history, &cells, &mut words);
    assert_eq!(opened, Err(Refusal::NoSuchRule));
    assert_eq!(words, [WORD; WORDS]);
    let mut state = State::calendar_open(&sheet, 0, &mut history, &cells, &mut words).unwrap();
    let (mut pairs, mut report) = ([Pair::default(); 9], [0; 9]);
    let step = state.calendar_step(0xFF, &mut [], &mut cells, &mut report, &mut words);
    assert_eq!(step, Err(Refusal::HistoryLength));
    let step = state.calendar_step(0xFF, &mut history, &mut [], &mut report, &mut words);
    assert_eq!(step, Err(Refusal::CellTableTooShort));
    let step = state.calendar_step(0xFF, &mut history, &mut cells, &mut report[..2], &mut words);
    assert_eq!(step, Err(Refusal::ReportTooShort));
    let steps = state.calendar_steps(&[0xFF], &mut [], &mut cells, &mut pairs, &mut words);
    assert_eq!(steps, Err(Refusal::HistoryLength));
    assert_eq!(words, opened_words());
    let mut none = State::from_bytes([0; STATE_BYTES]);
    let step = none.calendar_step(0xFF, &mut history, &mut cells, &mut report, &mut words);
    assert_eq!(step, Err(Refusal::StateNotOpened));
    assert_eq!(words, opened_words());
}

/// The last tick is taken, and is past these words.
#[test]
fn the_last_tick() {
    let (mut history, mut cells, mut words) = ([0], [0; 84], [WORD; WORDS]);
    let sheet = sheet(&BODY);
    let state = State::calendar_open(&sheet, 0, &mut history, &cells, &mut words).unwrap();
    let mut bytes = *state.as_bytes();
    bytes[528..536].copy_from_slice(&(MAX_TICKS - 1).to_le_bytes());
    let mut state = State::from_bytes(bytes);
    let mut pairs = [Pair::default(); 9];
    let steps = state.calendar_steps(&[0xFF; 2], &mut history, &mut cells, &mut pairs, &mut words);
    assert_eq!(steps.unwrap().taken, 1);
    let steps = state.calendar_steps(&[0xFF; 2], &mut history, &mut cells, &mut pairs, &mut words);
    assert_eq!(steps, Err(Refusal::TicksUsedUp));
    assert_eq!(words, opened_words());
}
