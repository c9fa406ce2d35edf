//! The Rust wrapper (feature `library`) against the paper: its safe functions, and `Watch`,
//! `WatchSet` and `Calendar`, which keep their memory.

use rust_tests::paper::{self, calendar};
use rust_tests::random::{self, Random};
use station_watch::{bodies, body_from_text, figures, outcome, rule_body, sheet_of};
use station_watch::{set_figures, text_from_body, Figures, Outcome, Pair, Refusal, SetFigures};
use station_watch::{Calendar, Triple, Verdict, Watch, WatchSet};

const RULES: usize = 1_000;
const STEPS: usize = 80;
const BODIES: usize = 20_000;
const SHEETS: usize = 4_000;
const TEXTS: usize = 20_000;
const SETS: usize = 200;
const SET_SHEETS: usize = 4_000;
const CALENDARS: usize = 1_000;

fn numbered<T>(answer: Result<T, Refusal>) -> Result<T, u32> {
    answer.map_err(Refusal::number)
}

/// A stream, taken in single steps and in batches of random length, with a calendar beside it.
#[test]
fn watches() {
    let mut random = Random::new(3_001);
    let mut late = 0;
    for _ in 0..RULES {
        let rule = random::accepted_rule(&mut random);
        let (sheet, number) = random::sheet_with(&mut random, &rule.body);
        let mut due = paper::Watch::new(rule.formula.clone());
        let room = random.below(2 * STEPS) as u64;
        let mut watch = Watch::calendar_open(&sheet, number, room).unwrap();
        let stream = random::stream(&mut random, STEPS);
        let mut rest = &stream[..];
        while !rest.is_empty() {
            let (now, later) = rest.split_at(random.size(1, 9).min(rest.len()));
            let seen = take(&mut watch, now, random.one_in(2));
            assert_eq!(seen, due_pairs(&mut due, now), "{:?}", rule.formula);
            assert_eq!((watch.live(), watch.next_tick()), (due.live() as u64, due.tick() as u64));
            late += seen.iter().filter(|pair| pair.step > pair.tick).count();
            rest = later;
            let taken = stream.len() - rest.len();
            assert!(calendar::agrees(watch.calendar().words(), &stream[..taken]), "{taken} taken");
        }
        assert!(watch.calendar().kept() >= room);
    }
    assert!(late > RULES, "{late} violations decided late");
}

fn take(watch: &mut Watch, flags: &[u8], at_once: bool) -> Vec<Pair> {
    let mut pairs = Vec::new();
    if at_once {
        watch.steps(flags, |pair| pairs.push(pair)).unwrap();
        return pairs;
    }
    for &flag in flags {
        pairs.extend(watch.step(flag).unwrap().pairs());
    }
    pairs
}

fn due_pairs(due: &mut paper::Watch, flags: &[u8]) -> Vec<Pair> {
    let mut pairs = Vec::new();
    for &flag in flags {
        let step = due.tick() as u64;
        pairs.extend(due.step(flag).report.into_iter().map(|tick| Pair { tick, step }));
    }
    pairs
}

/// Figures, outcomes at every tick of a short recording, and openings.
#[test]
fn any_bodies() {
    let mut random = Random::new(3_002);
    let mut opened = 0;
    for _ in 0..BODIES {
        let body = random::any_body(&mut random);
        let due = paper::figures(&body);
        assert_eq!(numbered(figures(&body)), due.map(wrapped_figures), "{body:?}");
        let recording = random.bytes(3);
        for tick in 0..=3 {
            let due = paper::evaluate(&body, &recording, tick).map(wrapped_outcome);
            assert_eq!(numbered(outcome(&body, &recording, tick)), due, "{body:?}");
        }
        if let Ok(sheet) = sheet_of(&[&body]) {
            let answer = Watch::open(&sheet, 0).map(|watch| watch.figures());
            assert_eq!(numbered(answer), due.map(wrapped_figures), "{body:?}");
            opened += 1;
        }
    }
    assert!(opened > BODIES / 2, "{opened} openings");
}

fn wrapped_figures(due: paper::Figures) -> Figures {
    let paper::Figures { history, delay, cells } = due;
    Figures { history: history as usize, delay: delay as usize, cells: cells as usize }
}

fn wrapped_outcome(due: paper::Outcome) -> Outcome {
    match due {
        paper::Outcome::Open => Outcome::Open,
        paper::Outcome::Decided(paper::Verdict::True, at) => {
            Outcome::Decided(Verdict::True, at as u64)
        }
        paper::Outcome::Decided(paper::Verdict::False, at) => {
            Outcome::Decided(Verdict::False, at as u64)
        }
    }
}

/// Sheets written and read, and damaged ones.
#[test]
fn sheets() {
    let mut random = Random::new(3_003);
    for _ in 0..SHEETS {
        let all = random::sheet_bodies(&mut random);
        let parts: Vec<&[u8]> = all.iter().map(Vec::as_slice).collect();
        let sheet = sheet_of(&parts).unwrap();
        assert_eq!(sheet, random::sheet_of(&all));
        assert_eq!(bodies(&sheet).unwrap().collect::<Vec<_>>(), parts);
        let damaged = random::damaged_sheet(&mut random);
        for rule in [0, 1, 31, 32, usize::MAX] {
            let due = paper::rule_body(&damaged, rule);
            assert_eq!(numbered(rule_body(&damaged, rule)), due, "{damaged:?}, {rule}");
        }
        let due = paper::rule_body(&damaged, 0).err();
        assert_eq!(numbered(bodies(&damaged)).err(), due, "{damaged:?}");
    }
}

/// Texts read and bodies printed, with memory that is always enough.
#[test]
fn texts() {
    let mut random = Random::new(3_004);
    for _ in 0..TEXTS {
        let text = random::any_text(&mut random);
        let due = paper::body_of_text(&text, usize::MAX);
        assert_eq!(numbered(body_from_text(&text)), due, "{text:?}");
        let body = random::any_body(&mut random);
        let printed = numbered(text_from_body(&body)).map(String::into_bytes);
        assert_eq!(printed, paper::text_of_body(&body, usize::MAX), "{body:?}");
    }
}

/// A set's stream, taken in single steps and in batches of random length; and now and then a
/// set that is made of its parts.
#[test]
fn watch_sets() {
    let mut random = Random::new(3_005);
    let mut late = 0;
    for _ in 0..SETS {
        let sheet = random::sheet_of_rules(&random::rule_set(&mut random));
        let rules = paper::set_rules(&sheet).unwrap();
        let mut due = paper::SetWatch::new(&rules);
        let mut set = WatchSet::open(&sheet).unwrap();
        let figures: Vec<_> = rules.iter().map(|rule| wrapped_figures(rule.figures)).collect();
        assert_eq!(set.rule_figures(), figures);
        let stream = random::stream(&mut random, STEPS);
        let mut rest = &stream[..];
        while !rest.is_empty() {
            let (now, later) = rest.split_at(random.size(1, 9).min(rest.len()));
            let seen = take_set(&mut set, now, random.one_in(2));
            assert_eq!(seen, due_triples(&mut due, now), "{sheet:?}");
            assert_eq!((set.live(), set.next_tick()), (due.live() as u64, due.tick() as u64));
            assert_eq!(set.live_counts().sum::<u64>(), set.live());
            late += seen.iter().filter(|triple| triple.step > triple.tick).count();
            if random.one_in(8) {
                let (sheet, records, history, cells) = set.parts();
                let (records, cells) = (records.to_vec(), cells.to_vec());
                set =
                    WatchSet::from_parts(sheet.to_vec(), records, history.to_vec(), cells).unwrap();
            }
            rest = later;
        }
    }
    assert!(late > 20 * SETS, "{late} violations decided late");
}

fn take_set(set: &mut WatchSet, flags: &[u8], at_once: bool) -> Vec<Triple> {
    let mut triples = Vec::new();
    if at_once {
        set.steps(flags, |triple| triples.push(triple)).unwrap();
        return triples;
    }
    for &flag in flags {
        triples.extend(set.step(flag).unwrap().triples());
    }
    triples
}

fn due_triples(due: &mut paper::SetWatch, flags: &[u8]) -> Vec<Triple> {
    let mut triples = Vec::new();
    for &flag in flags {
        let step = due.tick() as u64;
        let pairs = due.step(flag).pairs().into_iter();
        triples.extend(pairs.map(|[rule, tick]| Triple { rule, tick, step }));
    }
    triples
}

/// Sheets whose rules open together or do not.
#[test]
fn set_sheets() {
    let mut random = Random::new(3_006);
    let mut opened = 0;
    for _ in 0..SET_SHEETS {
        let sheet = random::any_set_sheet(&mut random);
        let due = paper::set_rules(&sheet).map(|rules| {
            let set = paper::OpenedSet { rules, history_length: 0 };
            let (history, pairs) = (set.history(), set.most_pairs());
            SetFigures { rules: set.rules.len(), history, cells: set.needed_words() / 4, pairs }
        });
        assert_eq!(numbered(set_figures(&sheet)), due, "{sheet:?}");
        let answer = WatchSet::open(&sheet).map(|set| set.figures());
        assert_eq!(numbered(answer), due, "{sheet:?}");
        opened += due.is_ok() as u64;
    }
    assert!(opened > SET_SHEETS as u64 / 4, "{opened} opened");
}

/// Any words and what is filled in, by the four questions at their edges.
#[test]
fn calendars() {
    let mut random = Random::new(3_007);
    let mut found = 0;
    for _ in 0..CALENDARS {
        let length = random::calendar_length(&mut random);
        let mut due = random::calendar_words(&mut random, length);
        let mut words = Calendar::from_words(due.clone());
        let ticks = random::edge_ticks(&mut random, &due);
        let (tick, bytes) = (random.pick(&ticks), random.bytes(9));
        calendar::fill(&mut due, tick, &bytes);
        words.fill(tick, &bytes);
        assert_eq!((words.words(), words.kept()), (&due[..], calendar::kept_ticks(&due)));
        for flag in [0, 5, 7, 8, 255] {
            for (&first, &last) in ticks.iter().zip(ticks.iter().rev()) {
                found += same_answers(&words, &due, flag, first, last);
            }
        }
        calendar::clear(&mut due);
        words.clear();
        assert_eq!(words.words(), due);
    }
    assert!(found > 10 * CALENDARS, "{found} ups found");
}

/// Asks about a range and about its first tick, and says whether there is an up in it.
fn same_answers(words: &Calendar, due: &[u64], flag: u8, first: u64, last: u64) -> usize {
    let asked = format!("flag {flag}, {first} to {last}, {due:?}");
    let ups = numbered(words.ups(flag, first, last));
    assert_eq!(ups, calendar::ups(due, flag, first, last), "{asked}");
    let up = numbered(words.first_up(flag, first, last));
    assert_eq!(up, calendar::first_up(due, flag, first, last), "{asked}");
    let up = numbered(words.last_up(flag, first, last));
    assert_eq!(up, calendar::last_up(due, flag, first, last), "{asked}");
    let up = numbered(words.nearest_up(flag, first));
    assert_eq!(up, calendar::nearest_up(due, flag, first), "{asked}");
    ups.is_ok_and(|ups| ups > 0) as usize
}
