//! `Calendar`, which keeps its words, by itself and beside `Watch` and `WatchSet`.

mod common;

use common::{sheet, sheet_of_rules, stream, BODY, FLAG};
use station_watch::{Calendar, Pair, Triple, Watch, WatchSet};

#[test]
fn room_for_so_many_ticks() {
    for (ticks, kept) in [(0, 0), (1, 64), (64, 64), (65, 128), (86_400, 86_400)] {
        let calendar = Calendar::new(ticks);
        assert_eq!((calendar.kept(), calendar.words().len() as u64), (kept, kept / 8));
        assert!(calendar.words().iter().all(|&word| word == 0));
    }
    assert_eq!(Calendar::default(), Calendar::new(0));
}

/// What was marked stays, and whatever stood in words that kept no ticks is gone.
#[test]
fn room_for_more_ticks() {
    for (ticks, kept) in [(0, 64), (64, 64), (65, 128), (128, 128), (129, 192), (300, 320)] {
        for words in [8, 13, 15] {
            let mut calendar = Calendar::from_words(vec![u64::MAX; words]);
            calendar.grow_to(ticks);
            assert_eq!(calendar.kept(), kept);
            for flag in 0..8 {
                assert_eq!(calendar.ups(flag, 0, u64::MAX), Ok(64));
                assert_eq!(calendar.last_up(flag, 0, u64::MAX), Ok(Some(63)));
            }
        }
    }
    let mut calendar = Calendar::default();
    calendar.grow_to(86_400);
    assert_eq!(calendar, Calendar::new(86_400));
}

/// Too many for any memory.
#[test]
#[should_panic(expected = "capacity overflow")]
fn no_room_for_all_ticks() {
    Calendar::new(u64::MAX);
}

/// Flag k is up at tick t where bit k of byte t is set, and nowhere else.
#[test]
fn a_recording() {
    let stream = stream(300);
    let calendar = Calendar::of_flags(&stream);
    assert_eq!(calendar.kept(), 320);
    for (tick, flags) in stream.iter().enumerate() {
        for flag in 0..8 {
            let due = u64::from(flags >> flag & 1);
            assert_eq!(calendar.ups(flag, tick as u64, tick as u64), Ok(due));
        }
    }
    for flag in 0..8 {
        assert_eq!(calendar.ups(flag, 300, u64::MAX), Ok(0));
    }
}

#[test]
fn words_out_and_in() {
    let calendar = Calendar::of_flags(&stream(100));
    assert_eq!(Calendar::from_words(calendar.words().to_vec()), calendar);
    let mut odd = Calendar::from_words(vec![u64::MAX; 13]);
    assert_eq!((odd.kept(), odd.ups(7, 0, u64::MAX)), (64, Ok(64)));
    odd.clear();
    assert_eq!(odd.words(), [&[0; 8][..], &[u64::MAX; 5][..]].concat());
}

#[test]
fn it_is_shown_by_its_size() {
    assert_eq!(format!("{:?}", Calendar::new(100)), "Calendar { kept: 128, .. }");
}

fn pairs(watch: &mut Watch, flags: &[u8]) -> Vec<Pair> {
    let mut pairs = Vec::new();
    watch.steps(flags, |pair| pairs.push(pair)).unwrap();
    pairs
}

/// With and without a calendar the same is reported, and the calendar is that of the stream,
/// cut at its room.
#[test]
fn beside_a_watch() {
    let (sheet, stream) = (sheet(&BODY), stream(500));
    for ticks in [0, 64, 200, 500, 1_000] {
        let mut watch = Watch::calendar_open(&sheet, 0, ticks).unwrap();
        let mut without = Watch::open(&sheet, 0).unwrap();
        for &flag in &stream[..70] {
            assert_eq!(watch.step(flag).unwrap(), without.step(flag).unwrap());
        }
        assert_eq!(pairs(&mut watch, &stream[70..]), pairs(&mut without, &stream[70..]));
        assert_eq!(watch.parts(), without.parts());
        let mut due = Calendar::new(ticks);
        due.fill(0, &stream);
        assert_eq!(watch.calendar(), &due);
        assert_eq!(without.calendar().kept(), 0);
    }
}

/// A watch that was stored goes on with its calendar.
#[test]
fn stored_and_gone_on() {
    let stream = stream(200);
    let mut watch = Watch::calendar_open(&sheet(&BODY), 0, 200).unwrap();
    watch.steps(&stream[..90], |_| {}).unwrap();
    let again = Watch::from_bytes(&watch.to_bytes()).unwrap();
    assert_eq!(again.calendar().kept(), 0);
    let mut again = again.with_calendar(Calendar::from_words(watch.calendar().words().to_vec()));
    again.steps(&stream[90..], |_| {}).unwrap();
    assert_eq!(again.calendar().words()[..24], Calendar::of_flags(&stream).words()[..24]);
}

/// What the documents say of a set: fill in what was taken, by the set's tick numbers.
#[test]
fn beside_a_set() {
    let (stream, mut calendar) = (stream(400), Calendar::new(400));
    let mut set = WatchSet::open(&sheet_of_rules(&[&BODY, &FLAG])).unwrap();
    let mut violations: Vec<Triple> = Vec::new();
    for flags in stream.chunks(7) {
        let tick = set.next_tick();
        set.steps(flags, |violation| violations.push(violation)).unwrap();
        calendar.fill(tick, flags);
    }
    assert_eq!(calendar, Calendar::of_flags(&stream));
    let down = violations.iter().filter(|violation| violation.rule == 1).count() as u64;
    assert_eq!(calendar.ups(0, 0, 399), Ok(400 - down));
}
