//! `watch SHEET` where ticks have more than 32 bits, and where tick numbers are used up. No test
//! brings so many flag bytes: the set that is run has the next tick put into its records.

#![allow(dead_code)] // of the command's modules a part is used

#[path = "../src/answer.rs"]
mod answer;
#[path = "../src/files.rs"]
mod files;
#[path = "../src/watch.rs"]
mod watch;

use answer::{Failure, Stop};
use files::Pieces;
use station_watch::{sheet_of, Refusal, WatchSet, MAX_TICKS};
use std::io::{self, Read};
use std::str;

/// Flag 0 at X, and flag 1 at X, which have no history and look at no cell of another tick: a
/// set of them that stands before a tick.
fn standing_at(tick: u64) -> WatchSet {
    let opened = WatchSet::open(&sheet_of(&[&[1, 0, 0], &[1, 0, 1]]).unwrap()).unwrap();
    let (sheet, records, history, cells) = opened.parts();
    let mut records = records.to_vec();
    records.iter_mut().for_each(|record| record.next = tick);
    WatchSet::from_parts(sheet.to_vec(), records, history.to_vec(), cells.to_vec()).unwrap()
}

fn input<R: Read>(from: R) -> Pieces<R> {
    Pieces { from, name: "flags".to_string() }
}

/// What is written from a tick on, and how it ends.
fn followed(tick: u64, flags: impl Read) -> (String, Result<u64, Stop>) {
    let mut written = String::new();
    let write = |bytes: &[u8]| {
        written += str::from_utf8(bytes).unwrap();
        Ok(())
    };
    let ended = watch::follow(&mut standing_at(tick), input(flags), write);
    (written, ended)
}

/// The violations before it are told, and then the refusal, as the program `watch` does.
#[test]
fn tick_numbers_are_used_up() {
    let told = "violation 0 4611686018427387901 at 4611686018427387901\n\
                violation 1 4611686018427387902 at 4611686018427387902\n\
                violation 0 4611686018427387903 at 4611686018427387903\n\
                violation 1 4611686018427387903 at 4611686018427387903\n";
    let (written, ended) = followed(MAX_TICKS - 3, &[2, 1, 0, 0][..]);
    assert_eq!(written, told);
    assert!(matches!(ended, Err(Stop::Refused(Refusal::TicksUsedUp))));
    // The last tick is taken, and the input may end there.
    let (written, ended) = followed(MAX_TICKS - 3, &[2, 1, 0][..]);
    assert_eq!(written, told);
    assert!(matches!(ended, Ok(4)));
    // Two reads, and the second brings the byte that is refused.
    let (written, ended) = followed(MAX_TICKS - 3, [2, 1, 0].chain(&[0, 0][..]));
    assert_eq!(written, told);
    assert!(matches!(ended, Err(Stop::Refused(Refusal::TicksUsedUp))));
}

/// Tick 2^32 - 1, where tick numbers ended before 0.8.0, and those after it are as others.
#[test]
fn ticks_of_more_than_32_bits() {
    let (written, ended) = followed(4_294_967_294, &[2, 1, 0, 3, 1][..]);
    let told = "violation 0 4294967294 at 4294967294\n\
                violation 1 4294967295 at 4294967295\n\
                violation 0 4294967296 at 4294967296\n\
                violation 1 4294967296 at 4294967296\n\
                violation 1 4294967298 at 4294967298\n";
    assert_eq!(written, told);
    assert!(matches!(ended, Ok(5)));
}

/// Where the lines before it cannot be written, that is said, and not the refusal.
#[test]
fn no_refusal_after_lines_that_are_lost() {
    let lost = |_: &[u8]| {
        Err(Failure::Write("standard output".to_string(), io::ErrorKind::BrokenPipe.into()))
    };
    let ended = watch::follow(&mut standing_at(MAX_TICKS - 1), input(&[0, 0][..]), lost);
    assert!(matches!(ended, Err(Stop::Failed(Failure::Write(..)))));
}
