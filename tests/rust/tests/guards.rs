//! The guard pages themselves: a process that reads one byte outside any buffer of any call
//! ends with SIGSEGV. Each such process is this test program again, which is told by a variable
//! of the environment which byte to read.

use rust_tests::guard_pages::{Guard, Guarded, Told};
use rust_tests::hostile;
use rust_tests::stand_in::{Flaw, StandIn};
use std::cell::RefCell;
use std::collections::BTreeSet;
use std::ops::Range;
use std::os::unix::process::ExitStatusExt;
use std::process::{Command, Stdio};

const RIGHT: StandIn = StandIn { flaw: Flaw::None };
const SIGSEGV: i32 = 11;
const VARIABLE: &str = "BYTE_OUTSIDE";

/// Every call, in lengths from 0 on, on a library to which all is lent at guard pages and which
/// tells what it is lent.
fn every_call(guard: Guard, told: Told) {
    let library = Guarded::telling(&RIGHT, guard, told);
    let numbers = hostile::every_length(&Guarded::new(&library, guard), 401, 1).unwrap();
    assert!(numbers.total() > 20_000, "{numbers:?}");
}

/// The same of the calls on a set.
fn every_call_on_sets(guard: Guard, told: Told) {
    let library = Guarded::telling(&RIGHT, guard, told);
    let numbers = hostile::every_set_length(&Guarded::new(&library, guard), 402, 1).unwrap();
    assert!(numbers.total() > 3_000, "{numbers:?}");
}

/// The same of the calls with a calendar.
fn every_call_with_calendars(guard: Guard, told: Told) {
    let library = Guarded::telling(&RIGHT, guard, told);
    let numbers = hostile::every_calendar_length(&Guarded::new(&library, guard), 403, 1).unwrap();
    assert!(numbers.total() > 6_000, "{numbers:?}");
}

/// All buffers and answers of all calls: those that every call is lent at guard pages, and
/// with which it comes to its end where it touches nothing outside.
fn all_lent(guard: Guard) -> BTreeSet<String> {
    let lent = RefCell::new(BTreeSet::new());
    let keep = |name: &str, _: Range<*const u8>| {
        lent.borrow_mut().insert(name.to_string());
    };
    every_call(guard, &keep);
    every_call_on_sets(guard, &keep);
    every_call_with_calendars(guard, &keep);
    lent.into_inner()
}

/// Reads the byte directly before or after a buffer.
fn read_outside(guard: Guard, bytes: Range<*const u8>) {
    let outside = match guard {
        Guard::Before => bytes.start.wrapping_sub(1),
        Guard::After => bytes.end,
    };
    // SAFETY: none. The process must end here, and no other test runs in it.
    unsafe { outside.read_volatile() };
}

#[test]
fn a_byte_outside_ends_the_process() {
    for guard in [Guard::Before, Guard::After] {
        let names = all_lent(guard);
        assert_eq!(names.len(), 96, "{names:?}");
        for name in names {
            let ended = ended_by(&format!("{guard:?} {name}"));
            assert_eq!(ended, Some(SIGSEGV), "a byte of {name:?}, guard {guard:?}");
        }
    }
}

/// By which signal the process ends that reads this byte.
fn ended_by(byte: &str) -> Option<i32> {
    let program = std::env::current_exe().expect("a test program has a path");
    let mut again = Command::new(program);
    again.args(["--exact", "the_process_that_reads_it"]).env(VARIABLE, byte);
    let ended = again.stdout(Stdio::null()).stderr(Stdio::null()).status();
    ended.expect("the test program runs again").signal()
}

/// Nothing where no byte is chosen: it is a test only so that it can be run by its name.
#[test]
fn the_process_that_reads_it() {
    let Ok(byte) = std::env::var(VARIABLE) else {
        return;
    };
    let (side, name) = byte.split_once(' ').expect("a side and a buffer");
    let guard = if side == "Before" { Guard::Before } else { Guard::After };
    let read = |lent: &str, bytes: Range<*const u8>| {
        if lent == name && !bytes.is_empty() {
            read_outside(guard, bytes);
        }
    };
    if name.starts_with("set ") {
        every_call_on_sets(guard, &read);
    } else if name.starts_with("calendar ") {
        every_call_with_calendars(guard, &read);
    } else {
        every_call(guard, &read);
    }
}

/// A process that is told of no buffer there is ends well, so that it is the byte that ends
/// the others.
#[test]
fn no_byte_ends_nothing() {
    for guard in [Guard::Before, Guard::After] {
        assert_eq!(ended_by(&format!("{guard:?} nothing")), None);
    }
}
