//! The complete report of a recording, and lists beside it.

mod common;

use common::{FLAGS, TEXT};
use station_watch::*;

/// Rules that open, and rules that do not: 0..x, x..infinity, too many cells.
const RULES: [&str; 6] = [
    TEXT,
    "monitor x : @x.0",
    "monitor x : (@x.1 /\\ forall y in x+3..x+5 : @y.0)",
    "monitor x : forall y in 0..x : @y.0",
    "monitor x : forall y in x..infinity : (@y.0 && @y.1)",
    "monitor x : forall y in x..x+63 : @y.0",
];

fn sheet(rules: &[&str]) -> Vec<u8> {
    let bodies: Vec<Vec<u8>> = rules.iter().map(|text| body_from_text(text).unwrap()).collect();
    sheet_of(&bodies.iter().map(Vec::as_slice).collect::<Vec<_>>()).unwrap()
}

/// Flag bytes that follow no order.
fn recording(ticks: usize) -> Vec<u8> {
    let mut mixed = 1_u32;
    let byte = |_| {
        mixed = mixed.wrapping_mul(1_664_525).wrapping_add(1_013_904_223);
        if (mixed >> 24) % 7 < 5 {
            3
        } else {
            (mixed >> 28) as u8
        }
    };
    (0..ticks).map(byte).collect()
}

/// The report by the outcome of each tick.
fn due(body: &[u8], flags: &[u8]) -> Vec<Pair> {
    let violation = |tick| match outcome(body, flags, tick).unwrap() {
        Outcome::Decided(Verdict::False, step) => Some(Pair { tick: tick as u64, step }),
        _ => None,
    };
    let mut report: Vec<Pair> = (0..flags.len()).filter_map(violation).collect();
    report.sort_by_key(|violation| (violation.step, violation.tick));
    report
}

#[test]
fn reports_of_rules() {
    let sheet = sheet(&RULES);
    for ticks in [0, 1, 2, 7, 40, 200] {
        let flags = recording(ticks);
        for (rule, body) in bodies(&sheet).unwrap().enumerate() {
            let due = due(body, &flags);
            assert_eq!(complete_report(&sheet, rule, &flags).unwrap(), due);
            assert_eq!(check_report(&sheet, rule, &flags, &due), Ok(Comparison::Same));
            // The report stands at the front of the list; a list of its length is enough.
            let other = Pair { tick: 9, step: 9 };
            for more in [0, 3] {
                let mut list = vec![other; due.len() + more];
                let written = complete_report_into(&sheet, rule, &flags, &mut list);
                assert_eq!(written, Ok(due.len()));
                assert_eq!(
                    (&list[..due.len()], &list[due.len()..]),
                    (&due[..], &[other; 3][..more])
                );
            }
        }
    }
}

/// What a watch reports of a whole stream is the complete report.
#[test]
fn a_watch_reports_it() {
    let (sheet, flags) = (sheet(&RULES[..3]), recording(300));
    for rule in 0..3 {
        let mut watch = Watch::open(&sheet, rule).unwrap();
        let mut reported = Vec::new();
        watch.steps(&flags, |violation| reported.push(violation)).unwrap();
        assert_eq!(check_report(&sheet, rule, &flags, &reported), Ok(Comparison::Same));
    }
}

#[test]
fn differences() {
    let sheet = sheet(&[TEXT]);
    let (five, compare) =
        (Pair { tick: 5, step: 7 }, |list: &[Pair]| check_report(&sheet, 0, &FLAGS, list));
    let differs = Ok(Comparison::Differs { entry: 0, violation: five });
    assert_eq!(compare(&[five]), Ok(Comparison::Same));
    assert_eq!(compare(&[]), differs);
    assert_eq!(compare(&[Pair { tick: 5, step: 6 }]), differs);
    assert_eq!(compare(&[Pair { tick: u64::MAX, step: u64::MAX }, five]), differs);
    assert_eq!(compare(&[five, five]), Ok(Comparison::Ends { entry: 1 }));
    assert_eq!(compare(&vec![five; 100_000]), Ok(Comparison::Ends { entry: 1 }));
}

#[test]
fn refusals_of_reports() {
    let sheet = sheet(&[RULES[1]]);
    let mut list = [Pair { tick: 9, step: 9 }; 3];
    let both = |sheet: &[u8], rule: usize, flags: &[u8], list: &mut [Pair]| {
        let checked = check_report(sheet, rule, flags, list).err();
        assert_eq!(complete_report(sheet, rule, flags).err(), checked);
        assert_eq!(complete_report_into(sheet, rule, flags, list).err(), checked);
        checked
    };
    assert_eq!(both(&[], 0, &FLAGS, &mut list), Some(Refusal::RuleCount));
    assert_eq!(both(&sheet[..7], 0, &FLAGS, &mut list), Some(Refusal::EntryLayout));
    assert_eq!(both(&sheet, 1, &FLAGS, &mut list), Some(Refusal::NoSuchRule));
    let long = vec![1; MAX_RECORDING + 1];
    assert_eq!(both(&sheet, 0, &long, &mut list), Some(Refusal::NotInRecording));
    assert_eq!(both(&sheet, 0, &long[..MAX_RECORDING], &mut list), None);
    let short = complete_report_into(&sheet, 0, &FLAGS, &mut list);
    assert_eq!(short, Err(Refusal::BufferTooShort));
    assert_eq!(list, [Pair { tick: 9, step: 9 }; 3]);
}
