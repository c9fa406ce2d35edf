//! The header for C and the wrapper for Rust (feature `library`) have the same names, and
//! give each the same number.

use rust_tests::library::Running;
use rust_tests::paper::LAST_REFUSAL;
use station_watch::{raw, Refusal};
use std::collections::BTreeMap;
use std::mem::{align_of, offset_of, size_of};

const HEADER: &str = include_str!("../../../include/station_watch.h");

/// What only C has: the answer that is no refusal, what a comparison of two reports tells, which is
/// an enum in Rust, and the parts of the version, which tests/c/boundary.c compares with the whole.
const ONLY_IN_C: [&str; 7] = [
    "SW_OK",
    "SW_REPORT_SAME",
    "SW_REPORT_DIFFERS",
    "SW_REPORT_ENDS",
    "SW_VERSION_MAJOR",
    "SW_VERSION_MINOR",
    "SW_VERSION_PATCH",
];

/// What the header defines.
fn defined() -> BTreeMap<String, String> {
    let definition = |line: &'static str| line.strip_prefix("#define ")?.split_once(' ');
    let owned = |(name, value): (&str, &str)| (name.to_string(), value.to_string());
    HEADER.lines().filter_map(definition).map(owned).collect()
}

/// What the wrapper has under the header's names.
fn wrapped() -> BTreeMap<String, String> {
    let sizes = [
        ("SW_STATE_BYTES", station_watch::STATE_BYTES),
        ("SW_CELL_WORDS", station_watch::CELL_WORDS),
        ("SW_MAX_RULES", station_watch::MAX_RULES),
        ("SW_MAX_BODY", station_watch::MAX_BODY),
        ("SW_MAX_SHEET", station_watch::MAX_SHEET),
        ("SW_MAX_TEXT", station_watch::MAX_TEXT),
        ("SW_MAX_RECORDING", station_watch::MAX_RECORDING),
        ("SW_MAX_HISTORY", station_watch::MAX_HISTORY),
        ("SW_MAX_DELAY", station_watch::MAX_DELAY),
        ("SW_MAX_CELLS", station_watch::MAX_CELLS),
        ("SW_MAX_CELL_WORDS", station_watch::MAX_CELL_WORDS),
        ("SW_MAX_REPORT", station_watch::MAX_REPORT),
        ("SW_MAX_BATCH_REPORT", 2 * station_watch::MAX_REPORT), // pairs in Rust, words in C
        ("SW_MAX_SET_REPORT", 2 * station_watch::MAX_SET_REPORT), // pairs too
        ("SW_MAX_SET_BATCH_REPORT", 3 * station_watch::MAX_SET_REPORT), // triples
        ("SW_MAX_SENTENCE", station_watch::MAX_SENTENCE),
        ("SW_MAX_STACK", station_watch::MAX_STACK),
        ("SW_OPEN", raw::OPEN as usize),
        ("SW_TRUE", raw::TRUE as usize),
        ("SW_FALSE", raw::FALSE as usize),
    ];
    let sizes = sizes.into_iter().map(|(name, size)| (name.to_string(), size.to_string()));
    let version = ("SW_VERSION".to_string(), format!("{:?}", station_watch::VERSION));
    let no_tick = ("SW_NO_TICK".to_string(), in_c(raw::NO_TICK));
    sizes.chain(refusals()).chain([version, no_tick]).collect()
}

/// A number of 64 bits as the header writes it: the largest by its name in C.
fn in_c(number: u64) -> String {
    match number {
        u64::MAX => "UINT64_MAX".to_string(),
        number => number.to_string(),
    }
}

/// `RuleCount` is `SW_RULE_COUNT` in C.
fn refusals() -> impl Iterator<Item = (String, String)> {
    (1..=LAST_REFUSAL).map(|number| {
        let name =
            format!("{:?}", Refusal::from_number(number).expect("every number but 0 is a refusal"));
        let words = name.chars().map(|c| match c.is_uppercase() {
            true => format!("_{c}"),
            false => c.to_uppercase().to_string(),
        });
        (format!("SW{}", words.collect::<String>()), number.to_string())
    })
}

#[test]
fn the_same_names_and_numbers() {
    let mut defined = defined();
    for name in ONLY_IN_C {
        assert!(defined.remove(name).is_some(), "the header has no {name}");
    }
    assert_eq!(defined, wrapped());
}

/// The numbers of the header's record, in their order, and how many bits each has.
fn numbers_of_a_record() -> Vec<(&'static str, usize)> {
    let (lines, _) = HEADER.split_once("} sw_running;").expect("the header has the record");
    let (_, lines) = lines.rsplit_once("typedef struct {\n").expect("a struct begins with this");
    let number = |line: &'static str| {
        let (bits, declared) = line.trim_start().strip_prefix("uint")?.split_once("_t ")?;
        Some((declared.split_once(';')?.0, bits.parse().ok()?))
    };
    lines.lines().map(|line| number(line).expect("each line declares a number")).collect()
}

/// The name of each number of a record and where it lies, in the wrapper's and in the tests'
/// own.
macro_rules! offsets {
    ($($number:ident)*) => {
        [$((
            stringify!($number),
            offset_of!(station_watch::Running, $number),
            offset_of!(Running, $number),
        )),*]
    };
}

/// A record is eight numbers, end to end as in C.
#[test]
fn the_same_record() {
    let offsets = offsets!(start size first cells delay opened live next);
    let mut place = 0;
    for ((name, bits), (own_name, wrapped, own)) in numbers_of_a_record().into_iter().zip(offsets) {
        assert_eq!(own_name, name);
        assert_eq!((wrapped, own), (place, place), "{name}");
        place += bits / 8;
    }
    assert_eq!((numbers_of_a_record().len(), place), (offsets.len(), 32));
    let bits = Running::default().numbers().map(|(_, bits)| bits as usize);
    assert!(numbers_of_a_record().iter().map(|number| number.1).eq(bits));
    assert_eq!((size_of::<station_watch::Running>(), size_of::<Running>()), (32, 32));
    assert_eq!((align_of::<station_watch::Running>(), align_of::<Running>()), (8, 8));
}
