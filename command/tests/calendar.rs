//! `calendar FLAGS ..`: the answers are those of plain loops over the same bytes.

mod common;

use common::*;
use std::fs::{self, File};
use std::path::Path;
use std::process::Stdio;
use std::time::{Duration, Instant};

const USAGE_LINE: &str = "usage: station-watch calendar FLAGS [FLAG [FIRST LAST | near TICK]]\n";

/// Numbers that look random, and are the same each time (xorshift).
struct Random(u64);

impl Random {
    fn next(&mut self) -> u64 {
        self.0 ^= self.0 << 13;
        self.0 ^= self.0 >> 7;
        self.0 ^= self.0 << 17;
        self.0
    }

    /// Flag k is up at one of 1, 2, 4, .. 128 ticks.
    fn flags(&mut self, ticks: usize) -> Vec<u8> {
        let mut flag_byte = || (0..8).map(|k| u8::from(self.next() % (1 << k) == 0) << k).sum();
        (0..ticks).map(|_| flag_byte()).collect()
    }
}

fn ups(flags: &[u8], flag: u64, first: u64, last: u64) -> Vec<u64> {
    let up = |tick: &u64| flags[*tick as usize] >> flag & 1 == 1;
    (0..flags.len() as u64).filter(|tick| (first..=last).contains(tick)).filter(up).collect()
}

fn or_none(tick: Option<&u64>) -> String {
    tick.map_or("none".to_string(), u64::to_string)
}

fn told(ups: &[u64]) -> String {
    format!("ups {} first {} last {}", ups.len(), or_none(ups.first()), or_none(ups.last()))
}

/// The first of those that are nearest.
fn nearest(ups: &[u64], tick: u64) -> String {
    or_none(ups.iter().min_by_key(|up| up.abs_diff(tick)))
}

/// The command's answer about a file, with single blanks.
fn asked(path: &str, words: &[&str]) -> String {
    let (text, nothing, status) = ask(&[&["calendar", path], words].concat());
    assert_eq!((nothing.as_str(), status), ("", 0));
    let lines = text.lines().map(|line| line.split_whitespace().collect::<Vec<_>>().join(" "));
    lines.collect::<Vec<_>>().join("\n")
}

/// The table, and questions about a flag at the edges of a file and of its words.
fn questions_about(path: &str, flags: &[u8], flag: u64) {
    let ticks = flags.len() as u64;
    let word = flag.to_string();
    let whole = ups(flags, flag, 0, u64::MAX);
    assert_eq!(asked(path, &[&word]), format!("flag {flag} {}", told(&whole)));
    for tick in [0, 1, 63, 64, ticks / 2, ticks.saturating_sub(1), ticks, ticks + 64, u64::MAX] {
        let near = asked(path, &[&word, "near", &tick.to_string()]);
        assert_eq!(near, format!("flag {flag} tick {tick} nearest {}", nearest(&whole, tick)));
        for last in [0, 63, 64, 127, ticks.saturating_sub(1), ticks, u64::MAX] {
            let said = asked(path, &[&word, &tick.to_string(), &last.to_string()]);
            let due = told(&ups(flags, flag, tick, last));
            assert_eq!(said, format!("flag {flag} from {tick} to {last} {due}"));
        }
    }
}

#[test]
fn answers_are_those_of_plain_loops() {
    let folder = Folder::new("answers_are_those_of_plain_loops");
    let mut random = Random(20);
    for (place, ticks) in [0, 1, 63, 64, 65, 128, 1_000, 65_536, 70_001].into_iter().enumerate() {
        let flags = random.flags(ticks);
        let path = folder.file("flags", &flags);
        let row = |flag| format!("\nflag {flag} {}", told(&ups(&flags, flag, 0, u64::MAX)));
        let table: String = (0..8).map(row).collect();
        assert_eq!(asked(&path, &[]), format!("ticks {ticks}{table}"));
        questions_about(&path, &flags, place as u64 % 8);
    }
}

#[test]
fn standard_input_in_pieces() {
    let flags = Random(7).flags(200_000);
    let due = format!("flag 5 from 3 to 199998 {}\n", told(&ups(&flags, 5, 3, 199_998)));
    assert_eq!(ask_with_input(&["calendar", "-", "5", "3", "199998"], &flags), out(&due, 0));
}

/// Each line of `help calendar` that begins with the command's name is followed by what the
/// command prints.
#[test]
fn the_examples_of_the_usage() {
    let folder = Folder::new("the_examples_of_the_usage");
    let vault = Path::new(env!("CARGO_MANIFEST_DIR")).join("../examples/vault/flags.bin");
    folder.file("flags.bin", &fs::read(vault).unwrap());
    let shown = ask(&["help", "calendar"]).0;
    let mut run = 0;
    for example in shown.split("\n  station-watch ").skip(1) {
        let (words, due) = example.split_once('\n').unwrap();
        let words: Vec<&str> = words.split(' ').collect();
        let said = said(command(&words).current_dir(&folder.0).output().unwrap());
        let due = due.lines().take_while(|line| line.starts_with("  "));
        let due: String = due.map(|line| format!("{}\n", &line[2..])).collect();
        assert_eq!(said, out(&due, 0), "{words:?}");
        run += 1;
    }
    assert_eq!(run, 4);
}

/// A file of many pieces: ten days of ticks.
#[test]
fn a_long_file() {
    let folder = Folder::new("a_long_file");
    let mut flags = vec![0; 8_640_000];
    flags[8_639_999] = 0x80;
    flags[4_320_000] = 0x81;
    let path = folder.file("flags", &flags);
    let began = Instant::now();
    assert_eq!(asked(&path, &["7"]), "flag 7 ups 2 first 4320000 last 8639999");
    assert_eq!(asked(&path, &["0", "near", "8639999"]), "flag 0 tick 8639999 nearest 4320000");
    assert!(began.elapsed() < Duration::from_secs(20));
}

#[test]
fn a_flag_above_7() {
    let folder = Folder::new("a_flag_above_7");
    let path = folder.file("flags", &FLAGS);
    let due = out("refused 7: a flag above 7\n", 1);
    for flag in ["8", "255", "256", "264", &"9".repeat(40)] {
        assert_eq!(ask(&["calendar", &path, flag]), due);
        assert_eq!(ask(&["calendar", &path, flag, "5", "2"]), due);
        assert_eq!(ask(&["calendar", &path, flag, "near", "2"]), due);
    }
}

#[test]
fn wrong_arguments() {
    let wrong = |words: &[&str], said: &str| {
        let due = failed(&format!("station-watch: {said}\n{USAGE_LINE}"));
        assert_eq!(ask(&[&["calendar"], words].concat()), due);
    };
    wrong(&[], "calendar: wrong number of arguments (0)");
    wrong(&["a", "0", "1"], "calendar: wrong number of arguments (3)");
    wrong(&["a", "0", "1", "2", "3"], "calendar: wrong number of arguments (5)");
    wrong(&["a", "x"], "FLAG is no number: 'x'");
    wrong(&["a", "-1", "0", "1"], "FLAG is no number: '-1'");
    wrong(&["a", "0", "far", "1"], "FIRST is no number: 'far'");
    wrong(&["a", "0", "1", ""], "LAST is no number: ''");
    wrong(&["a", "0", "near", "+1"], "TICK is no number: '+1'");
}

#[test]
fn flags_that_cannot_be_read() {
    let folder = Folder::new("flags_that_cannot_be_read");
    let none = folder.path("none");
    let due = format!("cannot read {none}: No such file or directory (os error 2)");
    assert_eq!(ask(&["calendar", &none]), failed(&format!("station-watch: {due}\n")));
    let due = "station-watch: cannot read /: Is a directory (os error 21)\n";
    assert_eq!(ask(&["calendar", "/", "0"]), failed(due));
    let mut command = command(&["calendar", "-"]);
    let said = said(command.stdin(File::open("/").unwrap()).output().unwrap());
    let due = "station-watch: cannot read standard input: Is a directory (os error 21)\n";
    assert_eq!(said, failed(due));
}

#[test]
fn output_on_a_full_device() {
    let mut command = command(&["calendar", "-"]);
    let full = File::options().write(true).open("/dev/full").unwrap();
    let said = said(command.stdin(Stdio::null()).stdout(full).output().unwrap());
    let due =
        "station-watch: cannot write standard output: No space left on device (os error 28)\n";
    assert_eq!(said, failed(due));
}
