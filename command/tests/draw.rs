//! `draw FLAGS ..`: stored pictures, and what goes wrong. That every mark is right of many
//! files and sheets, and that the picture is well-formed XML, tests/command works out.

mod common;

use common::*;
use std::fs::{self, File};
use std::path::{Path, PathBuf};
use std::process::Command;
use std::time::{Duration, Instant};

const USAGE_LINE: &str =
    "usage: station-watch draw FLAGS [FIRST LAST] [--sheet SHEET] [--svg OUT]\n";

fn vault() -> PathBuf {
    Path::new(env!("CARGO_MANIFEST_DIR")).join("../examples/vault")
}

/// In the folder of the example, and with no terminal's width.
fn draw(words: &[&str]) -> Command {
    let mut command = command(&[&["draw"], words].concat());
    command.current_dir(vault()).env_remove("COLUMNS");
    command
}

fn drawn(words: &[&str]) -> Said {
    said(draw(words).output().unwrap())
}

/// What is drawn of the example, as text and in 80 columns: each tick has its own column, or
/// shares one.
#[test]
fn the_stored_texts() {
    let ticks = drawn(&["longer.bin", "0", "59", "--sheet", "watch.sheet"]);
    assert_eq!(ticks, out(include_str!("drawn/ticks.txt"), 0));
    let columns = drawn(&["--sheet", "watch.sheet", "longer.bin"]);
    assert_eq!(columns, out(include_str!("drawn/columns.txt"), 0));
}

/// The picture in the repository is what is drawn.
#[test]
fn the_stored_picture() {
    let folder = Folder::new("the_stored_picture");
    let path = folder.path("longer.svg");
    let stored = fs::read(vault().join("longer.svg")).unwrap();
    let line = format!("svg {path} ticks 200 violations 56 bytes {}\n", stored.len());
    assert_eq!(drawn(&["longer.bin", "--svg", &path, "--sheet", "watch.sheet"]), out(&line, 0));
    assert!(fs::read(&path).unwrap() == stored);
}

/// The lines that `help draw` shows are lines of what the command prints, in their order.
#[test]
fn the_examples_of_the_usage() {
    let folder = Folder::new("the_examples_of_the_usage_of_draw");
    for name in ["longer.bin", "watch.sheet"] {
        folder.file(name, &fs::read(vault().join(name)).unwrap());
    }
    let shown = ask(&["help", "draw"]).0;
    let mut run = 0;
    for example in shown.split("\n  station-watch ").skip(1) {
        let (words, lines) = example.split_once('\n').unwrap();
        let mut command = command(&words.split(' ').collect::<Vec<_>>());
        let (text, _, status) = said(command.current_dir(&folder.0).output().unwrap());
        let due = lines.lines().take_while(|line| line.is_empty() || line.starts_with("  "));
        let due = due.map(|line| line.strip_prefix("  ").unwrap_or(line));
        let mut rest = text.lines();
        for line in due.filter(|line| *line != ".." && !line.is_empty()) {
            assert!(status == 0 && rest.any(|said| said == line), "{words}: {line}");
        }
        run += 1;
    }
    assert_eq!(run, 2);
}

/// Columns of the environment: no line is wider.
#[test]
fn as_wide_as_the_terminal() {
    let widest = |columns: &str| {
        let mut command = draw(&["longer.bin", "--sheet", "watch.sheet"]);
        let (text, _, status) = said(command.env("COLUMNS", columns).output().unwrap());
        assert_eq!(status, 0);
        let rows = text.lines().filter(|line| line.starts_with("flag "));
        let rows = rows.map(|line| line.split_whitespace().nth(2).unwrap().len()).max().unwrap();
        (rows, text.lines().map(str::len).max().unwrap())
    };
    assert_eq!(widest("300").0, 200);
    let (columns, width) = widest("120");
    assert!(columns == 100 && width <= 120);
    let (columns, width) = widest("50");
    assert!(columns == 20 && width <= 50);
    for no_width in ["", "wide", "-1", "80"] {
        assert_eq!(widest(no_width).0, 40);
    }
    assert_eq!((widest("0").0, widest("99999999999").0), (20, 200));
}

#[test]
fn standard_input() {
    let flags = fs::read(vault().join("flags.bin")).unwrap();
    let (text, _, status) = ask_with_input(&["draw", "-", "4", "99"], &flags);
    assert!(status == 0 && text.starts_with("standard input: ticks 4 to 15 of 16\n"), "{text}");
    assert!(text.contains("\nflag 2  .###....####    7\n"), "{text}");
}

/// Names are words in the picture, whatever they are made of.
#[test]
fn names_are_escaped() {
    let folder = Folder::new("names_are_escaped");
    let name = "a<b>&\"c\u{1}é";
    folder.file(name, &FLAGS);
    let mut command = command(&["draw", name, "--svg", "out.svg"]);
    assert_eq!(said(command.current_dir(&folder.0).output().unwrap()).2, 0);
    let picture = fs::read_to_string(folder.path("out.svg")).unwrap();
    assert!(picture.contains("<title>a&lt;b&gt;&amp;&quot;c\u{FFFD}é: ticks 0 to 9 of 10</title>"));
}

/// A file of many ticks, of which many break rules: 32 rules, and 200,000 ticks that change all
/// the time.
#[test]
fn a_large_picture_is_small_and_soon_drawn() {
    let folder = Folder::new("a_large_picture_is_small_and_soon_drawn");
    let flags: Vec<u8> = (0..200_000_u64).map(|tick| (tick * tick / 977) as u8).collect();
    let path = folder.file("flags", &flags);
    let rules: Vec<String> = (0..32).map(|rule| format!("0100{:02}", rule % 8)).collect();
    let rules: Vec<&str> = rules.iter().map(String::as_str).collect();
    let (sheet, svg) = (folder.sheet(&rules), folder.path("svg"));
    let began = Instant::now();
    let (line, nothing, status) = ask(&["draw", &path, "--sheet", &sheet, "--svg", &svg]);
    assert_eq!((nothing.as_str(), status), ("", 0));
    assert!(line.starts_with(&format!("svg {svg} ticks 200000 violations ")), "{line}");
    assert!(began.elapsed() < Duration::from_secs(60));
    assert!(fs::metadata(&svg).unwrap().len() < 800_000);
    // Of 250 ticks, each violation is drawn by itself.
    let part = ["draw", &path, "5000", "5249", "--sheet", &sheet, "--svg", &svg];
    assert_eq!(ask(&part).2, 0);
    assert!(fs::metadata(&svg).unwrap().len() < 1_000_000);
}

/// No tick of the file is asked for.
#[test]
fn nothing_to_draw() {
    let folder = Folder::new("nothing_to_draw");
    let (path, svg) = (folder.file("flags", &FLAGS), folder.path("svg"));
    for (first, last) in [("10", "20"), ("5", "4")] {
        let why = format!("it has 10 ticks, and none from {first} to {last}");
        let due = failed(&format!("station-watch: cannot draw {path}: {why}\n"));
        assert_eq!(ask(&["draw", &path, first, last]), due);
        assert_eq!(ask(&["draw", &path, first, last, "--svg", &svg]), due);
    }
    let due = failed("station-watch: cannot draw standard input: it has no ticks\n");
    assert_eq!(ask(&["draw", "-"]), due);
    assert!(!Path::new(&svg).exists());
}

#[test]
fn refused_sheets() {
    let folder = Folder::new("refused_sheets_of_draw");
    let (path, svg) = (folder.file("flags", &FLAGS), folder.path("svg"));
    let sheet = folder.sheet(&[EXAMPLE, WIDE]);
    let named = format!("station-watch: rule 1 of {sheet} is refused\n");
    let due = ("refused 15: more than 4,096 cells\n".to_string(), named, 1);
    assert_eq!(ask(&["draw", &path, "--sheet", &sheet]), due);
    assert_eq!(ask(&["draw", &path, "--sheet", &sheet, "--svg", &svg]), due);
    let first =
        "refused 1: sheet empty, not 1 to 32 rules, or its table of contents is cut short\n";
    assert_eq!(ask(&["draw", &path, "--sheet", "/dev/null"]), out(first, 1));
    assert!(!Path::new(&svg).exists());
}

#[test]
fn wrong_arguments() {
    let wrong = |words: &[&str], said: &str| {
        let due = failed(&format!("station-watch: {said}\n{USAGE_LINE}"));
        assert_eq!(ask(&[&["draw"], words].concat()), due);
    };
    wrong(&[], "draw: wrong number of arguments (0)");
    wrong(&["a", "0"], "draw: wrong number of arguments (2)");
    wrong(&["a", "0", "1", "2"], "draw: wrong number of arguments (4)");
    wrong(&["--sheet", "b", "--svg", "c"], "draw: wrong number of arguments (4)");
    let option = |name| format!("draw: unknown or repeated option '{name}'");
    wrong(&["a", "--svg", "b", "--svg", "c"], &option("--svg"));
    wrong(&["a", "--png", "b"], &option("--png"));
    wrong(&["a", "--svg"], "no file after --svg");
    wrong(&["a", "--sheet"], "no file after --sheet");
    wrong(&["a", "x", "1"], "FIRST is no number: 'x'");
    wrong(&["a", "1", "-1"], "LAST is no number: '-1'");
}

#[test]
fn files_that_cannot_be_read_or_written() {
    let folder = Folder::new("files_that_cannot_be_read_or_written");
    let (path, sheet) = (folder.file("flags", &FLAGS), folder.sheet(&[EXAMPLE]));
    let none = folder.path("none");
    let missing = format!("cannot read {none}: No such file or directory (os error 2)");
    let missing = failed(&format!("station-watch: {missing}\n"));
    assert_eq!(ask(&["draw", &none]), missing);
    assert_eq!(ask(&["draw", &path, "--sheet", &none]), missing);
    let inside = folder.path("none/svg");
    let due = format!("cannot write {inside}: No such file or directory (os error 2)");
    let due = failed(&format!("station-watch: {due}\n"));
    assert_eq!(ask(&["draw", &path, "--svg", &inside]), due);
    let due = "station-watch: cannot write /dev/full: No space left on device (os error 28)\n";
    assert_eq!(ask(&["draw", &path, "--svg", "/dev/full"]), failed(due));
    let due =
        "station-watch: cannot write standard output: No space left on device (os error 28)\n";
    let full = File::options().write(true).open("/dev/full").unwrap();
    let mut command = command(&["draw", &path, "--sheet", &sheet]);
    assert_eq!(said(command.stdout(full).output().unwrap()), failed(due));
}

/// Neither the flags nor the sheet are lost to the picture.
#[test]
fn what_is_read_is_not_written_over() {
    let folder = Folder::new("what_is_read_is_not_written_over");
    let (path, sheet) = (folder.file("flags", &FLAGS), folder.sheet(&[EXAMPLE]));
    let bytes = fs::read(&sheet).unwrap();
    for out in [&path, &sheet] {
        let due = format!("station-watch: cannot write {out}: it is the file that is read\n");
        assert_eq!(ask(&["draw", &path, "--sheet", &sheet, "--svg", out]), failed(&due));
    }
    assert!(fs::read(&path).unwrap() == FLAGS && fs::read(&sheet).unwrap() == bytes);
}

/// Of a long name the end is shown, in the picture and in the text, so that the rest has room.
#[test]
fn long_names_are_shortened() {
    let folder = Folder::new("long_names_are_shortened");
    let name = "x".repeat(200) + ".bin";
    let (path, svg) = (folder.file(&name, &FLAGS), folder.path("svg"));
    let sheet = folder.sheet(&["010000"]);
    let words = ["draw", &path, "--sheet", &sheet];
    let (text, _, _) = said(command(&words).env("COLUMNS", "60").output().unwrap());
    let due = format!("..{}.bin: ticks 0 to 9 of 10\n..", "x".repeat(34));
    assert!(text.starts_with(&due), "{text}");
    assert!(text.contains(": 1 rule, 4 violations\n"), "{text}");
    assert_eq!(ask(&[&words[..], &["--svg", &svg]].concat()).2, 0);
    let picture = fs::read_to_string(&svg).unwrap();
    let due = format!("<title>..{}.bin: ticks 0 to 9 of 10</title>\n", "x".repeat(79));
    assert!(picture.contains(&due), "{picture}");
}
