//! `watch SHEET`: all rules of a sheet over standard input. What must be told of many sheets,
//! tests/command works out from the papers; here are the input's and the output's ways to
//! come and to fail.

mod common;

use common::*;
use std::fs::{self, File};
use std::io::{BufRead, BufReader, ErrorKind, Read, Seek, Write};
use std::net::Shutdown;
use std::os::fd::OwnedFd;
use std::path::Path;
use std::process::{Child, Stdio};
use std::sync::mpsc;
use std::thread::{self, sleep, JoinHandle};
use std::time::{Duration, Instant};

/// Flag 0 at X, and not flag 0 at X: each flag byte breaks one of them, at its own step.
const EITHER: [&str; 2] = ["010000", "02 010000"];
const EITHER_FIGURES: &str = "rule 0 history 0 delay 0 cells 1\nrule 1 history 0 delay 0 cells 1\n";

/// Longer than the command takes for anything here.
const LONG: Duration = Duration::from_secs(60);

/// What is told of these two rules.
fn either(flags: &[u8]) -> String {
    let told = |(tick, flag): (usize, &u8)| format!("violation {} {tick} at {tick}\n", flag & 1);
    let violations: String = flags.iter().enumerate().map(told).collect();
    let count = flags.len();
    format!("{EITHER_FIGURES}{violations}end {count} steps {count} violations 0 live\n")
}

fn example(name: &str) -> Vec<u8> {
    let vault = Path::new(env!("CARGO_MANIFEST_DIR")).join("../examples/vault");
    fs::read(vault.join(name)).unwrap()
}

fn refused(said: &str, stdout: &str) -> Said {
    (stdout.to_string(), said.to_string(), 1)
}

#[test]
fn the_example_of_the_repository() {
    let folder = Folder::new("the_example_of_the_repository");
    let sheet = folder.file("vault", &example("watch.sheet"));
    let due = String::from_utf8(example("said")).unwrap();
    assert_eq!(ask_with_input(&["watch", &sheet], &example("flags.bin")), out(&due, 0));
}

/// The lines that `help watch` shows are what the command prints.
#[test]
fn the_example_of_the_usage() {
    let folder = Folder::new("the_example_of_the_usage");
    let sheet = folder.sheet(&[EXAMPLE, "02 04 010000 010001"]);
    let mut flags = FLAGS;
    flags[4] |= 2;
    let (told, nothing, status) = ask_with_input(&["watch", &sheet], &flags);
    assert_eq!((nothing.as_str(), status), ("", 0));
    let shown = ask(&["help", "watch"]).0;
    let lines = told.lines().map(|line| shown.find(&format!("\n  {line}")));
    let places: Option<Vec<usize>> = lines.collect();
    assert!(places.is_some_and(|places| places.len() == 5 && places.is_sorted()), "{told}");
}

#[test]
fn no_input() {
    let folder = Folder::new("no_input");
    assert_eq!(ask(&["watch", &folder.sheet(&EITHER)]), out(&either(&[]), 0));
}

/// Many reads, of which the last is not full, and many batches.
#[test]
fn a_long_input() {
    let folder = Folder::new("a_long_input");
    let flags: Vec<u8> = (0..100_000_u64).map(|tick| (tick * tick / 128) as u8).collect();
    let file = File::open(folder.file("flags", &flags)).unwrap();
    let mut command = command(&["watch", &folder.sheet(&EITHER)]);
    let said = said(command.stdin(file).output().unwrap());
    assert!(said == out(&either(&flags), 0), "{}", &said.0[said.0.len() - 200..]);
}

/// All live at the end, and no step of which a report is full too early: 4,096 cells.
#[test]
fn the_most_cells() {
    let folder = Folder::new("the_most_cells");
    let widest = "05 02000000 02003E00 010100"; // X..X+62: 4,095 cells
    let figures = "rule 0 history 0 delay 62 cells 4095\nrule 1 history 0 delay 0 cells 1\n";
    let sheet = folder.sheet(&[widest, "02 010001"]);
    let due = format!("{figures}end 62 steps 0 violations 62 live\n");
    assert_eq!(ask_with_input(&["watch", &sheet], &[1; 62]), out(&due, 0));
    let told: String = (0..63).map(|tick| format!("violation 0 {tick} at 62\n")).collect();
    let due = format!("{figures}{told}end 63 steps 63 violations 0 live\n");
    let flags = [&[1; 62][..], &[0]].concat();
    assert_eq!(ask_with_input(&["watch", &sheet], &flags), out(&due, 0));
    // One cell more.
    let sheet = folder.sheet(&[widest, "010000", "010000", "010000"]);
    let named = format!("station-watch: rules 0 to 2 of {sheet} need 4097 cells\n");
    let due = refused(&named, "refused 27: more than 4,096 cells in all rules\n");
    assert_eq!(ask(&["watch", &sheet]), due);
}

#[test]
fn no_sheet() {
    let folder = Folder::new("no_sheet");
    let first =
        "refused 1: sheet empty, not 1 to 32 rules, or its table of contents is cut short\n";
    let second = "refused 2: an entry of the sheet breaks the layout\n";
    assert_eq!(ask(&["watch", &folder.file("empty", &[])]), out(first, 1));
    let whole = fs::read(folder.sheet(&EITHER)).unwrap();
    let short = folder.file("short", &whole[..whole.len() - 1]);
    assert_eq!(ask(&["watch", &short]), out(second, 1));
    assert_eq!(ask(&["watch", "/dev/zero"]), out(first, 1));
}

/// One that is refused stops all of them, before any flag is taken. The first by rule is
/// told, also where others have smaller numbers or all together have too many cells.
#[test]
fn a_refused_rule_among_others() {
    let folder = Folder::new("a_refused_rule_among_others");
    let mut flags = File::open(folder.file("flags", &FLAGS)).unwrap();
    let mut of = |bodies: &[&str], rule: usize, stdout: &str| {
        let sheet = folder.sheet(bodies);
        let mut command = command(&["watch", &sheet]);
        let said = said(command.stdin(flags.try_clone().unwrap()).output().unwrap());
        let named = format!("station-watch: rule {rule} of {sheet} is refused\n");
        assert_eq!(said, refused(&named, stdout));
        assert_eq!(flags.stream_position().unwrap(), 0); // which both have
    };
    let many = "refused 15: more than 4,096 cells\n";
    of(&[EXAMPLE, WIDE, "010000"], 1, many);
    of(&[EXAMPLE, WIDE, "010008"], 1, many);
    let widest = "05 02000000 02003E00 010100";
    of(&[widest, widest, "010000", "010008"], 3, "refused 7: a flag above 7\n");
    of(&["00"], 0, "refused 5: unknown code or kind\n");
}

#[test]
fn a_sheet_that_cannot_be_read() {
    let folder = Folder::new("a_sheet_that_cannot_be_read");
    let none = folder.path("none");
    let due = format!("cannot read {none}: No such file or directory (os error 2)");
    assert_eq!(ask(&["watch", &none]), failed(&format!("station-watch: {due}\n")));
    let due = "station-watch: cannot read /: Is a directory (os error 21)\n";
    assert_eq!(ask(&["watch", "/"]), failed(due));
    // Standard input brings the flags, so - is a file's name.
    let mut command = command(&["watch", "-"]);
    let sheet = File::open(folder.sheet(&EITHER)).unwrap();
    let said = said(command.current_dir(&folder.0).stdin(sheet).output().unwrap());
    let due = "station-watch: cannot read -: No such file or directory (os error 2)\n";
    assert_eq!(said, failed(due));
}

/// The figures are told, and no end.
#[test]
fn input_that_cannot_be_read() {
    let folder = Folder::new("input_that_cannot_be_read");
    let mut command = command(&["watch", &folder.sheet(&EITHER)]);
    let said = said(command.stdin(File::open("/").unwrap()).output().unwrap());
    let due = "station-watch: cannot read standard input: Is a directory (os error 21)\n";
    assert_eq!(said, (EITHER_FIGURES.to_string(), due.to_string(), 2));
}

/// Gives so many lines of its output, each when it comes. Then the output is closed.
fn lines_of(child: &mut Child, count: usize) -> (impl Fn() -> String, JoinHandle<()>) {
    let lines = BufReader::new(child.stdout.take().unwrap()).lines().take(count);
    let (tell, told) = mpsc::channel();
    let tell_all = move || lines.for_each(|line| tell.send(line.unwrap()).unwrap());
    (move || told.recv_timeout(LONG).unwrap(), thread::spawn(tell_all))
}

/// Each byte of a pipe that stays open gets its line before the next one comes.
#[test]
fn a_pipe_is_followed() {
    let folder = Folder::new("a_pipe_is_followed");
    let mut child = start(&["watch", &folder.sheet(&[EXAMPLE, EITHER[0]])]);
    let mut flags = child.stdin.take().unwrap();
    let (line, _) = lines_of(&mut child, usize::MAX);
    assert_eq!(line(), "rule 0 history 1 delay 2 cells 21");
    assert_eq!(line(), "rule 1 history 0 delay 0 cells 1");
    for (tick, flag) in FLAGS.into_iter().enumerate() {
        flags.write_all(&[flag]).unwrap();
        if tick == 7 {
            assert_eq!(line(), "violation 0 5 at 7");
        }
        if flag == 0 {
            assert_eq!(line(), format!("violation 1 {tick} at {tick}"));
        }
    }
    drop(flags);
    assert_eq!(line(), "end 10 steps 5 violations 0 live");
    assert_eq!(said(child.wait_with_output().unwrap()), out("", 0));
}

#[test]
fn input_that_would_block_is_waited_for() {
    let folder = Folder::new("input_that_would_block_is_waited_for");
    let (own, mut other) = stream();
    let mut command = command(&["watch", &folder.sheet(&EITHER)]);
    command.stdin(OwnedFd::from(own)).stdout(Stdio::piped()).stderr(Stdio::piped());
    let child = command.spawn().unwrap();
    for part in FLAGS.chunks(4) {
        sleep(A_WHILE);
        other.write_all(part).unwrap();
    }
    other.shutdown(Shutdown::Write).unwrap();
    assert_eq!(said(child.wait_with_output().unwrap()), out(&either(&FLAGS), 0));
}

/// Nobody reads for a while: no line is lost.
#[test]
fn output_that_would_block_is_waited_for() {
    let folder = Folder::new("output_that_would_block_is_waited_for");
    let (own, mut other) = stream();
    let flags: Vec<u8> = (0..60_000_u32).map(|tick| (tick % 3) as u8).collect();
    let mut command = command(&["watch", &folder.sheet(&EITHER)]);
    command.stdin(File::open(folder.file("flags", &flags)).unwrap());
    let child = command.stdout(OwnedFd::from(own)).stderr(Stdio::piped()).spawn().unwrap();
    drop(command); // and with it this side's copy of the stream
    sleep(A_WHILE);
    let mut read = String::new();
    other.read_to_string(&mut read).unwrap();
    assert!(read == either(&flags), "{}", &read[read.len() - 200..]);
    assert_eq!(said(child.wait_with_output().unwrap()), out("", 0));
}

#[test]
fn output_on_a_full_device() {
    let folder = Folder::new("output_on_a_full_device");
    let due =
        "station-watch: cannot write standard output: No space left on device (os error 28)\n";
    for sheet in [folder.sheet(&EITHER), folder.file("empty", &[])] {
        let full = File::options().write(true).open("/dev/full").unwrap();
        let mut command = command(&["watch", &sheet]);
        command.stdin(Stdio::null());
        assert_eq!(said(command.stdout(full).output().unwrap()), failed(due));
    }
}

/// Closed while it waits for input: the next line is the first that cannot be written.
#[test]
fn output_into_a_closed_pipe() {
    let folder = Folder::new("output_into_a_closed_pipe");
    let mut child = start(&["watch", &folder.sheet(&EITHER)]);
    let mut flags = child.stdin.take().unwrap();
    let (line, closing) = lines_of(&mut child, 2);
    assert_eq!(line() + "\n" + &line() + "\n", EITHER_FIGURES);
    closing.join().unwrap();
    flags.write_all(&FLAGS).unwrap();
    // It does not wait for the end of its input, which stays open.
    let began = Instant::now();
    while child.try_wait().unwrap().is_none() && began.elapsed() < LONG {
        sleep(A_WHILE);
    }
    let still_read = flags.write_all(&FLAGS).map_err(|error| error.kind());
    assert_eq!(still_read, Err(ErrorKind::BrokenPipe));
    let due = "station-watch: cannot write standard output: Broken pipe (os error 32)\n";
    assert_eq!(said(child.wait_with_output().unwrap()), failed(due));
}
