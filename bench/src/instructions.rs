//! Instructions a step, as valgrind counts them: of two runs of this program, the
//! difference of their counts over the difference of their steps. The same on
//! every run.

use std::env;
use std::process::Command;

/// Keeps the C library from zeroing and copying with one repeated instruction, of
/// which valgrind counts every byte.
const NO_REPEATS: &str =
    "glibc.cpu.x86_rep_stosb_threshold=1000000:glibc.cpu.x86_rep_movsb_threshold=1000000";

const FEWER: usize = 2_000;
const MORE: usize = 6_000;

pub fn a_step(way: &str, rule: &str, stream: &str) -> f64 {
    let more = count(way, rule, stream, MORE) - count(way, rule, stream, FEWER);
    more as f64 / (MORE - FEWER) as f64
}

/// The instructions of a whole run.
fn count(way: &str, rule: &str, stream: &str, steps: usize) -> u64 {
    let program = env::current_exe().expect("this program's path");
    let run = Command::new("valgrind")
        .env("GLIBC_TUNABLES", NO_REPEATS)
        .args(["--tool=cachegrind", "--cache-sim=no", "--cachegrind-out-file=/dev/null"])
        .arg(program)
        .args(["run", way, rule, stream, &steps.to_string()])
        .output()
        .expect("valgrind runs");
    let said = String::from_utf8_lossy(&run.stderr).into_owned();
    assert!(run.status.success(), "{said}");
    let line = said.lines().find(|line| line.contains("I   refs:") || line.contains("I refs:"));
    let line = line.unwrap_or_else(|| panic!("no count in {said}"));
    let digits: String =
        line.rsplit(':').next().unwrap().chars().filter(char::is_ascii_digit).collect();
    digits.parse().expect("a count")
}
