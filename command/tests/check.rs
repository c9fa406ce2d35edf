//! `check`: a list of violations beside the complete report of a recording.

mod common;

use common::*;
use std::fs;

/// For all Y from 0 to X, flag 0 at Y: the engine cannot open it.
const SO_FAR: &str = "05 00000000 02000000 010100";
/// For all Y from X to infinity, flag 0 at Y.
const ALWAYS: &str = "05 02000000 01000000 010100";

/// A list beside the complete report of the example, which is `violation 5 at 7`.
fn check(folder: &Folder, claims: &[u8]) -> Said {
    let (sheet, flags) = (folder.sheet(&[EXAMPLE]), folder.file("flags", &FLAGS));
    ask(&["check", &sheet, "0", &flags, &folder.file("claims", claims)])
}

const YES: &str = "yes: the list is the complete report, ticks 10 violations 1\n";

/// That the list of the example cannot be checked, and why.
fn no_list(folder: &Folder, claims: &str, why: &str) {
    let due = format!("station-watch: cannot check {}: {why}\n", folder.path("claims"));
    assert_eq!(check(folder, claims.as_bytes()), failed(&due), "{claims}");
}

#[test]
fn lists_that_are_the_complete_report() {
    let folder = Folder::new("lists_that_are_the_complete_report");
    let figures = "rule 0 history 1 delay 2 cells 21\n";
    let end = "end 10 steps 1 violations 0 live\n";
    let lists = [
        "violation 5 at 7\n",
        "violation 5 at 7",
        "violation 5 at 7\r\n",
        "violation 5 at 7\r",
        "violation 0 5 at 7\n",
        "violation 00000000000000000000000000000000005 at 7\n",
        "# of another monitor\n\nviolation 5 at 7\n\n# that is all\n",
        &format!("{figures}violation 5 at 7\n{end}"),
        &format!("{figures}violation 5 at 7\n{end}").replace('\n', "\r\n"),
        "violation 1 1 at 1\nviolation 0 5 at 7\n# the sums\nend 10 steps 2 violations 0 live\n",
    ];
    for list in lists {
        assert_eq!(check(&folder, list.as_bytes()), out(YES, 0), "{list}");
    }
}

#[test]
fn the_first_difference() {
    let folder = Folder::new("the_first_difference");
    let due = "violation 5 at 7";
    let other = |line: u64, claimed: &str| {
        format!("entry 0 (line {line}) is {claimed}, but the complete report has {due} there")
    };
    let lists = [
        ("violation 5 at 6\n", other(1, "violation 5 at 6")),
        ("violation 4 at 7\nviolation 5 at 7\n", other(1, "violation 4 at 7")),
        ("#\n\nviolation 0 6 at 7\n", other(3, "violation 6 at 7")),
        (
            "violation 18446744073709551615 at 18446744073709551615",
            other(1, "violation 18446744073709551615 at 18446744073709551615"),
        ),
        ("", format!("the list ends after 0 entries, but the complete report goes on with {due}")),
        (
            "violation 5 at 7\nviolation 5 at 7\n",
            format!(
                "the complete report ends after 1 entry, but the list goes on with {due} (line 2)"
            ),
        ),
    ];
    for (list, said) in lists {
        assert_eq!(check(&folder, list.as_bytes()), out(&format!("no: {said}\n"), 3), "{list}");
    }
}

/// What `watch` prints of a sheet is checked rule by rule.
#[test]
fn what_watch_prints() {
    let folder = Folder::new("what_watch_prints");
    let sheet = folder.sheet(&[EXAMPLE, "010000", "02 010007"]);
    let flags = folder.file("flags", &FLAGS);
    let printed = ask_with_input(&["watch", &sheet], &FLAGS).0;
    let claims = folder.file("claims", printed.as_bytes());
    for (rule, violations) in [("0", 1), ("1", 4), ("2", 0)] {
        let due =
            format!("yes: the list is the complete report, ticks 10 violations {violations}\n");
        assert_eq!(ask(&["check", &sheet, rule, &flags, &claims]), out(&due, 0));
    }
    // Its violations of a rule that it did not run.
    let sheet = folder.sheet(&[EXAMPLE, "010000", "010007", "010007"]);
    let due = "it has figures of other rules, and none of rule 3";
    let due = format!("station-watch: cannot check {claims}: {due}\n");
    assert_eq!(ask(&["check", &sheet, "3", &flags, &claims]), failed(&due));
}

#[test]
fn rules_that_do_not_open() {
    let folder = Folder::new("rules_that_do_not_open");
    let sheet = folder.sheet(&[SO_FAR, ALWAYS, WIDE]);
    let flags = folder.file("flags", &[1, 1, 0, 1]);
    let check = |rule: &str, claims: &str| {
        ask(&["check", &sheet, rule, &flags, &folder.file("claims", claims.as_bytes())])
    };
    let yes = |count: usize| {
        out(&format!("yes: the list is the complete report, ticks 4 violations {count}\n"), 0)
    };
    assert_eq!(check("0", "violation 2 at 2\nviolation 3 at 3\n"), yes(2));
    // Tick 3 is open in both.
    assert_eq!(check("1", "violation 0 at 2\nviolation 1 at 2\nviolation 2 at 2\n"), yes(3));
    assert_eq!(check("2", "violation 0 at 2\nviolation 1 at 2\nviolation 2 at 2\n"), yes(3));
}

#[test]
fn lines_that_are_none_of_a_list() {
    let folder = Folder::new("lines_that_are_none_of_a_list");
    let lines = [
        "refused 15",
        "violation 5 at",
        "violation 5 at 7 ",
        " violation 5 at 7",
        "violation  5 at 7",
        "violation\t5 at 7",
        "violation -5 at 7",
        "violation +5 at 7",
        "violation 0 0 5 at 7",
        "violation 5 at 0x7",
        "Violation 5 at 7",
        "5,7",
        "rule 0 history 1 delay 2",
        "rule x history 1 delay 2 cells 21",
        "end 10 steps 1 violations",
        "violation 5 at \u{665}",
        "violation 5 at 7\0",
    ];
    for line in lines {
        let list = format!("# a comment\n\n{line}\nviolation 5 at 7\n");
        no_list(&folder, &list, "line 3 is none of a list of violations");
    }
    let above = "line 2 has a number above 64 bits";
    no_list(&folder, "violation 5 at 7\nviolation 18446744073709551616 at 7\n", above);
    no_list(&folder, &format!("#\nviolation 5 at {}", "9".repeat(100)), above);
    let long = "line 1 has more than 256 bytes";
    no_list(&folder, &format!("violation {}5 at 7\n", "0".repeat(256)), long);
    no_list(&folder, &"a".repeat(200_000), long);
    let longest = format!("violation {}5 at 7", "0".repeat(240));
    assert_eq!((longest.len(), check(&folder, longest.as_bytes())), (256, out(YES, 0)));
    assert_eq!(check(&folder, format!("{longest}\r\n").as_bytes()), out(YES, 0));
    no_list(&folder, &format!("{longest}\rx\n"), long);
    // A comment may be of any length.
    let comment = format!("#{}\nviolation 5 at 7\n", "x".repeat(300_000));
    assert_eq!(check(&folder, comment.as_bytes()), out(YES, 0));
}

/// Lines of a list that contradict each other, or the recording.
#[test]
fn lists_that_contradict_themselves() {
    let folder = Folder::new("lists_that_contradict_themselves");
    let (own, figures) = ("rule 0 history 1 delay 2 cells 21\n", " history 0 delay 0 cells 1\n");
    let violation = "violation 5 at 7\n";
    let lists = [
        (
            format!("rule 1{figures}{violation}"),
            "it has figures of other rules, and none of rule 0",
        ),
        (
            format!("{own}rule 1{figures}{violation}"),
            "it has figures of several rules, and violations tell none",
        ),
        (format!("{violation}{own}"), "line 2 has a rule's figures after a violation"),
        (
            format!("{violation}violation 1 5 at 7\n"),
            "line 2 and lines before it differ in whether they tell a rule",
        ),
        (
            format!("violation 1 5 at 7\n{violation}"),
            "line 2 and lines before it differ in whether they tell a rule",
        ),
        (
            format!("{violation}end 10 steps 2 violations 0 live\n"),
            "line 2 tells of 2 violations, and the list has 1",
        ),
        (
            format!("{violation}end 11 steps 1 violations 0 live\n"),
            "line 2 tells of 11 steps, and the recording has 10 ticks",
        ),
        (
            format!("{violation}end 10 steps 1 violations 0 live\n{violation}"),
            "line 3 stands after the end line",
        ),
    ];
    for (list, why) in lists {
        no_list(&folder, &list, why);
    }
}

/// More entries than ticks are read and not kept.
#[test]
fn a_list_without_end() {
    let folder = Folder::new("a_list_without_end");
    let mut list = "violation 5 at 7\n".repeat(300_000);
    let due = "no: the complete report ends after 1 entry, \
               but the list goes on with violation 5 at 7 (line 2)\n";
    assert_eq!(check(&folder, list.as_bytes()), out(due, 3));
    list += "end 10 steps 300001 violations 0 live\n";
    no_list(&folder, &list, "line 300001 tells of 300001 violations, and the list has 300000");
}

#[test]
fn refusals_of_a_check() {
    let folder = Folder::new("refusals_of_a_check");
    let sheet = folder.sheet(&[EXAMPLE, "010008"]);
    let (flags, claims) = (folder.file("flags", &FLAGS), folder.file("claims", b"no list"));
    let check = |rule: &str, flags: &str| ask(&["check", &sheet, rule, flags, &claims]);
    assert_eq!(check("1", &flags), out("refused 7: a flag above 7\n", 1));
    assert_eq!(check("2", &flags), out("refused 3: no such rule\n", 1));
    let largest = "99999999999999999999";
    assert_eq!(check(largest, &flags), out("refused 3: no such rule\n", 1));
    let long = folder.file("long", &[0; 65_536]);
    let (said, remark, status) = check("0", &long);
    let due = "refused 16: the recording is too long, or the tick is not in it\n";
    assert_eq!((said.as_str(), status), (due, 1));
    let due = format!("station-watch: {long} has more than 65,535 ticks: check a part of it,");
    assert!(remark.starts_with(&due), "{remark}");
    assert_eq!(check("1", &long).0, "refused 7: a flag above 7\n");
    let first =
        "refused 1: sheet empty, not 1 to 32 rules, or its table of contents is cut short\n";
    assert_eq!(ask(&["check", "/dev/null", "0", &flags, &claims]), out(first, 1));
}

/// The longest recording, and an empty one.
#[test]
fn recordings_of_a_check() {
    let folder = Folder::new("recordings_of_a_check");
    let sheet = folder.sheet(&["010000"]);
    let all: String = (0..65_535).map(|tick| format!("violation {tick} at {tick}\n")).collect();
    let flags = folder.file("flags", &[0; 65_535]);
    let check = |claims: &str| {
        ask(&["check", &sheet, "0", &flags, &folder.file("claims", claims.as_bytes())])
    };
    let due = "yes: the list is the complete report, ticks 65535 violations 65535\n";
    assert_eq!(check(&all), out(due, 0));
    let due = "no: the complete report ends after 65535 entries, \
               but the list goes on with violation 0 at 0 (line 65536)\n";
    assert_eq!(check(&format!("{all}violation 0 at 0\nviolation 1 at 1\n")), out(due, 3));
    let none = folder.file("none", &[]);
    let due = "yes: the list is the complete report, ticks 0 violations 0\n";
    assert_eq!(ask(&["check", &sheet, "0", &none, &none]), out(due, 0));
    let due = "no: the complete report ends after 0 entries, \
               but the list goes on with violation 0 at 0 (line 1)\n";
    assert_eq!(ask(&["check", &sheet, "0", &none, &folder.path("claims")]), out(due, 3));
}

#[test]
fn arguments_of_a_check() {
    let folder = Folder::new("arguments_of_a_check");
    let (sheet, flags) = (folder.sheet(&[EXAMPLE]), folder.file("flags", &FLAGS));
    let claims = folder.file("claims", b"violation 5 at 7\n");
    let said = ask_with_input(&["check", &sheet, "0", "-", &claims], &FLAGS);
    assert_eq!(said, out(YES, 0));
    let said = ask_with_input(&["check", &sheet, "0", &flags, "-"], &fs::read(&claims).unwrap());
    assert_eq!(said, out(YES, 0));
    let usage = "usage: station-watch check SHEET RULE FLAGS CLAIMS\n";
    let wrong = |why: &str| failed(&format!("station-watch: {why}\n{usage}"));
    let both = wrong("FLAGS and CLAIMS cannot both be standard input");
    assert_eq!(ask(&["check", &sheet, "0", "-", "-"]), both);
    assert_eq!(ask(&["check", &sheet, "0", &flags]), wrong("check: wrong number of arguments (3)"));
    assert_eq!(ask(&["check", &sheet, "x", &flags, &claims]), wrong("RULE is no number: 'x'"));
    let none = folder.path("none");
    let missing = format!("cannot read {none}: No such file or directory (os error 2)");
    let missing = failed(&format!("station-watch: {missing}\n"));
    assert_eq!(ask(&["check", &none, "0", &flags, &claims]), missing);
    assert_eq!(ask(&["check", &sheet, "0", &none, &claims]), missing);
    assert_eq!(ask(&["check", &sheet, "0", &flags, &none]), missing);
}

/// What `help check` shows is what the command prints.
#[test]
fn the_examples_of_the_usage() {
    let folder = Folder::new("the_examples_of_the_usage");
    let shown = ask(&["help", "check"]).0;
    let figures = "rule 0 history 1 delay 2 cells 21\n";
    let end = "end 10 steps 1 violations 0 live\n";
    for line in [figures, "violation 5 at 7\n", end] {
        assert!(shown.contains(&format!("  {} ", line.trim_end())), "{line}");
    }
    for list in [
        format!("{figures}violation 5 at 7\n{end}"),
        format!("{figures}violation 5 at 6\n"),
        String::new(),
        format!("{figures}violation 5 at 7\nviolation 6 at 8\n"),
    ] {
        let said = check(&folder, list.as_bytes()).0;
        assert!(shown.contains(&format!("\n  {said}")), "{said}");
    }
}
