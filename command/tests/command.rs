//! The command as it is run: what it prints on standard output and standard error, and
//! its exit status.

mod common;

use common::*;
use std::fs::{self, File};
use std::io::{ErrorKind, Read, Write};
use std::net::Shutdown;
use std::os::fd::OwnedFd;
use std::path::Path;
use std::process::Stdio;
use std::thread::sleep;

const TYPED: &str = "monitor x : ~(@x.0 /\\ forall y in x-1..x+2 : @y.0)";
/// For all Y from X to infinity, flag 0 at Y: no engine can watch it.
const ALWAYS: &str = "05 02000000 01000000 010100";

const USAGE_LINE: &str = "usage: station-watch outcome SHEET RULE FLAGS TICK\n";

#[test]
fn figures_of_the_example() {
    let folder = Folder::new("figures_of_the_example");
    let sheet = folder.sheet(&[EXAMPLE]);
    assert_eq!(ask(&["figures", &sheet]), out("rule 0 history 1 delay 2 cells 21\n", 0));
}

#[test]
fn figures_with_refusals() {
    let folder = Folder::new("figures_with_refusals");
    let sheet = folder.sheet(&[EXAMPLE, WIDE, "010000", ALWAYS, "010008"]);
    let due = "rule 0 history 1 delay 2 cells 21\n\
               rule 1 refused 15: more than 4,096 cells\n\
               rule 2 history 0 delay 0 cells 1\n\
               rule 3 refused 11: the delay is infinite\n\
               rule 4 refused 7: a flag above 7\n";
    assert_eq!(ask(&["figures", &sheet]), out(due, 1));
}

#[test]
fn figures_of_no_sheet() {
    let folder = Folder::new("figures_of_no_sheet");
    let first =
        "refused 1: sheet empty, not 1 to 32 rules, or its table of contents is cut short\n";
    let second = "refused 2: an entry of the sheet breaks the layout\n";
    let empty = folder.file("empty", &[]);
    assert_eq!(ask(&["figures", &empty]), out(first, 1));
    let whole = fs::read(folder.sheet(&[EXAMPLE])).unwrap();
    let short = folder.file("short", &whole[..21]);
    assert_eq!(ask(&["figures", &short]), out(second, 1));
    // Longer than any sheet, also by far.
    let largest = "00".repeat(512);
    let mut bytes = fs::read(folder.sheet(&[largest.as_str(); 32])).unwrap();
    assert_eq!(bytes.len(), 16_513);
    bytes.push(0);
    assert_eq!(ask(&["figures", &folder.file("long", &bytes)]), out(second, 1));
    bytes.extend([0; 100_000]);
    assert_eq!(ask(&["figures", &folder.file("long", &bytes)]), out(second, 1));
}

#[test]
fn outcomes_of_the_example() {
    let folder = Folder::new("outcomes_of_the_example");
    let (sheet, flags) = (folder.sheet(&[EXAMPLE]), folder.file("flags", &FLAGS));
    let due = ["true at 0", "true at 1", "true at 3", "true at 3", "true at 4"];
    let due = [&due[..], &["false at 7", "true at 8", "true at 8", "true at 8"]].concat();
    for (tick, due) in due.iter().enumerate() {
        let said = ask(&["outcome", &sheet, "0", &flags, &tick.to_string()]);
        assert_eq!(said, out(&format!("tick {tick} {due}\n"), 0));
    }
    let said = ask_with_input(&["outcome", &sheet, "0", "-", "5"], &FLAGS);
    assert_eq!(said, out("tick 5 false at 7\n", 0));
    let said = ask_with_input(&["outcome", &sheet, "0", "-", "5"], &FLAGS[..7]);
    assert_eq!(said, out("tick 5 open\n", 0));
}

#[test]
fn outcomes_of_a_rule_without_figures() {
    let folder = Folder::new("outcomes_of_a_rule_without_figures");
    let sheet = folder.sheet(&[ALWAYS]);
    let at_0 = ["outcome", &sheet, "0", "-", "0"];
    assert_eq!(ask_with_input(&at_0, &[1, 1, 0]), out("tick 0 false at 2\n", 0));
    assert_eq!(ask_with_input(&at_0, &[1, 1, 1]), out("tick 0 open\n", 0));
}

/// Rule k of `outcome` is line k of `figures`.
#[test]
fn rules_are_numbered_alike() {
    let folder = Folder::new("rules_are_numbered_alike");
    // Flag 0 at X; for all Y from X to X + k, flag k at Y, for k = 1 and 2.
    let sheet =
        folder.sheet(&["010000", "05 02000000 02000100 010101", "05 02000000 02000200 010102"]);
    let due = "rule 0 history 0 delay 0 cells 1\n\
               rule 1 history 0 delay 1 cells 8\n\
               rule 2 history 0 delay 2 cells 15\n";
    assert_eq!(ask(&["figures", &sheet]), out(due, 0));
    for (rule, due) in ["true at 0", "true at 1", "true at 2"].iter().enumerate() {
        let said = ask_with_input(&["outcome", &sheet, &rule.to_string(), "-", "0"], &[7, 6, 4]);
        assert_eq!(said, out(&format!("tick 0 {due}\n"), 0));
    }
}

#[test]
fn refused_outcomes() {
    let folder = Folder::new("refused_outcomes");
    let sheet = folder.sheet(&[EXAMPLE, "010008"]);
    let third = "refused 3: no such rule\n";
    let sixteenth = "refused 16: the recording is too long, or the tick is not in it\n";
    let asked =
        |rule, tick, flags: &[u8]| ask_with_input(&["outcome", &sheet, rule, "-", tick], flags);
    assert_eq!(asked("1", "0", &FLAGS), out("refused 7: a flag above 7\n", 1));
    assert_eq!(asked("2", "0", &FLAGS), out(third, 1));
    assert_eq!(asked("0", "10", &FLAGS), out(sixteenth, 1));
    // Numbers that no machine word holds.
    let huge = "9".repeat(40);
    assert_eq!(asked(&huge, "0", &FLAGS), out(third, 1));
    assert_eq!(asked("0", &huge, &FLAGS), out(sixteenth, 1));
    assert_eq!(asked("0", "65534", &[0; 65_535]), out("tick 65534 true at 65534\n", 0));
    let long = folder.file("long", &[0; 65_536]);
    assert_eq!(ask(&["outcome", &sheet, "0", &long, "0"]), out(sixteenth, 1));
    assert_eq!(ask(&["outcome", &sheet, "0", "/dev/zero", "0"]), out(sixteenth, 1));
}

#[test]
fn sheets_are_written() {
    let folder = Folder::new("sheets_are_written");
    let path = folder.file("two", &[0xEE; 100]); // what was there before is gone
    let said = ask(&["sheet", &path, " 01 00\t07 ", "0201 0006"]);
    assert_eq!(said, out(&format!("sheet {path} rules 2 bytes 16\n"), 0));
    let due = [2, 9, 0, 3, 0, 12, 0, 4, 0, 1, 0, 7, 2, 1, 0, 6];
    assert_eq!(fs::read(&path).unwrap(), due);
    let said = ask(&["sheet", &path, "aBcDeF"]);
    assert_eq!(said, out(&format!("sheet {path} rules 1 bytes 8\n"), 0));
    assert_eq!(fs::read(&path).unwrap(), [1, 5, 0, 3, 0, 0xAB, 0xCD, 0xEF]);
}

#[test]
fn the_example_sheet_of_the_repository() {
    let folder = Folder::new("the_example_sheet_of_the_repository");
    let stored = Path::new(env!("CARGO_MANIFEST_DIR")).join("../examples/detector/watch.sheet");
    assert_eq!(fs::read(folder.sheet(&[EXAMPLE])).unwrap(), fs::read(stored).unwrap());
}

#[test]
fn refused_sheets() {
    let folder = Folder::new("refused_sheets");
    let path = folder.path("none");
    let first =
        "refused 1: sheet empty, not 1 to 32 rules, or its table of contents is cut short\n";
    let second = "refused 2: an entry of the sheet breaks the layout\n";
    assert_eq!(ask(&["sheet", &path]), out(first, 1));
    assert_eq!(ask(&[&["sheet", &path], &["010000"; 33][..]].concat()), out(first, 1));
    assert_eq!(ask(&["sheet", &path, "010000", ""]), out(second, 1));
    assert_eq!(ask(&["sheet", &path, &"00".repeat(513)]), out(second, 1));
    assert!(!Path::new(&path).exists());
}

/// Comments, empty lines and both ends of a line; the last line has none.
#[test]
fn typed_rules_are_compiled() {
    let folder = Folder::new("typed_rules_are_compiled");
    let text = format!("# a rule of the scope document\n\n{TYPED}\r\n\r\n#\nmonitor t : @t.7");
    let rules = folder.file("rules", text.as_bytes());
    let out_path = folder.file("typed", &[0xEE; 100]); // what was there before is gone
    let due = out(&format!("sheet {out_path} rules 2 bytes 29\n"), 0);
    assert_eq!(ask(&["compile", &rules, &out_path]), due);
    let sheet = fs::read(&out_path).unwrap();
    assert_eq!(sheet, fs::read(folder.sheet(&[EXAMPLE, "010007"])).unwrap());
    let again = folder.path("again");
    let due = out(&format!("sheet {again} rules 2 bytes 29\n"), 0);
    assert_eq!(ask_with_input(&["compile", "-", &again], text.as_bytes()), due);
    assert_eq!(fs::read(&again).unwrap(), sheet);
}

/// A text is not lost to the sheet that is compiled from it, by whatever name.
#[test]
fn rules_are_not_written_over() {
    let folder = Folder::new("rules_are_not_written_over");
    let text = b"monitor x : @x.0\n";
    let rules = folder.file("rules", text);
    let link = folder.path("link");
    std::os::unix::fs::symlink(&rules, &link).unwrap();
    for out in [&rules, &link] {
        let due = format!("station-watch: cannot write {out}: it is the file that is read\n");
        assert_eq!(ask(&["compile", &rules, out]), failed(&due));
        assert_eq!(fs::read(&rules).unwrap(), text);
    }
}

/// Rules that cannot be watched live are written; `figures` tells.
#[test]
fn rules_without_figures_are_compiled() {
    let folder = Folder::new("rules_without_figures_are_compiled");
    let path = folder.path("always");
    let text = b"monitor x : forall y in x..infinity : @y.0\n";
    assert_eq!(ask_with_input(&["compile", "-", &path], text).2, 0);
    assert_eq!(fs::read(&path).unwrap(), fs::read(folder.sheet(&[ALWAYS])).unwrap());
}

#[test]
fn refused_lines() {
    let folder = Folder::new("refused_lines");
    let (none, kept) = (folder.path("none"), folder.file("kept", b"as it was"));
    let refused = |text: &[u8], said: &str| {
        for path in [&none, &kept] {
            let due = out(&format!("{said}\n"), 1);
            assert_eq!(ask_with_input(&["compile", "-", path], text), due, "{text:?}");
        }
        assert!(!Path::new(&none).exists());
        assert_eq!(fs::read(&kept).unwrap(), b"as it was");
    };
    let misspelt = "refused 25: the text is misspelt or above 4,096 bytes";
    refused(b"monitor x : @x.0 \n", &format!("line 1 column 17 {misspelt}"));
    refused(b"monitor x : @x.0\r\r\n", &format!("line 1 column 17 {misspelt}"));
    refused(b"monitor x : @x.0\r", &format!("line 1 column 17 {misspelt}"));
    refused(b"#\n\nmonitor x : (@x.0\n", &format!("line 3 column 18 {misspelt}"));
    refused(b"monitor x : @x.0\n #\n", &format!("line 2 column 1 {misspelt}"));
    refused(b"monitor x : @x.0\n\xC3\xA9\n", &format!("line 2 column 1 {misspelt}"));
    refused(&[b'~'; 5_000], &format!("line 1 column 1 {misspelt}"));
    let deep =
        |count| ["monitor x : ".to_string(), "~".repeat(count), "@x.0\n".to_string()].concat();
    refused(deep(4_081).as_bytes(), &format!("line 1 column 4097 {misspelt}"));
    refused(deep(1_000_000).as_bytes(), &format!("line 1 column 4097 {misspelt}"));
    let brackets = format!("monitor x : {}", "(".repeat(4_080));
    refused(brackets.as_bytes(), &format!("line 1 column 4093 {misspelt}"));
    let line = "line 1 refused";
    refused(b"monitor x : @y.0\n", &format!("{line} 26: a name that is not bound here"));
    refused(b"monitor x : @x.8\n", &format!("{line} 7: a flag above 7"));
    let large = format!("{line} 9: a 65th formula or a 5th nested quantifier");
    refused(deep(4_080).as_bytes(), &large);
    // The first refused line is told.
    refused(b"monitor x : @x.9\nmonitor\n", &format!("{line} 7: a flag above 7"));
}

#[test]
fn files_of_no_and_of_too_many_rules() {
    let folder = Folder::new("files_of_no_and_of_too_many_rules");
    let path = folder.path("none");
    let first = "refused 1: sheet empty, not 1 to 32 rules, or its table of contents is cut short";
    let rules = |count| "monitor x : @x.0\n".repeat(count);
    for (text, count) in [(String::new(), 0), ("# none\n\n".to_string(), 0), (rules(33), 33)] {
        let due = out(&format!("rules {count} {first}\n"), 1);
        assert_eq!(ask_with_input(&["compile", "-", &path], text.as_bytes()), due);
        assert!(!Path::new(&path).exists());
    }
    let due = out(&format!("sheet {path} rules 32 bytes 225\n"), 0);
    assert_eq!(ask_with_input(&["compile", "-", &path], rules(32).as_bytes()), due);
}

/// A file of rules has at most a megabyte.
#[test]
fn long_files_of_rules() {
    let folder = Folder::new("long_files_of_rules");
    let path = folder.path("out");
    let mut text = format!("{TYPED}\n#").into_bytes();
    text.resize(1 << 20, b'.');
    let due = out(&format!("sheet {path} rules 1 bytes 22\n"), 0);
    assert_eq!(ask(&["compile", &folder.file("long", &text), &path]), due);
    text.push(b'.');
    let long = folder.file("long", &text);
    let due = format!("station-watch: cannot read {long}: more than 1,048,576 bytes\n");
    assert_eq!(ask(&["compile", &long, &path]), failed(&due));
    let due = "station-watch: cannot read standard input: more than 1,048,576 bytes\n";
    let mut command = command(&["compile", "-", &path]);
    let said = said(command.stdin(File::open("/dev/zero").unwrap()).output().unwrap());
    assert_eq!(said, failed(due));
}

#[test]
fn the_example_is_printed() {
    let folder = Folder::new("the_example_is_printed");
    let due = format!("# rule 0 history 1 delay 2 cells 21\n{TYPED}\n");
    assert_eq!(ask(&["print", &folder.sheet(&[EXAMPLE])]), out(&due, 0));
}

/// Every rule has its text, also one that cannot be watched live, and the text compiles to
/// the same sheet.
#[test]
fn what_is_printed_compiles_to_the_same_sheet() {
    let folder = Folder::new("what_is_printed_compiles_to_the_same_sheet");
    let far = "05 0000FF0F 020001F0 05 02010000 02010000 05 02020000 02020000 \
               05 02030000 02030000 03 01 04 07 02 01 03 00";
    let sheet = folder.sheet(&[EXAMPLE, WIDE, "010000", ALWAYS, far]);
    let due = "# rule 0 history 1 delay 2 cells 21\n\
               monitor x : ~(@x.0 /\\ forall y in x-1..x+2 : @y.0)\n\
               # rule 1 refused 15: more than 4,096 cells\n\
               monitor x : forall y in x..x+63 : @y.0\n\
               # rule 2 history 0 delay 0 cells 1\n\
               monitor x : @x.0\n\
               # rule 3 refused 11: the delay is infinite\n\
               monitor x : forall y in x..infinity : @y.0\n\
               # rule 4 refused 13: the history is infinite\n\
               monitor x : forall y in 0+4095..x-4095 : forall z in y..y : forall u in z..z : \
               forall v in u..u : (@v.7 && ~@u.0)\n";
    let printed = ask(&["print", &sheet]);
    assert_eq!(printed, out(due, 0));
    let again = folder.path("again");
    assert_eq!(ask_with_input(&["compile", "-", &again], printed.0.as_bytes()).2, 0);
    assert_eq!(fs::read(&again).unwrap(), fs::read(&sheet).unwrap());
}

/// A body that is refused by its bytes has no text, and the status says that it is missing.
#[test]
fn bodies_without_a_text() {
    let folder = Folder::new("bodies_without_a_text");
    let sheet = folder.sheet(&["010008", EXAMPLE, "00"]);
    let due = format!(
        "# rule 0 refused 7: a flag above 7\n\
         # no text: 01 00 08\n\
         # rule 1 history 1 delay 2 cells 21\n\
         {TYPED}\n\
         # rule 2 refused 5: unknown code or kind\n\
         # no text: 00\n"
    );
    assert_eq!(ask(&["print", &sheet]), out(&due, 1));
    // What has a text compiles.
    let rest = folder.path("rest");
    let due_sheet = out(&format!("sheet {rest} rules 1 bytes 22\n"), 0);
    assert_eq!(ask_with_input(&["compile", "-", &rest], due.as_bytes()), due_sheet);
}

#[test]
fn no_sheet_is_printed() {
    let folder = Folder::new("no_sheet_is_printed");
    let first =
        "refused 1: sheet empty, not 1 to 32 rules, or its table of contents is cut short\n";
    assert_eq!(ask(&["print", &folder.file("empty", &[])]), out(first, 1));
}

#[test]
fn bodies_that_are_no_bytes() {
    let folder = Folder::new("bodies_that_are_no_bytes");
    let path = folder.path("none");
    let wrong = |body: &str, said: &str| {
        let usage = "usage: station-watch sheet OUT BODY..";
        let due = format!("station-watch: body of rule 1: {said}\n{usage}\n");
        assert_eq!(ask(&["sheet", &path, "010000", body]), failed(&due));
    };
    wrong("01 00 0g", "'g' is no hexadecimal digit");
    wrong("01,00,00", "',' is no hexadecimal digit");
    wrong("0x010000", "'x' is no hexadecimal digit");
    wrong("01 0000 é", "'é' is no hexadecimal digit");
    wrong("01000", "an odd number of digits in '01000'");
    wrong("01 0 0 00", "an odd number of digits in '0'");
    assert!(!Path::new(&path).exists());
}

#[test]
fn wrong_arguments() {
    let wrong = |words: &[&str], said: &str| {
        assert_eq!(ask(words), failed(&format!("station-watch: {said}\n{USAGE_LINE}")));
    };
    wrong(&["outcome"], "outcome: wrong number of arguments (0)");
    wrong(&["outcome", "a", "0", "b"], "outcome: wrong number of arguments (3)");
    wrong(&["outcome", "a", "0", "b", "0", "c"], "outcome: wrong number of arguments (5)");
    wrong(&["outcome", "a", "x", "b", "0"], "RULE is no number: 'x'");
    wrong(&["outcome", "a", "+1", "b", "0"], "RULE is no number: '+1'");
    wrong(&["outcome", "a", "0", "b", "-1"], "TICK is no number: '-1'");
    wrong(&["outcome", "a", "0", "b", "1.5"], "TICK is no number: '1.5'");
    wrong(&["outcome", "a", "0", "b", ""], "TICK is no number: ''");
    let due = "station-watch: figures: wrong number of arguments (2)\n\
               usage: station-watch figures SHEET\n";
    assert_eq!(ask(&["figures", "a", "b"]), failed(due));
    let due = "station-watch: sheet: wrong number of arguments (0)\n\
               usage: station-watch sheet OUT BODY..\n";
    assert_eq!(ask(&["sheet"]), failed(due));
    let due = "station-watch: compile: wrong number of arguments (1)\n\
               usage: station-watch compile RULES SHEET\n";
    assert_eq!(ask(&["compile", "-"]), failed(due));
    let due = "station-watch: print: wrong number of arguments (0)\n\
               usage: station-watch print SHEET\n";
    assert_eq!(ask(&["print"]), failed(due));
    let due = "station-watch: watch: wrong number of arguments (2)\n\
               usage: station-watch watch SHEET\n";
    assert_eq!(ask(&["watch", "watch.sheet", "flags"]), failed(due));
}

#[test]
fn usage() {
    let (all, nothing, status) = ask(&["--help"]);
    assert_eq!((nothing.as_str(), status), ("", 0));
    assert!(all.starts_with("usage: station-watch COMMAND ARGUMENT..\n"));
    let commands = [
        "calendar FLAGS ..",
        "compile RULES SHEET",
        "draw FLAGS ..",
        "figures SHEET",
        "outcome SHEET RULE FLAGS TICK",
        "print SHEET",
        "sheet OUT BODY..",
        "watch SHEET",
    ];
    for command in commands {
        assert!(all.contains(&format!("\n  {command} ")), "{command}");
        let name = command.split(' ').next().unwrap();
        let (own, nothing, status) = ask(&["help", name]);
        let line = own.split("\n\n").next().unwrap();
        let due = format!("usage: station-watch {}", command.trim_end_matches(" .."));
        let more = command.ends_with(" ..") && line.starts_with(&format!("{due} ["));
        assert!(line == due || more, "{own}");
        assert_eq!((nothing.as_str(), status), ("", 0));
        assert_eq!(ask(&[name, "--help"]), out(&own, 0));
        assert_eq!(ask(&[name, "-h"]), out(&own, 0));
    }
    assert_eq!(ask(&["help"]), out(&all, 0));
    assert_eq!(ask(&["-h"]), out(&all, 0));
    assert_eq!(ask(&[]), failed(&format!("station-watch: no command\n{all}")));
    let due = failed(&format!("station-watch: no command 'figure'\n{all}"));
    assert_eq!(ask(&["figure", "a"]), due);
    assert_eq!(ask(&["help", "figure"]), due);
    assert_eq!(ask(&["--quiet"]), failed(&format!("station-watch: no command '--quiet'\n{all}")));
}

#[test]
fn words_too_many() {
    let all = ask(&["help"]).0;
    for (words, count) in
        [(&["--help", "figures"][..], 1), (&["-h", ""], 1), (&["--version", "a", "b"], 2)]
    {
        let due = format!("station-watch: {}: wrong number of arguments ({count})\n", words[0]);
        assert_eq!(ask(words), failed(&(due + &all)));
    }
    let due = format!("station-watch: help: wrong number of arguments (2)\n{all}");
    assert_eq!(ask(&["help", "figures", "sheet"]), failed(&due));
    let due = "station-watch: sheet: wrong number of arguments (2)\n\
               usage: station-watch sheet OUT BODY..\n";
    assert_eq!(ask(&["sheet", "--help", "010000"]), failed(due));
}

/// The line that `help sheet` shows is what the command prints.
#[test]
fn the_example_of_the_usage() {
    let folder = Folder::new("the_example_of_the_usage");
    let shown = ask(&["help", "sheet"]).0;
    assert!(shown.contains(&format!("station-watch sheet watch.sheet '{EXAMPLE}'\n")));
    let mut command = command(&["sheet", "watch.sheet", EXAMPLE]);
    let (line, _, status) = said(command.current_dir(&folder.0).output().unwrap());
    assert!(status == 0 && shown.ends_with(&format!("  {line}")), "{line}");
}

/// The lines that `help compile` and `help print` show are what the commands print.
#[test]
fn the_examples_of_rules_in_the_usage() {
    let folder = Folder::new("the_examples_of_rules_in_the_usage");
    let shows = |shown: &str, lines: &str| {
        lines.lines().for_each(|line| assert!(shown.contains(&format!("\n  {line}\n")), "{line}"));
    };
    let shown = ask(&["help", "compile"]).0;
    shows(&shown, TYPED);
    let here = |words: &[&str], rules: &str| {
        folder.file("rules.txt", rules.as_bytes());
        said(command(words).current_dir(&folder.0).output().unwrap()).0
    };
    let words = ["compile", "rules.txt", "watch.sheet"];
    shows(&shown, &format!("station-watch {}", words.join(" ")));
    shows(&shown, &here(&words, &format!("{TYPED}\n")));
    shows(&shown, &here(&words, "\n\nmonitor x : @x.0 \n"));
    shows(&shown, &here(&words, "\n\n\nmonitor x : @y.0\n"));
    folder.sheet(&[EXAMPLE, "010008"]);
    shows(&ask(&["help", "print"]).0, &here(&["print", "watch.sheet"], ""));
}

#[test]
fn version() {
    assert_eq!(ask(&["--version"]), out("station-watch 0.8.0\n", 0));
}

#[test]
fn files_that_cannot_be_read() {
    let folder = Folder::new("files_that_cannot_be_read");
    let (sheet, none) = (folder.sheet(&[EXAMPLE]), folder.path("none"));
    let missing = format!("cannot read {none}: No such file or directory (os error 2)");
    let missing = failed(&format!("station-watch: {missing}\n"));
    assert_eq!(ask(&["figures", &none]), missing);
    assert_eq!(ask(&["print", &none]), missing);
    assert_eq!(ask(&["compile", &none, &sheet]), missing);
    assert_eq!(ask(&["outcome", &none, "0", &sheet, "0"]), missing);
    assert_eq!(ask(&["outcome", &sheet, "0", &none, "0"]), missing);
    let inside = format!("{sheet}/a"); // its folder is a file
    let due = format!("station-watch: cannot read {inside}: Not a directory (os error 20)\n");
    assert_eq!(ask(&["figures", &inside]), failed(&due));
    let folder = folder.path("");
    let due = format!("station-watch: cannot read {folder}: Is a directory (os error 21)\n");
    assert_eq!(ask(&["figures", &folder]), failed(&due));
}

#[test]
fn input_that_cannot_be_read() {
    let folder = Folder::new("input_that_cannot_be_read");
    let mut command = command(&["outcome", &folder.sheet(&[EXAMPLE]), "0", "-", "0"]);
    let said = said(command.stdin(File::open("/").unwrap()).output().unwrap());
    let due = "station-watch: cannot read standard input: Is a directory (os error 21)\n";
    assert_eq!(said, failed(due));
    let mut command = self::command(&["compile", "-", &folder.path("none")]);
    let said = self::said(command.stdin(File::open("/").unwrap()).output().unwrap());
    assert_eq!(said, failed(due));
    assert!(!Path::new(&folder.path("none")).exists());
}

#[test]
fn files_that_cannot_be_written() {
    let folder = Folder::new("files_that_cannot_be_written");
    let inside = folder.path("none/out");
    let due = format!("cannot write {inside}: No such file or directory (os error 2)");
    assert_eq!(ask(&["sheet", &inside, "010000"]), failed(&format!("station-watch: {due}\n")));
    let due = "station-watch: cannot write /dev/full: No space left on device (os error 28)\n";
    assert_eq!(ask(&["sheet", "/dev/full", "010000"]), failed(due));
    let rules = folder.file("rules", TYPED.as_bytes());
    assert_eq!(ask(&["compile", &rules, "/dev/full"]), failed(due));
    // A device that keeps nothing, and never says so late.
    assert_eq!(ask(&["sheet", "/dev/null", "010000"]), out("sheet /dev/null rules 1 bytes 8\n", 0));
}

#[test]
fn output_on_a_full_device() {
    let folder = Folder::new("output_on_a_full_device");
    let sheet = folder.sheet(&[EXAMPLE]);
    let due =
        "station-watch: cannot write standard output: No space left on device (os error 28)\n";
    let words = [&["figures", &sheet][..], &["figures", "/dev/null"], &["help"], &["--version"]];
    for words in words.into_iter().chain([&["print", &sheet][..]]) {
        let mut command = command(words);
        let full = File::options().write(true).open("/dev/full").unwrap();
        assert_eq!(said(command.stdout(full).output().unwrap()), failed(due), "{words:?}");
    }
}

#[test]
fn output_into_a_closed_pipe() {
    let folder = Folder::new("output_into_a_closed_pipe");
    let mut child = start(&["outcome", &folder.sheet(&[EXAMPLE]), "0", "-", "5"]);
    drop(child.stdout.take()); // it waits for its input until here
    child.stdin.take().unwrap().write_all(&FLAGS).unwrap();
    let due = "station-watch: cannot write standard output: Broken pipe (os error 32)\n";
    assert_eq!(said(child.wait_with_output().unwrap()), failed(due));
}

/// Standard error on a full device too: only the status is left.
#[test]
fn nothing_can_be_said() {
    let full = || File::options().write(true).open("/dev/full").unwrap();
    for words in [&["--version"][..], &["figures"], &[]] {
        let status = command(words).stdout(full()).stderr(full()).status().unwrap();
        assert_eq!(status.code(), Some(2), "{words:?}");
    }
}

#[test]
fn output_that_would_block_is_waited_for() {
    let folder = Folder::new("output_that_would_block_is_waited_for");
    let (mut own, mut other) = stream();
    let mut filled = 0;
    let full = loop {
        match own.write(&[b'x'; 64]) {
            Ok(some) => filled += some,
            Err(error) => break error.kind(),
        }
    };
    assert_eq!(full, ErrorKind::WouldBlock);
    let mut command = command(&["figures", &folder.sheet(&[EXAMPLE])]);
    let child = command.stdout(OwnedFd::from(own)).stderr(Stdio::piped()).spawn().unwrap();
    drop(command); // and with it this side's copy of the stream
    sleep(A_WHILE);
    let mut read = String::new();
    other.read_to_string(&mut read).unwrap();
    assert_eq!(read, "x".repeat(filled) + "rule 0 history 1 delay 2 cells 21\n");
    assert_eq!(said(child.wait_with_output().unwrap()), out("", 0));
}

#[test]
fn input_that_would_block_is_waited_for() {
    let folder = Folder::new("input_that_would_block_is_waited_for");
    let (own, mut other) = stream();
    let mut command = command(&["outcome", &folder.sheet(&[EXAMPLE]), "0", "-", "5"]);
    command.stdin(OwnedFd::from(own)).stdout(Stdio::piped()).stderr(Stdio::piped());
    let child = command.spawn().unwrap();
    for part in FLAGS.chunks(4) {
        sleep(A_WHILE);
        other.write_all(part).unwrap();
    }
    other.shutdown(Shutdown::Write).unwrap();
    assert_eq!(said(child.wait_with_output().unwrap()), out("tick 5 false at 7\n", 0));
}
