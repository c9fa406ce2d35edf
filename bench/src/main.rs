//! What a step costs (docs/PERFORMANCE.md).
//!
//!     bench agree           checks that all ways report the same (the gate does this)
//!     bench                 the same, and nanoseconds a step
//!     bench calendar        the same of the calendar alone, nanoseconds a word
//!     bench instructions    instructions a step, counted by valgrind
//!     bench run WAY RULE STREAM STEPS
//!
//! Ways: the library step by step, the library in batches, the same incremental
//! engine plainly in Rust, and evaluating every open tick anew at each step. Of several
//! rules: all at once, as a set, and each by itself, both step by step and in batches. Of the
//! calendar: the library, the same loops plainly in Rust, word by word and tick by tick.

mod anew;
mod calendar;
mod cases;
mod instructions;
mod outcome;
mod plain;
mod sets;
mod time;
mod ways;

use cases::{ahead, always_empty, behind, cases, find, stream, STREAMS};
use rust_tests::paper::Formula;
use sets::{open_rules, several, KINDS, MIXED, RULE_COUNTS, SET_WAYS};
use std::env;
use ways::{open, rule_figures, Way, WAYS};

/// Flag bytes of a stream.
const LENGTH: usize = 65_536;
/// Widths of the ranges X..X+W-1, whose ticks wait, and X-W+1..X, whose don't.
const AHEAD: [i64; 7] = [1, 2, 4, 8, 16, 32, 63];
const BEHIND: [i64; 7] = [1, 4, 16, 64, 256, 1024, 4094];

fn main() {
    let arguments: Vec<String> = env::args().skip(1).collect();
    let words: Vec<&str> = arguments.iter().map(String::as_str).collect();
    match words[..] {
        [] => {
            agree();
            agree_on_sets();
            calendar::agree();
            print_times();
            print_set_times();
            calendar::print_times();
        }
        ["agree"] => {
            agree();
            agree_on_sets();
            calendar::agree();
        }
        ["calendar"] => {
            calendar::agree();
            calendar::print_times();
        }
        ["instructions"] => print_instructions(),
        ["run", way, rule, stream, steps] => run(way, rule, stream, steps),
        _ => panic!("bench [agree | calendar | instructions | run WAY RULE STREAM STEPS]"),
    }
}

/// Takes so many steps and says what was seen.
fn run(way: &str, rule: &str, of: &str, steps: &str) {
    let mut watch = open(way, &find(rule));
    watch.take(&stream(of, steps.parse().expect("a number")));
    println!("{:?}, {} live", watch.tally(), watch.live());
}

/// All rules that are measured, by name.
fn rules() -> Vec<(String, Formula)> {
    let named = cases().into_iter().map(|case| (case.name.to_string(), case.rule));
    let before = AHEAD.map(|w| (format!("ahead {}", w - 1), ahead(w - 1)));
    let after = BEHIND.map(|w| (format!("behind {}", w - 1), behind(w - 1)));
    named.chain(before).chain(after).collect()
}

/// These ways must report the same, and have the same ticks open.
fn agree_on(name: &str, of: &str, mut ways: [Box<dyn Way>; 4]) {
    let flags = stream(of, 3_000);
    let seen = ways.each_mut().map(|way| {
        way.take(&flags);
        (way.tally(), way.live())
    });
    assert!(seen.iter().all(|s| *s == seen[0]), "{name}, {of}: {seen:?}");
}

/// All four ways of one rule.
fn agree() {
    let mut rules = rules();
    rules.extend(always_empty().into_iter().map(|case| (case.name.to_string(), case.rule)));
    for (name, rule) in &rules {
        for (of, _) in STREAMS {
            agree_on(name, of, WAYS.map(|way| open(way, rule)));
        }
    }
    println!(
        "All four ways agree: {} rules, {} streams, 3000 steps each.",
        rules.len(),
        STREAMS.len()
    );
}

/// All four ways of several rules.
fn agree_on_sets() {
    for (kind, count) in rule_sets() {
        let rules = several(kind, count);
        for (of, _) in STREAMS {
            let name = format!("{count} rules, {kind}");
            agree_on(&name, of, SET_WAYS.map(|way| open_rules(way, &rules)));
        }
    }
    println!(
        "All four ways of several rules agree: {} sets, {} streams, 3000 steps each.",
        rule_sets().len(),
        STREAMS.len()
    );
}

/// The sets that are measured.
fn rule_sets() -> Vec<(&'static str, usize)> {
    KINDS.iter().flat_map(|kind| RULE_COUNTS.map(|count| (*kind, count))).collect()
}

fn print_head(first: &str) {
    println!(
        "\n| {first} | step | batch | plain | anew | step : plain | batch : plain | anew : step |"
    );
    println!("|---|---|---|---|---|---|---|---|");
}

fn print_row(name: &str, [step, batch, plain, anew]: [f64; 4]) {
    println!(
        "| {name} | {step:.0} | {batch:.0} | {plain:.0} | {anew:.0} | {:.1} | {:.1} | {:.1} |",
        step / plain,
        batch / plain,
        anew / step
    );
}

fn figures_text(rule: &Formula) -> String {
    let f = rule_figures(rule);
    format!("history {}, delay {}, cells {}", f.history, f.delay, f.cells)
}

/// Prints a table of rules and streams, and two of growing ranges, with the costs
/// that `cost` gives for a rule's name and a stream's.
fn print_tables(streams: &[&str], cost: impl Fn(&str, &Formula, &str) -> [f64; 4]) {
    println!();
    for case in cases() {
        println!("- {}: `{}` ({})", case.name, case.notation, figures_text(&case.rule));
    }
    print_head("rule, stream");
    for case in cases() {
        for of in streams {
            print_row(&format!("{}, {of}", case.name), cost(case.name, &case.rule, of));
        }
    }
    for (kind, widths, range) in [("ahead", AHEAD, "X..X+W-1"), ("behind", BEHIND, "X-W+1..X")] {
        print_head(&format!("W of {range}, up"));
        for w in widths {
            let name = format!("{kind} {}", w - 1);
            print_row(&w.to_string(), cost(&name, &find(&name), "up"));
        }
    }
}

fn print_times() {
    println!("\nNanoseconds a step (median of rounds in turns).");
    let flags = STREAMS.map(|(of, _)| (of, stream(of, LENGTH)));
    let named = |of: &str| &flags.iter().find(|f| f.0 == of).expect("a stream").1;
    print_tables(&STREAMS.map(|s| s.0), |_, rule, of| {
        time::nanoseconds(WAYS.map(|way| open(way, rule)), named(of))
    });
}

/// A table of several rules: all at once against each by itself.
fn print_set_times() {
    println!("\nNanoseconds a step of all rules (median of rounds in turns).\n");
    println!("- mixed: {}, again and again", MIXED.join("; "));
    println!(
        "\n| rules, stream | cells | set, step | singly, step | set, batch | singly, batch \
         | step, set : singly | batch, set : singly |"
    );
    println!("|---|---|---|---|---|---|---|---|");
    for (kind, count) in rule_sets() {
        let rules = several(kind, count);
        let cells: usize = rules.iter().map(|rule| rule_figures(rule).cells).sum();
        for of in ["up", "noise"] {
            let ways = SET_WAYS.map(|way| open_rules(way, &rules));
            let [step, steps, batch, batches] = time::nanoseconds(ways, &stream(of, LENGTH));
            println!(
                "| {count} {kind}, {of} | {cells} | {step:.0} | {steps:.0} | {batch:.0} \
                 | {batches:.0} | {:.2} | {:.2} |",
                step / steps,
                batch / batches
            );
        }
    }
}

fn print_instructions() {
    println!("\nInstructions a step (valgrind).");
    print_tables(&["up", "noise"], |name, _, of| {
        WAYS.map(|way| instructions::a_step(way, name, of))
    });
}
