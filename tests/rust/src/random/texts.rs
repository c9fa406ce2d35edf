//! Rules typed as in the paper: with random names, offsets spelt in several ways, and
//! damaged.

use super::formulas::wild_formula;
use super::Random;
use crate::paper::{Bound, Formula};
use std::ops::Range;

/// Names: short ones, which often hide one another, and neighbours of the words that are
/// no names.
const NAMES: &[&str] = &[
    "x", "x", "y", "y", "z", "a", "i", "n", "inn", "int", "monito", "monitors", "fora", "forallx",
    "infinit", "infinita", "abcdefgh", "zzzzzzzz", "u", "v",
];

const NO_NAMES: [&str; 4] = ["monitor", "forall", "in", "infinity"];

/// A text whose reading is the formula. An inner name hides an outer one where the range
/// does not look at that.
pub fn typed(random: &mut Random, formula: &Formula) -> String {
    let mut scope = vec![some_name(random)];
    let text = formula_text(random, formula, &mut scope);
    format!("monitor {} : {text}", scope[0])
}

/// A text of any sort, most of them rules.
pub fn any_text(random: &mut Random) -> Vec<u8> {
    let formula = wild_formula(random);
    let text = typed(random, &formula);
    match random.below(10) {
        0 | 1 => text.into_bytes(),
        2 => with_other_names(random, &text).into_bytes(),
        3 => with_other_digits(random, text.into_bytes()),
        4 => {
            let text = with_other_names(random, &text);
            with_other_digits(random, text.into_bytes())
        }
        5 => with_far_infinity(random, &text).into_bytes(),
        6 => grown(random, &text).into_bytes(),
        _ => {
            let mut text = text.into_bytes();
            for _ in 0..random.pick(&[1, 1, 1, 2, 3]) {
                damage(random, &mut text);
            }
            text
        }
    }
}

/// A rule with many ranges in one another and many brackets, most of them too deep for a
/// body; now and then one of its names is not bound.
pub fn deep_text(random: &mut Random) -> String {
    let mut room = random.size(200, 3_900);
    let text = deep_formula(random, &mut room, &mut vec!["x"]);
    format!("monitor x : {text}")
}

fn deep_formula(random: &mut Random, room: &mut usize, scope: &mut Vec<&'static str>) -> String {
    *room = room.saturating_sub(24);
    if *room == 0 {
        return format!("@{}.{}", deep_name(random, scope), random.below(8));
    }
    match random.below(8) {
        0 | 1 => {
            let f = deep_formula(random, room, scope);
            format!("({f} && {})", deep_formula(random, room, scope))
        }
        2 => format!("~{}", deep_formula(random, room, scope)),
        _ => {
            let bounds = (deep_name(random, scope), deep_name(random, scope));
            let name = random.pick(&["x", "y", "a", "b", "c", "d", "e", "f", "g"]);
            scope.push(name);
            let f = deep_formula(random, room, scope);
            scope.pop();
            format!("forall {name} in {}..{} : {f}", bounds.0, bounds.1)
        }
    }
}

fn deep_name(random: &mut Random, scope: &[&'static str]) -> &'static str {
    if random.one_in(200) {
        return random.pick(&["x", "y", "a", "b", "c", "d", "e", "f", "g", "q"]);
    }
    random.pick(scope)
}

/// Bytes of the notation in any order.
pub fn loose_text(random: &mut Random) -> Vec<u8> {
    let words = [
        "monitor ",
        " : ",
        "x",
        "y",
        "@x.0",
        "@y.7",
        "~",
        "(",
        ")",
        " && ",
        " /\\ ",
        "forall ",
        " in ",
        "..",
        "0",
        "infinity",
        "+1",
        "-4095",
        " ",
        "forall y in x..x : ",
    ];
    let mut text = if random.one_in(4) { String::new() } else { "monitor x : ".to_string() };
    for _ in 0..random.size(0, 12) {
        text += random.pick(&words);
    }
    text.into_bytes()
}

/// One byte changed, dropped or doubled, two exchanged, one put in, or the text cut.
pub fn damage(random: &mut Random, text: &mut Vec<u8>) {
    let alphabet = b"monitrfaly xyz:@.~()&/\\0123456789+-\n";
    let near = random.pick(alphabet);
    if text.is_empty() {
        return text.push(near);
    }
    let at = random.below(text.len());
    match random.below(8) {
        0 => text[at] = near,
        1 => text[at] = random.byte(),
        2 => text[at] = text[at].wrapping_add(random.pick(&[1, 255])),
        3 => {
            text.remove(at);
        }
        4 => text.insert(at, text[at]),
        5 => {
            let next = (at + 1) % text.len();
            text.swap(at, next);
        }
        6 => text.insert(at, near),
        _ => text.truncate(at),
    }
}

fn some_name(random: &mut Random) -> String {
    if random.one_in(8) {
        let count = random.size(1, 8);
        let name: String = (0..count).map(|_| (b'a' + random.below(26) as u8) as char).collect();
        if !NO_NAMES.contains(&name.as_str()) {
            return name;
        }
    }
    random.pick(NAMES).to_string()
}

fn formula_text(random: &mut Random, formula: &Formula, scope: &mut Vec<String>) -> String {
    match formula {
        Formula::Flag(variable, flag) => format!("@{}.{flag}", scope[*variable]),
        Formula::Not(f) => format!("~{}", formula_text(random, f, scope)),
        Formula::Then(f, g) => pair_text(random, "&&", (f, g), scope),
        Formula::Beside(f, g) => pair_text(random, "/\\", (f, g), scope),
        Formula::ForAll(first, second, f) => {
            let first = bound_text(random, *first, scope);
            let second = bound_text(random, *second, scope);
            let name = new_name(random, f, scope);
            scope.push(name.clone());
            let inside = formula_text(random, f, scope);
            scope.pop();
            format!("forall {name} in {first}..{second} : {inside}")
        }
    }
}

fn pair_text(
    random: &mut Random,
    sign: &str,
    (f, g): (&Formula, &Formula),
    scope: &mut Vec<String>,
) -> String {
    let f = formula_text(random, f, scope);
    format!("({f} {sign} {})", formula_text(random, g, scope))
}

/// A name for the next variable, which none of those has that the formula looks at.
fn new_name(random: &mut Random, formula: &Formula, scope: &[String]) -> String {
    let mut needed = vec![false; scope.len() + 8];
    looked_at(formula, &mut needed);
    loop {
        let name = some_name(random);
        if !scope.iter().zip(&needed).any(|(bound, needed)| *needed && *bound == name) {
            return name;
        }
    }
}

fn looked_at(formula: &Formula, needed: &mut [bool]) {
    match formula {
        Formula::Flag(variable, _) => needed[*variable] = true,
        Formula::Not(f) => looked_at(f, needed),
        Formula::Then(f, g) | Formula::Beside(f, g) => {
            looked_at(f, needed);
            looked_at(g, needed);
        }
        Formula::ForAll(first, second, f) => {
            for bound in [first, second] {
                if let Bound::Variable(variable, _) = bound {
                    needed[*variable] = true;
                }
            }
            looked_at(f, needed);
        }
    }
}

fn bound_text(random: &mut Random, bound: Bound, scope: &[String]) -> String {
    let (base, offset) = match bound {
        Bound::Start(offset) => ("0", offset),
        Bound::Infinity => ("infinity", 0),
        Bound::Variable(variable, offset) => (scope[variable].as_str(), offset),
    };
    base.to_string() + &offset_text(random, offset)
}

/// Of 1 to 4 digits; 0 also not at all, and with both signs.
fn offset_text(random: &mut Random, offset: i64) -> String {
    if offset == 0 && !random.one_in(4) {
        return String::new();
    }
    let sign = match offset {
        0 => random.pick(&['+', '-']),
        1.. => '+',
        _ => '-',
    };
    let width = if random.one_in(3) { random.size(1, 4) } else { 1 };
    format!("{sign}{:0width$}", offset.abs())
}

/// Some places of names get another name: some are bound no more, and some mean another
/// range.
fn with_other_names(random: &mut Random, text: &str) -> String {
    let mut text = text.to_string();
    for _ in 0..random.size(1, 3) {
        let places = name_places(&text);
        let (at, from) = (random.below(places.len()), random.below(places.len()));
        let seen = text[places[from].clone()].to_string();
        let name = if random.one_in(3) { some_name(random) } else { seen };
        text.replace_range(places[at].clone(), &name);
    }
    text
}

/// Where the names of a text stand.
fn name_places(text: &str) -> Vec<Range<usize>> {
    let mut places = Vec::new();
    let mut at = 0;
    for word in text.split(|c: char| !c.is_ascii_lowercase()) {
        if !word.is_empty() && !NO_NAMES.contains(&word) {
            places.push(at..at + word.len());
        }
        at += word.len() + 1;
    }
    places
}

/// The first bound of some range becomes an infinity with an offset.
fn with_far_infinity(random: &mut Random, text: &str) -> String {
    let offset = random.pick(&["+1", "-1", "+4096", "-9999", "+0", "-0000", "+00000"]);
    let ranges: Vec<&str> = text.split(" in ").collect();
    let chosen = random.size(1, ranges.len());
    let bound = |(place, part): (usize, &&str)| match part.split_once("..") {
        Some((_, rest)) if place == chosen => format!("infinity{offset}..{rest}"),
        _ => part.to_string(),
    };
    ranges.iter().enumerate().map(bound).collect::<Vec<_>>().join(" in ")
}

/// Nots or ranges before the formula: many are too many.
fn grown(random: &mut Random, text: &str) -> String {
    let (more, most) = random.pick(&[("~", 80), ("forall a in 0..0 : ", 6)]);
    text.replacen(" : ", &format!(" : {}", more.repeat(random.size(1, most))), 1)
}

/// Some digits become others: flags 8 and 9, offsets above 4,095, and an infinity's.
fn with_other_digits(random: &mut Random, mut text: Vec<u8>) -> Vec<u8> {
    for byte in &mut text {
        if byte.is_ascii_digit() && random.one_in(3) {
            *byte = random.pick(b"0456789");
        }
    }
    text
}
