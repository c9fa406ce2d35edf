//! The reader that tells where a text is misspelt, held to the library, which says whether
//! it is.

#[path = "../src/column.rs"]
mod column;

use column::first_wrong;
use station_watch::{body_from_text, Refusal};
use std::collections::BTreeSet;

fn misspelt(text: &[u8]) -> bool {
    body_from_text(text) == Err(Refusal::Misspelt)
}

/// The reader finds a wrong byte exactly where the library answers 25.
fn agree(text: &[u8]) -> bool {
    let wrong = first_wrong(text);
    let shown = String::from_utf8_lossy(text);
    assert_eq!(wrong.is_some(), misspelt(text), "{wrong:?} in {shown:?}");
    assert!(wrong <= Some(text.len().min(4_096)), "{wrong:?} in {shown:?}");
    wrong.is_some()
}

/// Columns from 1, as they are told.
#[test]
fn by_hand() {
    let at = |text: &str, column: usize| {
        assert_eq!(first_wrong(text.as_bytes()), column.checked_sub(1), "{text:?}");
        agree(text.as_bytes());
    };
    at("monitor x : @x.0", 0);
    at("monitor x : @y.0", 0); // unbound, but spelt
    at("", 1);
    at("mon", 4);
    at("monitors", 8);
    at("monitor x : ", 13);
    at("monitor x : @x.0 ", 17);
    at("monitor x : @x.00", 17);
    at("monitor x : @x.a", 16);
    at("monitor x: @x.0", 10);
    at("monitor  x : @x.0", 9);
    at("monitor in : @x.0", 11);
    at("monitor inn : @x.0", 0);
    at("monitor infinity : @x.0", 16);
    at("monitor infinityx : @x.0", 16);
    at("monitor abcdefghi : @x.0", 17);
    at("monitor x : forall forall in x..x : @x.0", 26);
    at("monitor x : forall y in infinity..infinityx : @x.0", 43);
    at("monitor x : forall y in in..x : @x.0", 27);
    at("monitor x : forall y in x+..x : @x.0", 27);
    at("monitor x : forall y in x+12345..x : @x.0", 31);
    at("monitor x : forall y in x+1+1..x : @x.0", 28);
    at("monitor x : forall y in 05..x : @x.0", 26);
    at("monitor x : forall y in 1..x : @x.0", 25);
    at("monitor x : (@x.0 && @x.1", 26);
    at("monitor x : (@x.0 && @x.1))", 27);
    at("monitor x : (@x.0 & @x.1)", 20);
    at("monitor x : (@x.0 \\/ @x.1)", 19);
    at("monitor x : (@x.0)", 18);
}

#[test]
fn long_lines() {
    let nots = |count: usize, after: &str| format!("monitor x : {}{after}", "~".repeat(count));
    let wrong = |text: String| {
        agree(text.as_bytes());
        first_wrong(text.as_bytes())
    };
    assert_eq!(wrong(nots(4_080, "@x.0")), None);
    assert_eq!(wrong(nots(4_081, "@x.0")), Some(4_096));
    assert_eq!(wrong(nots(4_079, "@x.0 ")), Some(4_095));
    assert_eq!(wrong(nots(4_080, "@x.0 ")), Some(4_096));
    assert_eq!(wrong(nots(4_084, "")), Some(4_096));
    assert_eq!(wrong(nots(4_083, "")), Some(4_095));
    assert_eq!(wrong(nots(1 << 20, "")), Some(4_096));
    assert_eq!(wrong(nots(5, " ") + &"~".repeat(5_000)), Some(17));
    assert_eq!(wrong(format!("monitor x : {}", "(".repeat(4_084))), Some(4_096));
    assert_eq!(wrong(format!("monitor x : {}", "(".repeat(1 << 20))), Some(4_096));
    let ends = |count: usize| " && @x.0)".repeat(count);
    assert_eq!(wrong(format!("monitor x : {}@x.0{}", "(".repeat(408), ends(408))), None);
    let late = format!("monitor x : {}@x.0{}", "(".repeat(409), ends(409));
    assert_eq!(wrong(late), Some(4_096));
}

/// The generator "splitmix64".
struct Random(u64);

impl Random {
    fn below(&mut self, n: usize) -> usize {
        self.0 = self.0.wrapping_add(0x9E37_79B9_7F4A_7C15);
        let mut z = self.0;
        z = (z ^ (z >> 30)).wrapping_mul(0xBF58_476D_1CE4_E5B9);
        z = (z ^ (z >> 27)).wrapping_mul(0x94D0_49BB_1331_11EB);
        ((z ^ (z >> 31)) % n as u64) as usize
    }

    fn pick<T: Copy>(&mut self, from: &[T]) -> T {
        from[self.below(from.len())]
    }

    /// A formula of up to so many forms in one another.
    fn formula(&mut self, depth: usize) -> String {
        let names = ["x", "y", "inn", "monito", "infinit", "abcdefgh"];
        let form = if depth == 0 { 0 } else { self.below(5) };
        match form {
            0 => format!("@{}.{}", self.pick(&names), self.below(10)),
            1 => format!("~{}", self.formula(depth - 1)),
            2 | 3 => {
                let sign = self.pick(&["&&", "/\\"]);
                let (f, g) = (self.formula(depth - 1), self.formula(depth - 1));
                format!("({f} {sign} {g})")
            }
            _ => {
                let (name, f) = (self.pick(&names), self.formula(depth - 1));
                format!("forall {name} in {}..{} : {f}", self.bound(), self.bound())
            }
        }
    }

    fn bound(&mut self) -> String {
        let base = self.pick(&["0", "infinity", "x", "y"]);
        base.to_string() + self.pick(&["", "", "+0", "-1", "+4095", "-9999", "+0001"])
    }

    /// One byte changed, dropped, doubled or put in, two exchanged, or the text cut.
    fn damage(&mut self, text: &mut Vec<u8>) {
        let near = self.pick(b"monitrfaly xyz:@.~()&/\\0123456789+-\n\x00\xE9");
        let at = self.below(text.len());
        match self.below(6) {
            0 => text[at] = near,
            1 => text.insert(at, near),
            2 => text.insert(at, text[at]),
            3 => text.truncate(at + 1),
            4 => text.swap(at, at.saturating_sub(1)),
            _ => {
                text.remove(at);
            }
        }
        if text.is_empty() {
            text.push(near);
        }
    }
}

#[test]
fn as_the_library_says() {
    let mut random = Random(4_001);
    let (mut spelt, mut wrong) = (0, 0);
    for _ in 0..20_000 {
        let depth = random.below(6);
        let mut text = format!("monitor x : {}", random.formula(depth)).into_bytes();
        assert!(!agree(&text), "{text:?}");
        for _ in 0..3 {
            random.damage(&mut text);
            match agree(&text) {
                true => wrong += 1,
                false => spelt += 1,
            }
        }
    }
    assert!(spelt > 2_000 && wrong > 20_000, "{spelt}, {wrong}");
}

#[test]
fn any_bytes() {
    let mut random = Random(4_002);
    for _ in 0..20_000 {
        let length = random.below(40);
        let mut text = if random.below(2) == 0 { Vec::new() } else { b"monitor x : ".to_vec() };
        text.extend((0..length).map(|_| random.below(256) as u8));
        assert!(agree(&text));
    }
}

/// What can follow a beginning that stands in at most two brackets: the rest of a word, a
/// sign or a form, and the ends of the brackets. No rule of another sort is needed to see
/// that a beginning is one.
fn tails() -> Vec<Vec<u8>> {
    let wholes = [
        "monitor x : @x.0",
        "forall y in x..x : @x.0",
        " && @x.0)",
        " /\\ @x.0)",
        "z : @x.0",
        "z in x..x : @x.0",
        "z..x : @x.0",
        "z.0",
        "0..x : @x.0",
        "0 : @x.0",
    ];
    let rests: BTreeSet<&str> =
        wholes.iter().flat_map(|whole| (0..=whole.len()).map(|at| &whole[at..])).collect();
    let mut ends: BTreeSet<String> = BTreeSet::from([String::new()]);
    for _ in 0..2 {
        let longer = |end: &String| [")", " && @x.0)"].map(|one| format!("{end}{one}"));
        ends.extend(ends.iter().flat_map(longer).collect::<Vec<_>>());
    }
    let tail = |rest: &str, end: &String| [rest.as_bytes(), end.as_bytes()].concat();
    let all: BTreeSet<Vec<u8>> =
        rests.iter().flat_map(|rest| ends.iter().map(|end| tail(rest, end))).collect();
    all.into_iter().collect()
}

/// Whether a rule begins so, by trying.
fn is_beginning(text: &[u8], tails: &[Vec<u8>]) -> bool {
    tails.iter().any(|tail| !misspelt(&[text, tail].concat()))
}

/// The definition by brute force: after each beginning of some rules, each byte of the
/// notation is wrong exactly where no rule begins so.
#[test]
fn the_first_wrong_byte_by_trying() {
    let rules = [
        "monitor in",
        "monitor monitor",
        "monitor infinit",
        "monitor abcdefgh : @x.0",
        "monitor x : ~(~@inn.0 && @infinit.2)",
        "monitor x : (@x.0 /\\ ",
        "monitor x : forall in",
        "monitor x : forall y in infinity+0001..infinity-12 : @y.0",
        "monitor x : (forall y in in",
        "monitor x : forall y in 0+5..monitor",
        "monitor x : forall y in infinit..0 : @y.9",
        "monitor x : forall y in abcdefgh..abcdefgh : @y.0",
    ];
    let beginnings: BTreeSet<&str> =
        rules.iter().flat_map(|rule| (0..=rule.len()).map(|at| &rule[..at])).collect();
    let tails = tails();
    let (mut right, mut wrong) = (0, 0);
    for beginning in &beginnings {
        let wrong_at = first_wrong(beginning.as_bytes()).unwrap_or(beginning.len());
        assert_eq!(wrong_at, beginning.len(), "{beginning:?}");
        assert!(is_beginning(beginning.as_bytes(), &tails), "{beginning:?}");
        for byte in *b"minfyz :@.~()&/\\019+-A\n\xE9" {
            let text = [beginning.as_bytes(), &[byte]].concat();
            let found = first_wrong(&text) == Some(beginning.len());
            let shown = String::from_utf8_lossy(&text);
            assert_eq!(found, !is_beginning(&text, &tails), "{shown:?}");
            if found {
                wrong += 1
            } else {
                right += 1
            }
        }
    }
    assert!(right > 500 && wrong > 3_000, "{right}, {wrong}");
}
