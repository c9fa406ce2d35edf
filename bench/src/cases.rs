//! The rules that are measured, and the streams.

use rust_tests::notation::{all, beside, flag, not, start, then, x, y, INFINITY, W, X, Y, Z};
use rust_tests::paper::Formula;
use rust_tests::random::Random;

pub struct Case {
    pub name: &'static str,
    /// In the notation of document 000.
    pub notation: &'static str,
    pub rule: Formula,
}

fn case(name: &'static str, notation: &'static str, rule: Formula) -> Case {
    Case { name, notation, rule }
}

/// "Flag 0 is up from X to X + n."
pub fn ahead(n: i64) -> Formula {
    all(x(0), x(n), flag(0, Y))
}

/// "Flag 0 is up from X - n to X."
pub fn behind(n: i64) -> Formula {
    all(x(-n), x(0), flag(0, Y))
}

pub fn cases() -> Vec<Case> {
    let near = |bound: fn(i64) -> _, low, high, f| all(bound(low), bound(high), f);
    vec![
        case("flag", "@x.0", flag(0, X)),
        case(
            "example",
            "~(@x.0 /\\ forall y in x-1..x+2 : @y.0)",
            not(beside(flag(0, X), near(x, -1, 2, flag(0, Y)))),
        ),
        case("wide", "forall y in x..x+62 : @y.0", ahead(62)),
        case(
            "nested",
            "forall y in x-2..x+3 : forall z in y-1..y+2 : (@y.0 && @z.1)",
            near(x, -2, 3, near(y, -1, 2, then(flag(0, Y), flag(1, Z)))),
        ),
        case(
            "nested, not",
            "~forall y in x-2..x+3 : ~forall z in y-1..y+2 : @z.0",
            not(near(x, -2, 3, not(near(y, -1, 2, flag(0, Z))))),
        ),
        case(
            "then",
            "(forall y in x..x+6 : @y.0 && forall y in x-6..x+6 : @y.1)",
            then(near(x, 0, 6, flag(0, Y)), near(x, -6, 6, flag(1, Y))),
        ),
        case(
            "beside",
            "(forall y in x..x+6 : @y.0 /\\ forall y in x-6..x+6 : @y.1)",
            beside(near(x, 0, 6, flag(0, Y)), near(x, -6, 6, flag(1, Y))),
        ),
    ]
}

/// Rules with ranges that are always empty (02, point 6), which are compared and not measured.
pub fn always_empty() -> Vec<Case> {
    let endless = |variable| all(start(0), INFINITY, flag(0, variable));
    vec![
        case(
            "always empty",
            "~forall y in x+5..x+2 : forall z in 0..infinity : @z.0",
            not(all(x(5), x(2), endless(Z))),
        ),
        case(
            "always empty, then",
            "(forall y in infinity..x+9 : @y.0 && forall y in x-1..x+2 : @y.0)",
            then(all(INFINITY, x(9), flag(0, Y)), all(x(-1), x(2), flag(0, Y))),
        ),
        case(
            "always empty, nested",
            "forall y in x-2..x+3 : ~(@y.0 /\\ forall z in y+6..x : forall u in 0..infinity : @u.0)",
            all(x(-2), x(3), not(beside(flag(0, Y), all(y(6), x(0), endless(W))))),
        ),
    ]
}

pub fn find(name: &str) -> Formula {
    if let Some(n) = name.strip_prefix("ahead ") {
        return ahead(n.parse().expect("a number"));
    }
    if let Some(n) = name.strip_prefix("behind ") {
        return behind(n.parse().expect("a number"));
    }
    let found = cases().into_iter().chain(always_empty()).find(|case| case.name == name);
    found.unwrap_or_else(|| panic!("no rule {name:?}")).rule
}

/// Flags 0 and 1 are down at one tick in so many, at random: never, seldom, at
/// every other tick. The longer they are up, the longer ticks stay open.
pub const STREAMS: [(&str, usize); 3] = [("up", 0), ("calm", 64), ("noise", 2)];

pub fn stream(name: &str, length: usize) -> Vec<u8> {
    let (_, one_in) =
        *STREAMS.iter().find(|s| s.0 == name).unwrap_or_else(|| panic!("no stream {name:?}"));
    let mut random = Random::new(7);
    let mut up = || (one_in == 0 || !random.one_in(one_in)) as u8;
    (0..length).map(|_| up() + 2 * up()).collect()
}
