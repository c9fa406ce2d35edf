//! Document 02, point 2, by hand: texts, the bodies that they mean, what they are refused
//! with, and how bodies are printed.

use rust_tests::notation::*;
use rust_tests::paper::text::{read_text, write_text, SPELLING};
use rust_tests::paper::{body_of_text, text_of_body, write_body, Formula};

fn body(text: &str) -> Result<Vec<u8>, u32> {
    body_of_text(text.as_bytes(), usize::MAX)
}

fn means(text: &str, formula: Formula) {
    assert_eq!(body(text), Ok(write_body(&formula)), "{text}");
}

fn refused(text: &str, number: u32) {
    assert_eq!(body(text), Err(number), "{text}");
}

#[test]
fn forms() {
    means("monitor x : @x.3", flag(3, X));
    means("monitor x : ~@x.3", not(flag(3, X)));
    means("monitor x : (@x.3 && @x.4)", then(flag(3, X), flag(4, X)));
    means("monitor x : (@x.3 /\\ @x.4)", beside(flag(3, X), flag(4, X)));
    means("monitor x : forall y in x-1..x+2 : @y.3", all(x(-1), x(2), flag(3, Y)));
    // The example of document 01, by its bytes.
    let due = bytes("02 04 01 00 00 05 02 00 FF FF 02 00 02 00 01 01 00");
    assert_eq!(body("monitor x : ~(@x.0 /\\ forall y in x-1..x+2 : @y.0)"), Ok(due));
}

/// "~" and "forall" take the formula right after them, and no more.
#[test]
fn brackets() {
    let range = || all(x(0), x(2), flag(6, Y));
    means("monitor x : (forall y in x..x+2 : @y.6 && @x.5)", then(range(), flag(5, X)));
    means("monitor x : (~@x.0 && @x.1)", then(not(flag(0, X)), flag(1, X)));
    means("monitor x : ~(@x.0 && @x.1)", not(then(flag(0, X), flag(1, X))));
    let left = then(beside(flag(0, X), flag(1, X)), flag(2, X));
    means("monitor x : ((@x.0 /\\ @x.1) && @x.2)", left);
    let right = then(flag(0, X), beside(flag(1, X), flag(2, X)));
    means("monitor x : (@x.0 && (@x.1 /\\ @x.2))", right);
    let both = then(beside(flag(0, X), flag(1, X)), beside(flag(2, X), flag(3, X)));
    means("monitor x : ((@x.0 /\\ @x.1) && (@x.2 /\\ @x.3))", both);
}

#[test]
fn bounds() {
    let from = |first: &str| body(&format!("monitor x : forall y in {first}..x : @y.0"));
    let due = |first| Ok(write_body(&all(first, x(0), flag(0, Y))));
    assert_eq!(from("0"), due(start(0)));
    assert_eq!(from("0+5"), due(start(5)));
    assert_eq!(from("0-5"), due(start(-5)));
    assert_eq!(from("infinity"), due(INFINITY));
    assert_eq!(from("infinity+0"), due(INFINITY));
    assert_eq!(from("x-0"), due(x(0)));
    assert_eq!(from("x+0001"), due(x(1)));
    assert_eq!(from("x+0256"), due(x(256)));
    assert_eq!(from("x+4095"), due(x(4095)));
    assert_eq!(from("x-4095"), due(x(-4095)));
    assert_eq!((from("x+4096"), from("x-9999")), (Err(8), Err(8)));
    assert_eq!((from("x+00000"), from("x+")), (Err(25), Err(25)));
    assert_eq!((from("infinity+1"), from("infinity-9999")), (Err(24), Err(24)));
    assert_eq!((from("infinit"), from("infinitys")), (Err(26), Err(25)));
}

/// "An inner name may hide an outer one", and a range's own bounds do not see its name.
#[test]
fn names() {
    means("monitor tick : @tick.0", flag(0, X));
    means("monitor x : forall x in x..x : @x.0", all(x(0), x(0), flag(0, Y)));
    let inner = all(y(1), y(1), flag(0, Z));
    means("monitor x : forall y in x..x : forall y in y+1..y+1 : @y.0", all(x(0), x(0), inner));
    let inner = all(y(1), x(1), flag(0, Y));
    means("monitor x : forall y in x..x : forall z in y+1..x+1 : @y.0", all(x(0), x(0), inner));
    // Outside its range the outer name is seen again.
    let hidden = then(all(x(0), x(0), flag(0, Y)), flag(1, X));
    means("monitor x : (forall x in x..x : @x.0 && @x.1)", hidden);
    // Side by side, both ranges bind variable 1.
    let beside = then(all(x(0), x(0), flag(0, Y)), all(x(0), x(0), flag(1, Y)));
    means("monitor x : (forall a in x..x : @a.0 && forall b in x..x : @b.1)", beside);
    refused("monitor x : @y.0", 26);
    refused("monitor x : forall y in y..x : @y.0", 26);
    refused("monitor x : forall y in x..y : @y.0", 26);
    refused("monitor x : (forall y in x..x : @y.0 && @y.0)", 26);
}

#[test]
fn keywords() {
    for word in ["monitor", "forall", "in", "infinity"] {
        refused(&format!("monitor {word} : @x.0"), 25);
        refused(&format!("monitor x : @{word}.0"), 25);
        refused(&format!("monitor x : forall {word} in x..x : @x.0"), 25);
        let bound = format!("monitor x : forall y in {word}..x : @y.0");
        assert_eq!(body(&bound).err(), (word != "infinity").then_some(25), "{bound}");
    }
    for name in ["i", "inn", "monito", "monitors", "foral", "foralls", "infinit", "infinita"] {
        means(&format!("monitor {name} : @{name}.0"), flag(0, X));
    }
    means("monitor abcdefgh : @abcdefgh.0", flag(0, X));
    refused("monitor abcdefghi : @abcdefghi.0", 25);
}

/// "Misspelt text, or text above 4,096 bytes, is 25 and an unbound name 26, in this order;
/// then 01's refusals 4 to 10, with 23 and 24, apply to the result, and last 22".
#[test]
fn orders() {
    let nots = |count| format!("monitor x : {}@x.0", "~".repeat(count));
    assert_eq!(nots(4_080).len(), 4_096);
    assert!(body(&nots(63)).is_ok());
    refused(&nots(4_080), 9);
    refused(&nots(4_081), 25);
    refused(&(nots(4_079) + " "), 25);
    refused("monitor x : (@y.0 && @x.8", 25);
    refused("monitor x : (@x.8 && @y.0)", 26);
    refused("monitor x : @x.8", 7);
    let short = |text: &str, room| body_of_text(text.as_bytes(), room);
    assert_eq!(short("monitor x : @x.8", 0), Err(7));
    assert_eq!(short("monitor x : @x.7", 2), Err(22));
    assert_eq!(short("monitor x : @x.7", 3), Ok(vec![1, 0, 7]));
}

#[test]
fn printed() {
    let shown = |formula: Formula, due: &str| {
        assert_eq!(write_text(&formula), due);
        means(due, formula);
    };
    shown(flag(7, X), "monitor x : @x.7");
    shown(not(not(flag(0, X))), "monitor x : ~~@x.0");
    let range = all(start(-5), INFINITY, then(flag(0, Y), flag(1, X)));
    shown(range, "monitor x : forall y in 0-5..infinity : (@y.0 && @x.1)");
    let four =
        all(x(0), x(4095), all(y(-1), y(10), all(z(0), start(0), all(w(0), w(0), flag(0, V)))));
    let due = "monitor x : forall y in x..x+4095 : forall z in y-1..y+10 : \
               forall u in z..0 : forall v in u..u : @v.0";
    shown(four, due);
    // Two ranges side by side have the same name.
    let beside = beside(all(x(0), x(0), flag(0, Y)), all(x(0), x(0), flag(0, Y)));
    let due = "monitor x : (forall y in x..x : @y.0 /\\ forall y in x..x : @y.0)";
    shown(beside, due);
    assert_eq!(text_of_body(&[1, 0, 8], 0), Err(7));
    assert_eq!(text_of_body(&[1, 0, 7], 15), Err(22));
    assert_eq!(text_of_body(&[1, 0, 7], 16), Ok(b"monitor x : @x.7".to_vec()));
}

/// Nothing recurses where a text is deep.
#[test]
fn deep_texts() {
    let spelling = rust_tests::paper::text::Spelling { text: usize::MAX, ..SPELLING };
    let deep = format!("monitor x : {}@x.0{}", "(".repeat(1 << 20), " && @x.0)".repeat(1 << 20));
    let typed = read_text(deep.as_bytes(), &spelling).unwrap();
    assert_eq!(typed.parts.len(), 2 * (1 << 20) + 1);
    assert_eq!(read_text(deep.as_bytes(), &SPELLING), Err(25));
}
