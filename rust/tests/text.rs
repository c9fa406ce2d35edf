//! Rules as text in memory of its own: read, printed, and read again.

mod common;

use common::{BODY, FLAG, LATE, TEXT};
use station_watch::{body_from_text, text_from_body, Refusal, MAX_BODY, MAX_TEXT};

#[test]
fn the_example() {
    assert_eq!(body_from_text(TEXT), Ok(BODY.to_vec()));
    assert_eq!(body_from_text(TEXT.as_bytes()), Ok(BODY.to_vec()));
    assert_eq!(text_from_body(&BODY), Ok(TEXT.to_string()));
}

/// Each form, each kind of bound, and the names by nesting.
#[test]
fn every_form() {
    let same = |text: &str, body: &[u8]| {
        assert_eq!(body_from_text(text).as_deref(), Ok(body), "{text}");
        assert_eq!(text_from_body(body).as_deref(), Ok(text), "{body:?}");
    };
    same("monitor x : @x.0", &FLAG);
    same("monitor x : ~@x.7", &[2, 1, 0, 7]);
    same("monitor x : (@x.1 && @x.2)", &[3, 1, 0, 1, 1, 0, 2]);
    same("monitor x : (@x.1 /\\ @x.2)", &[4, 1, 0, 1, 1, 0, 2]);
    same("monitor x : forall y in x+255..x+255 : @y.0", &LATE);
    let from_0 = [5, 0, 0, 0, 0, 1, 0, 0, 0, 1, 0, 3];
    same("monitor x : forall y in 0..infinity : @x.3", &from_0);
    let far = [5, 0, 0, 0xFF, 0x0F, 2, 0, 0x01, 0xF0, 1, 1, 0];
    same("monitor x : forall y in 0+4095..x-4095 : @y.0", &far);
    let nested: Vec<u8> = (0..4).flat_map(|outer| [5, 2, outer, 0, 0, 2, outer, 0, 0]).collect();
    let text = "monitor x : forall y in x..x : forall z in y..y : forall u in z..z : \
                forall v in u..u : @v.0";
    same(text, &[&nested[..], &[1, 4, 0]].concat());
}

/// Other names and spellings of the same rule.
#[test]
fn names_and_offsets() {
    let body = |text: &str| body_from_text(text).unwrap();
    let due = body("monitor x : forall y in x..x-1 : @y.0");
    assert_eq!(body("monitor tick : forall position in tick..tick-1 : @position.0"), due);
    assert_eq!(body("monitor x : forall y in x+0..x-0001 : @y.0"), due);
    assert_eq!(body("monitor x : forall y in x-0..x-01 : @y.0"), due);
    // An inner name hides an outer one, but not in its own bounds.
    assert_eq!(body("monitor x : forall x in x..x-1 : @x.0"), due);
    let infinite = body("monitor x : forall y in infinity+0..infinity-0000 : @y.0");
    assert_eq!(infinite, body("monitor x : forall y in infinity..infinity : @y.0"));
}

/// The longest body and the longest text of a rule have room: ten connectives over eleven
/// flags under 43 ranges, 64 formulas in all.
#[test]
fn the_longest() {
    let range = [5, 1, 0, 0, 0, 1, 0, 0, 0];
    let flags = |ranges: usize| [range.repeat(ranges), FLAG.to_vec()].concat();
    let body = [vec![3; 10], flags(4).repeat(10), flags(3)].concat();
    let text = text_from_body(&body).unwrap();
    assert_eq!((body.len(), text.len()), (430, 1_535));
    assert!(body.len() <= MAX_BODY && text.len() <= MAX_TEXT);
    assert_eq!(body_from_text(&text), Ok(body));
}

#[test]
fn refused() {
    assert_eq!(body_from_text("monitor x : @x.0 "), Err(Refusal::Misspelt));
    assert_eq!(body_from_text("monitor x : \u{e9}"), Err(Refusal::Misspelt));
    assert_eq!(body_from_text([0xFF; 9]), Err(Refusal::Misspelt));
    assert_eq!(body_from_text("monitor x : @y.0"), Err(Refusal::UnboundName));
    assert_eq!(body_from_text("monitor x : @x.9"), Err(Refusal::NoSuchFlag));
    assert_eq!(text_from_body(&[1, 0, 9]), Err(Refusal::NoSuchFlag));
    // A rule that no engine can watch has a text all the same.
    assert!(body_from_text("monitor x : forall y in 0..infinity : @y.0").is_ok());
}
