//! "The body written is that reading's": names become variables, and refusal 26.

use super::{Base, End, Name, Part, Typed};
use crate::paper::Refusal;

/// The bytes of a typed rule, as document 01 orders them; or 26. What a body may not have
/// is left to its reader.
pub fn to_bytes(typed: &Typed) -> Result<Vec<u8>, Refusal> {
    let mut bytes = Vec::new();
    // For each formula that is still to come, the names that are bound there, in the order
    // of their variables.
    let mut awaited = vec![vec![typed.name]];
    for part in &typed.parts {
        let scope = awaited.pop().expect("as many formulas as are awaited");
        match part {
            Part::Flag(name, flag) => bytes.extend([1, variable(name, &scope)?, *flag]),
            Part::Not => {
                bytes.push(2);
                awaited.push(scope);
            }
            Part::Then | Part::Beside => {
                bytes.push(if *part == Part::Then { 3 } else { 4 });
                awaited.extend([scope.clone(), scope]);
            }
            // "Bounds see only variables bound outside their quantifier."
            Part::ForAll(name, first, second) => {
                bytes.push(5);
                bytes.extend(end(first, &scope)?);
                bytes.extend(end(second, &scope)?);
                awaited.push([&scope[..], &[*name]].concat());
            }
        }
    }
    Ok(bytes)
}

/// "An inner name may hide an outer one": the last of this name.
fn variable(name: Name, scope: &[Name]) -> Result<u8, Refusal> {
    scope.iter().rposition(|bound| *bound == name).map(|place| place as u8).ok_or(26)
}

/// "Kind (0 the stream's position 0, 1 infinity, 2 a variable), variable, and a signed
/// 16-bit offset, low byte first".
fn end(end: &End, scope: &[Name]) -> Result<[u8; 4], Refusal> {
    let (kind, variable) = match end.base {
        Base::Start => (0, 0),
        Base::Infinity => (1, 0),
        Base::Name(name) => (2, variable(name, scope)?),
    };
    let offset = match end.offset {
        None => 0,
        Some((b'+', digits)) => digits_value(digits),
        Some((_, digits)) => -digits_value(digits),
    };
    let [low, high] = (offset as i16).to_le_bytes();
    Ok([kind, variable, low, high])
}

/// The number that decimal digits say.
pub fn digits_value(digits: &[u8]) -> i32 {
    digits.iter().fold(0, |value, digit| 10 * value + (digit - b'0') as i32)
}
