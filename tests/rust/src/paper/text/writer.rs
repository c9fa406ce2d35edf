//! A formula as text, with the names x, y, z, u, v by nesting.

use crate::paper::{Bound, Formula};

/// Of variables 0 to 4: a body that is read has no others.
const NAMES: [char; 5] = ['x', 'y', 'z', 'u', 'v'];

/// The whole rule.
pub fn write_text(formula: &Formula) -> String {
    format!("monitor {} : {}", NAMES[0], formula_text(formula, 0))
}

/// A formula nested under `nested` quantifiers.
fn formula_text(formula: &Formula, nested: usize) -> String {
    let part = |part: &Formula| formula_text(part, nested);
    match formula {
        Formula::Flag(variable, flag) => format!("@{}.{flag}", NAMES[*variable]),
        Formula::Not(f) => format!("~{}", part(f)),
        Formula::Then(f, g) => format!("({} && {})", part(f), part(g)),
        Formula::Beside(f, g) => format!("({} /\\ {})", part(f), part(g)),
        Formula::ForAll(first, second, f) => {
            let (name, inside) = (NAMES[nested + 1], formula_text(f, nested + 1));
            format!("forall {name} in {}..{} : {inside}", bound_text(*first), bound_text(*second))
        }
    }
}

fn bound_text(bound: Bound) -> String {
    match bound {
        Bound::Start(offset) => format!("0{}", offset_text(offset)),
        Bound::Infinity => "infinity".to_string(),
        Bound::Variable(variable, offset) => format!("{}{}", NAMES[variable], offset_text(offset)),
    }
}

fn offset_text(offset: i64) -> String {
    match offset {
        0 => String::new(),
        1.. => format!("+{offset}"),
        _ => offset.to_string(),
    }
}
