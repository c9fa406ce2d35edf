//! What is seen, in words.

use super::joined::{diamond, DOT};
use super::page::{wide, Page, LEFT};
use super::rule_row;
use super::xml::px;
use crate::draw::picture::Picture;
use crate::draw::share::{flag_shades, SHADES};
use crate::draw::violations::RuleViolations;
use crate::draw::words::grouped;

/// The height of a line.
const LINE: f64 = 24.0;

/// A line for each kind of row.
pub fn draw(page: &mut Page, picture: &Picture, each: u64) {
    let what = match each {
        1 => "Flags:".to_string(),
        _ => format!("Flags, share of each column's {} ticks that are up:", grouped(each)),
    };
    swatches(page, "flag", &what, flag_shades(each));
    let counted = |rule: &RuleViolations| rule_row::one_by_one(page, rule).is_none();
    let joined = |rule: &RuleViolations| rule.count > 0 && !counted(rule);
    let (joined, counted) =
        (picture.rules().iter().any(joined), picture.rules().iter().any(counted));
    if joined {
        violation(page);
    }
    if counted {
        let what = "Rules, share of ticks that break the rule, and above how many:";
        swatches(page, "broken", what, &SHADES);
    }
}

/// What is shaded, and a sample of each shade with its name.
fn swatches(page: &mut Page, class: &str, what: &str, shades: &[(&str, usize)]) {
    page.y += LINE;
    let y = page.y;
    page.words("small", (LEFT, y), what);
    let mut x = LEFT + about(what) + 12.0;
    for (name, shade) in shades {
        page.path(&format!("{class}{shade}"), &format!("M{} {}h24", px(x), px(y - 4.0)));
        page.words("small", (x + 30.0, y), name);
        x += 30.0 + about(name) + 14.0;
    }
}

/// A sample of a violation, and what its parts are.
fn violation(page: &mut Page) {
    page.y += LINE;
    let y = page.y;
    let what = "Rules, each violation:";
    page.words("small", (LEFT, y), what);
    let (x, middle) = (LEFT + about(what) + 16.0, y - 4.0);
    let line = format!("M{} {}h60", px(x), px(middle));
    page.path("sample", &(diamond((x, middle), 4.0) + &line + DOT));
    let what = "from the tick that breaks the rule to the step at which that was certain";
    page.words("small", (x + 74.0, y), what);
}

/// How wide a sentence is about: most letters are not as wide as can be.
fn about(words: &str) -> f64 {
    0.88 * wide(words)
}
