//! Bodies and texts of about 64 formulas, through every call that reads one.

use super::calls::{figures, opening, outcome};
use super::texts::{from_text, to_text, ROOM};
use super::{Check, Numbers};
use crate::demand;
use crate::library::Library;
use crate::paper::{Formula, CELL_WORDS, MAX_BODY, MAX_CELLS, MAX_FORMULAS, MAX_HISTORY};
use crate::random::{self, Random};

/// "Code present (4), known (5), 9", where the 63rd, 64th, 65th or 66th formula is due: after
/// nots alone, and after formulas of every code.
pub fn formula_counts(library: &dyn Library, seed: u64, count: usize) -> Check<Numbers> {
    let mut random = Random::new(seed);
    let mut numbers = Numbers::default();
    for round in 0..count {
        for formulas in MAX_FORMULAS - 2..=MAX_FORMULAS + 1 {
            let before = match round {
                0 => vec![2; formulas],
                _ => random::begun(&mut random, formulas),
            };
            for ending in random::endings(&mut random) {
                let body = [&before[..], &ending].concat();
                numbers.add(every_reader(library, &mut random, &body)?);
            }
        }
    }
    Ok(numbers)
}

/// Each call that is lent a body. A state's body is `hostile::forged_states`'.
fn every_reader(library: &dyn Library, random: &mut Random, body: &[u8]) -> Check<u32> {
    let number = figures(library, body)?;
    let recording = random.bytes(3);
    outcome(library, body, &recording, random.below(4))?;
    to_text(library, body, ROOM)?;
    if body.len() <= MAX_BODY {
        through_a_sheet(library, random, body)?;
    }
    Ok(number)
}

/// The sheet that the library writes of the body is opened with memory for every rule.
fn through_a_sheet(library: &dyn Library, random: &mut Random, body: &[u8]) -> Check {
    let (mut sheet, mut written) = (vec![0; 5 + body.len()], 0);
    let number = library.write_sheet(&[body.len() as u16], body, &mut sheet, &mut written);
    let whole = (number, written) == (0, sheet.len());
    demand!(whole, "the sheet of a body: answered {number}, wrote {written}");
    let lengths = (MAX_HISTORY, CELL_WORDS * MAX_CELLS as usize);
    opening(library, random, &sheet, 0, lengths)?;
    Ok(())
}

/// Typed rules of 62 to 66 formulas. A text names no unknown code, and one whose last formula
/// is missing is misspelt.
pub fn typed_formula_counts(library: &dyn Library, seed: u64, count: usize) -> Check<Numbers> {
    let mut random = Random::new(seed);
    let mut numbers = Numbers::default();
    for _ in 0..count {
        for formulas in MAX_FORMULAS - 2..=MAX_FORMULAS + 2 {
            let formula = of_size(&mut random, formulas);
            let text = random::typed(&mut random, &formula);
            numbers.add(from_text(library, text.as_bytes(), ROOM)?);
            let cut = text.rfind('@').expect("every rule has a flag");
            numbers.add(from_text(library, &text.as_bytes()[..cut], ROOM)?);
        }
    }
    Ok(numbers)
}

/// A formula with nots before it, so that there are so many.
fn of_size(random: &mut Random, count: usize) -> Formula {
    loop {
        let mut formula = random::wild_formula(random);
        let size = random::size(&formula);
        if size > count {
            continue;
        }
        for _ in size..count {
            formula = Formula::Not(Box::new(formula));
        }
        return formula;
    }
}
