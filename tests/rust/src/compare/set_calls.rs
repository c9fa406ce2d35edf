//! Figures and opening of a set, one call each. Every function answers the number that the
//! library and the paper agree on.

use super::{hex, Check, MARK};
use crate::demand;
use crate::lent::{Lent, Word};
use crate::library::{Library, Running, SetFiguresAnswer};
use crate::paper::{self, OpenedSet, SetLengths};
use crate::random::Random;
use crate::records;

/// "1, 2, then the first that sw_figures answers for a rule, in rule order (4 to 15, 23, 24),
/// then 27."
pub fn set_figures(library: &dyn Library, sheet: &[u8]) -> Check<u32> {
    let about = || format!("figures of the set {}", hex(sheet));
    let mut lent = Lent::new(sheet);
    let mut rules = Lent::one(MARK as usize);
    let mut numbers = [MARK; 3].map(Lent::one);
    let [history, cells, pairs] = &mut numbers;
    let answer = SetFiguresAnswer {
        rules: rules.slot(),
        history: history.slot(),
        cells: cells.slot(),
        pairs: pairs.slot(),
    };
    let number = library.set_figures(lent.part(), answer);
    let (due, due_rules, due_numbers) = match paper::set_rules(sheet) {
        Err(number) => (number, MARK as usize, [MARK; 3]),
        Ok(rules) => {
            let set = OpenedSet { rules, history_length: 0 };
            let sums = [set.history(), set.needed_words() / 4, set.most_pairs()];
            (0, set.rules.len(), sums.map(|sum| sum as u64))
        }
    };
    demand!(number == due, "{}: answered {number}, due is {due}", about());
    let answered = (rules.seen()[0], numbers.each_ref().map(|answer| answer.seen()[0]));
    let due = (due_rules, due_numbers);
    demand!(answered == due, "{}: {answered:?}, due is {due:?}", about());
    demand!(lent.seen() == sheet, "{}: the sheet was changed", about());
    let guards = rules.guards_hold() && numbers.iter().all(Lent::guards_hold);
    demand!(guards && lent.guards_hold(), "{}: wrote outside", about());
    Ok(number)
}

/// "Those of sw_set_figures in their order, then 17, 18". The report's length does not count.
pub fn set_opening(
    library: &dyn Library,
    random: &mut Random,
    sheet: &[u8],
    lengths: SetLengths,
) -> Check<u32> {
    let about = || format!("opening a set with {lengths:?}, of {}", hex(sheet));
    let records_before = noise(random, lengths.records);
    let history_before = random.bytes(lengths.history);
    let table_before = random.words(lengths.table);
    let mut lent_sheet = Lent::shifted(sheet, random.below(8));
    let mut records = Lent::new(&records_before);
    let mut history = Lent::shifted(&history_before, random.below(8));
    let mut table = Lent::new(&table_before);
    let number = library.set_open(lent_sheet.part(), records.part(), history.part(), table.part());
    let due = paper::open_set(sheet, lengths);
    let due_number = due.as_ref().err().copied().unwrap_or(0);
    demand!(number == due_number, "{}: answered {number}, due is {due_number}", about());
    let (mut due_records, mut due_history) = (records_before, history_before);
    if let Ok(opened) = due {
        due_records[..opened.rules.len()].copy_from_slice(&records::fresh(&opened));
        due_history.fill(0);
    }
    demand!(records.seen() == due_records, "{}: the records are not as due", about());
    demand!(history.seen() == due_history, "{}: the history is not as due", about());
    demand!(table.seen() == table_before, "{}: the table was changed", about());
    demand!(lent_sheet.seen() == sheet, "{}: the sheet was changed", about());
    let guards = lent_sheet.guards_hold() && records.guards_hold();
    let guards = guards && history.guards_hold() && table.guards_hold();
    demand!(guards, "{}: wrote outside", about());
    Ok(number)
}

/// Records of any content.
pub(super) fn noise(random: &mut Random, count: usize) -> Vec<Running> {
    (0..count).map(|_| Running::guard(random.below(1 << 20))).collect()
}
