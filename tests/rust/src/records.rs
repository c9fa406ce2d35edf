//! The records of a set, as the header says: what an opening writes into them, what a step
//! makes of them, and which number a step or a batch is due on any records and any sheet,
//! honest or not: the contract of the library leaves nothing open there
//! (crates/demand/specs/SetContract.antt: `admit-records`, `SetBatched`).

use crate::library::Running;
use crate::paper::{
    self, OpenedSet, Refusal, SetLengths, SetRule, MAX_CELLS, MAX_HISTORY, MAX_RULES, MAX_TICKS,
};

/// A report that is long enough for every set, in words.
pub const ENOUGH: usize = 8192;

/// What an accepted opening writes: "where the rule's body lies, its own part of the cell
/// table, which begins where that of the rule before it ends, its delay, the history's length,
/// next tick 0, 0 live".
pub fn fresh(opened: &OpenedSet) -> Vec<Running> {
    let mut first = 0;
    let mut record = |rule: &SetRule| {
        let cells = rule.figures.cells as u32;
        let own = first;
        first += cells;
        Running {
            start: rule.start as u32,
            size: rule.size as u32,
            first: own,
            cells,
            delay: rule.figures.delay as u16,
            opened: opened.history_length as u16,
            live: 0,
            next: 0,
        }
    };
    opened.rules.iter().map(&mut record).collect()
}

/// What a step makes of a record: "the next tick is t + 1 and the live count is its rule's;
/// their other numbers [..] are as they were".
pub fn put_taken(record: &mut Running, live: usize) {
    record.next = record.next.wrapping_add(1);
    record.live = live as u32;
}

/// What a step that is lent these stands on, or the number it is refused with. 21 comes first,
/// "where no opening of this sheet gives such records"; then 17 to 20.
pub fn admit_step(
    sheet: &[u8],
    records: &[Running],
    lent: SetLengths,
) -> Result<OpenedSet, Refusal> {
    // "The sheet is empty, or its first byte n is not 1 to 32".
    let n = sheet.first().map_or(0, |&count| count as usize);
    if n == 0 || n > MAX_RULES {
        return Err(21);
    }
    // "The first n records, as far as they are lent": "further records are not looked at".
    let looked_at = &records[..n.min(records.len())];
    let rules = running_rules(sheet, looked_at).ok_or(21u32)?;
    // "Where no record is lent, no opened length is known and 17 does not come".
    let history_length = looked_at.first().map_or(lent.history, |lead| lead.opened as usize);
    let opened = OpenedSet { rules, history_length };
    if lent.history != history_length {
        return Err(17);
    }
    // "18 also for fewer records than rules".
    if lent.table < opened.needed_words() || looked_at.len() < n {
        return Err(18);
    }
    if lent.report < opened.needed_report() {
        return Err(19);
    }
    if looked_at[0].next >= MAX_TICKS {
        return Err(20);
    }
    Ok(opened)
}

/// The same of a batch: what a step would be answered "if its report were long enough", also
/// where there are no flags.
pub fn admit_batch(
    sheet: &[u8],
    records: &[Running],
    lent: SetLengths,
) -> Result<OpenedSet, Refusal> {
    admit_step(sheet, records, SetLengths { report: ENOUGH, ..lent })
}

/// The rules of records that an opening of this sheet and its steps can have left.
fn running_rules(sheet: &[u8], records: &[Running]) -> Option<Vec<SetRule>> {
    // "The first record's opened length is above 4096".
    if records.first().is_some_and(|lead| lead.opened as usize > MAX_HISTORY) {
        return None;
    }
    let mut cells: u64 = 0;
    let mut rules = Vec::new();
    for record in records {
        rules.push(running_rule(sheet, record, &records[0], cells)?);
        cells += u64::from(record.cells);
    }
    // "These records have more than 4096 cells together".
    if i128::from(cells) > MAX_CELLS {
        return None;
    }
    Some(rules)
}

/// "One of the first n records [..] does not lie in the sheet [..], or its body does not open,
/// or its cells or its delay are not the body's figures, or the body's history figure is above
/// the opened length, or its first cell is not where the cells of the record before it end, or
/// its opened length or next tick is not that of the first record".
fn running_rule(sheet: &[u8], record: &Running, lead: &Running, first: u64) -> Option<SetRule> {
    let (start, size) = (record.start as usize, record.size as usize);
    let body = sheet.get(start..start + size)?;
    let formula = paper::read_body(body).ok()?;
    let figures = paper::formula_figures(&formula).ok()?;
    let own_figures = figures.cells == u64::from(record.cells)
        && figures.delay == u64::from(record.delay)
        && figures.history <= u64::from(record.opened);
    let in_line = u64::from(record.first) == first
        && record.opened == lead.opened
        && record.next == lead.next;
    (own_figures && in_line).then_some(SetRule { start, size, formula, figures })
}
