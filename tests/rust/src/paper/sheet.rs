//! "The sheet": its reader and its writer.

use super::{Refusal, MAX_BODY, MAX_RULES};

/// "Asked for a rule's body, the reader gives back that part of the caller's
/// own sheet."
pub fn rule_body(sheet: &[u8], rule: usize) -> Result<&[u8], Refusal> {
    let (start, size) = rule_place(sheet, rule)?;
    Ok(&sheet[start..start + size])
}

/// Where a rule's body starts in its sheet, and its size. Refusals 1 to 3.
pub fn rule_place(sheet: &[u8], rule: usize) -> Result<(usize, usize), Refusal> {
    let count = rule_count(sheet)?;
    check_layout(sheet, count)?;
    // "3: rule number not below n."
    if rule >= count {
        return Err(3);
    }
    Ok(entry(sheet, rule))
}

/// "1: sheet empty, n outside 1..32, or fewer than the 1 + 4n bytes of its
/// table of contents."
fn rule_count(sheet: &[u8]) -> Result<usize, Refusal> {
    let count = match sheet.first() {
        None => return Err(1),
        Some(&n) => n as usize,
    };
    if !(1..=MAX_RULES).contains(&count) || sheet.len() < 1 + 4 * count {
        return Err(1);
    }
    Ok(count)
}

/// "Then n entries of 4 bytes: offset and length of a body, 16 bits each, low
/// byte first."
fn entry(sheet: &[u8], rule: usize) -> (usize, usize) {
    let at = 1 + 4 * rule;
    (word(sheet, at), word(sheet, at + 2))
}

fn word(bytes: &[u8], at: usize) -> usize {
    bytes[at] as usize + 256 * bytes[at + 1] as usize
}

/// "2: an entry breaks the layout": "The first body begins at 1 + 4n, each next
/// one where the last ended, the last one ends with the sheet; a length is 1 to
/// 512."
fn check_layout(sheet: &[u8], count: usize) -> Result<(), Refusal> {
    let mut due = 1 + 4 * count;
    for rule in 0..count {
        let (start, size) = entry(sheet, rule);
        if start != due || !(1..=MAX_BODY).contains(&size) {
            return Err(2);
        }
        due = start + size;
    }
    if due != sheet.len() {
        return Err(2);
    }
    Ok(())
}

/// "The writer takes 1 to 32 lengths (16-bit) and the bodies end to end, writes
/// the sheet at the start of a lent buffer and answers its length; bytes after
/// it keep their content. It doesn't look inside bodies."
pub fn write_sheet(lengths: &[u16], bodies: &[u8], out: &mut [u8]) -> Result<usize, Refusal> {
    check_lengths(lengths, bodies)?;
    let table = 1 + 4 * lengths.len();
    let needed = table + bodies.len();
    // "22: writer's buffer too short, after 1 and 2."
    if out.len() < needed {
        return Err(22);
    }
    out[0] = lengths.len() as u8;
    let mut start = table;
    for (rule, &size) in lengths.iter().enumerate() {
        let at = 1 + 4 * rule;
        out[at..at + 2].copy_from_slice(&(start as u16).to_le_bytes());
        out[at + 2..at + 4].copy_from_slice(&size.to_le_bytes());
        start += size as usize;
    }
    out[table..needed].copy_from_slice(bodies);
    Ok(needed)
}

/// "1: [..] (writer: count of lengths)", "2: [..] (writer: a length outside
/// 1..512, or their sum isn't the bodies' size)".
fn check_lengths(lengths: &[u16], bodies: &[u8]) -> Result<(), Refusal> {
    if lengths.is_empty() || lengths.len() > MAX_RULES {
        return Err(1);
    }
    if lengths.iter().any(|&n| n < 1 || n as usize > MAX_BODY) {
        return Err(2);
    }
    let sum: usize = lengths.iter().map(|&n| n as usize).sum();
    if sum != bodies.len() {
        return Err(2);
    }
    Ok(())
}
