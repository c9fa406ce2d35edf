//! Sheets, damaged sheets, and what a writer may be given.

use super::bodies::any_body;
use super::formulas::accepted_rule;
use super::Random;
use crate::paper::{write_sheet, MAX_BODY, MAX_RULES};

/// The sheet of these bodies.
pub fn sheet_of(bodies: &[Vec<u8>]) -> Vec<u8> {
    let lengths: Vec<u16> = bodies.iter().map(|body| body.len() as u16).collect();
    let joined = bodies.concat();
    let mut sheet = vec![0; 1 + 4 * lengths.len() + joined.len()];
    let written = write_sheet(&lengths, &joined, &mut sheet);
    assert_eq!(written, Ok(sheet.len()), "the bodies fit into a sheet");
    sheet
}

/// A sheet that holds `body` among others, which may be anything; and the
/// body's rule number.
pub fn sheet_with(random: &mut Random, body: &[u8]) -> (Vec<u8>, usize) {
    let mut bodies = if random.one_in(2) { Vec::new() } else { sheet_bodies(random) };
    bodies.truncate(MAX_RULES - 1);
    let rule = random.size(0, bodies.len());
    bodies.insert(rule, body.to_vec());
    (sheet_of(&bodies), rule)
}

/// 1 to 32 bodies of 1 to 512 bytes, most of them few.
pub fn sheet_bodies(random: &mut Random) -> Vec<Vec<u8>> {
    let count = if random.one_in(8) { random.size(1, MAX_RULES) } else { random.size(1, 4) };
    (0..count).map(|_| sheet_body(random)).collect()
}

fn sheet_body(random: &mut Random) -> Vec<u8> {
    let mut body = match random.below(4) {
        0 => {
            let length = random.pick(&[1, 2, 255, 256, MAX_BODY - 1, MAX_BODY]);
            random.bytes(length)
        }
        1 => accepted_rule(random).body,
        _ => any_body(random),
    };
    body.truncate(MAX_BODY);
    if body.is_empty() {
        body.push(random.byte());
    }
    body
}

/// A sheet with one or two damages, most of them in its table of contents.
pub fn damaged_sheet(random: &mut Random) -> Vec<u8> {
    let mut sheet = sheet_of(&sheet_bodies(random));
    for _ in 0..random.pick(&[1, 1, 1, 2]) {
        damage(random, &mut sheet);
    }
    sheet
}

/// One damage, most often in the table of contents.
pub(super) fn damage(random: &mut Random, sheet: &mut Vec<u8>) {
    if sheet.is_empty() {
        return;
    }
    let table = (1 + 4 * sheet[0] as usize).min(sheet.len());
    let in_table = random.below(table);
    match random.below(9) {
        0 => sheet[0] = random.pick(&[0, 1, 2, 31, 32, 33, 255]),
        1 => sheet[0] = sheet[0].wrapping_add(random.pick(&[1, 255])),
        2 | 3 => sheet[in_table] = sheet[in_table].wrapping_add(random.pick(&[1, 2, 254, 255])),
        4 => sheet[in_table] = random.byte(),
        5 => sheet.truncate(in_table),
        6 => {
            let last = sheet.len() - 1;
            let length = if random.one_in(2) { last } else { random.below(last + 1) };
            sheet.truncate(length);
        }
        7 => {
            let count = random.pick(&[1, 1, 2, 5]);
            sheet.extend(random.bytes(count));
        }
        _ => move_border(random, sheet),
    }
}

/// Moves the border between two bodies in the lengths, so that their sum stays.
fn move_border(random: &mut Random, sheet: &mut [u8]) {
    let count = sheet[0] as usize;
    if count < 2 || sheet.len() < 1 + 4 * count {
        return;
    }
    let rule = random.below(count - 1);
    let (here, next) = (1 + 4 * rule + 2, 1 + 4 * rule + 6);
    sheet[here] = sheet[here].wrapping_add(1);
    sheet[next] = sheet[next].wrapping_sub(1);
    if random.one_in(2) {
        // With the offset moved along, the layout is whole again.
        sheet[next - 2] = sheet[next - 2].wrapping_add(1);
    }
}

/// What a writer is given.
#[derive(Clone, Debug)]
pub struct WriterInput {
    pub lengths: Vec<u16>,
    pub bodies: Vec<u8>,
    pub room: usize,
}

/// Half of them accepted, the others refused with 1, 2 or 22, or with several
/// of these at hand.
pub fn writer_input(random: &mut Random) -> WriterInput {
    let mut lengths: Vec<u16> = sheet_bodies(random).iter().map(|body| body.len() as u16).collect();
    if random.one_in(8) {
        let count = random.pick(&[0, 1, 31, 32, 33, 34, 200]);
        lengths = (0..count).map(|_| random.size(1, 20) as u16).collect();
    }
    if random.one_in(6) && !lengths.is_empty() {
        let at = random.below(lengths.len());
        lengths[at] = random.pick(&[0, 1, 512, 513, 1024, 32_768, 65_535]);
    }
    let sum: usize = lengths.iter().map(|&n| n as usize).sum();
    let size = match random.below(8) {
        0 => sum + random.size(1, 3),
        1 => sum.saturating_sub(random.size(1, 3)),
        _ => sum,
    };
    let needed = 1 + 4 * lengths.len() + size;
    let room = match random.below(6) {
        0 => needed - 1,
        1 => random.below(needed + 1),
        2 => needed,
        _ => needed + random.size(1, 40),
    };
    WriterInput { bodies: random.bytes(size), lengths, room }
}
