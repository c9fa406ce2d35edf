//! Sheets of rules, read and written.

use crate::raw;
use crate::refusal::Refusal;
#[cfg(feature = "alloc")]
use alloc::vec::Vec;

/// The body of a rule: that part of the sheet itself. Refusals 1 to 3.
///
/// ```
/// use station_watch::{rule_body, Refusal};
///
/// // One rule; its body begins at byte 5 and has 3 bytes.
/// let sheet = [1, 5, 0, 3, 0, 1, 0, 7];
/// assert_eq!(rule_body(&sheet, 0), Ok(&[1, 0, 7][..]));
/// assert_eq!(rule_body(&sheet, 1), Err(Refusal::NoSuchRule));
/// ```
pub fn rule_body(sheet: &[u8], rule: usize) -> Result<&[u8], Refusal> {
    let (mut start, mut size) = (0, 0);
    // SAFETY: the pointer and length of a slice, and two numbers of this frame.
    Refusal::unless_0(unsafe {
        raw::sw_rule_place(sheet.as_ptr(), sheet.len(), rule, &mut start, &mut size)
    })?;
    Ok(&sheet[start..start + size])
}

/// The bodies of all rules, in their order. Refusals 1, 2.
///
/// ```
/// use station_watch::{bodies, Refusal};
///
/// let sheet = [2, 9, 0, 3, 0, 12, 0, 4, 0, 1, 0, 7, 2, 1, 0, 7];
/// let lengths: Vec<usize> = bodies(&sheet)?.map(|body| body.len()).collect();
/// assert_eq!(lengths, [3, 4]);
/// assert_eq!(bodies(&sheet[..15]).err(), Some(Refusal::EntryLayout));
/// # Ok::<(), Refusal>(())
/// ```
pub fn bodies(sheet: &[u8]) -> Result<impl Iterator<Item = &[u8]>, Refusal> {
    rule_body(sheet, 0)?;
    Ok((0..).map_while(|rule| rule_body(sheet, rule).ok()))
}

/// Writes the sheet of bodies, which lie end to end in `bodies` and have these
/// lengths, at the start of `out`, and answers its length, 1 + 4 for each body + their
/// bytes. Bytes of `out` after it stay. It does not look inside bodies. Refusals 1, 2, 22.
///
/// ```
/// use station_watch::{write_sheet, Refusal};
///
/// let mut out = [0xEE; 9];
/// assert_eq!(write_sheet(&[3], &[1, 0, 7], &mut out), Ok(8));
/// assert_eq!(out, [1, 5, 0, 3, 0, 1, 0, 7, 0xEE]);
/// assert_eq!(write_sheet(&[3], &[1, 0, 7], &mut out[..7]), Err(Refusal::BufferTooShort));
/// ```
pub fn write_sheet(lengths: &[u16], bodies: &[u8], out: &mut [u8]) -> Result<usize, Refusal> {
    let mut written = 0;
    // SAFETY: pointers and lengths of three slices; `out` is borrowed alone, so it is
    // apart from the others, as is the number of this frame.
    Refusal::unless_0(unsafe {
        raw::sw_write_sheet(
            lengths.as_ptr(),
            lengths.len(),
            bodies.as_ptr(),
            bodies.len(),
            out.as_mut_ptr(),
            out.len(),
            &mut written,
        )
    })?;
    Ok(written)
}

/// The sheet of these bodies. Refusals 1, 2.
///
/// ```
/// use station_watch::{sheet_of, Refusal};
///
/// assert_eq!(sheet_of(&[&[1, 0, 7]]), Ok(vec![1, 5, 0, 3, 0, 1, 0, 7]));
/// assert_eq!(sheet_of(&[]), Err(Refusal::RuleCount));
/// assert_eq!(sheet_of(&[&[1, 0, 7], &[]]), Err(Refusal::EntryLayout));
/// ```
#[cfg(feature = "alloc")]
pub fn sheet_of(bodies: &[&[u8]]) -> Result<Vec<u8>, Refusal> {
    let lengths: Vec<u16> = bodies.iter().map(|body| length(body)).collect();
    let bodies = bodies.concat();
    let mut out = alloc::vec![0; 1 + 4 * lengths.len() + bodies.len()];
    let written = write_sheet(&lengths, &bodies, &mut out)?;
    out.truncate(written);
    Ok(out)
}

/// A body's length in 16 bits. One that has no room there is 65,535, which is as
/// little a body's length.
#[cfg(feature = "alloc")]
fn length(body: &[u8]) -> u16 {
    u16::try_from(body.len()).unwrap_or(u16::MAX)
}
