//! `sheet OUT BODY..`.

use crate::answer::{Answer, Stop};
use crate::files;
use station_watch::sheet_of;
use std::path::Path;

/// Writes the sheet of these bodies, and gives a line with what it holds.
pub fn write(out: &Path, bodies: &[Vec<u8>]) -> Result<Answer, Stop> {
    let parts: Vec<&[u8]> = bodies.iter().map(Vec::as_slice).collect();
    let sheet = sheet_of(&parts)?;
    files::write(out, &sheet)?;
    let (out, rules, size) = (out.display(), parts.len(), sheet.len());
    Ok(Answer::given(format!("sheet {out} rules {rules} bytes {size}\n")))
}
