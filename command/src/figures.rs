//! `figures SHEET`.

use crate::answer::{Answer, Stop};
use crate::files;
use station_watch::{bodies, figures};
use std::path::Path;

/// A line for each rule: its figures or its refusal.
pub fn of_sheet(sheet: &Path) -> Result<Answer, Stop> {
    let sheet = files::read_sheet(sheet)?;
    let mut answer = Answer::given(String::new());
    for (rule, body) in bodies(&sheet)?.enumerate() {
        match figures(body) {
            Ok(figures) => answer.text += &format!("rule {rule} {figures}\n"),
            Err(refusal) => {
                answer.text += &format!("rule {rule} {refusal}\n");
                answer.refuse();
            }
        }
    }
    Ok(answer)
}
