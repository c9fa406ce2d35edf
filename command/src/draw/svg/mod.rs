//! A picture as an SVG file.

mod axis;
mod counted;
mod joined;
mod legend;
mod page;
mod rule_row;
mod shades;
mod xml;

use super::picture::Picture;
use super::scale::Stretch;
use super::words::{counted, elided, grouped};
use page::{Page, COUNTS, NAMES, TICKS, WIDTH};
use station_watch::Refusal;
use xml::{escaped, px};

const STYLE: &str = include_str!("style.css");

/// The most columns: one for each unit of the width.
const COLUMNS: usize = TICKS as usize;

/// The height of a flag's row.
const ROW: f64 = 24.0;

/// The most letters of the title, and of the sheet's name.
const TITLE: usize = 105;
const SHEET: usize = 110;

pub fn drawn(picture: &Picture) -> Result<String, Refusal> {
    let each = picture.stretch.column_ticks(COLUMNS);
    let columns: Vec<Stretch> = picture.stretch.columns(each).collect();
    let mut page = Page::new(picture.stretch);
    title(&mut page, picture);
    page.y += 24.0;
    axis::numbers(&mut page);
    page.y += 8.0;
    let top = page.y;
    rows(&mut page, picture, &columns)?;
    rules(&mut page, picture, &columns)?;
    let bottom = page.y + 4.0;
    if picture.sheet.is_some() {
        page.y += 18.0;
        axis::numbers(&mut page);
    }
    page.y += 8.0;
    legend::draw(&mut page, picture, each);
    page.y += 20.0;
    // The lines come first, so that they lie below the rest.
    let mut lines = Page::new(picture.stretch);
    axis::lines(&mut lines, top, bottom);
    Ok(file(picture, &(lines.body + &page.body), page.y))
}

fn title(page: &mut Page, picture: &Picture) {
    page.y += 30.0;
    page.words("title", (NAMES, page.y), &headline(picture));
    if let Some(sheet) = &picture.sheet {
        page.y += 22.0;
        let name = elided(sheet.name, SHEET);
        let rules = counted(&sheet.rules.len().to_string(), "rule");
        let violations = counted(&grouped(picture.violations()), "violation");
        page.words("under", (NAMES, page.y), &format!("{name}: {rules}, {violations}"));
    }
}

fn headline(picture: &Picture) -> String {
    let Stretch { first, last } = picture.stretch;
    let (first, last, ticks) = (grouped(first), grouped(last), grouped(picture.ticks));
    let ticks = format!(": ticks {first} to {last} of {ticks}");
    elided(picture.flags, TITLE.saturating_sub(ticks.len())) + &ticks
}

fn rows(page: &mut Page, picture: &Picture, columns: &[Stretch]) -> Result<(), Refusal> {
    let top = page.y;
    for (flag, marked) in picture.rows.iter().enumerate() {
        let y = page.y + ROW / 2.0;
        page.words("name", (NAMES, y + 5.0), &format!("flag {flag}"));
        let counts = marked.counts(columns)?;
        shades::strip(page, "flag", y, columns, &counts);
        let count = match counts.iter().sum() {
            0 => "never up".to_string(),
            ups => counted(&grouped(ups), "up"),
        };
        page.words("count", (COUNTS, y + 5.0), &count);
        page.y += ROW;
    }
    axis::between(page, top, page.y);
    Ok(())
}

fn rules(page: &mut Page, picture: &Picture, columns: &[Stretch]) -> Result<(), Refusal> {
    for violations in picture.rules() {
        page.y += 8.0;
        rule_row::draw(page, violations, columns)?;
    }
    Ok(())
}

/// The whole file. Its size is told in units that are pixels where it is not scaled.
fn file(picture: &Picture, body: &str, height: f64) -> String {
    let (width, height, title) = (px(WIDTH), px(height), escaped(&headline(picture)));
    format!(
        "<?xml version=\"1.0\" encoding=\"UTF-8\"?>\n\
         <svg xmlns=\"http://www.w3.org/2000/svg\" width=\"{width}\" height=\"{height}\" \
         viewBox=\"0 0 {width} {height}\" role=\"img\">\n\
         <title>{title}</title>\n\
         <style>\n{STYLE}</style>\n\
         <rect class=\"page\" width=\"{width}\" height=\"{height}\"/>\n\
         {body}</svg>\n"
    )
}
