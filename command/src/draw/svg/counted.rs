//! Violations that are too close to be seen one by one: columns are shaded, and above them is
//! told how many violations a group has, and from which tick to which it goes.

use super::page::{wide, Page, LETTER};
use super::shades;
use super::xml::px;
use crate::draw::scale::{round, Stretch};
use crate::draw::share::Marked;
use crate::draw::words::grouped;
use station_watch::Refusal;

pub fn draw(page: &mut Page, marked: Marked, columns: &[Stretch]) -> Result<(), Refusal> {
    let mut brackets = String::new();
    for group in groups(page, marked)? {
        let (start, width) = page.placed(group.extent);
        brackets += &format!("M{} {}v-3h{}v3", px(start), px(page.y + 15.0), px(width));
        let count = grouped(group.count);
        let x = place(page, group.within, start + width / 2.0, &count);
        page.words("label", (x, page.y + 9.0), &count);
    }
    page.path("bracket", &brackets);
    shades::strip(page, "broken", page.y + 24.0, columns, &marked.counts(columns)?);
    page.y += 38.0;
    Ok(())
}

/// The violations at the ticks of a part of the stretch.
struct Group {
    within: Stretch,
    /// From the first of them to the last.
    extent: Stretch,
    count: u64,
}

/// Groups in parts of as few ticks as leave each count its room.
fn groups(page: &Page, marked: Marked) -> Result<Vec<Group>, Refusal> {
    let fits = |each: u64, count: u64| room(&grouped(count)) <= each as f64 * page.tick();
    let mut each = round(|each| fits(each, 1));
    loop {
        let groups = groups_of(parts(page.stretch, each), marked)?;
        let most = groups.iter().map(|group| group.count).max().unwrap_or(1);
        if fits(each, most) || each > page.stretch.ticks() {
            return Ok(groups);
        }
        each = round(|larger| larger > each);
    }
}

fn groups_of(parts: Vec<Stretch>, marked: Marked) -> Result<Vec<Group>, Refusal> {
    let mut groups = Vec::new();
    for within in parts {
        if let Some(extent) = marked.extent(within)? {
            groups.push(Group { within, extent, count: marked.count(within)? });
        }
    }
    Ok(groups)
}

/// The columns of so many ticks; what the ends of the stretch cut goes to its neighbour, so
/// that none has fewer.
fn parts(stretch: Stretch, each: u64) -> Vec<Stretch> {
    let mut parts: Vec<Stretch> = Vec::new();
    for part in stretch.columns(each) {
        match parts.last_mut() {
            Some(before) if before.ticks().min(part.ticks()) < each => before.last = part.last,
            _ => parts.push(part),
        }
    }
    parts
}

/// How wide a count is, with room around it.
fn room(count: &str) -> f64 {
    wide(count) + LETTER
}

/// Above the group's violations, but inside the group's part, so that no two counts touch.
fn place(page: &Page, within: Stretch, wish: f64, count: &str) -> f64 {
    let half = room(count) / 2.0;
    let start = page.start(within.first);
    let end = start + page.width(within);
    wish.min(end - half).max(start + half)
}
