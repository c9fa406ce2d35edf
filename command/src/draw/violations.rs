//! The violations of a sheet's rules, as the rules are run over a stream.

use super::scale::Stretch;
use super::share::Marked;
use crate::answer::Stop;
use crate::calendar::FLAGS;
use crate::recorded;
use crate::watch;
use station_watch::{bodies, text_from_body, Calendar, Refusal, Triple, WatchSet};
use std::path::Path;

/// The most violations of a rule that are kept one by one: more than a text or a picture has
/// room to draw so.
const MOST: usize = 1_000;

/// A tick that breaks a rule, and the step at which that was certain.
#[derive(Clone, Copy)]
pub struct Violation {
    pub tick: u64,
    pub step: u64,
}

impl Violation {
    fn later(self) -> u64 {
        self.step - self.tick
    }
}

/// The violations of one rule at the ticks that are drawn.
#[derive(Default)]
struct Kept {
    /// In the order in which they are reported; of too many the first, and one too many.
    listed: Vec<Violation>,
    /// Those of the smallest and of the largest tick.
    ends: Option<(Violation, Violation)>,
    /// How many steps after its tick a violation was certain: the fewest and the most.
    later: Option<(u64, u64)>,
}

impl Kept {
    fn take(&mut self, new: Violation) {
        if self.listed.len() <= MOST {
            self.listed.push(new);
        }
        let (mut first, mut last) = self.ends.unwrap_or((new, new));
        if new.tick < first.tick {
            first = new;
        }
        if new.tick > last.tick {
            last = new;
        }
        self.ends = Some((first, last));
        let (fewest, most) = self.later.unwrap_or((new.later(), new.later()));
        self.later = Some((fewest.min(new.later()), most.max(new.later())));
    }
}

/// The calendar in which the ticks that break a rule are marked, and the flag that they are
/// marked as.
fn place(rule: usize) -> (usize, u8) {
    let flags = usize::from(FLAGS);
    (rule / flags, (rule % flags) as u8)
}

/// Rules that run over a stream from tick 0 on, and what they report of the ticks that are
/// drawn.
pub struct Watched {
    set: WatchSet,
    drawn: Stretch,
    /// No tick that is drawn is open after so many steps.
    steps: u64,
    calendars: Vec<Calendar>,
    rules: Vec<Kept>,
}

impl Watched {
    pub fn open(sheet: &Path, drawn: Stretch) -> Result<Watched, Stop> {
        let set = watch::open(sheet)?;
        let delay = set.rule_figures().iter().map(|figures| figures.delay).max().unwrap_or(0);
        let steps = drawn.last.saturating_add(delay as u64 + 1);
        let count = set.rule_figures().len();
        let calendars = vec![Calendar::default(); count.div_ceil(FLAGS.into())];
        let rules = (0..count).map(|_| Kept::default()).collect();
        Ok(Watched { set, drawn, steps, calendars, rules })
    }

    /// Takes the next flag bytes, but none by which nothing more is decided.
    pub fn take(&mut self, flags: &[u8]) -> Result<(), Stop> {
        let left = self.steps.saturating_sub(self.set.next_tick());
        let needed = flags.len().min(left.try_into().unwrap_or(usize::MAX));
        let (drawn, calendars, rules) = (self.drawn, &mut self.calendars, &mut self.rules);
        self.set.steps(&flags[..needed], |Triple { rule, tick, step }| {
            let rule = rule as usize;
            if drawn.has(tick) {
                let (calendar, flag) = place(rule);
                recorded::fill(&mut calendars[calendar], tick, &[1 << flag]);
                rules[rule].take(Violation { tick, step });
            }
        })?;
        Ok(())
    }

    pub fn ended(self) -> Result<Rules, Refusal> {
        let (sheet, ..) = self.set.parts();
        let texts: Result<Vec<String>, Refusal> = bodies(sheet)?.map(text_from_body).collect();
        Ok(Rules { texts: texts?, calendars: self.calendars, rules: self.rules })
    }
}

/// The rules of a sheet, and their violations at the ticks that are drawn.
pub struct Rules {
    texts: Vec<String>,
    calendars: Vec<Calendar>,
    rules: Vec<Kept>,
}

/// The violations of one of them, if there are any.
pub struct RuleViolations<'a> {
    pub rule: usize,
    pub text: &'a str,
    /// The ticks that break it.
    pub marked: Marked<'a>,
    /// How many there are.
    pub count: u64,
    /// All of them in the order in which they are reported, unless there are too many.
    pub listed: Option<&'a [Violation]>,
    /// Those of the smallest and of the largest tick.
    pub ends: Option<(Violation, Violation)>,
    /// How many steps after its tick a violation was certain: the fewest and the most.
    pub later: Option<(u64, u64)>,
}

impl Rules {
    pub fn all(&self) -> Result<Vec<RuleViolations<'_>>, Refusal> {
        (0..self.rules.len()).map(|rule| self.violations(rule)).collect()
    }

    fn violations(&self, rule: usize) -> Result<RuleViolations<'_>, Refusal> {
        let Kept { listed, ends, later } = &self.rules[rule];
        let (calendar, flag) = place(rule);
        let marked = Marked { calendar: &self.calendars[calendar], flag };
        Ok(RuleViolations {
            rule,
            text: &self.texts[rule],
            marked,
            count: marked.count(Stretch::ALL)?,
            listed: (listed.len() <= MOST).then_some(listed),
            ends: *ends,
            later: *later,
        })
    }
}
