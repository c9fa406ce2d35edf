//! The stand-in's calendars: steps as without one, then their ticks marked; questions tick by
//! tick.

use super::{Flaw, StandIn};
use crate::library::{Library, Question, State, StepAnswer, StepLent, StepsAnswer, NO_TICK};
use crate::paper::calendar::{clear, fill, is_up, kept_ticks};
use crate::states::{number_at, NEXT_AT};
use std::cmp::Reverse;

#[derive(Clone, Copy, Debug, PartialEq, Eq)]
pub enum CalendarFlaw {
    // Ranges.
    EndsRangesEarly,
    EndsRangesLate,
    BeginsRangesLate,
    CutsOneEarly,
    KeepsLastGroup,
    ExchangesEnds,
    EmptyAtTheLastTick,
    TicksIn32Bits,
    // Words.
    DropsBit63,
    CountsFromTheTop,
    RunsFlagByFlag,
    // Answers.
    LaterOfTwo,
    NearestNotPastTheEnd,
    NearestInItsRun,
    NearestBefore,
    FarthestIsNone,
    NoneIsZero,
    FlagEightIsZero,
    RefusesFlagSeven,
    AnswersOnRefusal,
    // Clearing and filling.
    ClearsLastGroup,
    ClearsOneGroupLess,
    FillsAnew,
    FillsPastTheEnd,
    FillWraps,
    FillStopsWithTheRun,
    // Openings and steps.
    OpeningLeavesWords,
    RefusedOpeningClears,
    RefusedStepMarks,
    RefusedBatchMarks,
    MarksNextTick,
    WrapsPastTheWords,
    RefusesPastTheWords,
    StepMarksOneFlag,
    ChangesCells,
    StepCountsItself,
    BatchMarksOneMore,
    BatchMarksAll,
    BatchMarksFirst,
}

impl StandIn {
    fn in_calendar(&self, flaw: CalendarFlaw) -> bool {
        self.flaw == Flaw::Calendar(flaw)
    }

    /// The refusal, or what the question answers about the flag.
    pub(super) fn ask_calendar(
        &self,
        words: &[u64],
        flag: u8,
        question: Question,
        answer: &mut u64,
    ) -> u32 {
        let known = match self.flaw {
            Flaw::Calendar(CalendarFlaw::FlagEightIsZero) => flag <= 8,
            Flaw::Calendar(CalendarFlaw::RefusesFlagSeven) => flag < 7,
            _ => flag <= 7,
        };
        if !known {
            if self.in_calendar(CalendarFlaw::AnswersOnRefusal) {
                *answer = 0;
            }
            return 7;
        }
        *answer = self.answer(words, flag % 8, question);
        0
    }

    fn answer(&self, words: &[u64], flag: u8, question: Question) -> u64 {
        let ups = |first, last| self.ticks_up(words, flag, first, last);
        match question {
            Question::Ups(first, last) => ups(first, last).len() as u64,
            Question::First(first, last) => self.or_none(ups(first, last).first().copied()),
            Question::Last(first, last) => self.or_none(ups(first, last).last().copied()),
            Question::Nearest(tick) => self.or_none(self.nearest_up(words, flag, tick)),
        }
    }

    fn or_none(&self, tick: Option<u64>) -> u64 {
        let none = if self.in_calendar(CalendarFlaw::NoneIsZero) { 0 } else { NO_TICK };
        tick.unwrap_or(none)
    }

    fn kept(&self, words: &[u64]) -> u64 {
        match self.flaw {
            Flaw::Calendar(CalendarFlaw::CutsOneEarly) => kept_ticks(words).saturating_sub(1),
            Flaw::Calendar(CalendarFlaw::KeepsLastGroup) => 64 * words.len().div_ceil(8) as u64,
            _ => kept_ticks(words),
        }
    }

    fn is_up(&self, words: &[u64], flag: u8, tick: u64) -> bool {
        let word = |word: u64| words.get(word as usize).copied().unwrap_or(0);
        let (run, bit, flag_word) = (tick / 64, tick % 64, u64::from(flag));
        match self.flaw {
            Flaw::Calendar(CalendarFlaw::DropsBit63) if bit == 63 => false,
            Flaw::Calendar(CalendarFlaw::CountsFromTheTop) => {
                word(8 * run + flag_word) >> (63 - bit) & 1 == 1
            }
            Flaw::Calendar(CalendarFlaw::RunsFlagByFlag) => {
                let runs = words.len() as u64 / 8;
                word(runs * flag_word + run) >> bit & 1 == 1
            }
            Flaw::Calendar(CalendarFlaw::KeepsLastGroup) => {
                word(8 * run + flag_word) >> bit & 1 == 1
            }
            _ => is_up(words, flag, tick),
        }
    }

    /// The ticks of the range at which the flag is up.
    fn ticks_up(&self, words: &[u64], flag: u8, first: u64, last: u64) -> Vec<u64> {
        let (mut first, mut last) = (first, last);
        match self.flaw {
            Flaw::Calendar(CalendarFlaw::EndsRangesEarly) if last == 0 => return Vec::new(),
            Flaw::Calendar(CalendarFlaw::EndsRangesEarly) => last -= 1,
            Flaw::Calendar(CalendarFlaw::EndsRangesLate) => last = last.saturating_add(1),
            Flaw::Calendar(CalendarFlaw::BeginsRangesLate) => first = first.saturating_add(1),
            Flaw::Calendar(CalendarFlaw::ExchangesEnds) if first > last => {
                (first, last) = (last, first)
            }
            Flaw::Calendar(CalendarFlaw::EmptyAtTheLastTick) if last == u64::MAX => {
                return Vec::new()
            }
            Flaw::Calendar(CalendarFlaw::TicksIn32Bits) => {
                (first, last) = (first % (1 << 32), last % (1 << 32))
            }
            _ => {}
        }
        let range = (first..self.kept(words)).take_while(|&tick| tick <= last);
        range.filter(|&tick| self.is_up(words, flag, tick)).collect()
    }

    fn nearest_up(&self, words: &[u64], flag: u8, tick: u64) -> Option<u64> {
        let kept = self.kept(words);
        let among = match self.flaw {
            Flaw::Calendar(CalendarFlaw::NearestNotPastTheEnd) if tick >= kept => return None,
            Flaw::Calendar(CalendarFlaw::NearestInItsRun) => tick / 64 * 64..=tick | 63,
            Flaw::Calendar(CalendarFlaw::NearestBefore) => 0..=tick,
            _ => 0..=u64::MAX,
        };
        let all = (0..kept).filter(|at| among.contains(at));
        let ups = all.filter(|&at| self.is_up(words, flag, at));
        if self.in_calendar(CalendarFlaw::LaterOfTwo) {
            return ups.min_by_key(|&at| (at.abs_diff(tick), Reverse(at)));
        }
        if self.in_calendar(CalendarFlaw::FarthestIsNone) {
            // The distance stands for "none yet".
            return ups
                .filter(|&at| at.abs_diff(tick) < u64::MAX)
                .min_by_key(|&at| at.abs_diff(tick));
        }
        ups.min_by_key(|&at| at.abs_diff(tick))
    }

    pub(super) fn clear_calendar(&self, words: &mut [u64]) {
        match self.flaw {
            Flaw::Calendar(CalendarFlaw::ClearsLastGroup) => words.fill(0),
            Flaw::Calendar(CalendarFlaw::ClearsOneGroupLess) => {
                let less = words.len().saturating_sub(8);
                clear(&mut words[..less]);
            }
            _ => clear(words),
        }
    }

    pub(super) fn fill_calendar(&self, words: &mut [u64], tick: u64, flags: &[u8]) {
        let kept = kept_ticks(words);
        match self.flaw {
            Flaw::Calendar(CalendarFlaw::FillsAnew) => {
                for (at, _) in (tick..kept).zip(flags) {
                    let run = 8 * (at / 64) as usize;
                    words[run..run + 8].iter_mut().for_each(|word| *word &= !(1 << (at % 64)));
                }
                fill(words, tick, flags);
            }
            Flaw::Calendar(CalendarFlaw::FillsPastTheEnd) => {
                // Also into a last group under eight.
                let mut whole = words.to_vec();
                whole.resize(words.len().next_multiple_of(8), 0);
                fill(&mut whole, tick, flags);
                words.copy_from_slice(&whole[..words.len()]);
            }
            Flaw::Calendar(CalendarFlaw::FillWraps) => {
                for (at, &byte) in flags.iter().enumerate() {
                    fill(words, tick.wrapping_add(at as u64), &[byte]);
                }
            }
            Flaw::Calendar(CalendarFlaw::FillStopsWithTheRun) => {
                let room = flags.len().min(64 - (tick % 64) as usize);
                fill(words, tick, &flags[..room]);
            }
            Flaw::Calendar(CalendarFlaw::WrapsPastTheWords) if kept > 0 => {
                for (at, &byte) in flags.iter().enumerate() {
                    fill(words, tick.wrapping_add(at as u64) % kept, &[byte]);
                }
            }
            _ => fill(words, tick, flags),
        }
    }

    /// What an opening that answered this number makes of the words.
    pub(super) fn open_calendar(&self, number: u32, words: &mut [u64]) {
        let cleared = match self.flaw {
            Flaw::Calendar(CalendarFlaw::OpeningLeavesWords) => false,
            Flaw::Calendar(CalendarFlaw::RefusedOpeningClears) => true,
            _ => number == 0,
        };
        if cleared {
            self.clear_calendar(words);
        }
    }

    pub(super) fn step_calendar(
        &self,
        state: &mut State,
        flag: u8,
        mut lent: StepLent,
        words: &mut [u64],
        answer: StepAnswer,
    ) -> u32 {
        let tick = number_at(state, NEXT_AT);
        if self.in_calendar(CalendarFlaw::RefusesPastTheWords) && tick >= kept_ticks(words) {
            return 22;
        }
        let StepAnswer { reported, live } = answer;
        let own = StepAnswer { reported, live: &mut *live };
        let number = self.step(state, flag, lent.again(), own);
        if number == 0 {
            self.spoil(&mut lent, live);
        }
        if number == 0 || self.in_calendar(CalendarFlaw::RefusedStepMarks) {
            let one_flag = self.in_calendar(CalendarFlaw::StepMarksOneFlag);
            let flag = if one_flag { flag & flag.wrapping_neg() } else { flag };
            self.fill_calendar(words, self.marked_tick(tick), &[flag]);
        }
        number
    }

    fn marked_tick(&self, tick: u64) -> u64 {
        tick.wrapping_add(self.in_calendar(CalendarFlaw::MarksNextTick) as u64)
    }

    /// What else a flawed step with a calendar changes.
    fn spoil(&self, lent: &mut StepLent, live: &mut usize) {
        if self.in_calendar(CalendarFlaw::ChangesCells) {
            // This bit is of no use to the stand-in, nor to a suite that looks at no cell.
            lent.cells[0] ^= 1 << 31;
        }
        *live += self.in_calendar(CalendarFlaw::StepCountsItself) as usize;
    }

    pub(super) fn step_calendar_often(
        &self,
        state: &mut State,
        flags: &[u8],
        lent: StepLent,
        words: &mut [u64],
        answer: StepsAnswer,
    ) -> u32 {
        let tick = number_at(state, NEXT_AT);
        let StepsAnswer { taken, pairs, live } = answer;
        let own = StepsAnswer { taken: &mut *taken, pairs, live };
        let number = self.steps(state, flags, lent, own);
        let marked = match self.flaw {
            Flaw::Calendar(CalendarFlaw::RefusedBatchMarks) if number != 0 => flags.len(),
            _ if number != 0 => 0,
            Flaw::Calendar(CalendarFlaw::BatchMarksOneMore) => (*taken + 1).min(flags.len()),
            Flaw::Calendar(CalendarFlaw::BatchMarksAll) => flags.len(),
            Flaw::Calendar(CalendarFlaw::BatchMarksFirst) => (*taken).min(1),
            _ => *taken,
        };
        self.fill_calendar(words, self.marked_tick(tick), &flags[..marked]);
        number
    }
}
