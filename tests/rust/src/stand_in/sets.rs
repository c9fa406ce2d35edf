//! The stand-in's sets: every rule by itself, over one history and in its own cells.

use super::{Flaw, Held, StandIn};
use crate::library::{Running, SetFiguresAnswer, SetLent, SetStepAnswer, SetStepsAnswer};
use crate::paper::{
    self, all_cells, Opened, OpenedSet, Refusal, SetLengths, SetRule, MAX_HISTORY, MAX_RULES,
    MAX_TICKS,
};
use crate::records::{self, put_taken};

#[derive(Clone, Copy, Debug, PartialEq, Eq)]
pub enum SetFlaw {
    // Figures and openings.
    SumBelow4096,
    SumUpTo4097,
    SumIn16Bits,
    SumBeforeLaterRules,
    LastRefusedRule,
    HistoryOfFirst,
    TableBeforeHistory,
    TakesFewerRecords,
    ForgetsToZero,
    LeavesTick,
    ZeroesFurther,
    // Steps.
    StoresBeforeLast,
    StoresByOwnHistory,
    NumbersFromOne,
    OrdersByTick,
    CountsLastLive,
    CountsAllLive,
    SharesCells,
    MovesFirstTick,
    LeavesLive,
    ClearsReport,
    WritesAfterTable,
    ReportWithoutOne,
    ReportOfTicks,
    NoRecordIs17,
    RefusesAndWrites,
    AnswersOnRefusal,
    // Which records 21 notices.
    TrustsFirstCells,
    TrustsFigures,
    TrustsOtherTicks,
    TrustsOtherLengths,
    TrustsLength,
    TrustsSum,
    ShortHistoryIs17,
    PlacesIn32Bits,
    ThirtyThreeRules,
    ReadsSheetAgain,
    LooksAtFurther,
    // Batches.
    BatchStepsFirst,
    BatchFillsReport,
    BatchAnswers19,
    BatchForgetsLive,
    BatchTakesTickTooMany,
    TakesEmptyBatch,
    // Ticks above 32 bits, and the last ones.
    ComparesLowTicks,
    MovesLowTick,
    CutsTicks,
    ReportsIn32Bits,
    BatchStepsIn32Bits,
    EndsAt32Bits,
    HighTickIs21,
}

/// The pairs that a step reports, and how many live.
struct Taken {
    pairs: Vec<[u64; 2]>,
    live: usize,
}

impl StandIn {
    fn in_set(&self, flaw: SetFlaw) -> bool {
        self.flaw == Flaw::Set(flaw)
    }

    fn rules_of_set(&self, sheet: &[u8]) -> Result<Vec<SetRule>, Refusal> {
        let rules = match paper::sheet_rules(sheet) {
            Err(4..) if self.in_set(SetFlaw::SumBeforeLaterRules) && begins_too_large(sheet) => {
                Err(27)
            }
            Err(4..) if self.in_set(SetFlaw::LastRefusedRule) => Err(last_refusal(sheet)),
            rules => rules,
        }?;
        let sum = all_cells(&rules);
        let too_many = match self.flaw {
            Flaw::Set(SetFlaw::SumBelow4096) => sum >= 4096,
            Flaw::Set(SetFlaw::SumUpTo4097) => sum > 4097,
            Flaw::Set(SetFlaw::SumIn16Bits) => sum % 65_536 > 4096,
            _ => sum > 4096,
        };
        if too_many {
            return Err(27);
        }
        Ok(rules)
    }

    fn history_of_set(&self, opened: &OpenedSet) -> usize {
        if self.in_set(SetFlaw::HistoryOfFirst) {
            return opened.rules[0].figures.history as usize;
        }
        opened.history()
    }

    fn pairs_of_set(&self, opened: &OpenedSet) -> usize {
        let without = self.in_set(SetFlaw::ReportWithoutOne);
        opened.most_pairs() - if without { opened.rules.len() } else { 0 }
    }

    pub(super) fn figures_of_set(&self, sheet: &[u8], answer: SetFiguresAnswer) -> u32 {
        let opened = match self.rules_of_set(sheet) {
            Err(number) => return number,
            Ok(rules) => OpenedSet { rules, history_length: 0 },
        };
        *answer.rules = opened.rules.len();
        *answer.history = self.history_of_set(&opened) as u64;
        *answer.cells = all_cells(&opened.rules);
        *answer.pairs = self.pairs_of_set(&opened) as u64;
        0
    }

    pub(super) fn open_set(
        &self,
        sheet: &[u8],
        records: &mut [Running],
        history: &mut [u8],
        cells: &[u32],
    ) -> u32 {
        let opened = match self.rules_of_set(sheet) {
            Err(number) => return number,
            Ok(rules) => OpenedSet { rules, history_length: history.len() },
        };
        if let Some(number) = self.opening_refusal(&opened, records.len(), cells.len()) {
            return number;
        }
        if !self.in_set(SetFlaw::ForgetsToZero) {
            history.fill(0);
        }
        for (record, mut fresh) in records.iter_mut().zip(records::fresh(&opened)) {
            if self.in_set(SetFlaw::LeavesTick) {
                fresh.next = record.next;
            }
            *record = fresh;
        }
        self.spoil_further(&opened, records);
        0
    }

    fn opening_refusal(&self, opened: &OpenedSet, records: usize, table: usize) -> Option<Refusal> {
        let length = opened.history_length;
        let wrong_history = length < self.history_of_set(opened) || length > MAX_HISTORY;
        let few = records < opened.rules.len() && !self.in_set(SetFlaw::TakesFewerRecords);
        let short_table = table < opened.needed_words() || few;
        let table_first = self.in_set(SetFlaw::TableBeforeHistory) && short_table;
        match (wrong_history, short_table) {
            (true, _) if !table_first => Some(17),
            (_, true) => Some(18),
            _ => None,
        }
    }

    /// Further records: "as they were".
    fn spoil_further(&self, opened: &OpenedSet, records: &mut [Running]) {
        if self.in_set(SetFlaw::ZeroesFurther) && records.len() > opened.rules.len() {
            records[opened.rules.len()..].fill(Running::default());
        }
    }

    /// What a step stands on, or its refusal.
    fn admit_set(
        &self,
        sheet: &[u8],
        records: &[Running],
        mut lent: SetLengths,
    ) -> Result<OpenedSet, Refusal> {
        let rules = sheet.first().map_or(0, |&count| count as usize);
        match self.flaw {
            Flaw::Set(SetFlaw::ReportWithoutOne) => lent.report += 2 * rules,
            Flaw::Set(SetFlaw::ReportOfTicks) => lent.report *= 2,
            Flaw::Set(SetFlaw::NoRecordIs17) if records.is_empty() && lent.history > 0 => {
                return Err(17)
            }
            Flaw::Set(SetFlaw::ReadsSheetAgain) if paper::rule_place(sheet, 0).is_err() => {
                return Err(21)
            }
            Flaw::Set(SetFlaw::LooksAtFurther) if !further_go_along(rules, records) => {
                return Err(21)
            }
            Flaw::Set(SetFlaw::HighTickIs21)
                if records.first().is_some_and(|lead| lead.next > MAX_TICKS) =>
            {
                return Err(21)
            }
            _ => {}
        }
        let mut trusted_sheet = sheet.to_vec();
        if self.in_set(SetFlaw::ThirtyThreeRules) && rules == MAX_RULES + 1 {
            trusted_sheet[0] -= 1;
        }
        let trusted = self.trusted(sheet, records);
        let admitted = records::admit_step(&trusted_sheet, &trusted, lent);
        match admitted {
            Err(21) if self.in_set(SetFlaw::ShortHistoryIs17) => {
                let longest = with_length(records, MAX_HISTORY as u16);
                match records::admit_step(sheet, &longest, lent) {
                    Err(21) => Err(21),
                    _ => Err(17),
                }
            }
            Ok(_) if self.in_set(SetFlaw::EndsAt32Bits) && records[0].next >= u32::MAX.into() => {
                Err(20)
            }
            other => other,
        }
    }

    /// The records as a flawed one takes them, which does not look at all of their numbers.
    fn trusted(&self, sheet: &[u8], records: &[Running]) -> Vec<Running> {
        let mut first: u32 = 0;
        let mut trusted = records.to_vec();
        for (rule, record) in trusted.iter_mut().enumerate() {
            match self.flaw {
                Flaw::Set(SetFlaw::TrustsFirstCells) => record.first = first,
                Flaw::Set(SetFlaw::TrustsFigures) => put_figures(sheet, record),
                Flaw::Set(SetFlaw::TrustsOtherTicks) => record.next = records[0].next,
                Flaw::Set(SetFlaw::TrustsOtherLengths) => record.opened = records[0].opened,
                Flaw::Set(SetFlaw::TrustsLength) => record.opened = record.opened.min(4096),
                Flaw::Set(SetFlaw::PlacesIn32Bits) => put_wrapped_place(sheet, rule, record),
                Flaw::Set(SetFlaw::ComparesLowTicks)
                    if record.next as u32 == records[0].next as u32 =>
                {
                    record.next = records[0].next
                }
                _ => {}
            }
            first = first.wrapping_add(record.cells);
        }
        if self.in_set(SetFlaw::TrustsSum) && first > 4096 {
            // The answer is another one than 21: there are too few records.
            trusted.truncate(1);
        }
        trusted
    }

    pub(super) fn step_set(
        &self,
        sheet: &[u8],
        flag: u8,
        mut lent: SetLent,
        answer: SetStepAnswer,
    ) -> u32 {
        let opened = match self.admit_set(sheet, lent.records, lengths(&lent)) {
            Err(number) => {
                if self.in_set(SetFlaw::RefusesAndWrites) && number == 18 {
                    lent.history.fill(flag);
                }
                if self.in_set(SetFlaw::AnswersOnRefusal) {
                    *answer.pairs = 0;
                }
                return number;
            }
            Ok(opened) => opened,
        };
        let taken = self.take_flag(&opened, flag, &mut lent);
        let words = taken.pairs.concat();
        let room = words.len().min(lent.report.len());
        lent.report[..room].copy_from_slice(&words[..room]);
        if self.in_set(SetFlaw::ClearsReport) {
            lent.report[room..].fill(0);
        }
        (*answer.pairs, *answer.live) = (taken.pairs.len(), taken.live);
        0
    }

    /// One flag that nothing refuses, taken by all rules.
    fn take_flag(&self, opened: &OpenedSet, flag: u8, lent: &mut SetLent) -> Taken {
        let cut = self.in_set(SetFlaw::CutsTicks);
        let t = lent.records[0].next as usize % if cut { 1 << 32 } else { 1 << 63 };
        let last = opened.rules.len() - 1;
        let (mut pairs, mut counts, mut first) = (Vec::new(), Vec::new(), 0);
        for (index, rule) in opened.rules.iter().enumerate() {
            if self.in_set(SetFlaw::StoresBeforeLast) && index == last {
                self.store(t, flag, lent.history);
            }
            let cells = paper::CELL_WORDS * rule.figures.cells as usize;
            let begin = if self.in_set(SetFlaw::SharesCells) { 0 } else { first };
            let held = held_rule(opened, rule, t);
            let own = &mut lent.cells[begin..begin + cells];
            let (report, live) = self.take_tick(&held, flag, lent.history, own);
            let number = index as u64 + self.in_set(SetFlaw::NumbersFromOne) as u64;
            pairs.extend(report.into_iter().map(|tick| [number, tick]));
            counts.push(live);
            first += cells;
        }
        if self.in_set(SetFlaw::OrdersByTick) {
            pairs.sort_by_key(|pair| pair[1]);
        }
        if self.in_set(SetFlaw::ReportsIn32Bits) {
            pairs.iter_mut().for_each(|pair: &mut [u64; 2]| pair[1] %= 1 << 32);
        }
        self.store_flag(opened, t, flag, lent);
        self.write_records(opened, &counts, lent.records);
        let last_only = self.in_set(SetFlaw::CountsLastLive);
        let live = if last_only { counts[last] } else { counts.iter().sum() };
        Taken { pairs, live }
    }

    /// The byte once; and what a flawed one writes beside it.
    fn store_flag(&self, opened: &OpenedSet, t: usize, flag: u8, lent: &mut SetLent) {
        self.store(t, flag, lent.history);
        if self.in_set(SetFlaw::StoresByOwnHistory) {
            for rule in &opened.rules {
                let own = rule.figures.history as usize;
                self.store(t, flag, &mut lent.history[..own]);
            }
        }
        if self.in_set(SetFlaw::WritesAfterTable) {
            if let Some(word) = lent.cells.get_mut(opened.needed_words()) {
                *word = 0;
            }
        }
    }

    fn write_records(&self, opened: &OpenedSet, counts: &[usize], records: &mut [Running]) {
        for (index, (record, &live)) in records.iter_mut().zip(counts).enumerate() {
            let old = *record;
            put_taken(record, live);
            if self.in_set(SetFlaw::MovesFirstTick) && index > 0 {
                record.next = old.next;
            }
            if self.in_set(SetFlaw::MovesLowTick) {
                record.next = old.next & !0xFFFF_FFFF | u64::from(record.next as u32);
            }
            if self.in_set(SetFlaw::LeavesLive) {
                record.live = old.live;
            }
            if self.in_set(SetFlaw::CountsAllLive) {
                record.live = counts[..=index].iter().sum::<usize>() as u32;
            }
        }
        self.spoil_further(opened, records);
    }

    pub(super) fn step_set_often(
        &self,
        sheet: &[u8],
        flags: &[u8],
        mut lent: SetLent,
        answer: SetStepsAnswer,
    ) -> u32 {
        if self.in_set(SetFlaw::TakesEmptyBatch) && flags.is_empty() {
            (*answer.taken, *answer.triples, *answer.live) = (0, 0, 0);
            return 0;
        }
        let enough = SetLengths { report: records::ENOUGH, ..lengths(&lent) };
        let opened = match self.admit_set(sheet, lent.records, enough) {
            Err(number) => return number,
            Ok(opened) => opened,
        };
        if self.in_set(SetFlaw::BatchAnswers19) && lent.report.len() < 3 * opened.most_pairs() {
            return 19;
        }
        let (taken, triples) = self.take_flags(&opened, flags, &mut lent);
        let words = triples.concat();
        let room = words.len().min(lent.report.len());
        lent.report[..room].copy_from_slice(&words[..room]);
        let live = lent.records[..opened.rules.len()].iter().map(|rule| rule.live as usize).sum();
        (*answer.taken, *answer.triples) = (taken, triples.len());
        *answer.live = if self.in_set(SetFlaw::BatchForgetsLive) { 0 } else { live };
        0
    }

    /// As many flags as have room: how many, and their triples.
    fn take_flags(
        &self,
        opened: &OpenedSet,
        flags: &[u8],
        lent: &mut SetLent,
    ) -> (usize, Vec<[u64; 3]>) {
        let most = opened.most_pairs();
        let needed = if self.in_set(SetFlaw::BatchFillsReport) { 2 * most } else { 3 * most };
        let mut triples: Vec<[u64; 3]> = Vec::new();
        for (taken, &flag) in flags.iter().enumerate() {
            let step = lent.records[0].next;
            let used_up = step == MAX_TICKS && !self.in_set(SetFlaw::BatchTakesTickTooMany);
            if lent.report.len() < 3 * triples.len() + needed || used_up {
                return (taken, triples);
            }
            let cut = self.in_set(SetFlaw::BatchStepsIn32Bits);
            let step = if cut { step % (1 << 32) } else { step };
            for [rule, tick] in self.take_flag(opened, flag, lent).pairs {
                let step_first = self.in_set(SetFlaw::BatchStepsFirst);
                triples.push(if step_first { [step, rule, tick] } else { [rule, tick, step] });
            }
        }
        (flags.len(), triples)
    }
}

fn lengths(lent: &SetLent) -> SetLengths {
    SetLengths {
        records: lent.records.len(),
        history: lent.history.len(),
        table: lent.cells.len(),
        report: lent.report.len(),
    }
}

/// A rule of a set as one that runs by itself.
fn held_rule(set: &OpenedSet, rule: &SetRule, tick: usize) -> Held {
    let opened = Opened {
        formula: rule.formula.clone(),
        figures: rule.figures,
        history_length: set.history_length,
    };
    Held { opened, tick: tick as u64, live: 0 }
}

/// Whether the rules before the first refused one have more than 4,096 cells together.
fn begins_too_large(sheet: &[u8]) -> bool {
    let figures = |rule| paper::rule_body(sheet, rule).and_then(paper::figures).ok();
    let cells = (0..sheet[0] as usize).map_while(figures).map(|figures| figures.cells);
    cells.sum::<u64>() > 4096
}

/// The refusal of the last rule that has one.
fn last_refusal(sheet: &[u8]) -> Refusal {
    let refusal = |rule| paper::rule_body(sheet, rule).and_then(paper::figures).err();
    (0..sheet[0] as usize).rev().find_map(refusal).expect("a rule of the sheet is refused")
}

/// Whether records after those of the rules have the first one's next tick.
fn further_go_along(rules: usize, records: &[Running]) -> bool {
    records.iter().skip(rules).all(|record| record.next == records[0].next)
}

fn with_length(records: &[Running], opened: u16) -> Vec<Running> {
    records.iter().map(|record| Running { opened, ..*record }).collect()
}

/// The figures of the record's body, if it has some.
fn put_figures(sheet: &[u8], record: &mut Running) {
    let (start, size) = (record.start as usize, record.size as usize);
    let body = sheet.get(start..start + size).unwrap_or(&[]);
    if let Ok(figures) = paper::figures(body) {
        (record.cells, record.delay) = (figures.cells as u32, figures.delay as u16);
    }
}

/// The rule's own place, where start and size add up to no more than the sheet's length in 32
/// bits.
fn put_wrapped_place(sheet: &[u8], rule: usize, record: &mut Running) {
    let end = record.start.wrapping_add(record.size);
    if end < record.start && end as usize <= sheet.len() {
        if let Ok((start, size)) = paper::rule_place(sheet, rule) {
            (record.start, record.size) = (start as u32, size as u32);
        }
    }
}
