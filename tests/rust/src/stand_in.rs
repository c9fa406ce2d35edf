//! An implementation of the boundary in Rust, to test the two suites with: the
//! right one must pass them, and each with a flaw must be caught. It keeps to
//! the memory that it is lent, with a state's bytes as the header says, but
//! evaluates anew at each step.
//!
//! It stands on `paper`, so it says nothing about the paper's meaning. What it
//! tests is the suites: that they ask what they should, and see what differs.

mod calendars;
mod empty_ranges;
mod sets;
mod texts;

use crate::library::{
    Library, Question, Running, SetFiguresAnswer, SetLent, SetStepAnswer, SetStepsAnswer, State,
    StepAnswer, StepLent, StepsAnswer, FALSE, OPEN, TRUE,
};
use crate::paper::{
    self, Bound, Figures, Formula, Lengths, Opened, Outcome, Refusal, Verdict, MAX_BODY,
    MAX_HISTORY, MAX_OFFSET, MAX_TICKS,
};
use crate::random::{places, Place};
use crate::states::{self, number_at, put_number, LIVE_AT, NEXT_AT, OPENED_AT, SIZE_AT};
pub use calendars::CalendarFlaw;
pub use empty_ranges::EmptyRangeFlaw;
pub use sets::SetFlaw;

#[derive(Clone, Copy, Debug, PartialEq, Eq)]
pub enum Flaw {
    None,
    // The engine.
    StoresFirst,
    ReadsUnusedHistory,
    WrapsLate,
    LeavesHistory,
    JudgesAtTheEnd,
    ReportsNothing,
    ReportsDescending,
    CountsOneMore,
    EndsRangesLate,
    ThenAsBeside,
    WritesAfterReport,
    WritesAfterTable,
    TableBeforeHistory,
    ReportBeforeTable,
    AnswersOnRefusal,
    RefusesOverwritten,
    TakesShortReport,
    ForgetsToZero,
    LeavesStateRoom,
    LeavesLiveInState,
    // The batch call.
    BatchFillsReport,
    BatchForgetsLive,
    BatchSwapsPairs,
    // Figures, bodies, recordings, sheets.
    ZeroIsThisTick,
    DelayBelow255,
    HistoryBelow4096,
    CellsBelow4096,
    CellsUpTo4097,
    CellsIn16BitsWrap,
    NoPositionsAfterTheBody,
    FourBeforeNine,
    /// 9 for a 65th formula of an unknown code.
    NineBeforeFive(Reader),
    /// 9 where the 65th formula is missing.
    NineBeforeFour(Reader),
    Exchanges23And24,
    FarInfinityIs8,
    InnerBoundIs23,
    HistoryBeforeDelay,
    FalseAtHorizon,
    OpenBeforeTrying,
    OpenAtHorizon,
    LongRecordings,
    SheetMayGoOn,
    RuleBeforeLayout,
    ClearsBuffer,
    RoomBeforeLengths,
    // Texts, read and printed.
    UnboundBeforeMisspelt,
    FlagBeforeUnbound,
    RoomBeforeFlag,
    OutermostNameWins,
    BoundsSeeOwnName,
    NamesOutliveRanges,
    KeepsSixtyFourNames,
    NineLetters,
    KeywordsAreNames,
    FiveDigits,
    FourThousandAndNinetySeven,
    TakesLineEnd,
    LeadingZeroIsMisspelt,
    MinusZeroIsMisspelt,
    InfinityPlusZeroIs24,
    OffsetsOfOneByte,
    ExchangesConnectives,
    ClearsBodyRoom,
    WritesShortBody,
    AnswersLengthOn22,
    PrintsPlusZero,
    PrintsFourDigits,
    PrintsWForU,
    PrintsZeroByte,
    PrintsUncheckedFlags,
    // Hostile input.
    WritesTwoHistoryBytes,
    RefusesAndWrites,
    TrustsLength,
    ShortHistoryIs17,
    TakesTickTooMany,
    BatchTakesTickTooMany,
    // Ticks above 32 bits, and the last ones.
    CutsTicks,
    ReportsIn32Bits,
    BatchStepsIn32Bits,
    HistoryIn32Bits,
    CellsIn32Bits,
    EndsAt32Bits,
    EndsOneEarly,
    HighTickIs21,
    HighTickFirst,
    SizeOfTwoBytes,
    BodyByItsNumber,
    RefusesHighLive,
    ChangesStateBody,
    BatchAnswers19,
    TakesEmptyBatch,
    // Ranges that are always empty.
    EmptyRange(EmptyRangeFlaw),
    // The calls on a set.
    Set(SetFlaw),
    // The calls with a calendar.
    Calendar(CalendarFlaw),
}

/// The calls that read a body.
#[derive(Clone, Copy, Debug, PartialEq, Eq)]
pub enum Reader {
    Figures,
    Evaluator,
    Printer,
    Opening,
}

pub struct StandIn {
    pub flaw: Flaw,
}

/// The ticks before the last so many don't matter to a step: delay, history and
/// an offset from position 0 are 255, 4,096 and 4,095 at most.
const FAR: usize = 16_384;

/// What the state holds.
struct Held {
    opened: Opened,
    tick: u64,
    live: u64,
}

impl StandIn {
    fn has(&self, flaw: Flaw) -> bool {
        self.flaw == flaw
    }

    fn read_figures(&self, body: &[u8]) -> Result<Figures, Refusal> {
        match paper::read_body(body) {
            Err(9) if self.has(Flaw::FourBeforeNine) && ends_with_code(body) => Err(4),
            Err(23) if self.has(Flaw::Exchanges23And24) => Err(24),
            Err(24) if self.has(Flaw::Exchanges23And24) => Err(23),
            Err(24) if self.has(Flaw::FarInfinityIs8) && has_far_infinity(body) => Err(8),
            Ok(_) if self.has(Flaw::InnerBoundIs23) && has_inner_bound(body) => Err(23),
            Err(number) => match self.unread_figures(body) {
                Some(figures) => Ok(figures),
                None => Err(self.at_the_65th(Reader::Figures, body, number)),
            },
            Ok(formula) => self.formula_figures(&formula),
        }
    }

    /// What a call with a flaw at the 65th formula makes of a body's refusal.
    fn at_the_65th(&self, reader: Reader, body: &[u8], number: Refusal) -> Refusal {
        let flawed = match number {
            4 => self.has(Flaw::NineBeforeFour(reader)),
            5 => self.has(Flaw::NineBeforeFive(reader)),
            _ => false,
        };
        if flawed && reaches_the_65th(body) {
            return 9;
        }
        number
    }

    fn formula_figures(&self, formula: &Formula) -> Result<Figures, Refusal> {
        let figures = if self.has(Flaw::ZeroIsThisTick) {
            paper::formula_figures(&bounds_changed(formula, &zero_is_this_tick))
        } else {
            self.counted(formula)
        };
        match figures {
            Ok(f) if self.has(Flaw::DelayBelow255) && f.delay == 255 => Err(12),
            Ok(f) if self.has(Flaw::HistoryBelow4096) && f.history == 4096 => Err(14),
            Ok(f) if self.has(Flaw::CellsBelow4096) && f.cells == 4096 => Err(15),
            Err(15) if self.has(Flaw::CellsUpTo4097) && just_too_many(formula) => {
                Ok(Figures { history: 0, delay: 0, cells: 4097 })
            }
            Err(15) if self.has(Flaw::CellsIn16BitsWrap) && wrapped_cells(formula) <= 4096 => {
                Ok(Figures { history: 0, delay: 0, cells: wrapped_cells(formula) })
            }
            Ok(_) if self.has(Flaw::NoPositionsAfterTheBody) && none_over_many(formula) => Err(15),
            Err(11 | 12) if self.has(Flaw::HistoryBeforeDelay) && begins_at_0(formula) => Err(13),
            other => other,
        }
    }

    /// The formula that a flawed engine or evaluator takes for the rule.
    fn meant(&self, formula: &Formula) -> Formula {
        match self.flaw {
            Flaw::EndsRangesLate => bounds_changed(formula, &|first, second| match second {
                Bound::Variable(v, n) => (first, Bound::Variable(v, n + 1)),
                other => (first, other),
            }),
            Flaw::ThenAsBeside => then_as_beside(formula),
            _ => self.waiting(formula),
        }
    }

    fn place(&self, sheet: &[u8], rule: usize) -> Result<(usize, usize), Refusal> {
        let place = paper::rule_place(sheet, rule);
        match place {
            Err(2) if self.has(Flaw::RuleBeforeLayout) && rule >= sheet[0] as usize => Err(3),
            Err(2) if self.has(Flaw::SheetMayGoOn) => {
                paper::rule_place(&sheet[..sheet.len() - 1], rule).map_err(|_| 2)
            }
            other => other,
        }
    }

    /// "Answers [..] 21 for a state that no opening gives."
    fn read_state(&self, state: &State) -> Result<Held, Refusal> {
        let numbers = [SIZE_AT, OPENED_AT, NEXT_AT, LIVE_AT].map(|at| number_at(state, at));
        let [mut size, length, mut tick, live] = numbers;
        if self.has(Flaw::SizeOfTwoBytes) {
            size %= 65_536;
        }
        if self.has(Flaw::CutsTicks) {
            tick %= 1 << 32;
        }
        let too_long = length > MAX_HISTORY as u64 && !self.has(Flaw::TrustsLength);
        let too_late = tick > MAX_TICKS && self.has(Flaw::HighTickIs21);
        if size > MAX_BODY as u64 || too_long || too_late {
            return Err(21);
        }
        let by_21 = |number| if self.has(Flaw::BodyByItsNumber) { number } else { 21 };
        let formula = paper::read_body(&state[..size as usize]).map_err(by_21)?;
        let figures = self.counted(&formula).map_err(by_21)?;
        if length < figures.history {
            return Err(if self.has(Flaw::ShortHistoryIs17) { 17 } else { 21 });
        }
        if live > figures.delay && self.has(Flaw::RefusesHighLive) {
            return Err(21);
        }
        let opened = Opened { formula, figures, history_length: length as usize };
        Ok(Held { opened, tick, live })
    }

    /// "17, 18, 19, 20, in this order".
    fn step_refusal(&self, opened: &Opened, lengths: Lengths, tick: u64) -> Option<Refusal> {
        let first_untaken = match self.flaw {
            Flaw::EndsAt32Bits => u32::MAX.into(),
            Flaw::EndsOneEarly => MAX_TICKS - 1,
            _ => MAX_TICKS,
        };
        if self.has(Flaw::HighTickFirst) && tick >= first_untaken {
            return Some(20);
        }
        let refusal = paper::step_refusal(opened, lengths, tick);
        refusal.or((tick >= first_untaken).then_some(20))
    }

    fn refusal(&self, held: &Held, lent: &StepLent) -> Option<Refusal> {
        let mut lengths = Lengths {
            history: lent.history.len(),
            table: lent.cells.len(),
            report: lent.report.len(),
        };
        if self.has(Flaw::TakesShortReport) && lengths.report + 1 == held.opened.needed_report() {
            lengths.report += 1;
        }
        let refusal = self.step_refusal(&held.opened, lengths, held.tick);
        let short_table = lengths.table < held.opened.needed_words();
        let short_report = lengths.report < held.opened.needed_report();
        match refusal {
            Some(17) if self.has(Flaw::TableBeforeHistory) && short_table => Some(18),
            Some(18) if self.has(Flaw::ReportBeforeTable) && short_report => Some(19),
            Some(20) if self.has(Flaw::TakesTickTooMany) && held.tick == MAX_TICKS => None,
            None if self.has(Flaw::RefusesOverwritten)
                && held.tick > 0
                && lent.cells[held.opened.needed_words() - 1] != sum(lent.history) =>
            {
                Some(21)
            }
            other => other,
        }
    }

    /// The stream as far as it can matter, with 0 for what came before, and the
    /// tick that it begins with.
    fn recording(&self, held: &Held, flag: u8, history: &[u8], cells: &[u32]) -> (usize, Vec<u8>) {
        let t = held.tick as usize;
        let begin = t.saturating_sub(FAR);
        let kept = if self.has(Flaw::ReadsUnusedHistory) {
            history.len()
        } else {
            held.opened.figures.history as usize
        };
        let delay = held.opened.figures.delay as usize;
        let mut recording = vec![0; t + 1 - begin];
        for q in t.saturating_sub(kept + delay)..t {
            recording[q - begin] = if q + kept >= t {
                history[q % history.len()]
            } else {
                cells[self.slot(q, delay)] as u8
            };
        }
        recording[t - begin] = flag;
        (begin, recording)
    }

    /// One step that nothing refuses: the report and the live count.
    fn take(&self, held: &Held, flag: u8, lent: &mut StepLent) -> (Vec<u64>, usize) {
        let t = held.tick as usize;
        if self.has(Flaw::StoresFirst) {
            self.store(t, flag, lent.history);
        }
        let answer = self.take_tick(held, flag, lent.history, lent.cells);
        self.store(t, flag, lent.history);
        if self.has(Flaw::WritesAfterTable) {
            if let Some(word) = lent.cells.get_mut(held.opened.needed_words()) {
                *word = 0;
            }
        }
        answer
    }

    /// The same over a history that is only read.
    fn take_tick(
        &self,
        held: &Held,
        flag: u8,
        history: &[u8],
        cells: &mut [u32],
    ) -> (Vec<u64>, usize) {
        let t = held.tick as usize;
        let figures = held.opened.figures;
        let (begin, recording) = self.recording(held, flag, history, cells);
        let answer = self.judge(held, begin, &recording);
        if figures.delay > 0 && t as u64 >= figures.history {
            // The history forgets this one first; it may be needed still.
            let leaving = t - figures.history as usize;
            let slot = self.slot(leaving, figures.delay as usize);
            cells[slot] = recording[leaving - begin] as u32;
        }
        answer
    }

    /// Where the cells keep the byte of a tick that the history has forgotten.
    fn slot(&self, tick: usize, delay: usize) -> usize {
        let cut = self.has(Flaw::CellsIn32Bits);
        (if cut { tick % (1 << 32) } else { tick }) % (delay + 1)
    }

    fn store(&self, t: usize, flag: u8, history: &mut [u8]) {
        let length = history.len();
        if length == 0 || self.has(Flaw::LeavesHistory) {
            return;
        }
        let at = match self.flaw {
            Flaw::WrapsLate => t % (length + 1),
            Flaw::HistoryIn32Bits => t % (1 << 32) % length,
            _ => t % length,
        };
        if at < length {
            history[at] = flag;
        }
        if self.has(Flaw::WritesTwoHistoryBytes) && t % 8 == 7 {
            history[(t + 1) % length] = flag;
        }
    }

    fn judge(&self, held: &Held, begin: usize, recording: &[u8]) -> (Vec<u64>, usize) {
        let t = begin + recording.len() - 1;
        let delay = held.opened.figures.delay as usize;
        let formula = self.meant(&held.opened.formula);
        let mut report = Vec::new();
        let mut live = 0;
        for p in t.saturating_sub(delay)..=t {
            let outcome = paper::rule_outcome(&formula, recording, (p - begin) as i64);
            if self.has(Flaw::JudgesAtTheEnd) {
                let is_false = matches!(outcome, Outcome::Decided(Verdict::False, _));
                if p + delay > t {
                    live += 1;
                } else if is_false {
                    report.push(p as u64);
                }
                continue;
            }
            match outcome {
                Outcome::Decided(Verdict::False, step) if step == (t - begin) as i64 => {
                    report.push(p as u64)
                }
                Outcome::Decided(..) => {}
                Outcome::Open => live += 1,
            }
        }
        if self.has(Flaw::ReportsNothing) {
            report.clear();
        }
        if self.has(Flaw::ReportsDescending) {
            report.reverse();
        }
        if self.has(Flaw::ReportsIn32Bits) {
            report.iter_mut().for_each(|tick| *tick %= 1 << 32);
        }
        (report, live + self.has(Flaw::CountsOneMore) as usize)
    }

    fn write_state(&self, held: &Held, state: &mut State) {
        put_number(state, NEXT_AT, held.tick);
        if !self.has(Flaw::LeavesLiveInState) {
            put_number(state, LIVE_AT, held.live);
        }
        if self.has(Flaw::ChangesStateBody) {
            state[SIZE_AT - 1] = 0;
        }
    }

    fn advance(&self, held: &mut Held, flag: u8, lent: &mut StepLent) -> Vec<u64> {
        let (report, live) = self.take(held, flag, lent);
        held.tick += 1;
        held.live = live as u64;
        if self.has(Flaw::RefusesOverwritten) {
            // The last of the needed words is free: they are more than the delay.
            lent.cells[held.opened.needed_words() - 1] = sum(lent.history);
        }
        report
    }
}

impl Library for StandIn {
    fn rule_place(&self, sheet: &[u8], rule: usize, start: &mut usize, size: &mut usize) -> u32 {
        match self.place(sheet, rule) {
            Err(number) => number,
            Ok(place) => {
                (*start, *size) = place;
                0
            }
        }
    }

    fn write_sheet(
        &self,
        lengths: &[u16],
        bodies: &[u8],
        out: &mut [u8],
        written: &mut usize,
    ) -> u32 {
        let needed = 1 + 4 * lengths.len() + bodies.len();
        if self.has(Flaw::RoomBeforeLengths) && out.len() < needed {
            return 22;
        }
        match paper::write_sheet(lengths, bodies, out) {
            Err(number) => number,
            Ok(length) => {
                if self.has(Flaw::ClearsBuffer) {
                    out[length..].fill(0);
                }
                *written = length;
                0
            }
        }
    }

    fn rule_from_text(&self, text: &[u8], body: &mut [u8], written: &mut usize) -> u32 {
        self.give(self.body_of_text(text, body.len()), body, written)
    }

    fn rule_to_text(&self, body: &[u8], text: &mut [u8], written: &mut usize) -> u32 {
        self.give(self.text_of_body(body, text.len()), text, written)
    }

    fn figures(&self, body: &[u8], history: &mut u64, delay: &mut u64, cells: &mut u64) -> u32 {
        match self.read_figures(body) {
            Err(number) => number,
            Ok(figures) => {
                (*history, *delay, *cells) = (figures.history, figures.delay, figures.cells);
                0
            }
        }
    }

    fn outcome(
        &self,
        body: &[u8],
        recording: &[u8],
        tick: usize,
        verdict: &mut u32,
        step: &mut u64,
    ) -> u32 {
        let mut recording = recording;
        if self.has(Flaw::LongRecordings) && recording.len() == 65_536 {
            recording = &recording[..65_535];
        }
        let horizon = recording.len() as i64 - 1;
        match paper::evaluate(body, recording, tick) {
            Err(number) => return self.at_the_65th(Reader::Evaluator, body, number),
            Ok(_) if self.has(Flaw::OpenBeforeTrying) && horizon == tick as i64 => {
                (*verdict, *step) = (OPEN, 0)
            }
            Ok(_) => {
                let formula = self.meant(&paper::read_body(body).unwrap());
                match paper::rule_outcome(&formula, recording, tick as i64) {
                    Outcome::Open => {
                        let late = self.has(Flaw::OpenAtHorizon);
                        (*verdict, *step) = (OPEN, if late { horizon as u64 } else { 0 });
                    }
                    Outcome::Decided(Verdict::True, at) => (*verdict, *step) = (TRUE, at as u64),
                    Outcome::Decided(Verdict::False, at) => {
                        let late = self.has(Flaw::FalseAtHorizon);
                        (*verdict, *step) = (FALSE, if late { horizon } else { at } as u64);
                    }
                }
            }
        }
        0
    }

    fn open(
        &self,
        sheet: &[u8],
        rule: usize,
        history: &mut [u8],
        cells: &[u32],
        state: &mut State,
    ) -> u32 {
        if let Err(number) = paper::open(sheet, rule, history.len(), cells.len()) {
            let body = paper::rule_body(sheet, rule).unwrap_or(&[]);
            return self.at_the_65th(Reader::Opening, body, number);
        }
        if !self.has(Flaw::ForgetsToZero) {
            history.fill(0);
        }
        let body = paper::rule_body(sheet, rule).expect("the opening read it");
        let old = *state;
        *state = states::fresh(body, history.len());
        if self.has(Flaw::LeavesStateRoom) {
            state[body.len()..SIZE_AT].copy_from_slice(&old[body.len()..SIZE_AT]);
        }
        0
    }

    fn step(&self, state: &mut State, flag: u8, mut lent: StepLent, answer: StepAnswer) -> u32 {
        let mut held = match self.read_state(state) {
            Err(number) => {
                if self.has(Flaw::RefusesAndWrites) {
                    state[0] ^= 1;
                }
                return number;
            }
            Ok(held) => held,
        };
        if let Some(number) = self.refusal(&held, &lent) {
            if self.has(Flaw::AnswersOnRefusal) {
                *answer.live = 0;
            }
            return number;
        }
        let report = self.advance(&mut held, flag, &mut lent);
        let room = report.len().min(lent.report.len());
        lent.report[..room].copy_from_slice(&report[..room]);
        if self.has(Flaw::WritesAfterReport) {
            lent.report[room..].fill(0);
        }
        self.write_state(&held, state);
        *answer.reported = report.len();
        *answer.live = held.live as usize;
        0
    }

    fn steps(
        &self,
        state: &mut State,
        flags: &[u8],
        mut lent: StepLent,
        answer: StepsAnswer,
    ) -> u32 {
        if self.has(Flaw::TakesEmptyBatch) && flags.is_empty() {
            (*answer.taken, *answer.pairs) = (0, 0);
            *answer.live = number_at(state, LIVE_AT) as usize;
            return 0;
        }
        let mut held = match self.read_state(state) {
            Err(number) => return number,
            Ok(held) => held,
        };
        let needed = 2 * held.opened.needed_report();
        let (mut taken, mut words) = (0, 0);
        let whole_report = Lengths {
            history: lent.history.len(),
            table: lent.cells.len(),
            report: held.opened.needed_report(),
        };
        if let Some(number) = self.step_refusal(&held.opened, whole_report, held.tick) {
            return number;
        }
        if self.has(Flaw::BatchAnswers19) && lent.report.len() < needed {
            return 19;
        }
        for &flag in flags {
            let left = lent.report.len() - words;
            let full = if self.has(Flaw::BatchFillsReport) { left == 0 } else { left < needed };
            let used_up = held.tick == MAX_TICKS && !self.has(Flaw::BatchTakesTickTooMany);
            if full || used_up {
                break;
            }
            let cut = self.has(Flaw::BatchStepsIn32Bits);
            let step = if cut { held.tick % (1 << 32) } else { held.tick };
            for tick in self.advance(&mut held, flag, &mut lent) {
                let pair =
                    if self.has(Flaw::BatchSwapsPairs) { [step, tick] } else { [tick, step] };
                if words + 2 <= lent.report.len() {
                    lent.report[words..words + 2].copy_from_slice(&pair);
                    words += 2;
                }
            }
            taken += 1;
        }
        self.write_state(&held, state);
        *answer.taken = taken;
        *answer.pairs = words / 2;
        *answer.live = if self.has(Flaw::BatchForgetsLive) { 0 } else { held.live as usize };
        0
    }

    fn set_figures(&self, sheet: &[u8], answer: SetFiguresAnswer) -> u32 {
        self.figures_of_set(sheet, answer)
    }

    fn set_open(
        &self,
        sheet: &[u8],
        records: &mut [Running],
        history: &mut [u8],
        cells: &[u32],
    ) -> u32 {
        self.open_set(sheet, records, history, cells)
    }

    fn set_step(&self, sheet: &[u8], flag: u8, lent: SetLent, answer: SetStepAnswer) -> u32 {
        self.step_set(sheet, flag, lent, answer)
    }

    fn set_steps(&self, sheet: &[u8], flags: &[u8], lent: SetLent, answer: SetStepsAnswer) -> u32 {
        self.step_set_often(sheet, flags, lent, answer)
    }

    fn calendar_open(
        &self,
        sheet: &[u8],
        rule: usize,
        history: &mut [u8],
        cells: &[u32],
        words: &mut [u64],
        state: &mut State,
    ) -> u32 {
        let number = self.open(sheet, rule, history, cells, state);
        self.open_calendar(number, words);
        number
    }

    fn calendar_step(
        &self,
        state: &mut State,
        flag: u8,
        lent: StepLent,
        words: &mut [u64],
        answer: StepAnswer,
    ) -> u32 {
        self.step_calendar(state, flag, lent, words, answer)
    }

    fn calendar_steps(
        &self,
        state: &mut State,
        flags: &[u8],
        lent: StepLent,
        words: &mut [u64],
        answer: StepsAnswer,
    ) -> u32 {
        self.step_calendar_often(state, flags, lent, words, answer)
    }

    fn calendar_clear(&self, words: &mut [u64]) {
        self.clear_calendar(words);
    }

    fn calendar_fill(&self, words: &mut [u64], tick: u64, flags: &[u8]) {
        self.fill_calendar(words, tick, flags);
    }

    fn calendar_ask(&self, words: &[u64], flag: u8, question: Question, answer: &mut u64) -> u32 {
        self.ask_calendar(words, flag, question, answer)
    }
}

/// FNV-1a.
fn sum(bytes: &[u8]) -> u32 {
    let mix = |sum: u32, &byte: &u8| (sum ^ byte as u32).wrapping_mul(0x0100_0193);
    bytes.iter().fold(0x811C_9DC5, mix)
}

/// Whether the last byte is the code that refusal 9 is about.
fn ends_with_code(body: &[u8]) -> bool {
    paper::read_body(&body[..body.len() - 1]) == Err(4)
}

/// Whether a body that is refused with 4 or 5 is so where its 65th formula is due: with a
/// known code there it would be refused with 9.
fn reaches_the_65th(body: &[u8]) -> bool {
    let with_code = |at: usize| [&body[..at], &[2]].concat();
    (0..=body.len()).any(|at| paper::read_body(&with_code(at)) == Err(9))
}

/// Whether four bytes look like an infinity with an offset out of range.
fn has_far_infinity(body: &[u8]) -> bool {
    let far = |low, high| i16::from_le_bytes([low, high]).unsigned_abs() > MAX_OFFSET as u16;
    body.windows(4).any(|four| four[..2] == [1, 0] && far(four[2], four[3]))
}

/// Whether a bound of an accepted body names a range's variable.
fn has_inner_bound(body: &[u8]) -> bool {
    let inner = |(at, place)| matches!(place, Place::BoundVariable(2, _)) && body[at] != 0;
    places(body).into_iter().any(inner)
}

fn zero_is_this_tick(first: Bound, second: Bound) -> (Bound, Bound) {
    match first {
        Bound::Start(n) => (Bound::Variable(0, n), second),
        other => (other, second),
    }
}

fn begins_at_0(formula: &Formula) -> bool {
    match formula {
        Formula::Flag(..) => false,
        Formula::Not(part) => begins_at_0(part),
        Formula::Then(f, g) | Formula::Beside(f, g) => begins_at_0(f) || begins_at_0(g),
        Formula::ForAll(first, _, part) => matches!(first, Bound::Start(_)) || begins_at_0(part),
    }
}

/// Whether the formula is a bare range that needs 4,097 cells: X-4,094..X.
fn just_too_many(formula: &Formula) -> bool {
    match formula {
        Formula::Not(part) => just_too_many(part),
        Formula::ForAll(Bound::Variable(0, low), Bound::Variable(0, high), part) => {
            high - low == 4094 && *high <= 0 && matches!(**part, Formula::Flag(..))
        }
        _ => false,
    }
}

/// The cells that a rule needs, modulo 65,536.
fn wrapped_cells(formula: &Formula) -> u64 {
    (paper::exact_cells(formula) % 65_536) as u64
}

/// Whether the formula is a range of no positions whose body alone is refused with 15.
fn none_over_many(formula: &Formula) -> bool {
    match formula {
        Formula::ForAll(Bound::Variable(0, low), Bound::Variable(0, high), part) => {
            low > high && paper::formula_figures(part) == Err(15)
        }
        _ => false,
    }
}

type BoundChange<'a> = &'a dyn Fn(Bound, Bound) -> (Bound, Bound);

fn bounds_changed(formula: &Formula, change: BoundChange) -> Formula {
    let part = |formula: &Formula| Box::new(bounds_changed(formula, change));
    match formula {
        Formula::Flag(..) => formula.clone(),
        Formula::Not(f) => Formula::Not(part(f)),
        Formula::Then(f, g) => Formula::Then(part(f), part(g)),
        Formula::Beside(f, g) => Formula::Beside(part(f), part(g)),
        Formula::ForAll(first, second, f) => {
            let (first, second) = change(*first, *second);
            Formula::ForAll(first, second, part(f))
        }
    }
}

fn then_as_beside(formula: &Formula) -> Formula {
    let part = |formula: &Formula| Box::new(then_as_beside(formula));
    match formula {
        Formula::Flag(..) => formula.clone(),
        Formula::Not(f) => Formula::Not(part(f)),
        Formula::Then(f, g) | Formula::Beside(f, g) => Formula::Beside(part(f), part(g)),
        Formula::ForAll(first, second, f) => Formula::ForAll(*first, *second, part(f)),
    }
}
