//! A library that watches with a calendar beside the stream: its opening and its steps are
//! those with a calendar, so that every suite of the others is one of theirs too. Each is also
//! called without, on copies, and all but the words must be the same: number, state, history,
//! cells, report and counts. After every call the words are compared with the plain calendar
//! (`paper::calendar`).

use crate::compare::{Check, Numbers, MARK};
use crate::demand;
use crate::lent::Lent;
use crate::library::{
    Library, Question, Running, SetFiguresAnswer, SetLent, SetStepAnswer, SetStepsAnswer, State,
    StepAnswer, StepLent, StepsAnswer,
};
use crate::paper::{calendar, Lengths, MAX_HISTORY, MAX_TICKS};
use crate::random::{self, Random};
use crate::states::{self, number_at, put_number, NEXT_AT, OPENED_AT};
use std::cell::RefCell;

/// Which words a step is lent.
#[derive(Clone, Copy, Debug, PartialEq, Eq)]
pub enum Words {
    /// "All the words as the last left them"; other ones come with an opening. Between the steps
    /// come refused ones with the same words.
    AsLeft,
    /// Other ones at most steps, of any content.
    Any,
}

/// What was seen over all calls with a calendar.
#[derive(Clone, Debug, Default)]
pub struct CalendarTally {
    /// Openings, steps and batches with a calendar, refused ones too.
    pub calls: u64,
    pub openings: u64,
    /// Ticks taken that the words keep, and ticks past them.
    pub kept: u64,
    pub past: u64,
    pub batches: u64,
    /// Refused calls by their number.
    pub refused: Numbers,
}

/// The suite on a library that watches with a calendar: what the suite answers, and what was
/// seen of the calendar.
pub fn beside<T>(
    library: &dyn Library,
    seed: u64,
    words: Words,
    suite: impl FnOnce(&dyn Library) -> Check<T>,
) -> Check<(T, CalendarTally)> {
    let held = Held {
        random: Random::new(seed),
        lending: words,
        words: Lent::new(&[]),
        stream: None,
        tally: CalendarTally::default(),
        seen: Ok(()),
    };
    let library = Beside { library, held: RefCell::new(held) };
    let answer = suite(&library);
    let Held { tally, seen, .. } = library.held.into_inner();
    seen?;
    Ok((answer?, tally))
}

struct Beside<'a> {
    library: &'a dyn Library,
    held: RefCell<Held>,
}

/// The words, and what is known of them.
struct Held {
    random: Random,
    lending: Words,
    words: Lent<u64>,
    /// The flag bytes since an opening that got these words, if all steps since did too.
    stream: Option<Vec<u8>>,
    tally: CalendarTally,
    /// The first check that failed.
    seen: Check,
}

impl Held {
    fn note(&mut self, seen: Check) {
        if self.seen.is_ok() {
            self.seen = seen;
        }
    }

    /// Words of any length and content.
    fn take_words(&mut self, length: usize) {
        let content = random::calendar_words(&mut self.random, length);
        self.words = Lent::shifted(&content, self.random.below(3));
        self.stream = None;
    }

    /// Words that end at about the tick, if they are not too many, or others.
    fn take_words_around(&mut self, tick: u64) {
        let length = if tick < 1 << 17 && self.random.one_in(2) {
            8 * (tick as usize / 64) + self.random.below(20)
        } else {
            random::calendar_length(&mut self.random)
        };
        self.take_words(length);
    }

    /// The words after an opening.
    fn check_opened(&mut self, before: Vec<u64>, number: u32) -> Check {
        let mut due = before;
        if number == 0 {
            calendar::clear(&mut due);
            self.stream = (self.lending == Words::AsLeft).then(Vec::new);
            self.tally.openings += 1;
        }
        self.check_words("an opening", number, &due)
    }

    /// The words after a step or a batch that took these flag bytes, from the state's next tick
    /// on.
    fn check_taken(&mut self, before: Vec<u64>, number: u32, tick: u64, flags: &[u8]) -> Check {
        let mut due = before;
        calendar::fill(&mut due, tick, flags);
        let kept = calendar::kept_ticks(&due).saturating_sub(tick).min(flags.len() as u64);
        self.tally.kept += kept;
        self.tally.past += flags.len() as u64 - kept;
        if let Some(stream) = &mut self.stream {
            // A suite may take the same bytes again, from an earlier state.
            let (first, end) = (tick as usize, tick as usize + flags.len());
            stream.resize(stream.len().max(end), 0);
            stream[first..end].copy_from_slice(flags);
        }
        self.check_words("steps", number, &due)
    }

    fn check_words(&mut self, call: &str, number: u32, due: &[u64]) -> Check {
        self.tally.calls += 1;
        if number != 0 {
            self.tally.refused.add(number);
        }
        let words = self.words.seen();
        let length = words.len();
        demand!(words == due, "{call}, answered {number}: the {length} words are not as due");
        demand!(self.words.guards_hold(), "{call}, answered {number}: wrote around the words");
        let agree = self.stream.as_ref().is_none_or(|stream| calendar::agrees(words, stream));
        demand!(agree, "{call}, answered {number}: the words do not agree with the stream");
        Ok(())
    }

    /// What comes before a step: other words, or a refused call with the same ones.
    fn before_step(&mut self, library: &dyn Library, state: &State, lent: &StepLent) {
        if self.lending == Words::Any && !self.random.one_in(4) {
            self.take_words_around(number_at(state, NEXT_AT));
        }
        if self.lending == Words::AsLeft && self.random.one_in(6) {
            let seen = self.refused_between(library, Memory::of(state, lent));
            self.note(seen);
        }
    }

    /// A step or a batch with something that is wrong: 17 to 21.
    fn refused_between(&mut self, library: &dyn Library, mut memory: Memory) -> Check {
        match self.random.below(5) {
            0 => memory.history.push(7),
            1 => memory.cells.clear(),
            2 => memory.report.clear(),
            3 => put_number(&mut memory.state, NEXT_AT, MAX_TICKS),
            _ => put_number(&mut memory.state, OPENED_AT, MAX_HISTORY as u64 + 1),
        }
        let admitted = states::admit_step(&memory.state, memory.lengths());
        let Err(due) = admitted else {
            return Ok(());
        };
        let before = (memory.clone(), self.words.seen().to_vec());
        let mut answers = [MARK as usize; 3];
        let [first, second, third] = &mut answers;
        let flags = self.random.bytes(3);
        let (state, lent) = memory.lend();
        let number = if due != 19 && self.random.one_in(2) {
            let answer = StepsAnswer { taken: first, pairs: second, live: third };
            library.calendar_steps(state, &flags, lent, self.words.part(), answer)
        } else {
            let answer = StepAnswer { reported: first, live: second };
            library.calendar_step(state, flags[0], lent, self.words.part(), answer)
        };
        demand!(number == due, "between: answered {number}, due is {due}");
        demand!(memory == before.0, "between: refused with {due}, but memory was changed");
        demand!(
            answers == [MARK as usize; 3],
            "between: refused with {due}, an answer was written"
        );
        self.check_words("between", number, &before.1)
    }
}

/// What a step is lent, but for the words: a copy.
#[derive(Clone, PartialEq, Eq)]
struct Memory {
    state: State,
    history: Vec<u8>,
    cells: Vec<u32>,
    report: Vec<u64>,
}

impl Memory {
    fn of(state: &State, lent: &StepLent) -> Memory {
        Memory {
            state: *state,
            history: lent.history.to_vec(),
            cells: lent.cells.to_vec(),
            report: lent.report.to_vec(),
        }
    }

    fn lend(&mut self) -> (&mut State, StepLent<'_>) {
        let Memory { state, history, cells, report } = self;
        (state, StepLent { history, cells, report })
    }

    fn lengths(&self) -> Lengths {
        Lengths { history: self.history.len(), table: self.cells.len(), report: self.report.len() }
    }

    /// Whether a call with a calendar answered and left the same as one without.
    fn check_same<const N: usize>(
        &self,
        with: (&State, &StepLent),
        answers: [[usize; N]; 2],
        numbers: [u32; 2],
    ) -> Check {
        let [number, plain] = numbers;
        demand!(number == plain, "with a calendar: answered {number}, without {plain}");
        let (state, lent) = with;
        demand!(*state == self.state, "with a calendar the state differs");
        demand!(*lent.history == self.history, "with a calendar the history differs");
        demand!(*lent.cells == self.cells, "with a calendar the cells differ");
        demand!(*lent.report == self.report, "with a calendar the report differs");
        let [own, plain] = answers;
        demand!(own == plain, "with a calendar: {own:?}, without {plain:?}");
        Ok(())
    }
}

/// The calls that are the other library's.
macro_rules! handed_on {
    ($($call:ident($($argument:ident: $type:ty),*) $(-> $answer:ty)?;)*) => {
        $(fn $call(&self, $($argument: $type),*) $(-> $answer)? {
            self.library.$call($($argument),*)
        })*
    };
}

impl Library for Beside<'_> {
    fn open(
        &self,
        sheet: &[u8],
        rule: usize,
        history: &mut [u8],
        cells: &[u32],
        state: &mut State,
    ) -> u32 {
        let held = &mut *self.held.borrow_mut();
        let length = random::calendar_length(&mut held.random);
        held.take_words(length);
        let before = held.words.seen().to_vec();
        let (mut plain_history, mut plain_state) = (history.to_vec(), *state);
        let words = held.words.part();
        let number = self.library.calendar_open(sheet, rule, history, cells, words, state);
        let plain = self.library.open(sheet, rule, &mut plain_history, cells, &mut plain_state);
        let memory =
            Memory { state: plain_state, history: plain_history, cells: vec![], report: vec![] };
        let lent = StepLent { history, cells: &mut [], report: &mut [] };
        held.note(memory.check_same((state, &lent), [[]; 2], [number, plain]));
        let seen = held.check_opened(before, number);
        held.note(seen);
        number
    }

    fn step(&self, state: &mut State, flag: u8, mut lent: StepLent, answer: StepAnswer) -> u32 {
        let held = &mut *self.held.borrow_mut();
        held.before_step(self.library, state, &lent);
        let (before, tick) = (held.words.seen().to_vec(), number_at(state, NEXT_AT));
        let mut memory = Memory::of(state, &lent);
        let StepAnswer { reported, live } = answer;
        let mut plain_answer = [*reported, *live];
        let own = StepAnswer { reported: &mut *reported, live: &mut *live };
        let words = held.words.part();
        let number = self.library.calendar_step(state, flag, lent.again(), words, own);
        let (plain_state, plain_lent) = memory.lend();
        let [a, b] = &mut plain_answer;
        let plain_slots = StepAnswer { reported: a, live: b };
        let plain = self.library.step(plain_state, flag, plain_lent, plain_slots);
        let answers = [[*reported, *live], plain_answer];
        held.note(memory.check_same((state, &lent), answers, [number, plain]));
        let flags: &[u8] = if number == 0 { &[flag] } else { &[] };
        let seen = held.check_taken(before, number, tick, flags);
        held.note(seen);
        number
    }

    fn steps(
        &self,
        state: &mut State,
        flags: &[u8],
        mut lent: StepLent,
        answer: StepsAnswer,
    ) -> u32 {
        let held = &mut *self.held.borrow_mut();
        held.before_step(self.library, state, &lent);
        let (before, tick) = (held.words.seen().to_vec(), number_at(state, NEXT_AT));
        let mut memory = Memory::of(state, &lent);
        let StepsAnswer { taken, pairs, live } = answer;
        let mut plain_answer = [*taken, *pairs, *live];
        let own = StepsAnswer { taken: &mut *taken, pairs: &mut *pairs, live: &mut *live };
        let words = held.words.part();
        let number = self.library.calendar_steps(state, flags, lent.again(), words, own);
        let (plain_state, plain_lent) = memory.lend();
        let [a, b, c] = &mut plain_answer;
        let plain_slots = StepsAnswer { taken: a, pairs: b, live: c };
        let plain = self.library.steps(plain_state, flags, plain_lent, plain_slots);
        let answers = [[*taken, *pairs, *live], plain_answer];
        held.note(memory.check_same((state, &lent), answers, [number, plain]));
        held.tally.batches += 1;
        let count = if number == 0 { plain_answer[0].min(flags.len()) } else { 0 };
        let seen = held.check_taken(before, number, tick, &flags[..count]);
        held.note(seen);
        number
    }

    handed_on! {
        rule_place(sheet: &[u8], rule: usize, start: &mut usize, size: &mut usize) -> u32;
        write_sheet(lengths: &[u16], bodies: &[u8], out: &mut [u8], written: &mut usize) -> u32;
        rule_from_text(text: &[u8], body: &mut [u8], written: &mut usize) -> u32;
        rule_to_text(body: &[u8], text: &mut [u8], written: &mut usize) -> u32;
        figures(body: &[u8], history: &mut u64, delay: &mut u64, cells: &mut u64) -> u32;
        outcome(
            body: &[u8], recording: &[u8], tick: usize, verdict: &mut u32, step: &mut u64
        ) -> u32;
        set_figures(sheet: &[u8], answer: SetFiguresAnswer) -> u32;
        set_open(
            sheet: &[u8], records: &mut [Running], history: &mut [u8], cells: &[u32]
        ) -> u32;
        set_step(sheet: &[u8], flag: u8, lent: SetLent, answer: SetStepAnswer) -> u32;
        set_steps(sheet: &[u8], flags: &[u8], lent: SetLent, answer: SetStepsAnswer) -> u32;
        calendar_open(
            sheet: &[u8], rule: usize, history: &mut [u8], cells: &[u32], words: &mut [u64],
            state: &mut State
        ) -> u32;
        calendar_step(
            state: &mut State, flag: u8, lent: StepLent, words: &mut [u64], answer: StepAnswer
        ) -> u32;
        calendar_steps(
            state: &mut State, flags: &[u8], lent: StepLent, words: &mut [u64],
            answer: StepsAnswer
        ) -> u32;
        calendar_clear(words: &mut [u64]);
        calendar_fill(words: &mut [u64], tick: u64, flags: &[u8]);
        calendar_ask(words: &[u64], flag: u8, question: Question, answer: &mut u64) -> u32;
    }
}
