//! Memory with a page before it and one after it that nobody may touch. What is lent there
//! lies directly at one of them, so that reading or writing a byte outside ends the process
//! with SIGSEGV. Guard words (`lent`) show what was written only.

use crate::lent::Word;
use crate::library::{
    Library, Question, Running, SetFiguresAnswer, SetLent, SetStepAnswer, SetStepsAnswer, State,
    StepAnswer, StepLent, StepsAnswer,
};
use std::cell::RefCell;
use std::ffi::{c_int, c_long, c_void};
use std::ops::Range;
use std::ptr;
use std::slice::from_ref;

// The C library's, as of Linux on x86-64, for which alone the Rattle library is built.
extern "C" {
    fn mmap(
        address: *mut c_void,
        length: usize,
        protection: c_int,
        flags: c_int,
        file: c_int,
        offset: c_long,
    ) -> *mut c_void;
    fn mprotect(address: *mut c_void, length: usize, protection: c_int) -> c_int;
    fn munmap(address: *mut c_void, length: usize) -> c_int;
}

const PAGE: usize = 4096;
const NO_ACCESS: c_int = 0;
const READ_AND_WRITE: c_int = 1 | 2;
const PRIVATE_AND_ANONYMOUS: c_int = 0x02 | 0x20;

/// Where the guard page lies that what is lent touches.
#[derive(Clone, Copy, Debug, PartialEq, Eq)]
pub enum Guard {
    Before,
    After,
}

/// Whole pages between two guard pages.
pub struct Pages {
    start: *mut u8,
    bytes: usize,
    guard: Guard,
}

impl Pages {
    /// Room for so many bytes.
    pub fn new(bytes: usize, guard: Guard) -> Pages {
        let bytes = bytes.max(1).next_multiple_of(PAGE);
        let length = bytes + 2 * PAGE;
        // SAFETY: new memory, at a place that the system chooses.
        let all = unsafe { mmap(ptr::null_mut(), length, NO_ACCESS, PRIVATE_AND_ANONYMOUS, -1, 0) };
        assert!(all as isize != -1, "no memory for {length} bytes");
        let start = all.cast::<u8>().wrapping_add(PAGE);
        // SAFETY: pages of the memory that was just got.
        let opened = unsafe { mprotect(start.cast(), bytes, READ_AND_WRITE) };
        assert_eq!(opened, 0, "the pages between the guards cannot be opened");
        Pages { start, bytes, guard }
    }

    /// A copy of the content that touches the guard page.
    pub fn lend<T: Word>(&mut self, content: &[T]) -> &mut [T] {
        let size = size_of_val(content);
        if size > self.bytes {
            *self = Pages::new(size, self.guard);
        }
        let at = match self.guard {
            Guard::Before => 0,
            Guard::After => self.bytes - size,
        };
        let start = self.start.wrapping_add(at).cast::<T>();
        // SAFETY: so many bytes between the guards are this value's own. They begin or end
        // with a page, so they are aligned; any bytes are a word; and they are borrowed alone.
        unsafe {
            ptr::copy_nonoverlapping(content.as_ptr(), start, content.len());
            std::slice::from_raw_parts_mut(start, content.len())
        }
    }

    /// The same of one number.
    pub fn lend_one<T: Word>(&mut self, content: &T) -> &mut T {
        &mut self.lend(from_ref(content))[0]
    }
}

impl Drop for Pages {
    fn drop(&mut self) {
        let all = self.start.wrapping_sub(PAGE);
        // SAFETY: the memory that `new` got, which nobody has borrowed any more.
        unsafe { munmap(all.cast(), self.bytes + 2 * PAGE) };
    }
}

/// Is told each buffer and each answer that a call is lent: the call and its name, and where
/// it lies.
pub type Told<'a> = &'a dyn Fn(&str, Range<*const u8>);

/// Pages for one buffer of a call.
struct Lender<'a> {
    pages: Pages,
    told: Told<'a>,
}

impl Lender<'_> {
    fn lend<T: Word>(&mut self, name: &str, content: &[T]) -> &mut [T] {
        let bytes = content.as_ptr_range();
        (self.told)(name, bytes.start.cast()..bytes.end.cast());
        self.pages.lend(content)
    }

    fn lend_one<T: Word>(&mut self, name: &str, content: &T) -> &mut T {
        &mut self.lend(name, from_ref(content))[0]
    }
}

/// A library whose every buffer and every answer is lent on to another, at a guard page of its
/// own.
pub struct Guarded<'a> {
    library: &'a dyn Library,
    /// As many as the call with the most of them needs.
    lenders: RefCell<[Lender<'a>; 9]>,
}

impl<'a> Guarded<'a> {
    pub fn new(library: &'a dyn Library, guard: Guard) -> Guarded<'a> {
        Guarded::telling(library, guard, &|_, _| ())
    }

    /// The same, which tells what it is lent itself.
    pub fn telling(library: &'a dyn Library, guard: Guard, told: Told<'a>) -> Guarded<'a> {
        let lender = |_| Lender { pages: Pages::new(PAGE, guard), told };
        Guarded { library, lenders: RefCell::new(std::array::from_fn(lender)) }
    }
}

/// What is lent to be read is not written.
fn check_kept<T: Word>(lent: &[T], content: &[T]) {
    assert!(lent == content, "what was lent to be read was changed");
}

fn state_of(lent: &mut [u8]) -> &mut State {
    lent.try_into().expect("a state has 544 bytes")
}

impl Library for Guarded<'_> {
    fn rule_place(&self, sheet: &[u8], rule: usize, start: &mut usize, size: &mut usize) -> u32 {
        let [a, b, c, ..] = &mut *self.lenders.borrow_mut();
        let (lent, at, length) = (
            a.lend("place sheet", sheet),
            b.lend_one("place start", start),
            c.lend_one("place size", size),
        );
        let number = self.library.rule_place(lent, rule, at, length);
        (*start, *size) = (*at, *length);
        check_kept(lent, sheet);
        number
    }

    fn write_sheet(
        &self,
        lengths: &[u16],
        bodies: &[u8],
        out: &mut [u8],
        written: &mut usize,
    ) -> u32 {
        let [a, b, c, d, ..] = &mut *self.lenders.borrow_mut();
        let (lent_lengths, lent_bodies) =
            (a.lend("write lengths", lengths), b.lend("write bodies", bodies));
        let (sheet, length) = (c.lend("write out", out), d.lend_one("write written", written));
        let number = self.library.write_sheet(lent_lengths, lent_bodies, sheet, length);
        out.copy_from_slice(sheet);
        *written = *length;
        check_kept(lent_lengths, lengths);
        check_kept(lent_bodies, bodies);
        number
    }

    fn rule_from_text(&self, text: &[u8], body: &mut [u8], written: &mut usize) -> u32 {
        let [a, b, c, ..] = &mut *self.lenders.borrow_mut();
        let (lent, out, length) = (
            a.lend("read text", text),
            b.lend("read body", body),
            c.lend_one("read written", written),
        );
        let number = self.library.rule_from_text(lent, out, length);
        body.copy_from_slice(out);
        *written = *length;
        check_kept(lent, text);
        number
    }

    fn rule_to_text(&self, body: &[u8], text: &mut [u8], written: &mut usize) -> u32 {
        let [a, b, c, ..] = &mut *self.lenders.borrow_mut();
        let (lent, out, length) = (
            a.lend("print body", body),
            b.lend("print text", text),
            c.lend_one("print written", written),
        );
        let number = self.library.rule_to_text(lent, out, length);
        text.copy_from_slice(out);
        *written = *length;
        check_kept(lent, body);
        number
    }

    fn figures(&self, body: &[u8], history: &mut u64, delay: &mut u64, cells: &mut u64) -> u32 {
        let [a, b, c, d, ..] = &mut *self.lenders.borrow_mut();
        let lent = a.lend("figures body", body);
        let (h, dl, cs) = (
            b.lend_one("figures history", history),
            c.lend_one("figures delay", delay),
            d.lend_one("figures cells", cells),
        );
        let number = self.library.figures(lent, h, dl, cs);
        (*history, *delay, *cells) = (*h, *dl, *cs);
        check_kept(lent, body);
        number
    }

    fn outcome(
        &self,
        body: &[u8],
        recording: &[u8],
        tick: usize,
        verdict: &mut u32,
        step: &mut u64,
    ) -> u32 {
        let [a, b, c, d, ..] = &mut *self.lenders.borrow_mut();
        let (lent_body, lent_recording) =
            (a.lend("outcome body", body), b.lend("outcome recording", recording));
        let (answer, at) =
            (c.lend_one("outcome verdict", verdict), d.lend_one("outcome step", step));
        let number = self.library.outcome(lent_body, lent_recording, tick, answer, at);
        (*verdict, *step) = (*answer, *at);
        check_kept(lent_body, body);
        check_kept(lent_recording, recording);
        number
    }

    fn open(
        &self,
        sheet: &[u8],
        rule: usize,
        history: &mut [u8],
        cells: &[u32],
        state: &mut State,
    ) -> u32 {
        let [a, b, c, d, ..] = &mut *self.lenders.borrow_mut();
        let (lent_sheet, lent_cells) = (a.lend("open sheet", sheet), b.lend("open cells", cells));
        let (flags, opened) =
            (c.lend("open history", history), state_of(d.lend("open state", state)));
        let number = self.library.open(lent_sheet, rule, flags, lent_cells, opened);
        history.copy_from_slice(flags);
        *state = *opened;
        check_kept(lent_sheet, sheet);
        check_kept(lent_cells, cells);
        number
    }

    fn step(&self, state: &mut State, flag: u8, lent: StepLent, answer: StepAnswer) -> u32 {
        let [a, b, c, d, e, f, ..] = &mut *self.lenders.borrow_mut();
        let own = state_of(a.lend("step state", state));
        let (history, cells) =
            (b.lend("step history", lent.history), c.lend("step cells", lent.cells));
        let report = d.lend("step report", lent.report);
        let (reported, live) =
            (e.lend_one("step reported", answer.reported), f.lend_one("step live", answer.live));
        let own_answer = StepAnswer { reported: &mut *reported, live: &mut *live };
        let number = self.library.step(own, flag, parts(history, cells, report), own_answer);
        *state = *own;
        lent.history.copy_from_slice(history);
        lent.cells.copy_from_slice(cells);
        lent.report.copy_from_slice(report);
        (*answer.reported, *answer.live) = (*reported, *live);
        number
    }

    fn steps(&self, state: &mut State, flags: &[u8], lent: StepLent, answer: StepsAnswer) -> u32 {
        let [a, b, c, d, e, f, g, h, ..] = &mut *self.lenders.borrow_mut();
        let (own, lent_flags) =
            (state_of(a.lend("steps state", state)), b.lend("steps flags", flags));
        let (history, cells) =
            (c.lend("steps history", lent.history), d.lend("steps cells", lent.cells));
        let report = e.lend("steps report", lent.report);
        let (taken, pairs) =
            (f.lend_one("steps taken", answer.taken), g.lend_one("steps pairs", answer.pairs));
        let live = h.lend_one("steps live", answer.live);
        let own_answer = StepsAnswer { taken: &mut *taken, pairs: &mut *pairs, live: &mut *live };
        let number = self.library.steps(own, lent_flags, parts(history, cells, report), own_answer);
        *state = *own;
        lent.history.copy_from_slice(history);
        lent.cells.copy_from_slice(cells);
        lent.report.copy_from_slice(report);
        (*answer.taken, *answer.pairs, *answer.live) = (*taken, *pairs, *live);
        check_kept(lent_flags, flags);
        number
    }

    fn set_figures(&self, sheet: &[u8], answer: SetFiguresAnswer) -> u32 {
        let [a, b, c, d, e, ..] = &mut *self.lenders.borrow_mut();
        let lent = a.lend("set figures sheet", sheet);
        let rules = b.lend_one("set figures rules", answer.rules);
        let history = c.lend_one("set figures history", answer.history);
        let cells = d.lend_one("set figures cells", answer.cells);
        let pairs = e.lend_one("set figures pairs", answer.pairs);
        let own_answer = SetFiguresAnswer {
            rules: &mut *rules,
            history: &mut *history,
            cells: &mut *cells,
            pairs: &mut *pairs,
        };
        let number = self.library.set_figures(lent, own_answer);
        (*answer.rules, *answer.history) = (*rules, *history);
        (*answer.cells, *answer.pairs) = (*cells, *pairs);
        check_kept(lent, sheet);
        number
    }

    fn set_open(
        &self,
        sheet: &[u8],
        records: &mut [Running],
        history: &mut [u8],
        cells: &[u32],
    ) -> u32 {
        let [a, b, c, d, ..] = &mut *self.lenders.borrow_mut();
        let (lent_sheet, lent_cells) =
            (a.lend("set open sheet", sheet), b.lend("set open cells", cells));
        let (running, flags) =
            (c.lend("set open records", records), d.lend("set open history", history));
        let number = self.library.set_open(lent_sheet, running, flags, lent_cells);
        records.copy_from_slice(running);
        history.copy_from_slice(flags);
        check_kept(lent_sheet, sheet);
        check_kept(lent_cells, cells);
        number
    }

    fn set_step(&self, sheet: &[u8], flag: u8, lent: SetLent, answer: SetStepAnswer) -> u32 {
        let [a, b, c, d, e, f, g, ..] = &mut *self.lenders.borrow_mut();
        let (lent_sheet, records) =
            (a.lend("set step sheet", sheet), b.lend("set step records", lent.records));
        let (history, cells) =
            (c.lend("set step history", lent.history), d.lend("set step cells", lent.cells));
        let report = e.lend("set step report", lent.report);
        let (pairs, live) =
            (f.lend_one("set step pairs", answer.pairs), g.lend_one("set step live", answer.live));
        let own = set_parts(records, history, cells, report);
        let own_answer = SetStepAnswer { pairs: &mut *pairs, live: &mut *live };
        let number = self.library.set_step(lent_sheet, flag, own, own_answer);
        give_back(lent, records, history, cells, report);
        (*answer.pairs, *answer.live) = (*pairs, *live);
        check_kept(lent_sheet, sheet);
        number
    }

    fn set_steps(&self, sheet: &[u8], flags: &[u8], lent: SetLent, answer: SetStepsAnswer) -> u32 {
        let [a, b, c, d, e, f, g, h, i] = &mut *self.lenders.borrow_mut();
        let (lent_sheet, lent_flags) =
            (a.lend("set steps sheet", sheet), b.lend("set steps flags", flags));
        let (records, history) =
            (c.lend("set steps records", lent.records), d.lend("set steps history", lent.history));
        let (cells, report) =
            (e.lend("set steps cells", lent.cells), f.lend("set steps report", lent.report));
        let taken = g.lend_one("set steps taken", answer.taken);
        let triples = h.lend_one("set steps triples", answer.triples);
        let live = i.lend_one("set steps live", answer.live);
        let own = set_parts(records, history, cells, report);
        let own_answer =
            SetStepsAnswer { taken: &mut *taken, triples: &mut *triples, live: &mut *live };
        let number = self.library.set_steps(lent_sheet, lent_flags, own, own_answer);
        give_back(lent, records, history, cells, report);
        (*answer.taken, *answer.triples, *answer.live) = (*taken, *triples, *live);
        check_kept(lent_sheet, sheet);
        check_kept(lent_flags, flags);
        number
    }

    fn calendar_open(
        &self,
        sheet: &[u8],
        rule: usize,
        history: &mut [u8],
        cells: &[u32],
        words: &mut [u64],
        state: &mut State,
    ) -> u32 {
        let [a, b, c, d, e, ..] = &mut *self.lenders.borrow_mut();
        let (lent_sheet, lent_cells) =
            (a.lend("calendar open sheet", sheet), b.lend("calendar open cells", cells));
        let (flags, runs) =
            (c.lend("calendar open history", history), d.lend("calendar open words", words));
        let opened = state_of(e.lend("calendar open state", state));
        let number = self.library.calendar_open(lent_sheet, rule, flags, lent_cells, runs, opened);
        history.copy_from_slice(flags);
        words.copy_from_slice(runs);
        *state = *opened;
        check_kept(lent_sheet, sheet);
        check_kept(lent_cells, cells);
        number
    }

    fn calendar_step(
        &self,
        state: &mut State,
        flag: u8,
        lent: StepLent,
        words: &mut [u64],
        answer: StepAnswer,
    ) -> u32 {
        let [a, b, c, d, e, f, g, ..] = &mut *self.lenders.borrow_mut();
        let own = state_of(a.lend("calendar step state", state));
        let (history, cells) = (
            b.lend("calendar step history", lent.history),
            c.lend("calendar step cells", lent.cells),
        );
        let (report, runs) =
            (d.lend("calendar step report", lent.report), e.lend("calendar step words", words));
        let reported = f.lend_one("calendar step reported", answer.reported);
        let live = g.lend_one("calendar step live", answer.live);
        let own_answer = StepAnswer { reported: &mut *reported, live: &mut *live };
        let own_lent = parts(history, cells, report);
        let number = self.library.calendar_step(own, flag, own_lent, runs, own_answer);
        *state = *own;
        lent.history.copy_from_slice(history);
        lent.cells.copy_from_slice(cells);
        lent.report.copy_from_slice(report);
        words.copy_from_slice(runs);
        (*answer.reported, *answer.live) = (*reported, *live);
        number
    }

    fn calendar_steps(
        &self,
        state: &mut State,
        flags: &[u8],
        lent: StepLent,
        words: &mut [u64],
        answer: StepsAnswer,
    ) -> u32 {
        let [a, b, c, d, e, f, g, h, i] = &mut *self.lenders.borrow_mut();
        let own = state_of(a.lend("calendar steps state", state));
        let (lent_flags, runs) =
            (b.lend("calendar steps flags", flags), c.lend("calendar steps words", words));
        let (history, cells) = (
            d.lend("calendar steps history", lent.history),
            e.lend("calendar steps cells", lent.cells),
        );
        let report = f.lend("calendar steps report", lent.report);
        let taken = g.lend_one("calendar steps taken", answer.taken);
        let pairs = h.lend_one("calendar steps pairs", answer.pairs);
        let live = i.lend_one("calendar steps live", answer.live);
        let own_answer = StepsAnswer { taken: &mut *taken, pairs: &mut *pairs, live: &mut *live };
        let own_lent = parts(history, cells, report);
        let number = self.library.calendar_steps(own, lent_flags, own_lent, runs, own_answer);
        *state = *own;
        lent.history.copy_from_slice(history);
        lent.cells.copy_from_slice(cells);
        lent.report.copy_from_slice(report);
        words.copy_from_slice(runs);
        (*answer.taken, *answer.pairs, *answer.live) = (*taken, *pairs, *live);
        check_kept(lent_flags, flags);
        number
    }

    fn calendar_clear(&self, words: &mut [u64]) {
        let [a, ..] = &mut *self.lenders.borrow_mut();
        let lent = a.lend("calendar clear words", words);
        self.library.calendar_clear(lent);
        words.copy_from_slice(lent);
    }

    fn calendar_fill(&self, words: &mut [u64], tick: u64, flags: &[u8]) {
        let [a, b, ..] = &mut *self.lenders.borrow_mut();
        let (lent, lent_flags) =
            (a.lend("calendar fill words", words), b.lend("calendar fill flags", flags));
        self.library.calendar_fill(lent, tick, lent_flags);
        words.copy_from_slice(lent);
        check_kept(lent_flags, flags);
    }

    fn calendar_ask(&self, words: &[u64], flag: u8, question: Question, answer: &mut u64) -> u32 {
        let [a, b, ..] = &mut *self.lenders.borrow_mut();
        let [words_name, answer_name] = names(question);
        let (lent, slot) = (a.lend(words_name, words), b.lend_one(answer_name, answer));
        let number = self.library.calendar_ask(lent, flag, question, slot);
        *answer = *slot;
        check_kept(lent, words);
        number
    }
}

/// What a question is lent: the words and the answer.
fn names(question: Question) -> [&'static str; 2] {
    match question {
        Question::Ups(..) => ["calendar ups words", "calendar ups answer"],
        Question::First(..) => ["calendar first words", "calendar first answer"],
        Question::Last(..) => ["calendar last words", "calendar last answer"],
        Question::Nearest(..) => ["calendar nearest words", "calendar nearest answer"],
    }
}

fn set_parts<'a>(
    records: &'a mut [Running],
    history: &'a mut [u8],
    cells: &'a mut [u32],
    report: &'a mut [u64],
) -> SetLent<'a> {
    SetLent { records, history, cells, report }
}

/// What a step of a set wrote at the guard pages, into what was lent.
fn give_back(lent: SetLent, records: &[Running], history: &[u8], cells: &[u32], report: &[u64]) {
    lent.records.copy_from_slice(records);
    lent.history.copy_from_slice(history);
    lent.cells.copy_from_slice(cells);
    lent.report.copy_from_slice(report);
}

fn parts<'a>(history: &'a mut [u8], cells: &'a mut [u32], report: &'a mut [u64]) -> StepLent<'a> {
    StepLent { history, cells, report }
}
