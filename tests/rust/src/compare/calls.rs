//! One call each, but for the step. Every function answers the number that the
//! library and the paper agree on.

use super::{hex, Check, MARK};
use crate::demand;
use crate::lent::Lent;
use crate::library::{Library, State, FALSE, OPEN, STATE_BYTES, TRUE};
use crate::paper::{self, Outcome, Verdict};
use crate::random::{Random, WriterInput};
use crate::states;

pub(super) fn state_of(lent: &mut Lent<u8>) -> &mut State {
    lent.part().try_into().expect("a state has 544 bytes")
}

/// "Reader: 1 to 3."
pub fn place(library: &dyn Library, sheet: &[u8], rule: usize) -> Check<u32> {
    let about = || format!("place of rule {rule} in {}", hex(sheet));
    let mut lent = Lent::new(sheet);
    let (mut start, mut size) = (Lent::one(MARK as usize), Lent::one(MARK as usize));
    let number = library.rule_place(lent.part(), rule, start.slot(), size.slot());
    let (due, due_place) = match paper::rule_place(sheet, rule) {
        Ok(place) => (0, place),
        Err(number) => (number, (MARK as usize, MARK as usize)),
    };
    demand!(number == due, "{}: answered {number}, due is {due}", about());
    let answered = (*start.slot(), *size.slot());
    demand!(answered == due_place, "{}: answered {answered:?}, due is {due_place:?}", about());
    demand!(lent.seen() == sheet, "{}: the sheet was changed", about());
    let guards = lent.guards_hold() && start.guards_hold() && size.guards_hold();
    demand!(guards, "{}: wrote outside", about());
    Ok(number)
}

/// Writer: 1, 2, 22.
pub fn write(library: &dyn Library, random: &mut Random, input: &WriterInput) -> Check<u32> {
    let before = random.bytes(input.room);
    let mut due_out = before.clone();
    let (due, due_written) = match paper::write_sheet(&input.lengths, &input.bodies, &mut due_out) {
        Ok(written) => (0, written),
        Err(number) => (number, MARK as usize),
    };
    let mut lengths = Lent::new(&input.lengths);
    let mut bodies = Lent::new(&input.bodies);
    let mut out = Lent::shifted(&before, random.below(8));
    let mut written = Lent::one(MARK as usize);
    let number = library.write_sheet(lengths.part(), bodies.part(), out.part(), written.slot());
    demand!(number == due, "writer: answered {number}, due is {due}; {input:?}");
    let answered = *written.slot();
    demand!(answered == due_written, "writer: wrote {answered}, due is {due_written}; {input:?}");
    demand!(out.seen() == due_out, "writer: the buffer is not as due; {input:?}");
    demand!(lengths.seen() == input.lengths, "writer: lengths were changed; {input:?}");
    demand!(bodies.seen() == input.bodies, "writer: bodies were changed; {input:?}");
    let guards = lengths.guards_hold() && bodies.guards_hold();
    let guards = guards && out.guards_hold() && written.guards_hold();
    demand!(guards, "writer: wrote outside; {input:?}");
    Ok(number)
}

/// The library's reader gives back what the library's writer was given.
pub fn round_trip(library: &dyn Library, bodies: &[Vec<u8>]) -> Check {
    let lengths: Vec<u16> = bodies.iter().map(|body| body.len() as u16).collect();
    let joined = bodies.concat();
    let mut out = vec![0xEE; 1 + 4 * lengths.len() + joined.len() + 7];
    let mut written = 0;
    let number = library.write_sheet(&lengths, &joined, &mut out, &mut written);
    demand!(number == 0, "round trip: the writer answered {number}; lengths {lengths:?}");
    for (rule, body) in bodies.iter().enumerate() {
        let (mut start, mut size) = (0, 0);
        let number = library.rule_place(&out[..written], rule, &mut start, &mut size);
        demand!(number == 0, "round trip: rule {rule} got {number}; lengths {lengths:?}");
        let found = out.get(start..start + size);
        demand!(found == Some(&body[..]), "round trip: rule {rule}; lengths {lengths:?}");
    }
    Ok(())
}

/// "Figures: 4 to 15." And 23, 24.
pub fn figures(library: &dyn Library, body: &[u8]) -> Check<u32> {
    let about = || format!("figures of {}", hex(body));
    let mut lent = Lent::new(body);
    let mut answers = [Lent::one(MARK), Lent::one(MARK), Lent::one(MARK)];
    let [history, delay, cells] = &mut answers;
    let number = library.figures(lent.part(), history.slot(), delay.slot(), cells.slot());
    let (due, due_answers) = match paper::figures(body) {
        Ok(figures) => (0, [figures.history, figures.delay, figures.cells]),
        Err(number) => (number, [MARK; 3]),
    };
    demand!(number == due, "{}: answered {number}, due is {due}", about());
    let answered = answers.each_ref().map(|answer| answer.seen()[0]);
    demand!(answered == due_answers, "{}: {answered:?}, due is {due_answers:?}", about());
    demand!(lent.seen() == body, "{}: the body was changed", about());
    let guards = lent.guards_hold() && answers.iter().all(Lent::guards_hold);
    demand!(guards, "{}: wrote outside", about());
    Ok(number)
}

/// "Evaluator: 4 to 10, 16." And 23, 24. The step of an open outcome is answered as 0.
pub fn outcome(library: &dyn Library, body: &[u8], recording: &[u8], tick: usize) -> Check<u32> {
    let about = || format!("tick {tick} of {} for {}", hex(recording), hex(body));
    let (mut lent_body, mut lent_recording) = (Lent::new(body), Lent::new(recording));
    let (mut verdict, mut step) = (Lent::one(MARK as u32), Lent::one(MARK));
    let number =
        library.outcome(lent_body.part(), lent_recording.part(), tick, verdict.slot(), step.slot());
    let answered = (number, *verdict.slot(), *step.slot());
    let due = match paper::evaluate(body, recording, tick) {
        Err(number) => (number, MARK as u32, MARK),
        Ok(Outcome::Open) => (0, OPEN, 0),
        Ok(Outcome::Decided(Verdict::True, at)) => (0, TRUE, at as u64),
        Ok(Outcome::Decided(Verdict::False, at)) => (0, FALSE, at as u64),
    };
    demand!(answered == due, "{}: answered {answered:?}, due is {due:?}", about());
    let kept = lent_body.seen() == body && lent_recording.seen() == recording;
    demand!(kept, "{}: body or recording was changed", about());
    let guards = lent_body.guards_hold() && lent_recording.guards_hold();
    let guards = guards && verdict.guards_hold() && step.guards_hold();
    demand!(guards, "{}: wrote outside", about());
    Ok(number)
}

/// "Opening: 1 to 15, 17, 18." And 23, 24. An accepted one "zeroes the history" and sets all
/// bytes of the state; at this boundary it is lent the table only to be read.
pub fn opening(
    library: &dyn Library,
    random: &mut Random,
    sheet: &[u8],
    rule: usize,
    lengths: (usize, usize),
) -> Check<u32> {
    let (history_length, table_words) = lengths;
    let about = || {
        format!(
            "opening rule {rule}, history {history_length}, table {table_words}, of {}",
            hex(sheet)
        )
    };
    let history_before = random.bytes(history_length);
    let state_before = random.bytes(STATE_BYTES);
    let table_before = random.words(table_words);
    let mut lent_sheet = Lent::new(sheet);
    let mut history = Lent::shifted(&history_before, random.below(8));
    let mut table = Lent::new(&table_before);
    let mut state = Lent::shifted(&state_before, random.below(8));
    let number =
        library.open(lent_sheet.part(), rule, history.part(), table.part(), state_of(&mut state));
    let due = paper::open(sheet, rule, history_length, table_words).err().unwrap_or(0);
    demand!(number == due, "{}: answered {number}, due is {due}", about());
    if number == 0 {
        demand!(history.seen().iter().all(|&byte| byte == 0), "{}: history not 0", about());
        let body = paper::rule_body(sheet, rule).expect("the opening read it");
        let fresh = states::fresh(body, history_length);
        demand!(state.seen() == fresh, "{}: the state is not as due", about());
    } else {
        demand!(history.seen() == history_before, "{}: history was changed", about());
        demand!(state.seen() == state_before, "{}: state was changed", about());
    }
    demand!(table.seen() == table_before, "{}: the table was changed", about());
    demand!(lent_sheet.seen() == sheet, "{}: the sheet was changed", about());
    let guards = lent_sheet.guards_hold() && history.guards_hold();
    let guards = guards && table.guards_hold() && state.guards_hold();
    demand!(guards, "{}: wrote outside", about());
    Ok(number)
}
