//! Rules typed as in the paper, and printed: the two calls, and their suites.

use super::text_cases::chosen;
use super::{Check, Numbers, MARK};
use crate::demand;
use crate::lent::Lent;
use crate::library::Library;
use crate::paper::{self, Refusal};
use crate::random::{self, Random};

/// More than the longest body, and more than the longest text.
pub(super) const ROOM: usize = 4100;

/// "25 and an unbound name 26, in this order; then 01's refusals 4 to 10, with 23 and 24,
/// apply to the result, and last 22". "Bytes after it keep their content."
pub fn from_text(library: &dyn Library, text: &[u8], room: usize) -> Check<u32> {
    let call = |text: &[u8], out: &mut [u8], written: &mut usize| {
        library.rule_from_text(text, out, written)
    };
    let about = || format!("room {room}, text {:?}", String::from_utf8_lossy(text));
    lent(call, text, room, paper::body_of_text(text, room)).map_err(|said| said + &about())
}

/// The way back: 4 to 10, 23, 24, 22.
pub fn to_text(library: &dyn Library, body: &[u8], room: usize) -> Check<u32> {
    let call =
        |body: &[u8], out: &mut [u8], written: &mut usize| library.rule_to_text(body, out, written);
    let about = || format!("room {room}, body {}", super::hex(body));
    lent(call, body, room, paper::text_of_body(body, room)).map_err(|said| said + &about())
}

/// One call that writes bytes: what is due, and everything else as it was.
fn lent(
    call: impl Fn(&[u8], &mut [u8], &mut usize) -> u32,
    given: &[u8],
    room: usize,
    due: Result<Vec<u8>, Refusal>,
) -> Check<u32> {
    let before = Random::new(given.len() as u64).bytes(room);
    let mut lent = Lent::new(given);
    let mut out = Lent::shifted(&before, given.len() % 8);
    let mut written = Lent::one(MARK as usize);
    let number = call(lent.part(), out.part(), written.slot());
    let (due, bytes) = match due {
        Ok(bytes) => (0, Some(bytes)),
        Err(number) => (number, None),
    };
    demand!(number == due, "answered {number}, due is {due}; ");
    let due_written = bytes.as_ref().map_or(MARK as usize, Vec::len);
    let answered = *written.slot();
    demand!(answered == due_written, "answered length {answered}, due is {due_written}; ");
    let bytes = bytes.unwrap_or_default();
    let (own, rest) = out.seen().split_at(bytes.len());
    demand!(own == bytes, "wrote {own:?}, due is {bytes:?}; ");
    demand!(rest == &before[bytes.len()..], "bytes were changed that are not its own; ");
    demand!(lent.seen() == given, "what was lent to be read was changed; ");
    let guards = lent.guards_hold() && out.guards_hold() && written.guards_hold();
    demand!(guards, "wrote outside; ");
    Ok(number)
}

/// Random rules, spelt in many ways and damaged, read with much room.
pub fn texts(library: &dyn Library, seed: u64, count: usize) -> Check<Numbers> {
    let mut random = Random::new(seed);
    let mut numbers = Numbers::default();
    for _ in 0..count {
        let text = random::any_text(&mut random);
        numbers.add(from_text(library, &text, ROOM)?);
        numbers.add(from_text(library, &random::loose_text(&mut random), ROOM)?);
    }
    Ok(numbers)
}

/// One rule after the other, with every single byte of its text changed to each byte of
/// the notation, dropped, doubled, and exchanged with the next.
pub fn damaged_texts(library: &dyn Library, seed: u64, count: usize) -> Check<Numbers> {
    let mut random = Random::new(seed);
    let mut numbers = Numbers::default();
    for _ in 0..count {
        let formula = random::wild_formula(&mut random);
        let text = random::typed(&mut random, &formula).into_bytes();
        for at in 0..text.len().min(160) {
            for changed in changed_at(&text, at) {
                numbers.add(from_text(library, &changed, ROOM)?);
            }
        }
    }
    Ok(numbers)
}

fn changed_at(text: &[u8], at: usize) -> Vec<Vec<u8>> {
    let with = |middle: &[u8], after: usize| [&text[..at], middle, &text[after..]].concat();
    let mut all = vec![with(&[], at + 1), with(&[text[at], text[at]], at + 1)];
    if let Some(&next) = text.get(at + 1) {
        all.push(with(&[next, text[at]], at + 2));
    }
    let signs = b"ainx 0189:@.~()&/\\+-\n\0\x80`{A";
    all.extend(signs.iter().map(|sign| with(&[*sign], at + 1)));
    all.push(text[..at].to_vec());
    all
}

/// Texts with more ranges and brackets in one another than a body can have.
pub fn deep_texts(library: &dyn Library, seed: u64, count: usize) -> Check<Numbers> {
    let mut random = Random::new(seed);
    let mut numbers = Numbers::default();
    for _ in 0..count {
        let mut text = random::deep_text(&mut random).into_bytes();
        numbers.add(from_text(library, &text, ROOM)?);
        random::damage(&mut random, &mut text);
        numbers.add(from_text(library, &text, ROOM)?);
    }
    Ok(numbers)
}

/// Buffers of every length up to some bytes more than the body and the text.
pub fn text_rooms(library: &dyn Library, seed: u64, count: usize) -> Check<Numbers> {
    let mut random = Random::new(seed);
    let mut numbers = Numbers::default();
    for _ in 0..count {
        let formula = random::wild_formula(&mut random);
        let (body, text) = (paper::write_body(&formula), random::typed(&mut random, &formula));
        let printed = paper::text_of_body(&body, ROOM).map_or(0, |text| text.len());
        for room in (0..body.len() + 4).chain([ROOM]) {
            numbers.add(from_text(library, text.as_bytes(), room)?);
        }
        for room in (0..3).chain(printed.saturating_sub(3)..printed + 4) {
            numbers.add(to_text(library, &body, room)?);
        }
        // A refusal of the text or the body comes before 22.
        let text = random::any_text(&mut random);
        let body = random::any_body(&mut random);
        numbers.add(from_text(library, &text, 0)?);
        numbers.add(to_text(library, &body, 0)?);
    }
    Ok(numbers)
}

/// Bodies of all sorts printed; what has a text is read back to the same body.
pub fn printed_bodies(library: &dyn Library, seed: u64, count: usize) -> Check<Numbers> {
    let mut random = Random::new(seed);
    let mut numbers = Numbers::default();
    for round in 0..count {
        let body = match round % 3 {
            0 => paper::write_body(&random::wild_formula(&mut random)),
            1 => random::accepted_rule(&mut random).body,
            _ => random::any_body(&mut random),
        };
        let number = to_text(library, &body, ROOM)?;
        numbers.add(number);
        if number == 0 {
            back(library, &body)?;
        }
    }
    Ok(numbers)
}

/// The library's own text of a body, read by the library and by the paper.
fn back(library: &dyn Library, body: &[u8]) -> Check {
    let (mut text, mut length) = (vec![0; ROOM], 0);
    library.rule_to_text(body, &mut text, &mut length);
    text.truncate(length);
    let (mut again, mut size) = (vec![0; ROOM], 0);
    let number = library.rule_from_text(&text, &mut again, &mut size);
    let about = String::from_utf8_lossy(&text);
    demand!(number == 0, "its own text was answered {number}: {about}");
    demand!(again[..size] == *body, "its own text is another body: {about}");
    let read = paper::body_of_text(&text, ROOM);
    demand!(read.as_deref() == Ok(body), "the paper reads {read:?}: {about}");
    Ok(())
}

/// Texts that were chosen, each with its number.
pub fn text_cases(library: &dyn Library) -> Check<Numbers> {
    let mut numbers = Numbers::default();
    for (text, due) in chosen() {
        let number = from_text(library, text.as_bytes(), ROOM)?;
        let shown = &text[..text.len().min(120)];
        demand!(number == due, "{shown:?} answered {number}, due is {due}");
        numbers.add(number);
    }
    Ok(numbers)
}

/// Bytes of any sort as text and as body, also long ones.
pub fn hostile_texts(library: &dyn Library, seed: u64, count: usize) -> Check<Numbers> {
    let mut random = Random::new(seed);
    let mut numbers = Numbers::default();
    for _ in 0..count {
        let length = random.pick(&[0, 1, 2, 15, 16, 17, 40, 300, 4_095, 4_096, 4_097, 9_000]);
        let room = random.pick(&[0, 1, 3, 17, 512, ROOM]);
        let bytes = some_bytes(&mut random, length);
        numbers.add(from_text(library, &bytes, room)?);
        numbers.add(to_text(library, &bytes, room)?);
        let mut headed = b"monitor x : ".to_vec();
        headed.extend(bytes);
        numbers.add(from_text(library, &headed, room)?);
    }
    Ok(numbers)
}

/// One byte again and again, few different ones, or any.
fn some_bytes(random: &mut Random, length: usize) -> Vec<u8> {
    let signs = b"~((@x.0 && /\\)forall y in 0..x+1 : ";
    match random.below(5) {
        0 => vec![random.pick(signs); length],
        4 => vec![random.size(1, 5) as u8; length],
        1 => (0..length).map(|_| random.pick(signs)).collect(),
        2 => (0..length).map(|_| random.size(0, 6) as u8).collect(),
        _ => random.bytes(length),
    }
}
