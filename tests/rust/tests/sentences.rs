//! `sw_sentence` (feature `library`): every number, in buffers of every length, with
//! guards around them.

use rust_tests::lent::Lent;
use station_watch::raw::sw_sentence;
use station_watch::{Refusal, MAX_SENTENCE};

/// What a buffer and the length hold before a call.
const MARK: u8 = 0xC7;
const UNTOUCHED: usize = 777;

/// Answer, length and buffer after a call.
fn ask(number: u32, room: usize) -> (u32, usize, Vec<u8>) {
    let mut out = Lent::shifted(&vec![MARK; room], number as usize % 8);
    let mut written = Lent::one(UNTOUCHED);
    // SAFETY: the pointers and lengths of two buffers that are lent here alone.
    let answer =
        unsafe { sw_sentence(number, out.part().as_mut_ptr(), room, written.part().as_mut_ptr()) };
    assert!(out.guards_hold() && written.guards_hold(), "{number} into {room} bytes");
    (answer, *written.slot(), out.seen().to_vec())
}

#[test]
fn every_number_in_every_length() {
    for number in (0..=40).chain([255, 256, 65_536 + 3, u32::MAX]) {
        let sentence = sentence(number);
        let length = sentence.len();
        assert!(length < MAX_SENTENCE && sentence.is_ascii() && !sentence.contains('\0'));
        for room in 0..MAX_SENTENCE + 9 {
            let due = if room <= length {
                (22, UNTOUCHED, vec![MARK; room])
            } else {
                let rest = vec![MARK; room - length - 1];
                (0, length, [sentence.as_bytes(), &[0], &rest].concat())
            };
            assert_eq!(ask(number, room), due, "{number} into {room} bytes");
        }
    }
}

/// The sentence as the wrapper shows it; its tests, and tests/c/header.py, compare texts.
fn sentence(number: u32) -> String {
    let Some(refusal) = Refusal::from_number(number) else {
        return "no such refusal".to_string();
    };
    let shown = refusal.to_string();
    let sentence = shown.strip_prefix(&format!("refused {number}: "));
    sentence.expect("a number and a sentence").to_string()
}
