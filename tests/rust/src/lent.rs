//! Buffers to be lent to the library, with guards before and after them.

use crate::library::Running;
use std::fmt::Debug;

/// Elements before and after a lent buffer.
const GUARD: usize = 24;

/// What can be lent: bytes, words, and records of words.
pub trait Word: Copy + PartialEq + Debug {
    /// What the guard holds at a place.
    fn guard(place: usize) -> Self;
}

impl Word for u8 {
    fn guard(place: usize) -> u8 {
        0xA5 ^ (place as u8).wrapping_mul(29)
    }
}

impl Word for u16 {
    fn guard(place: usize) -> u16 {
        0xA5C3 ^ (place as u16).wrapping_mul(2029)
    }
}

impl Word for u32 {
    fn guard(place: usize) -> u32 {
        0xA5C3_9669 ^ (place as u32).wrapping_mul(0x0101_2029)
    }
}

impl Word for u64 {
    fn guard(place: usize) -> u64 {
        0xA5C3_9669_3CB4_5A1E ^ (place as u64).wrapping_mul(0x0101_2029)
    }
}

impl Word for usize {
    fn guard(place: usize) -> usize {
        <u64 as Word>::guard(place) as usize
    }
}

impl Word for Running {
    fn guard(place: usize) -> Running {
        Running::of_words(std::array::from_fn(|at| <u32 as Word>::guard(8 * place + at)))
    }
}

/// A buffer with guards around it. `shift` more guards stand before it, so that
/// bytes are lent at odd addresses too.
#[derive(Clone)]
pub struct Lent<T: Word> {
    all: Vec<T>,
    before: usize,
    length: usize,
}

impl<T: Word> Lent<T> {
    pub fn new(content: &[T]) -> Lent<T> {
        Lent::shifted(content, 0)
    }

    pub fn shifted(content: &[T], shift: usize) -> Lent<T> {
        let before = GUARD + shift;
        let mut all: Vec<T> = (0..before).map(T::guard).collect();
        all.extend_from_slice(content);
        all.extend((0..GUARD).map(T::guard));
        Lent { all, before, length: content.len() }
    }

    /// One number, as an answer is lent.
    pub fn one(content: T) -> Lent<T> {
        Lent::new(&[content])
    }

    /// What is lent.
    pub fn part(&mut self) -> &mut [T] {
        &mut self.all[self.before..self.before + self.length]
    }

    /// The one number lent.
    pub fn slot(&mut self) -> &mut T {
        &mut self.part()[0]
    }

    pub fn seen(&self) -> &[T] {
        &self.all[self.before..self.before + self.length]
    }

    pub fn length(&self) -> usize {
        self.length
    }

    /// The same content somewhere else.
    pub fn moved(&self, shift: usize) -> Lent<T> {
        Lent::shifted(self.seen(), shift)
    }

    pub fn guards_hold(&self) -> bool {
        let after = self.before + self.length;
        let holds = |(place, word): (usize, &T)| *word == T::guard(place);
        self.all[..self.before].iter().enumerate().all(holds)
            && self.all[after..].iter().enumerate().all(holds)
    }
}
