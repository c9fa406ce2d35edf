//! A flag calendar, with its words.

use crate::calendar_words::*;
use crate::refusal::Refusal;
use alloc::vec;
use alloc::vec::Vec;
use core::fmt;

/// The ticks at which each flag was up, a bit each, in words of its own. It answers how often
/// a flag was up in a range of ticks, when first and last, and when nearest to a tick.
///
/// A [`Watch`](crate::Watch) can keep one: see
/// [`Watch::calendar_open`](crate::Watch::calendar_open). Of a recording, [`Calendar::of_flags`]
/// makes one. A [`WatchSet`](crate::WatchSet) keeps none: fill in the flags after its step,
/// from the tick on that was its next before. The tick numbers are the set's.
///
/// ```
/// use station_watch::{sheet_of, Calendar, Refusal, WatchSet};
///
/// // Flag 7 at X, and not flag 7 at X.
/// let mut set = WatchSet::open(&sheet_of(&[&[1, 0, 7], &[2, 1, 0, 7]])?)?;
/// let mut calendar = Calendar::new(86_400);
/// for flags in [[0x7F, 0x80], [0x80, 0x00]] {
///     let tick = set.next_tick();
///     let answer = set.steps(&flags, |_| {});
///     let taken = (set.next_tick() - tick) as usize; // all, unless tick numbers are used up
///     calendar.fill(tick, &flags[..taken]);
///     answer?;
/// }
/// assert_eq!(calendar.ups(7, 0, 3)?, 2);
/// assert_eq!(calendar.first_up(7, 0, 3)?, Some(1));
/// assert_eq!(calendar.last_up(7, 0, 3)?, Some(2));
/// assert_eq!(calendar.nearest_up(0, 3)?, Some(0));
/// # Ok::<(), Refusal>(())
/// ```
#[derive(Clone, Default, PartialEq, Eq, Hash)]
pub struct Calendar {
    words: Vec<u64>,
}

impl Calendar {
    /// A calendar with room for at least so many ticks, from tick 0 on: a byte for each. No
    /// flag is up at any of them. More ticks than there is memory for end as in a [`Vec`] that
    /// is too long: in a panic, or in the allocator's abort.
    ///
    /// ```
    /// use station_watch::Calendar;
    ///
    /// let calendar = Calendar::new(100);
    /// assert_eq!((calendar.kept(), calendar.words()), (128, &[0; 16][..]));
    /// ```
    pub fn new(ticks: u64) -> Calendar {
        Calendar { words: vec![0; words_for(ticks)] }
    }

    /// Gives it room for at least so many ticks in all, from tick 0 on. What it keeps stays,
    /// and no flag is up at the ticks that are new. Memory is as for [`new`](Calendar::new).
    ///
    /// ```
    /// use station_watch::{Calendar, Refusal};
    ///
    /// let mut calendar = Calendar::of_flags(&[0, 1, 1]);
    /// calendar.grow_to(100);
    /// calendar.fill(99, &[1]);
    /// calendar.grow_to(50); // has room already
    /// assert_eq!((calendar.kept(), calendar.ups(0, 0, 99)?), (128, 3));
    /// # Ok::<(), Refusal>(())
    /// ```
    pub fn grow_to(&mut self, ticks: u64) {
        if ticks > self.kept() {
            self.words.truncate(words_for(self.kept())); // a last group of fewer
            self.words.resize(words_for(ticks), 0);
        }
    }

    /// The calendar of a recording, whose first byte is tick 0.
    ///
    /// ```
    /// use station_watch::{Calendar, Refusal};
    ///
    /// let calendar = Calendar::of_flags(&[0, 1, 1, 0, 1, 1, 1, 1, 0, 0]);
    /// assert_eq!(calendar.ups(0, 0, 9)?, 6);
    /// # Ok::<(), Refusal>(())
    /// ```
    pub fn of_flags(flags: &[u8]) -> Calendar {
        let mut calendar = Calendar::new(flags.len() as u64);
        calendar.fill(0, flags);
        calendar
    }

    /// A calendar of words that were stored. Any words will do. A last group of fewer than
    /// eight keeps no ticks.
    ///
    /// ```
    /// use station_watch::{Calendar, Refusal};
    ///
    /// let calendar = Calendar::of_flags(&[0, 1, 1]);
    /// let again = Calendar::from_words(calendar.words().to_vec());
    /// assert_eq!(again.ups(0, 0, 2)?, 2);
    /// # Ok::<(), Refusal>(())
    /// ```
    pub fn from_words(words: Vec<u64>) -> Calendar {
        Calendar { words }
    }

    /// The words: run r of flag k is word 8r + k, its tick 64r + i the bit worth 2^i.
    ///
    /// ```
    /// use station_watch::Calendar;
    ///
    /// assert_eq!(Calendar::of_flags(&[0x00, 0x80, 0x80]).words(), [0, 0, 0, 0, 0, 0, 0, 6]);
    /// ```
    pub fn words(&self) -> &[u64] {
        &self.words
    }

    /// The words, for the steps of a watch.
    pub(crate) fn words_mut(&mut self) -> &mut [u64] {
        &mut self.words
    }

    /// How many ticks it keeps, from tick 0 on.
    ///
    /// ```
    /// use station_watch::Calendar;
    ///
    /// assert_eq!(Calendar::from_words(vec![0; 23]).kept(), 128);
    /// ```
    pub fn kept(&self) -> u64 {
        calendar_kept(&self.words)
    }

    /// Zeroes the words, as for a stream that begins anew.
    ///
    /// ```
    /// use station_watch::Calendar;
    ///
    /// let mut calendar = Calendar::of_flags(&[0, 1, 1]);
    /// calendar.clear();
    /// assert_eq!(calendar, Calendar::new(64));
    /// ```
    pub fn clear(&mut self) {
        calendar_clear(&mut self.words);
    }

    /// Marks the ticks from `tick` on, one for each flag byte. Ticks past its room are not
    /// kept. A mark stays: fill in each tick once.
    ///
    /// ```
    /// use station_watch::{Calendar, Refusal};
    ///
    /// let mut calendar = Calendar::new(64);
    /// calendar.fill(61, &[1, 0, 1, 1]); // the last is tick 64
    /// assert_eq!(calendar.ups(0, 0, u64::MAX)?, 2);
    /// # Ok::<(), Refusal>(())
    /// ```
    pub fn fill(&mut self, tick: u64, flags: &[u8]) {
        calendar_fill(&mut self.words, tick, flags);
    }

    /// At how many ticks from `first` to `last` the flag was up. Both ends are in the range;
    /// it is empty if `first` is the larger, and is cut after the last kept tick. Refusal 7.
    ///
    /// ```
    /// use station_watch::{Calendar, Refusal};
    ///
    /// let calendar = Calendar::of_flags(&[0, 1, 1, 0, 1, 1, 1, 1, 0, 0]);
    /// assert_eq!(calendar.ups(0, 2, 4), Ok(2));
    /// assert_eq!(calendar.ups(0, 4, 2), Ok(0));
    /// assert_eq!(calendar.ups(8, 2, 4), Err(Refusal::NoSuchFlag));
    /// ```
    pub fn ups(&self, flag: u8, first: u64, last: u64) -> Result<u64, Refusal> {
        calendar_ups(&self.words, flag, first, last)
    }

    /// The first tick from `first` to `last` at which the flag was up, if there is one in the
    /// range, which is as that of [`ups`](Calendar::ups). Refusal 7.
    ///
    /// ```
    /// use station_watch::Calendar;
    ///
    /// let calendar = Calendar::of_flags(&[0, 1, 1, 0, 1, 1, 1, 1, 0, 0]);
    /// assert_eq!(calendar.first_up(0, 3, 9), Ok(Some(4)));
    /// assert_eq!(calendar.first_up(0, 8, 9), Ok(None));
    /// ```
    pub fn first_up(&self, flag: u8, first: u64, last: u64) -> Result<Option<u64>, Refusal> {
        calendar_first(&self.words, flag, first, last)
    }

    /// The last tick from `first` to `last` at which the flag was up, if there is one in the
    /// range, which is as that of [`ups`](Calendar::ups). Refusal 7.
    ///
    /// ```
    /// use station_watch::Calendar;
    ///
    /// let calendar = Calendar::of_flags(&[0, 1, 1, 0, 1, 1, 1, 1, 0, 0]);
    /// assert_eq!(calendar.last_up(0, 0, 3), Ok(Some(2)));
    /// assert_eq!(calendar.last_up(0, 0, u64::MAX), Ok(Some(7)));
    /// ```
    pub fn last_up(&self, flag: u8, first: u64, last: u64) -> Result<Option<u64>, Refusal> {
        calendar_last(&self.words, flag, first, last)
    }

    /// The kept tick nearest to `tick` at which the flag was up, if there is one: the earlier
    /// of two that are equally near. Refusal 7.
    ///
    /// ```
    /// use station_watch::Calendar;
    ///
    /// let calendar = Calendar::of_flags(&[0, 1, 1, 0, 1, 1, 1, 1, 0, 0]);
    /// assert_eq!(calendar.nearest_up(0, 3), Ok(Some(2)));
    /// assert_eq!(calendar.nearest_up(0, u64::MAX), Ok(Some(7)));
    /// assert_eq!(calendar.nearest_up(1, 3), Ok(None));
    /// ```
    pub fn nearest_up(&self, flag: u8, tick: u64) -> Result<Option<u64>, Refusal> {
        calendar_nearest(&self.words, flag, tick)
    }
}

/// Eight words for each run of 64 ticks, the last of which need not be full. More than the
/// machine can number are as many as it can: no vector has them.
fn words_for(ticks: u64) -> usize {
    (8 * ticks.div_ceil(64)).try_into().unwrap_or(usize::MAX)
}

impl fmt::Debug for Calendar {
    fn fmt(&self, f: &mut fmt::Formatter<'_>) -> fmt::Result {
        f.debug_struct("Calendar").field("kept", &self.kept()).finish_non_exhaustive()
    }
}
