//! What a rule needs.

use crate::limits::CELL_WORDS;
use crate::raw;
use crate::refusal::Refusal;
use core::fmt;

/// What a rule needs: the scope document's three figures.
///
/// ```
/// use station_watch::Figures;
///
/// let example = Figures { history: 1, delay: 2, cells: 21 };
/// assert_eq!(example.to_string(), "history 1 delay 2 cells 21");
/// ```
#[derive(Clone, Copy, Debug, PartialEq, Eq, Hash)]
pub struct Figures {
    /// The past flags that it looks at: the least bytes of a history.
    pub history: usize,
    /// Every tick is decided so many ticks later at the latest.
    pub delay: usize,
    /// The cells of its steps, of four words each.
    pub cells: usize,
}

impl Figures {
    /// The words that its cell table needs.
    ///
    /// ```
    /// # use station_watch::Figures;
    /// assert_eq!(Figures { history: 1, delay: 2, cells: 21 }.cell_words(), 84);
    /// ```
    pub fn cell_words(self) -> usize {
        CELL_WORDS * self.cells
    }

    /// How long its report is at least: so many words for a step, and so many pairs
    /// for a batch of steps.
    ///
    /// ```
    /// # use station_watch::Figures;
    /// assert_eq!(Figures { history: 1, delay: 2, cells: 21 }.report_len(), 3);
    /// ```
    pub fn report_len(self) -> usize {
        self.delay + 1
    }
}

impl fmt::Display for Figures {
    fn fmt(&self, f: &mut fmt::Formatter<'_>) -> fmt::Result {
        write!(f, "history {} delay {} cells {}", self.history, self.delay, self.cells)
    }
}

/// The figures of a rule's body. A range that is always empty needs one cell, and what stands
/// in it is not counted. Refusals 4 to 15, 23, 24.
///
/// ```
/// use station_watch::{figures, Figures, Refusal};
///
/// // For all Y from X to X + 62, flag 0 at Y; then to X + 63.
/// let body = [5, 2, 0, 0, 0, 2, 0, 62, 0, 1, 1, 0];
/// assert_eq!(figures(&body), Ok(Figures { history: 0, delay: 62, cells: 4_095 }));
/// let body = [5, 2, 0, 0, 0, 2, 0, 63, 0, 1, 1, 0];
/// assert_eq!(figures(&body), Err(Refusal::CellsAboveLimit));
/// // For all Y from infinity to infinity, for all Z from 0 to infinity, flag 0 at Z.
/// let body = [5, 1, 0, 0, 0, 1, 0, 0, 0, 5, 0, 0, 0, 0, 1, 0, 0, 0, 1, 2, 0];
/// assert_eq!(figures(&body), Ok(Figures { history: 0, delay: 0, cells: 2 }));
/// ```
pub fn figures(body: &[u8]) -> Result<Figures, Refusal> {
    let (mut history, mut delay, mut cells) = (0, 0, 0);
    // SAFETY: the pointer and length of a slice, and three numbers of this frame.
    Refusal::unless_0(unsafe {
        raw::sw_figures(body.as_ptr(), body.len(), &mut history, &mut delay, &mut cells)
    })?;
    Ok(Figures { history: history as usize, delay: delay as usize, cells: cells as usize })
}
