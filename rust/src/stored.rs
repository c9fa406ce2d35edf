//! A watch as bytes, for an operator who restarts.

use crate::limits::STATE_BYTES;
use crate::refusal::Refusal;
use crate::state::State;
use crate::watch::Watch;
use alloc::vec::Vec;

impl Watch {
    /// The watch as bytes, to be stored: the state, the history, and the cells as words
    /// of four bytes, low byte first. The calendar is not part of it: store its words beside.
    ///
    /// ```
    /// use station_watch::{sheet_of, Refusal, Watch};
    ///
    /// // Flag 7 at X: no history, and one cell of 16 bytes.
    /// let watch = Watch::open(&sheet_of(&[&[1, 0, 7]])?, 0)?;
    /// assert_eq!(watch.to_bytes().len(), 544 + 0 + 16);
    /// # Ok::<(), Refusal>(())
    /// ```
    pub fn to_bytes(&self) -> Vec<u8> {
        let (state, history, cells) = self.parts();
        let mut bytes = state.as_bytes().to_vec();
        bytes.extend_from_slice(history);
        bytes.extend(cells.iter().flat_map(|word| word.to_le_bytes()));
        bytes
    }

    /// A watch that was stored as bytes, which goes on where it was left, without a
    /// calendar. Refusals as of `from_parts`: bytes that are cut short are always refused. So
    /// are bytes that are left over: 21.
    ///
    /// ```
    /// use station_watch::{sheet_of, Refusal, Watch};
    ///
    /// // For all Y from X to X + 1, flag 0 at Y.
    /// let sheet = sheet_of(&[&[5, 2, 0, 0, 0, 2, 0, 1, 0, 1, 1, 0]])?;
    /// let mut watch = Watch::open(&sheet, 0)?;
    /// watch.step(1)?;
    /// let mut again = Watch::from_bytes(&watch.to_bytes())?;
    /// assert_eq!(again.step(0)?.ticks, [0, 1]);
    /// # Ok::<(), Refusal>(())
    /// ```
    pub fn from_bytes(bytes: &[u8]) -> Result<Watch, Refusal> {
        // Fewer bytes than a state's are no state: the library refuses a blank one.
        let (state, rest) = bytes.split_first_chunk().unwrap_or((&[0; STATE_BYTES], &[]));
        let state = State::from_bytes(*state);
        let length = usize::try_from(state.history_len()).unwrap_or(usize::MAX);
        let (history, table) = rest.split_at(length.min(rest.len()));
        let word = |four: &[u8]| u32::from_le_bytes([four[0], four[1], four[2], four[3]]);
        let cells = table.chunks_exact(4).map(word).collect();
        let watch = Watch::from_parts(state, history.to_vec(), cells)?;
        match table.len() == 4 * watch.figures().cell_words() {
            true => Ok(watch),
            false => Err(Refusal::StateNotOpened),
        }
    }
}
