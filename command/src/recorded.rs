//! A file of flag bytes, of any size, read into a calendar in pieces.

use crate::answer::Stop;
use crate::files::Pieces;
use station_watch::Calendar;
use std::path::Path;

/// The most flag bytes that are read at once.
const PIECE: usize = 65_536;

/// Marks the ticks from `tick` on, one for each flag byte, in a calendar that grows with them.
pub fn fill(calendar: &mut Calendar, tick: u64, flags: &[u8]) {
    calendar.grow_to(tick + flags.len() as u64);
    calendar.fill(tick, flags);
}

/// A file's calendar, and how many ticks the file has. The calendar keeps up to 63 more, at
/// which no flag is up.
pub struct Recorded {
    pub calendar: Calendar,
    pub ticks: u64,
}

/// Reads a file to its end; - is standard input. Each piece is handed over before the next
/// one is read.
pub fn read(
    flags: &Path,
    mut take: impl FnMut(&[u8]) -> Result<(), Stop>,
) -> Result<Recorded, Stop> {
    let mut file = Pieces::open(flags)?;
    let mut buffer = vec![0; PIECE];
    let (mut calendar, mut ticks) = (Calendar::default(), 0);
    loop {
        let piece = file.read(&mut buffer)?;
        if piece.is_empty() {
            return Ok(Recorded { calendar, ticks });
        }
        fill(&mut calendar, ticks, piece);
        ticks += piece.len() as u64;
        take(piece)?;
    }
}
