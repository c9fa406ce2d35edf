//! Opens the first rule of examples/vault with a calendar, takes its flag bytes, and asks
//! the calendar about each flag: how often it was up, when first and last, and when nearest
//! to tick 8.

use station_watch::{Refusal, Watch};

const SHEET: &[u8] = include_bytes!("../../examples/vault/watch.sheet");
const FLAGS: &[u8] = include_bytes!("../../examples/vault/flags.bin");

fn main() -> Result<(), Refusal> {
    let mut watch = Watch::calendar_open(SHEET, 0, FLAGS.len() as u64)?;
    watch.steps(FLAGS, |_| {})?;

    let (calendar, end) = (watch.calendar(), watch.next_tick() - 1);
    for flag in 0..8 {
        print!("flag {flag} ups {}", calendar.ups(flag, 0, end)?);
        if let Some(first) = calendar.first_up(flag, 0, end)? {
            print!(" first {first}");
        }
        if let Some(last) = calendar.last_up(flag, 0, end)? {
            print!(" last {last}");
        }
        if let Some(nearest) = calendar.nearest_up(flag, 8)? {
            print!(" nearest {nearest}");
        }
        println!();
    }
    Ok(())
}
