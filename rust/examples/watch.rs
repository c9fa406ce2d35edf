//! Opens the example rule of the scope document, takes its ten flag bytes one by one,
//! and prints the three lines that it gives.

use station_watch::{Refusal, Watch};

/// Not (flag 0 at X, beside: for all Y from X - 1 to X + 2, flag 0 at Y).
const SHEET: [u8; 22] = [
    0x01, 0x05, 0x00, 0x11, 0x00, // one rule: its body begins at 5 and has 17 bytes
    0x02, 0x04, // not (.. beside ..)
    0x01, 0x00, 0x00, // flag 0 at X
    0x05, 0x02, 0x00, 0xFF, 0xFF, // for all Y from X - 1 ..
    0x02, 0x00, 0x02, 0x00, // .. to X + 2:
    0x01, 0x01, 0x00, // flag 0 at Y
];

const FLAGS: [u8; 10] = [0, 1, 1, 0, 1, 1, 1, 1, 0, 0];

fn main() -> Result<(), Refusal> {
    let mut watch = Watch::open(&SHEET, 0)?;
    println!("rule 0 {}", watch.figures());

    let mut violations = 0;
    for flag in FLAGS {
        for violation in watch.step(flag)?.pairs() {
            println!("violation {} at {}", violation.tick, violation.step);
            violations += 1;
        }
    }
    println!("end {} steps {violations} violations {} live", watch.next_tick(), watch.live());
    Ok(())
}
