//! Opens the four rules of examples/vault together, takes its flag bytes in one batch, and
//! prints the lines that they give.

use station_watch::{Refusal, WatchSet};

const SHEET: &[u8] = include_bytes!("../../examples/vault/watch.sheet");
const FLAGS: &[u8] = include_bytes!("../../examples/vault/flags.bin");

fn main() -> Result<(), Refusal> {
    let mut set = WatchSet::open(SHEET)?;
    for (rule, figures) in set.rule_figures().iter().enumerate() {
        println!("rule {rule} {figures}");
    }

    let mut violations = 0;
    set.steps(FLAGS, |violation| {
        println!("violation {} {} at {}", violation.rule, violation.tick, violation.step);
        violations += 1;
    })?;
    println!("end {} steps {violations} violations {} live", set.next_tick(), set.live());
    Ok(())
}
