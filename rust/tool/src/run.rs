use crate::args::{Args, Known};
use crate::drive::{ending, Host, Reaction};
use crate::failure::Failure;
use crate::guest::Guest;
use std::io::Write;
use z280::Event;

pub const KNOWN: Known = Known { flags: &["deliver", "make-valid"], values: &["steps", "set", "out"] };

const STEPS: u32 = 1000;

/// Runs a guest and tells how it ended.
pub fn command(args: &Args, out: &mut dyn Write) -> Result<(), Failure> {
    let limit = args.number("steps", u32::MAX)?.unwrap_or(STEPS);
    let mut guest = Guest::read(args.file()?, args)?;
    let host = Host::new(args);
    let (mut steps, mut delivered, mut made_valid) = (0, 0, 0);
    let mut event = Event::Completed;
    // A delivery or a page counts against the limit too, so that a guest that only traps comes to an end.
    while steps + delivered + made_valid < u64::from(limit) {
        let left = u64::from(limit) - steps - delivered - made_valid;
        let ran = guest.machine.run(&mut guest.memory, left.min(u16::MAX.into()) as u16)?;
        steps += u64::from(ran.steps);
        event = ran.event;
        if event == Event::Completed {
            continue;
        }
        match host.react(&mut guest, event)? {
            Reaction::Stop => break,
            Reaction::Delivered => delivered += 1,
            Reaction::MadeValid(_) => made_valid += 1,
        }
        event = Event::Completed;
    }
    writeln!(out, "{}", ending(&guest, event, steps))?;
    if delivered + made_valid > 0 {
        writeln!(out, "traps delivered {delivered}, pages made valid {made_valid}")?;
    }
    match args.value("out") {
        Some(path) => guest.write_image(path),
        None => Ok(()),
    }
}
