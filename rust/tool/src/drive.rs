use crate::args::Args;
use crate::failure::Failure;
use crate::guest::Guest;
use z280::Event;

/// What the host does by itself where a step ends in an event.
pub struct Host {
    deliver: bool,
    make_valid: bool,
}

/// What it did.
#[derive(Clone, Copy, PartialEq, Eq)]
pub enum Reaction {
    /// Nothing: the run ends.
    Stop,
    /// The trap was delivered to the guest.
    Delivered,
    /// The page was made valid, and the instruction comes again.
    MadeValid(u8),
}

impl Host {
    pub fn new(args: &Args) -> Host {
        Host { deliver: args.flag("deliver"), make_valid: args.flag("make-valid") }
    }

    pub fn react(&self, guest: &mut Guest, event: Event) -> Result<Reaction, Failure> {
        if let Event::AccessViolation { descriptor, .. } = event {
            // A valid page was violated by a write to a protected one: making it valid would be refused.
            if self.make_valid && guest.machine.descriptor(descriptor)? & 8 == 0 {
                guest.machine.make_valid(descriptor)?;
                return Ok(Reaction::MadeValid(descriptor));
            }
        }
        if self.deliver && matches!(event.number(), 1 | 3 | 4 | 7) {
            guest.machine.deliver(&mut guest.memory, event)?;
            return Ok(Reaction::Delivered);
        }
        Ok(Reaction::Stop)
    }
}

/// The end of a run in two lines: as the printing program tells it, then in words.
pub fn ending(guest: &Guest, event: Event, steps: u64) -> String {
    let words = match event {
        Event::Completed => "the steps that were asked for are done".to_string(),
        _ => event.to_string(),
    };
    format!("stop {} steps {steps} pc {:04X}\n{words}", event.number(), guest.machine.pc())
}
