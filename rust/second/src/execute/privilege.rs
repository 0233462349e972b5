//! What stands before any instruction is carried out: whether it is built, and
//! whether this mode may carry it out (document 01, stages 2 and 3).

use super::control::Register;
use crate::cycle::{Cycle, Outcome};
use crate::decode::{Control, Ins};
use crate::event::Event;

/// An LDCTL whose C names no register here counts as left out, so that event 9
/// comes before event 3.
pub fn test(c: &Cycle, ins: Ins) -> Outcome<()> {
    let address = c.start;
    let by_c = matches!(ins, Ins::Control(Control::ReadControl(_) | Control::WriteControl(_)));
    if by_c && Register::named_by_c(&c.m).is_none() {
        return Err(Event::NoInstruction { address });
    }
    if c.in_user_mode() && is_privileged(c, ins) {
        return Err(Event::Privileged { address });
    }
    Ok(())
}

/// The pages that name the privileged instruction trap among those built: DI
/// 2766, EI 3091, HALT 3369, LDCTL 4345, RETIL 5990; that is CPU control but
/// NOP (1545). Ports where user input and output is inhibited (TCR, 3.3.5).
fn is_privileged(c: &Cycle, ins: Ins) -> bool {
    match ins {
        Ins::Halt => true,
        Ins::Control(control) => control != Control::Nop,
        Ins::Port { .. } => c.m.inhibits_user_io(),
        _ => false,
    }
}
