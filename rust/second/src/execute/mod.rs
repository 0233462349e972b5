//! What each instruction does, by the manual's groups (5.4).

mod arithmetic;
mod bits;
mod block;
mod control;
mod flow;
mod load;
mod port;
mod privilege;

use crate::cycle::{Cycle, Outcome};
use crate::decode::Ins;
use crate::event::Event;

/// Stages 2 to 4. PC already stands on the next instruction.
pub(crate) fn execute(c: &mut Cycle, ins: Ins) -> Outcome<()> {
    let address = c.start;
    privilege::test(c, ins)?;
    match ins {
        Ins::None => Err(Event::NoInstruction { address }),
        Ins::Extended if c.m.has_extended_unit() => Err(Event::NoInstruction { address }),
        Ins::Extended => Err(Event::Extended { address }),
        Ins::Halt if c.m.breaks_on_halt() => Err(Event::BreakOnHalt { address }),
        Ins::Halt => Err(Event::Halted),
        Ins::SystemCall(operand) => Err(Event::SystemCall { operand, next: c.next }),
        Ins::Port { by, output } => Err(Event::Port { port: port::wanted(&c.m, by), output }),
        Ins::Load(load) => load::execute(c, load),
        Ins::Block { kind, down, repeat } => block::execute(c, kind, down, repeat),
        Ins::Arith8(arith) => arithmetic::bytes(c, arith),
        Ins::Arith16(arith) => arithmetic::words(c, arith),
        Ins::Bits(bits) => bits::execute(c, bits),
        Ins::Flow(flow) => flow::execute(c, flow),
        Ins::Control(control) => control::execute(c, control),
    }
}
