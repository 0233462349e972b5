//! Block transfer and search (5.4.3): one repetition is one step.

use crate::cycle::{Cycle, Outcome, Place};
use crate::decode::BlockKind;
use crate::flags::{flag, replaced, sub8, H, N, S, V, Z};
use crate::machine::Reg8;

pub fn execute(c: &mut Cycle, kind: BlockKind, down: bool, repeat: bool) -> Outcome<()> {
    let value = c.read(Place::data(c.m.hl))?;
    let step = if down { 0xFFFF } else { 1 };
    c.m.hl = c.m.hl.wrapping_add(step);
    c.m.bc = c.m.bc.wrapping_sub(1);
    let more = c.m.bc != 0;
    let stays = match kind {
        BlockKind::Load => {
            c.write(Place::data(c.m.de), value);
            c.m.de = c.m.de.wrapping_add(step);
            // H and N clear, V by the counter, the others stay (4414, 4545).
            c.m.set_f(replaced(c.m.f(), H | V | N, flag(V, more)));
            more
        }
        BlockKind::Compare => {
            let (_, six) = sub8(c.m.get8(Reg8::A), value, false);
            let new = six & (S | Z | H) | flag(V, more) | N;
            c.m.set_f(replaced(c.m.f(), S | Z | H | V | N, new));
            // Until the counter is zero or a match is found (2418, 2533).
            more && six & Z == 0
        }
    };
    if repeat && stays {
        c.m.pc = c.start;
    }
    Ok(())
}
