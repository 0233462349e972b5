//! Program control (5.4.7).

use crate::cycle::{Cycle, Outcome};
use crate::decode::{Cond, Flow};
use crate::flags::{flag, replaced, C, H, N, S, V, Z};
use crate::machine::Reg8;

pub fn execute(c: &mut Cycle, flow: Flow) -> Outcome<()> {
    match flow {
        Flow::Jump(cond, to) => {
            if holds(c, cond) {
                c.m.pc = c.place(to).address;
            }
        }
        // The address pushed is that of the next instruction (2222).
        Flow::Call(cond, to) => {
            if holds(c, cond) {
                c.m.pc = c.place(to).address;
                c.push(c.next);
            }
        }
        // A return that is not taken reads nothing (5885).
        Flow::Return(cond) => {
            if holds(c, cond) {
                c.m.pc = c.pop()?;
            }
        }
        Flow::CountAndJump(displacement) => {
            let b = c.m.get8(Reg8::B).wrapping_sub(1);
            c.m.set8(Reg8::B, b);
            relative(c, b != 0, displacement);
        }
        Flow::JumpIfAlternateAf(displacement) => relative(c, c.m.bank_af, displacement),
        Flow::JumpIfAlternateOthers(displacement) => relative(c, c.m.bank_others, displacement),
        Flow::Restart(address) => {
            c.push(c.next);
            c.m.pc = address;
        }
        Flow::SetCarry => c.m.set_f(replaced(c.m.f(), H | N | C, C)),
        // H takes the old C (2278).
        Flow::ComplementCarry => {
            let carry = c.m.f() & C != 0;
            c.m.set_f(replaced(c.m.f(), H | N | C, flag(H, carry) | flag(C, !carry)));
        }
    }
    Ok(())
}

fn relative(c: &mut Cycle, taken: bool, displacement: u16) {
    if taken {
        c.m.pc = c.next.wrapping_add(displacement);
    }
}

/// Table 5-1.
fn holds(c: &Cycle, cond: Cond) -> bool {
    let set = |mask| c.m.f() & mask != 0;
    match cond {
        Cond::Always => true,
        Cond::Nz => !set(Z),
        Cond::Z => set(Z),
        Cond::Nc => !set(C),
        Cond::C => set(C),
        Cond::Po => !set(V),
        Cond::Pe => set(V),
        Cond::P => !set(S),
        Cond::M => set(S),
    }
}
