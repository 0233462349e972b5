//! Bits, rotates and shifts (5.4.6).

use crate::cycle::{Cycle, Outcome};
use crate::decode::Bits;
use crate::flags::{self, flag, replaced, C, H, N, S, Z};
use crate::machine::Reg8;

pub fn execute(c: &mut Cycle, bits: Bits) -> Outcome<()> {
    let f = c.m.f();
    match bits {
        Bits::Rotate(kind, operand) => {
            let (result, six) = flags::rotate(kind, c.get(operand)?, f & C != 0);
            c.m.set_f(replaced(f, flags::ALL, six));
            c.put(operand, result);
        }
        // S, Z and P stay (6153, 6249, 6396, 6508).
        Bits::RotateA(kind) => {
            let (result, six) = flags::rotate(kind, c.m.get8(Reg8::A), f & C != 0);
            c.m.set_f(replaced(f, H | N | C, six));
            c.m.set8(Reg8::A, result);
        }
        // S alone, from the old bit 7 (7159).
        Bits::TestSet(operand) => {
            let value = c.get(operand)?;
            c.m.set_f(replaced(f, S, value));
            c.put(operand, 0xFF);
        }
        // S, P and C stay (2179 to 2185).
        Bits::Test(bit, operand) => {
            let clear = c.get(operand)? >> bit & 1 == 0;
            c.m.set_f(replaced(f, Z | H | N, flag(Z, clear) | H));
        }
        Bits::Reset(bit, operand) => {
            let value = c.get(operand)?;
            c.put(operand, value & !(1 << bit));
        }
        Bits::Set(bit, operand) => {
            let value = c.get(operand)?;
            c.put(operand, value | 1 << bit);
        }
    }
    Ok(())
}
