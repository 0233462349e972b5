//! After CB, DD CB d and FD CB d: bits, rotates, shifts, TSET.

use super::fields::{register_or_hl, short_index, split};
use super::{Bits, Byte, Ins, Rotate, Source};
use crate::machine::Reg16;

pub fn after_cb<S: Source>(s: &mut S) -> Result<Ins, S::Fault> {
    let code = s.byte()?;
    Ok(on(code, register_or_hl(code & 7)))
}

/// The displacement stands before the operation code (2194). Registers have no
/// code here: field 110 alone.
pub fn after_escape_cb<S: Source>(s: &mut S, xy: Reg16) -> Result<Ins, S::Fault> {
    let operand = Byte::Mem(short_index(s, xy)?);
    let code = s.byte()?;
    Ok(if code & 7 == 6 { on(code, operand) } else { Ins::None })
}

fn on(code: u8, operand: Byte) -> Ins {
    let (x, y, _) = split(code);
    match (x, y) {
        (0, 0) => Ins::Bits(Bits::Rotate(Rotate::Rlc, operand)),
        (0, 1) => Ins::Bits(Bits::Rotate(Rotate::Rrc, operand)),
        (0, 2) => Ins::Bits(Bits::Rotate(Rotate::Rl, operand)),
        (0, 3) => Ins::Bits(Bits::Rotate(Rotate::Rr, operand)),
        (0, 4) => Ins::Bits(Bits::Rotate(Rotate::Sla, operand)),
        (0, 5) => Ins::Bits(Bits::Rotate(Rotate::Sra, operand)),
        (0, 6) => Ins::Bits(Bits::TestSet(operand)),
        (0, _) => Ins::Bits(Bits::Rotate(Rotate::Srl, operand)),
        (1, bit) => Ins::Bits(Bits::Test(bit, operand)),
        (2, bit) => Ins::Bits(Bits::Reset(bit, operand)),
        (_, bit) => Ins::Bits(Bits::Set(bit, operand)),
    }
}
