//! Operation codes with no opening byte.

use super::fields::{alu, condition, pair, register_or_hl, split};
use super::{Arith16, Arith8, Bits, Byte, Cond, Control, Flow, Ins, Load, Mem, PortBy, Rotate, Source, Word};
use crate::machine::{Reg16, Reg8};

const A: Byte = Byte::Reg(Reg8::A);

pub fn unopened<S: Source>(s: &mut S, code: u8) -> Result<Ins, S::Fault> {
    let (x, y, z) = split(code);
    match x {
        0 => first_quarter(s, y, z),
        1 if code == 0x76 => Ok(Ins::Halt),
        1 => Ok(Ins::Load(Load::Byte { to: register_or_hl(y), from: register_or_hl(z) })),
        2 => Ok(Ins::Arith8(Arith8::Alu(alu(y), register_or_hl(z)))),
        _ => last_quarter(s, y, z),
    }
}

fn first_quarter<S: Source>(s: &mut S, y: u8, z: u8) -> Result<Ins, S::Fault> {
    let rr = pair(y >> 1, Reg16::Hl, Reg16::Sp);
    Ok(match (z, y) {
        (0, 0) => Ins::Control(Control::Nop),
        (0, 1) => Ins::Load(Load::ExchangeAf),
        (0, 2) => Ins::Flow(Flow::CountAndJump(s.displacement()?)),
        (0, 3) => Ins::Flow(Flow::Jump(Cond::Always, Mem::Relative(s.displacement()?))),
        // JR cc: 100 NZ, 101 Z, 110 NC, 111 C (4036).
        (0, _) => Ins::Flow(Flow::Jump(condition(y & 3), Mem::Relative(s.displacement()?))),
        (1, 0 | 2 | 4 | 6) => Ins::Load(Load::Word { to: Word::Reg(rr), from: Word::Imm(s.word()?) }),
        (1, _) => Ins::Arith16(Arith16::AddPair { to: Reg16::Hl, from: rr }),
        (2, _) => indirect_load(s, y)?,
        (3, 0 | 2 | 4 | 6) => Ins::Arith16(Arith16::Inc(Word::Reg(rr))),
        (3, _) => Ins::Arith16(Arith16::Dec(Word::Reg(rr))),
        (4, _) => Ins::Arith8(Arith8::Inc(register_or_hl(y))),
        (5, _) => Ins::Arith8(Arith8::Dec(register_or_hl(y))),
        (6, _) => Ins::Load(Load::Byte { to: register_or_hl(y), from: Byte::Imm(s.byte()?) }),
        (_, 0) => Ins::Bits(Bits::RotateA(Rotate::Rlc)),
        (_, 1) => Ins::Bits(Bits::RotateA(Rotate::Rrc)),
        (_, 2) => Ins::Bits(Bits::RotateA(Rotate::Rl)),
        (_, 3) => Ins::Bits(Bits::RotateA(Rotate::Rr)),
        (_, 4) => Ins::None, // DAA is left out
        (_, 5) => Ins::Arith8(Arith8::Complement),
        (_, 6) => Ins::Flow(Flow::SetCarry),
        _ => Ins::Flow(Flow::ComplementCarry),
    })
}

/// LD between A and (BC), (DE), (addr) (4086, 4101), HL and (addr) (4871, 4885).
fn indirect_load<S: Source>(s: &mut S, y: u8) -> Result<Ins, S::Fault> {
    let at = |r| Byte::Mem(Mem::At(r));
    let hl = Word::Reg(Reg16::Hl);
    Ok(match y {
        0 => Ins::Load(Load::Byte { to: at(Reg16::Bc), from: A }),
        1 => Ins::Load(Load::Byte { to: A, from: at(Reg16::Bc) }),
        2 => Ins::Load(Load::Byte { to: at(Reg16::De), from: A }),
        3 => Ins::Load(Load::Byte { to: A, from: at(Reg16::De) }),
        4 => Ins::Load(Load::Word { to: Word::Mem(Mem::Direct(s.word()?)), from: hl }),
        5 => Ins::Load(Load::Word { to: hl, from: Word::Mem(Mem::Direct(s.word()?)) }),
        6 => Ins::Load(Load::Byte { to: Byte::Mem(Mem::Direct(s.word()?)), from: A }),
        _ => Ins::Load(Load::Byte { to: A, from: Byte::Mem(Mem::Direct(s.word()?)) }),
    })
}

fn last_quarter<S: Source>(s: &mut S, y: u8, z: u8) -> Result<Ins, S::Fault> {
    let on_stack = Word::Reg(pair(y >> 1, Reg16::Hl, Reg16::Af));
    Ok(match (z, y) {
        (0, _) => Ins::Flow(Flow::Return(condition(y))),
        (1, 0 | 2 | 4 | 6) => Ins::Load(Load::Pop(on_stack)),
        (1, 1) => Ins::Flow(Flow::Return(Cond::Always)),
        (1, 3) => Ins::Load(Load::ExchangeOthers),
        (1, 5) => Ins::Flow(Flow::Jump(Cond::Always, Mem::At(Reg16::Hl))),
        (1, _) => Ins::Load(Load::Word { to: Word::Reg(Reg16::Sp), from: Word::Reg(Reg16::Hl) }),
        (2, _) => Ins::Flow(Flow::Jump(condition(y), Mem::Direct(s.word()?))),
        (3, 0) => Ins::Flow(Flow::Jump(Cond::Always, Mem::Direct(s.word()?))),
        (3, 2) => Ins::Port { by: PortBy::Number(s.byte()?), output: true },
        (3, 3) => Ins::Port { by: PortBy::Number(s.byte()?), output: false },
        (3, 4) => Ins::Load(Load::ExchangeWithTop(Reg16::Hl)),
        (3, 5) => Ins::Load(Load::ExchangeWithHl(Reg16::De)),
        // Without a mask all seven (2766, 3091).
        (3, 6) => Ins::Control(Control::DisableInterrupts(0x7F)),
        (3, 7) => Ins::Control(Control::EnableInterrupts(0x7F)),
        (4, _) => Ins::Flow(Flow::Call(condition(y), Mem::Direct(s.word()?))),
        (5, 0 | 2 | 4 | 6) => Ins::Load(Load::Push(on_stack)),
        (5, 1) => Ins::Flow(Flow::Call(Cond::Always, Mem::Direct(s.word()?))),
        (6, _) => Ins::Arith8(Arith8::Alu(alu(y), Byte::Imm(s.byte()?))),
        (7, _) => Ins::Flow(Flow::Restart(u16::from(y) * 8)),
        // CB, DD, ED and FD were taken before.
        _ => Ins::None,
    })
}
