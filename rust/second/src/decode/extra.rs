//! After ED.

use super::fields::{load_modes, pair, register_or_hl, split};
use super::{AluWord, Arith16, Arith8, BlockKind, Byte, Control, Ins, Load, Mem, PortBy, Source, Word};
use crate::machine::{Reg16, Reg8};

pub fn after_ed<S: Source>(s: &mut S) -> Result<Ins, S::Fault> {
    let code = s.byte()?;
    let (x, y, z) = split(code);
    match x {
        0 => loads(s, y, z),
        1 => mixed(s, y, z),
        2 => Ok(blocks(y, z)),
        _ => Ok(arithmetic(y, z)),
    }
}

/// LDA, the long loads and EX A (3220, 4104, 4289, 4840, 4928).
fn loads<S: Source>(s: &mut S, y: u8, z: u8) -> Result<Ins, S::Fault> {
    let hl = Word::Reg(Reg16::Hl);
    let at_hl = Word::Mem(Mem::At(Reg16::Hl));
    let rr = Word::Reg(pair(y >> 1, Reg16::Hl, Reg16::Sp));
    Ok(match z {
        2 => Ins::Load(Load::Address { to: Reg16::Hl, of: load_modes(s, y)? }),
        3 => Ins::Load(Load::Byte { to: Byte::Mem(load_modes(s, y)?), from: Byte::Reg(Reg8::A) }),
        4 => Ins::Load(Load::Word { to: hl, from: Word::Mem(load_modes(s, y)?) }),
        5 => Ins::Load(Load::Word { to: Word::Mem(load_modes(s, y)?), from: hl }),
        6 if y.is_multiple_of(2) => Ins::Load(Load::Word { to: rr, from: at_hl }),
        6 => Ins::Load(Load::Word { to: at_hl, from: rr }),
        7 => Ins::Load(Load::ExchangeA(register_or_hl(y))),
        _ => Ins::None,
    })
}

/// The second quarter. RETN, RETI, PCACHE, IM, the loads of I and R, RRD and
/// RLD are left out.
fn mixed<S: Source>(s: &mut S, y: u8, z: u8) -> Result<Ins, S::Fault> {
    let rr = pair(y >> 1, Reg16::Hl, Reg16::Sp);
    let by_c = |output| Ins::Port { by: PortBy::Bc, output };
    Ok(match (z, y) {
        // Code 110 is TSTI (7215).
        (0, _) => by_c(false),
        (1, 6) => Ins::SystemCall(s.word()?),
        (1, _) => by_c(true),
        (2, 0 | 2 | 4 | 6) => Ins::Arith16(Arith16::SbcPair { to: Reg16::Hl, from: rr }),
        (2, _) => Ins::Arith16(Arith16::AdcPair { to: Reg16::Hl, from: rr }),
        // "Except HL" (4957, 4963): HL has 22 and 2A.
        (3, 4 | 5) => Ins::None,
        (3, 0 | 2 | 6) => Ins::Load(Load::Word { to: Word::Mem(Mem::Direct(s.word()?)), from: Word::Reg(rr) }),
        (3, _) => Ins::Load(Load::Word { to: Word::Reg(rr), from: Word::Mem(Mem::Direct(s.word()?)) }),
        (4, 0) => Ins::Arith8(Arith8::Negate),
        (4, 1) => Ins::Arith16(Arith16::Negate),
        (4, 4) => Ins::Arith8(Arith8::Extend),
        (4, 5) => Ins::Arith16(Arith16::Extend),
        (5, 2) => Ins::Control(Control::ReturnLong),
        (5, 5) => Ins::Arith16(Arith16::AddA(Reg16::Hl)),
        (6, 4) => Ins::Control(Control::ReadControl(Reg16::Hl)),
        (6, 5) => Ins::Control(Control::WriteControl(Reg16::Hl)),
        (7, 6) => Ins::Control(Control::DisableInterrupts(s.byte()?)),
        (7, 7) => Ins::Control(Control::EnableInterrupts(s.byte()?)),
        _ => Ins::None,
    })
}

/// The third quarter: blocks, extended instructions, words of ports, the user
/// stack pointer. LDUD and LDUP are left out.
fn blocks(y: u8, z: u8) -> Ins {
    let block = |kind| Ins::Block { kind, down: y & 1 == 1, repeat: y & 2 == 2 };
    match (z, y) {
        (0, 4..) => block(BlockKind::Load),
        (1, 4..) => block(BlockKind::Compare),
        // Bytes from 4, words below (3669, 3731, 3792, 3856).
        (2, _) => Ins::Port { by: PortBy::Bc, output: false },
        (3, _) => Ins::Port { by: PortBy::Bc, output: true },
        // EPUM and MEPU (7391 to 7452).
        (4 | 5, _) | (6, 4 | 5) | (7, 4 | 5) => Ins::Extended,
        (7, 0) => Ins::Control(Control::ReadUserSp(Reg16::Hl)),
        (7, 1) => Ins::Control(Control::WriteUserSp(Reg16::Hl)),
        // EPUF and EPUI (7288, 7314).
        (7, 2 | 3) => Ins::Extended,
        (7, 6) => Ins::Port { by: PortBy::Bc, output: false },
        (7, 7) => Ins::Port { by: PortBy::Bc, output: true },
        _ => Ins::None,
    }
}

/// The last quarter: multiplies, ADDW, SUBW, CPW, EX H,L. Divides are left out.
fn arithmetic(y: u8, z: u8) -> Ins {
    let rr = Word::Reg(pair(y >> 1, Reg16::Hl, Reg16::Sp));
    let even = y.is_multiple_of(2);
    let byte = register_or_hl(y);
    match z {
        0 => Ins::Arith8(Arith8::Multiply { signed: true, by: byte }),
        1 => Ins::Arith8(Arith8::Multiply { signed: false, by: byte }),
        2 if even => Ins::Arith16(Arith16::Multiply { signed: true, by: rr }),
        3 if even => Ins::Arith16(Arith16::Multiply { signed: false, by: rr }),
        6 if even => Ins::Arith16(Arith16::Alu(AluWord::Add, rr)),
        6 => Ins::Arith16(Arith16::Alu(AluWord::Sub, rr)),
        7 if even => Ins::Arith16(Arith16::Alu(AluWord::Cp, rr)),
        7 if y == 5 => Ins::Load(Load::ExchangeHWithL),
        _ => Ins::None,
    }
}
