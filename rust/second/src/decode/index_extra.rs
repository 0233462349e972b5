//! After DD ED (IX) and FD ED (IY).

use super::fields::{byte_field, load_modes, pair, short_index, split, word_field};
use super::{AluWord, Arith16, Arith8, Byte, Control, Ins, Load, PortBy, Source, Word};
use crate::machine::Reg16;

pub fn after_escape_ed<S: Source>(s: &mut S, xy: Reg16) -> Result<Ins, S::Fault> {
    let code = s.byte()?;
    let (x, y, z) = split(code);
    match x {
        0 => loads(s, xy, y, z),
        1 => mixed(s, xy, y, z),
        2 => Ok(match code {
            0x87 => Ins::Control(Control::ReadUserSp(xy)),
            0x8F => Ins::Control(Control::WriteUserSp(xy)),
            _ => Ins::None,
        }),
        _ => arithmetic(s, xy, y, z),
    }
}

fn loads<S: Source>(s: &mut S, xy: Reg16, y: u8, z: u8) -> Result<Ins, S::Fault> {
    // LDW between RR and (XY + d) (4928, 4990): HL is itself.
    let rr = Word::Reg(pair(y >> 1, Reg16::Hl, Reg16::Sp));
    Ok(match z {
        2 => Ins::Load(Load::Address { to: xy, of: load_modes(s, y)? }),
        4 => Ins::Load(Load::Word { to: Word::Reg(xy), from: Word::Mem(load_modes(s, y)?) }),
        5 => Ins::Load(Load::Word { to: Word::Mem(load_modes(s, y)?), from: Word::Reg(xy) }),
        6 if y.is_multiple_of(2) => Ins::Load(Load::Word { to: rr, from: Word::Mem(short_index(s, xy)?) }),
        6 => Ins::Load(Load::Word { to: Word::Mem(short_index(s, xy)?), from: rr }),
        7 => match byte_field(s, xy, y)? {
            Some(operand) => Ins::Load(Load::ExchangeA(operand)),
            None => Ins::None,
        },
        _ => Ins::None,
    })
}

fn mixed<S: Source>(s: &mut S, xy: Reg16, y: u8, z: u8) -> Result<Ins, S::Fault> {
    let rr = pair(y >> 1, xy, Reg16::Sp);
    Ok(match (z, y) {
        // IN and OUT have no short index (3437, 5520).
        (0 | 1, 6) => Ins::None,
        // The operand's address is fetched though event 8 does not use it.
        (0 | 1, _) => match byte_field(s, xy, y)? {
            Some(_) => Ins::Port { by: PortBy::Bc, output: z == 1 },
            None => Ins::None,
        },
        (2, 0 | 2 | 4 | 6) => Ins::Arith16(Arith16::SbcPair { to: xy, from: rr }),
        (2, _) => Ins::Arith16(Arith16::AdcPair { to: xy, from: rr }),
        (5, 5) => Ins::Arith16(Arith16::AddA(xy)),
        (6, 4) => Ins::Control(Control::ReadControl(xy)),
        (6, 5) => Ins::Control(Control::WriteControl(xy)),
        _ => Ins::None,
    })
}

/// Multiplies, ADDW, SUBW and CPW; the destination is HL under both openings.
fn arithmetic<S: Source>(s: &mut S, xy: Reg16, y: u8, z: u8) -> Result<Ins, S::Fault> {
    let even = y.is_multiple_of(2);
    Ok(match z {
        0 | 1 => multiply(s, xy, y, z == 0)?,
        2 if even => Ins::Arith16(Arith16::Multiply { signed: true, by: word_field(s, xy, y >> 1)? }),
        3 if even => Ins::Arith16(Arith16::Multiply { signed: false, by: word_field(s, xy, y >> 1)? }),
        6 if even => Ins::Arith16(Arith16::Alu(AluWord::Add, word_field(s, xy, y >> 1)?)),
        6 => Ins::Arith16(Arith16::Alu(AluWord::Sub, word_field(s, xy, y >> 1)?)),
        7 if even => Ins::Arith16(Arith16::Alu(AluWord::Cp, word_field(s, xy, y >> 1)?)),
        _ => Ins::None,
    })
}

/// Code 111 under FD is the immediate (5081, 5143).
fn multiply<S: Source>(s: &mut S, xy: Reg16, y: u8, signed: bool) -> Result<Ins, S::Fault> {
    if xy == Reg16::Iy && y == 7 {
        return Ok(Ins::Arith8(Arith8::Multiply { signed, by: Byte::Imm(s.byte()?) }));
    }
    Ok(match byte_field(s, xy, y)? {
        Some(by) => Ins::Arith8(Arith8::Multiply { signed, by }),
        None => Ins::None,
    })
}
