//! After DD (IX) and FD (IY).

use super::bits::after_escape_cb;
use super::fields::{alu, byte_field, condition, half, long_memory, pair, register, short_index, split, word_field};
use super::index_extra::after_escape_ed;
use super::{Arith16, Arith8, Byte, Cond, Flow, Ins, Load, Mem, Source, Word};
use crate::machine::{Reg16, Reg8};

pub fn after_escape<S: Source>(s: &mut S, xy: Reg16) -> Result<Ins, S::Fault> {
    let code = s.byte()?;
    match code {
        0xCB => return after_escape_cb(s, xy),
        0xED => return after_escape_ed(s, xy),
        _ => {}
    }
    let (x, y, z) = split(code);
    match x {
        0 => first_quarter(s, xy, y, z),
        1 => register_loads(s, xy, y, z),
        2 => Ok(match byte_field(s, xy, z)? {
            Some(source) => Ins::Arith8(Arith8::Alu(alu(y), source)),
            None => Ins::None,
        }),
        _ => last_quarter(s, xy, y, z),
    }
}

fn first_quarter<S: Source>(s: &mut S, xy: Reg16, y: u8, z: u8) -> Result<Ins, S::Fault> {
    let ix = xy == Reg16::Ix;
    Ok(match (z, y) {
        (0, 4) if ix => Ins::Flow(Flow::JumpIfAlternateOthers(s.displacement()?)),
        (0, 5) if ix => Ins::Flow(Flow::JumpIfAlternateAf(s.displacement()?)),
        (1, 0 | 2 | 4 | 6) => load_immediate_word(s, xy, y >> 1)?,
        (1, _) => Ins::Arith16(Arith16::AddPair { to: xy, from: pair(y >> 1, xy, Reg16::Sp) }),
        (2, 4) => Ins::Load(Load::Word { to: Word::Mem(Mem::Direct(s.word()?)), from: Word::Reg(xy) }),
        (2, 5) => Ins::Load(Load::Word { to: Word::Reg(xy), from: Word::Mem(Mem::Direct(s.word()?)) }),
        // FD has no fourth place to count at (2752, 3588).
        (3, 6 | 7) if !ix => Ins::None,
        (3, 0 | 2 | 4 | 6) => Ins::Arith16(Arith16::Inc(word_field(s, xy, y >> 1)?)),
        (3, _) => Ins::Arith16(Arith16::Dec(word_field(s, xy, y >> 1)?)),
        (4..=6, _) => count_or_load(s, xy, y, z)?,
        _ => Ins::None,
    })
}

/// INC, DEC and LD of n (2729, 3521, 4191): the address part of the format
/// comes before n.
fn count_or_load<S: Source>(s: &mut S, xy: Reg16, y: u8, z: u8) -> Result<Ins, S::Fault> {
    let Some(operand) = byte_field(s, xy, y)? else {
        return Ok(Ins::None);
    };
    Ok(match z {
        4 => Ins::Arith8(Arith8::Inc(operand)),
        5 => Ins::Arith8(Arith8::Dec(operand)),
        _ => Ins::Load(Load::Byte { to: operand, from: Byte::Imm(s.byte()?) }),
    })
}

/// LDW dst,nn (4775): IX and IY; to memory under DD alone.
fn load_immediate_word<S: Source>(s: &mut S, xy: Reg16, rr: u8) -> Result<Ins, S::Fault> {
    if xy == Reg16::Iy && rr != 2 {
        return Ok(Ins::None);
    }
    let to = word_field(s, xy, rr)?;
    Ok(Ins::Load(Load::Word { to, from: Word::Imm(s.word()?) }))
}

/// LD between byte registers, halves and memory (4054, 4195). With a half on
/// one side H and L cannot be named on the other (4259); beside (XY + d) they
/// can (4233, 4247).
fn register_loads<S: Source>(s: &mut S, xy: Reg16, y: u8, z: u8) -> Result<Ins, S::Fault> {
    let to_a = |from| Ins::Load(Load::Byte { to: Byte::Reg(Reg8::A), from: Byte::Mem(from) });
    Ok(match (y, z) {
        (7, 0..=3) => to_a(long_memory(s, xy, z)?),
        (6, 6) => Ins::None,
        (6, r) => match register(r) {
            Some(r) => Ins::Load(Load::Byte { to: Byte::Mem(short_index(s, xy)?), from: Byte::Reg(r) }),
            None => Ins::None,
        },
        (r, 6) => match register(r) {
            Some(r) => Ins::Load(Load::Byte { to: Byte::Reg(r), from: Byte::Mem(short_index(s, xy)?) }),
            None => Ins::None,
        },
        (4 | 5, _) | (_, 4 | 5) => match (half_or_register(xy, y), half_or_register(xy, z)) {
            (Some(to), Some(from)) => Ins::Load(Load::Byte { to: Byte::Reg(to), from: Byte::Reg(from) }),
            _ => Ins::None,
        },
        _ => Ins::None,
    })
}

fn half_or_register(xy: Reg16, r: u8) -> Option<Reg8> {
    half(xy, r).or_else(|| register(r))
}

fn last_quarter<S: Source>(s: &mut S, xy: Reg16, y: u8, z: u8) -> Result<Ins, S::Fault> {
    let ix = xy == Reg16::Ix;
    let even = y.is_multiple_of(2);
    Ok(match (z, y) {
        (1, _) if even && (ix || y == 4) => Ins::Load(Load::Pop(word_field(s, xy, y >> 1)?)),
        (1, 5) => Ins::Flow(Flow::Jump(Cond::Always, Mem::At(xy))),
        (1, 7) => Ins::Load(Load::Word { to: Word::Reg(Reg16::Sp), from: Word::Reg(xy) }),
        (2, cc) => Ins::Flow(Flow::Jump(condition(cc), far_target(s, xy)?)),
        (3, 0) if !ix => Ins::Flow(Flow::Jump(Cond::Always, far_target(s, xy)?)),
        (3, 4) => Ins::Load(Load::ExchangeWithTop(xy)),
        (3, 5) => Ins::Load(Load::ExchangeWithHl(xy)),
        (4, cc) => Ins::Flow(Flow::Call(condition(cc), far_target(s, xy)?)),
        (5, 1) => Ins::Flow(Flow::Call(Cond::Always, far_target(s, xy)?)),
        // PUSH nn has RA's code under FD (5834).
        (5, _) if even && (ix || y >= 4) => Ins::Load(Load::Push(word_field(s, xy, y >> 1)?)),
        _ => Ins::None,
    })
}

/// JP and CALL: (HL) under DD, relative under FD (2241, 3972).
fn far_target<S: Source>(s: &mut S, xy: Reg16) -> Result<Mem, S::Fault> {
    Ok(match xy {
        Reg16::Ix => Mem::At(Reg16::Hl),
        _ => Mem::Relative(s.word()?),
    })
}
