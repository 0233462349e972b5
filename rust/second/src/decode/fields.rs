//! Fields of operation codes that many pages share.

use super::{Alu, Byte, Cond, Mem, Source, Word};
use crate::machine::{Reg16, Reg8};

/// Bits 7-6, 5-3 and 2-0.
pub fn split(code: u8) -> (u8, u8, u8) {
    (code >> 6, code >> 3 & 7, code & 7)
}

/// Table 5-12; None for 110, which stands for memory.
pub fn register(r: u8) -> Option<Reg8> {
    match r {
        0 => Some(Reg8::B),
        1 => Some(Reg8::C),
        2 => Some(Reg8::D),
        3 => Some(Reg8::E),
        4 => Some(Reg8::H),
        5 => Some(Reg8::L),
        7 => Some(Reg8::A),
        _ => None,
    }
}

/// A register, or (HL) for 110.
pub fn register_or_hl(r: u8) -> Byte {
    match register(r) {
        Some(r) => Byte::Reg(r),
        None => Byte::Mem(Mem::At(Reg16::Hl)),
    }
}

/// rx: 100 high byte, 101 low byte of the index register.
pub fn half(xy: Reg16, rx: u8) -> Option<Reg8> {
    match (xy, rx) {
        (Reg16::Ix, 4) => Some(Reg8::Ixh),
        (Reg16::Ix, 5) => Some(Reg8::Ixl),
        (Reg16::Iy, 4) => Some(Reg8::Iyh),
        (Reg16::Iy, 5) => Some(Reg8::Iyl),
        _ => None,
    }
}

/// BC, DE, the addressing register, and what the page puts at 11.
pub fn pair(rr: u8, addressing: Reg16, last: Reg16) -> Reg16 {
    match rr & 3 {
        0 => Reg16::Bc,
        1 => Reg16::De,
        2 => addressing,
        _ => last,
    }
}

pub fn condition(cc: u8) -> Cond {
    match cc & 7 {
        0 => Cond::Nz,
        1 => Cond::Z,
        2 => Cond::Nc,
        3 => Cond::C,
        4 => Cond::Po,
        5 => Cond::Pe,
        6 => Cond::P,
        _ => Cond::M,
    }
}

pub fn alu(op: u8) -> Alu {
    match op & 7 {
        0 => Alu::Add,
        1 => Alu::Adc,
        2 => Alu::Sub,
        3 => Alu::Sbc,
        4 => Alu::And,
        5 => Alu::Xor,
        6 => Alu::Or,
        _ => Alu::Cp,
    }
}

/// bx: 001 (HL + IX), 010 (HL + IY), 011 (IX + IY).
fn based(bx: u8) -> Mem {
    match bx & 3 {
        1 => Mem::Based(Reg16::Hl, Reg16::Ix),
        2 => Mem::Based(Reg16::Hl, Reg16::Iy),
        _ => Mem::Based(Reg16::Ix, Reg16::Iy),
    }
}

/// xx: 01 (IX + dd), 10 (IY + dd), 11 (HL + dd), also with a bit above.
fn index_of(xx: u8) -> Reg16 {
    match xx & 3 {
        1 => Reg16::Ix,
        2 => Reg16::Iy,
        _ => Reg16::Hl,
    }
}

/// SX: (XY + d).
pub fn short_index<S: Source>(s: &mut S, xy: Reg16) -> Result<Mem, S::Fault> {
    Ok(Mem::Indexed(xy, s.displacement()?))
}

/// The memory modes of codes 000 to 011 of a byte field: SR and BX under DD,
/// RA and X under FD (ADC's page, 1719 to 1730, and its like).
pub fn long_memory<S: Source>(s: &mut S, xy: Reg16, field: u8) -> Result<Mem, S::Fault> {
    Ok(match (xy, field) {
        (Reg16::Ix, 0) => Mem::Indexed(Reg16::Sp, s.word()?),
        (Reg16::Ix, bx) => based(bx),
        (_, 0) => Mem::Relative(s.word()?),
        (_, xx) => Mem::Indexed(index_of(xx), s.word()?),
    })
}

/// A byte field under DD or FD with all its modes. DA has code 111 under DD
/// alone; under FD that code is no instruction.
pub fn byte_field<S: Source>(s: &mut S, xy: Reg16, field: u8) -> Result<Option<Byte>, S::Fault> {
    Ok(match (field, xy) {
        (0..=3, _) => Some(Byte::Mem(long_memory(s, xy, field)?)),
        (4 | 5, _) => half(xy, field).map(Byte::Reg),
        (6, _) => Some(Byte::Mem(short_index(s, xy)?)),
        (_, Reg16::Ix) => Some(Byte::Mem(Mem::Direct(s.word()?))),
        _ => None,
    })
}

/// The modes of LDA and of the long loads (4289, 4840): 000 SR, 001 to 011 BX,
/// 100 RA, 101 to 111 X.
pub fn load_modes<S: Source>(s: &mut S, field: u8) -> Result<Mem, S::Fault> {
    Ok(match field {
        0 => Mem::Indexed(Reg16::Sp, s.word()?),
        1..=3 => based(field),
        4 => Mem::Relative(s.word()?),
        _ => Mem::Indexed(index_of(field), s.word()?),
    })
}

/// A word field under DD or FD (ADDW's page, 2037, and its like). Under DD:
/// (HL), DA, IX, RA. Under FD: (IX + dd), (IY + dd), IY, nn.
pub fn word_field<S: Source>(s: &mut S, xy: Reg16, rr: u8) -> Result<Word, S::Fault> {
    Ok(match (xy, rr & 3) {
        (_, 2) => Word::Reg(xy),
        (Reg16::Ix, 0) => Word::Mem(Mem::At(Reg16::Hl)),
        (Reg16::Ix, 1) => Word::Mem(Mem::Direct(s.word()?)),
        (Reg16::Ix, _) => Word::Mem(Mem::Relative(s.word()?)),
        (_, 0) => Word::Mem(Mem::Indexed(Reg16::Ix, s.word()?)),
        (_, 1) => Word::Mem(Mem::Indexed(Reg16::Iy, s.word()?)),
        _ => Word::Imm(s.word()?),
    })
}
