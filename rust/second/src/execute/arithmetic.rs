//! 8 and 16 bit arithmetic and logic (5.4.4, 5.4.5).

use crate::cycle::{Cycle, Outcome};
use crate::decode::{Alu, AluWord, Arith16, Arith8, Byte, Word};
use crate::flags::{self, flag, replaced, C, H, N, S, V, Z};
use crate::machine::{Reg16, Reg8};

pub fn bytes(c: &mut Cycle, arith: Arith8) -> Outcome<()> {
    match arith {
        Arith8::Alu(op, source) => {
            let value = c.get(source)?;
            alu(c, op, value);
        }
        Arith8::Inc(operand) => count(c, operand, flags::add8)?,
        Arith8::Dec(operand) => count(c, operand, flags::sub8)?,
        Arith8::Complement => {
            c.m.set8(Reg8::A, !c.m.get8(Reg8::A));
            c.m.set_f(c.m.f() | H | N);
        }
        Arith8::Negate => {
            // V is set where A was not 80h, as the page prints it (5294;
            // document 01 keeps it so).
            let (result, six) = flags::sub8(0, c.m.get8(Reg8::A), false);
            c.m.set8(Reg8::A, result);
            c.m.set_f(replaced(c.m.f(), flags::ALL, six ^ V));
        }
        Arith8::Extend => c.m.hl = c.m.get8(Reg8::A) as i8 as u16,
        Arith8::Multiply { signed, by } => {
            let (a, value) = (c.m.get8(Reg8::A), c.get(by)?);
            multiply(c, signed, a, value);
        }
    }
    Ok(())
}

fn alu(c: &mut Cycle, op: Alu, b: u8) {
    let a = c.m.get8(Reg8::A);
    let carry = c.m.f() & C != 0;
    let (result, six) = match op {
        Alu::Add => flags::add8(a, b, false),
        Alu::Adc => flags::add8(a, b, carry),
        Alu::Sub | Alu::Cp => flags::sub8(a, b, false),
        Alu::Sbc => flags::sub8(a, b, carry),
        Alu::And => (a & b, flags::logic(a & b, true)),
        Alu::Xor => (a ^ b, flags::logic(a ^ b, false)),
        Alu::Or => (a | b, flags::logic(a | b, false)),
    };
    if op != Alu::Cp {
        c.m.set8(Reg8::A, result);
    }
    c.m.set_f(replaced(c.m.f(), flags::ALL, six));
}

/// INC and DEC: all but C (2729, 3521).
fn count(c: &mut Cycle, operand: Byte, by: fn(u8, u8, bool) -> (u8, u8)) -> Outcome<()> {
    let (result, six) = by(c.get(operand)?, 1, false);
    c.put(operand, result);
    c.m.set_f(replaced(c.m.f(), S | Z | H | V | N, six));
    Ok(())
}

/// H and N stay, V is clear, C says that the upper half is needed (5052, 5114).
fn product_flags(f: u8, negative: bool, zero: bool, wide: bool) -> u8 {
    replaced(f, S | Z | V | C, flag(S, negative) | flag(Z, zero) | flag(C, wide))
}

fn multiply(c: &mut Cycle, signed: bool, a: u8, b: u8) {
    let f = c.m.f();
    let (product, f) = if signed {
        let p = i16::from(a as i8) * i16::from(b as i8);
        (p as u16, product_flags(f, p < 0, p == 0, !(-0x80..0x80).contains(&p)))
    } else {
        let p = u16::from(a) * u16::from(b);
        (p, product_flags(f, false, p == 0, p >= 0x100))
    };
    c.m.hl = product;
    c.m.set_f(f);
}

pub fn words(c: &mut Cycle, arith: Arith16) -> Outcome<()> {
    let carry = c.m.f() & C != 0;
    match arith {
        // S, Z and V stay (1962).
        Arith16::AddPair { to, from } => {
            let sum = flags::add16(c.m.get16(to), c.m.get16(from), false);
            store(c, to, sum, H | N | C);
        }
        Arith16::AdcPair { to, from } => {
            let sum = flags::add16(c.m.get16(to), c.m.get16(from), carry);
            store(c, to, sum, flags::ALL);
        }
        Arith16::SbcPair { to, from } => {
            let difference = flags::sub16(c.m.get16(to), c.m.get16(from), carry);
            store(c, to, difference, flags::ALL);
        }
        // A is sign-extended; all six flags by this page (1830).
        Arith16::AddA(to) => {
            let sum = flags::add16(c.m.get16(to), c.m.get8(Reg8::A) as i8 as u16, false);
            store(c, to, sum, flags::ALL);
        }
        Arith16::Inc(operand) => count_word(c, operand, 1)?,
        Arith16::Dec(operand) => count_word(c, operand, 0xFFFF)?,
        Arith16::Alu(op, source) => alu_word(c, op, source)?,
        Arith16::Negate => {
            let difference = flags::sub16(0, c.m.hl, false);
            store(c, Reg16::Hl, difference, flags::ALL);
        }
        Arith16::Extend => c.m.de = if c.m.hl & 0x8000 == 0 { 0 } else { 0xFFFF },
        Arith16::Multiply { signed, by } => {
            let (a, b) = (c.m.hl, c.get_word(by)?);
            multiply_word(c, signed, a, b);
        }
    }
    Ok(())
}

/// A result, and those of its six flags that the page names.
fn store(c: &mut Cycle, to: Reg16, (result, six): (u16, u8), named: u8) {
    c.m.set16(to, result);
    c.m.set_f(replaced(c.m.f(), named, six));
}

/// No flags (2752, 3588).
fn count_word(c: &mut Cycle, operand: Word, by: u16) -> Outcome<()> {
    let value = c.get_word(operand)?.wrapping_add(by);
    c.put_word(operand, value);
    Ok(())
}

fn alu_word(c: &mut Cycle, op: AluWord, source: Word) -> Outcome<()> {
    let (a, b) = (c.m.hl, c.get_word(source)?);
    let (result, six) = match op {
        AluWord::Add => flags::add16(a, b, false),
        AluWord::Sub | AluWord::Cp => flags::sub16(a, b, false),
    };
    if op != AluWord::Cp {
        c.m.hl = result;
    }
    c.m.set_f(replaced(c.m.f(), flags::ALL, six));
    Ok(())
}

/// The product's upper half goes to DE (5176, 5235).
fn multiply_word(c: &mut Cycle, signed: bool, a: u16, b: u16) {
    let f = c.m.f();
    let (product, f) = if signed {
        let p = i32::from(a as i16) * i32::from(b as i16);
        (p as u32, product_flags(f, p < 0, p == 0, !(-0x8000..0x8000).contains(&p)))
    } else {
        let p = u32::from(a) * u32::from(b);
        (p, product_flags(f, false, p == 0, p >= 0x1_0000))
    };
    c.m.de = (product >> 16) as u16;
    c.m.hl = product as u16;
    c.m.set_f(f);
}
