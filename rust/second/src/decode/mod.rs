//! From bytes to instructions, by the formats of the pages in section 5.6.
//!
//! An operation code that no page gives after its opening, and one that
//! document 01 leaves out, is `Ins::None`: nothing is fetched after it.

mod bits;
pub mod codes;
mod extra;
mod fields;
mod index;
mod index_extra;
mod plain;

pub use crate::flags::Rotate;
use crate::machine::{Reg16, Reg8};

/// Where instruction bytes come from.
pub trait Source {
    type Fault;

    fn byte(&mut self) -> Result<u8, Self::Fault>;

    fn word(&mut self) -> Result<u16, Self::Fault> {
        let low = self.byte()?;
        let high = self.byte()?;
        Ok(u16::from_le_bytes([low, high]))
    }

    /// An 8 bit displacement, signed, as a number to add modulo 65,536.
    fn displacement(&mut self) -> Result<u16, Self::Fault> {
        Ok(self.byte()? as i8 as u16)
    }
}

/// A place in memory (chapter 4). SX is `Indexed` with a displacement that was
/// sign-extended; SR is `Indexed` by SP.
#[derive(Clone, Copy, PartialEq, Eq, Debug)]
pub enum Mem {
    At(Reg16),
    Direct(u16),
    Indexed(Reg16, u16),
    Based(Reg16, Reg16),
    Relative(u16),
}

#[derive(Clone, Copy, PartialEq, Eq, Debug)]
pub enum Byte {
    Reg(Reg8),
    Imm(u8),
    Mem(Mem),
}

#[derive(Clone, Copy, PartialEq, Eq, Debug)]
pub enum Word {
    Reg(Reg16),
    Imm(u16),
    Mem(Mem),
}

/// Table 5-1.
#[derive(Clone, Copy, PartialEq, Eq, Debug)]
pub enum Cond {
    Always,
    Nz,
    Z,
    Nc,
    C,
    Po,
    Pe,
    P,
    M,
}

/// In the order of their code, bits 5 to 3.
#[derive(Clone, Copy, PartialEq, Eq, Debug)]
pub enum Alu {
    Add,
    Adc,
    Sub,
    Sbc,
    And,
    Xor,
    Or,
    Cp,
}

#[derive(Clone, Copy, PartialEq, Eq, Debug)]
pub enum AluWord {
    Add,
    Sub,
    Cp,
}

#[derive(Clone, Copy, PartialEq, Eq, Debug)]
pub enum BlockKind {
    Load,
    Compare,
}

#[derive(Clone, Copy, PartialEq, Eq, Debug)]
pub enum PortBy {
    /// I/O page, A, n (3509, 5576).
    Number(u8),
    /// I/O page, B, C (3437, 5520).
    Bc,
}

/// An instruction. The groups that complete have types of their own.
#[derive(Clone, Copy, PartialEq, Eq, Debug)]
pub enum Ins {
    /// No such instruction, or left out.
    None,
    Extended,
    Port {
        by: PortBy,
        output: bool,
    },
    Halt,
    SystemCall(u16),
    Load(Load),
    Block {
        kind: BlockKind,
        down: bool,
        repeat: bool,
    },
    Arith8(Arith8),
    Arith16(Arith16),
    Bits(Bits),
    Flow(Flow),
    Control(Control),
}

/// Loads and exchanges, 8 and 16 bit (5.4.1, 5.4.2).
#[derive(Clone, Copy, PartialEq, Eq, Debug)]
pub enum Load {
    Byte { to: Byte, from: Byte },
    ExchangeA(Byte),
    ExchangeHWithL,
    Word { to: Word, from: Word },
    Address { to: Reg16, of: Mem },
    ExchangeWithHl(Reg16),
    ExchangeWithTop(Reg16),
    ExchangeAf,
    ExchangeOthers,
    Push(Word),
    Pop(Word),
}

/// 8 bit arithmetic and logic (5.4.4).
#[derive(Clone, Copy, PartialEq, Eq, Debug)]
pub enum Arith8 {
    Alu(Alu, Byte),
    Inc(Byte),
    Dec(Byte),
    Complement,
    Negate,
    Extend,
    Multiply { signed: bool, by: Byte },
}

/// 16 bit arithmetic (5.4.5).
#[derive(Clone, Copy, PartialEq, Eq, Debug)]
pub enum Arith16 {
    AddPair { to: Reg16, from: Reg16 },
    AdcPair { to: Reg16, from: Reg16 },
    SbcPair { to: Reg16, from: Reg16 },
    AddA(Reg16),
    Alu(AluWord, Word),
    Inc(Word),
    Dec(Word),
    Negate,
    Extend,
    Multiply { signed: bool, by: Word },
}

/// Bits, rotates, shifts (5.4.6).
#[derive(Clone, Copy, PartialEq, Eq, Debug)]
pub enum Bits {
    Rotate(Rotate, Byte),
    RotateA(Rotate),
    TestSet(Byte),
    Test(u8, Byte),
    Reset(u8, Byte),
    Set(u8, Byte),
}

/// Program control (5.4.7). A target is the address itself, never its content
/// (1472).
#[derive(Clone, Copy, PartialEq, Eq, Debug)]
pub enum Flow {
    Jump(Cond, Mem),
    Call(Cond, Mem),
    Return(Cond),
    CountAndJump(u16),
    JumpIfAlternateAf(u16),
    JumpIfAlternateOthers(u16),
    Restart(u16),
    SetCarry,
    ComplementCarry,
}

/// CPU control (5.4.9).
#[derive(Clone, Copy, PartialEq, Eq, Debug)]
pub enum Control {
    Nop,
    EnableInterrupts(u8),
    DisableInterrupts(u8),
    ReadControl(Reg16),
    WriteControl(Reg16),
    ReadUserSp(Reg16),
    WriteUserSp(Reg16),
    ReturnLong,
}

/// One instruction, byte by byte.
pub fn decode<S: Source>(s: &mut S) -> Result<Ins, S::Fault> {
    match s.byte()? {
        0xCB => bits::after_cb(s),
        0xED => extra::after_ed(s),
        0xDD => index::after_escape(s, Reg16::Ix),
        0xFD => index::after_escape(s, Reg16::Iy),
        code => plain::unopened(s, code),
    }
}
