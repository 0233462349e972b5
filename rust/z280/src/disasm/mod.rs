//! Bytes to mnemonics, for every instruction of the July 1987 manual: those of this machine, ports, extended
//! instructions and those that it leaves out.
//!
//! Names and operands are spelled as in Appendix D. Where it has two names for one code, the one that says more is
//! taken: INCW BC for INC BC, INW HL,(C) for IN HL,(C); but LD for LDW with a register, and LD HL,nn for LDA HL,(nn).
//! Numbers are as an assembler takes them: hexadecimal, H behind, a zero before a letter. A displacement of 8 bits is
//! signed, `(IX-01H)`; one of 16 bits is the number to be added modulo 65,536, `(PC+0FFF0H)`.

mod ed;
mod index;
mod operand;
mod plain;
mod row;

use operand::Reader;
use row::{find, Row};

/// What this machine makes of an instruction.
#[derive(Clone, Copy, Debug, PartialEq, Eq)]
pub enum Class {
    /// It works it.
    Built,
    /// Input or output: event 8.
    Port,
    /// It leaves it out: event 9.
    LeftOut,
    /// For an extended processing unit: event 5, or 9 where TCR's extended bit is set.
    Extended,
    /// There is no such instruction: event 9. The text is a DB of the bytes that show it.
    Undefined,
    /// The bytes end inside the instruction. The text is a DB of them.
    Cut,
}

/// An instruction in words.
#[derive(Clone, Debug, PartialEq, Eq)]
pub struct Disassembled {
    /// Its bytes; of an undefined one those that are fetched until the machine knows, of a cut one those that are there.
    pub length: usize,
    /// Mnemonic and operands.
    pub text: String,
    /// What this machine makes of it.
    pub class: Class,
    /// The address that an operand relative to PC names.
    pub target: Option<u16>,
}

/// The opening bytes by which one of nine tables is chosen.
#[derive(Clone, Copy, PartialEq, Eq)]
enum Opening {
    None,
    Cb,
    Ed,
    Dd,
    Fd,
    DdCb,
    FdCb,
    DdEd,
    FdEd,
}

impl Opening {
    /// The opening of these bytes, and where the operation code stands. Under DD CB and FD CB the displacement comes
    /// before it (Table B-3).
    fn of(bytes: &[u8]) -> (Opening, usize) {
        match bytes {
            [0xCB, ..] => (Opening::Cb, 1),
            [0xED, ..] => (Opening::Ed, 1),
            [0xDD, 0xCB, ..] => (Opening::DdCb, 3),
            [0xFD, 0xCB, ..] => (Opening::FdCb, 3),
            [0xDD, 0xED, ..] => (Opening::DdEd, 2),
            [0xFD, 0xED, ..] => (Opening::FdEd, 2),
            [0xDD, ..] => (Opening::Dd, 1),
            [0xFD, ..] => (Opening::Fd, 1),
            _ => (Opening::None, 0),
        }
    }

    /// Its formats: those of its own first, then those that it shares with others.
    fn rows(self) -> [&'static [Row]; 2] {
        match self {
            Opening::None => [plain::NONE, &[]],
            Opening::Cb => [plain::CB, &[]],
            Opening::DdCb | Opening::FdCb => [plain::INDEX_CB, &[]],
            Opening::Dd => [index::DD, index::BOTH],
            Opening::Fd => [index::FD, index::BOTH],
            Opening::Ed => [ed::ED, ed::ALL],
            Opening::DdEd => [ed::DD_ED, ed::ALL],
            Opening::FdEd => [ed::FD_ED, ed::ALL],
        }
    }

    /// The register pair that stands for HL.
    fn pair(self) -> &'static str {
        match self {
            Opening::None | Opening::Cb | Opening::Ed => "HL",
            Opening::Dd | Opening::DdCb | Opening::DdEd => "IX",
            Opening::Fd | Opening::FdCb | Opening::FdEd => "IY",
        }
    }
}

/// The instruction that the bytes begin with, as it reads at that address.
///
/// ```
/// use z280::{disassemble, Class};
///
/// let jump = disassemble(&[0x20, 0xFD], 0x0103);
/// assert_eq!((jump.length, jump.text.as_str(), jump.target), (2, "JR NZ,0102H", Some(0x0102)));
/// assert_eq!(disassemble(&[0xDD, 0x36, 0xFF, 0x12], 0).text, "LD (IX-01H),12H");
/// assert_eq!(disassemble(&[0xDD, 0x00], 0).class, Class::Undefined);
/// assert_eq!(disassemble(&[0x21, 0x34], 0).class, Class::Cut);
/// ```
pub fn disassemble(bytes: &[u8], address: u16) -> Disassembled {
    let (opening, at) = Opening::of(bytes);
    let Some(&code) = bytes.get(at) else {
        return data(bytes, Class::Cut);
    };
    let undefined = || data(&bytes[..=at], Class::Undefined);
    let Some(row) = opening.rows().into_iter().find_map(|rows| find(rows, code)) else {
        return undefined();
    };
    let follow = match opening {
        Opening::DdCb | Opening::FdCb => &bytes[2..3],
        _ => &bytes[at + 1..],
    };
    let mut reader = Reader::new(opening, code, follow);
    let Some(text) = reader.fill(row.template) else {
        return undefined();
    };
    let length = match opening {
        Opening::DdCb | Opening::FdCb => at + 1,
        _ => at + 1 + reader.taken(),
    };
    if length > bytes.len() {
        return data(bytes, Class::Cut);
    }
    finish(reader, text, row.class, length, address)
}

/// Now that the length is known, the relative operand's address is too.
fn finish(reader: Reader, text: String, class: Class, length: usize, address: u16) -> Disassembled {
    // An extended instruction counts from its template of four bytes (7372, 7424), others from the next address.
    let base = if class == Class::Extended { length - 4 } else { length };
    let target = reader.relative().map(|displacement| address.wrapping_add(base as u16).wrapping_add(displacement));
    let text = match target {
        Some(target) => text.replace(operand::TARGET, &operand::hex(target.into(), 4)),
        None => text,
    };
    Disassembled { length, text, class, target }
}

fn data(bytes: &[u8], class: Class) -> Disassembled {
    let list: Vec<String> = bytes.iter().map(|&byte| operand::hex(byte.into(), 2)).collect();
    Disassembled { length: bytes.len(), text: format!("DB {}", list.join(",")), class, target: None }
}

#[cfg(test)]
mod tests {
    use super::*;

    fn read(bytes: &[u8], address: u16) -> (String, Option<u16>) {
        let found = disassemble(bytes, address);
        assert_eq!(found.length, bytes.len());
        (found.text, found.target)
    }

    #[test]
    fn short_displacements_are_signed() {
        assert_eq!(read(&[0xDD, 0x7E, 0x80], 0).0, "LD A,(IX-80H)");
        assert_eq!(read(&[0xFD, 0xCB, 0xFF, 0x46], 0).0, "BIT 0,(IY-01H)");
        assert_eq!(read(&[0xFD, 0x36, 0x7F, 0xFF], 0).0, "LD (IY+7FH),0FFH");
    }

    #[test]
    fn targets_count_from_the_next_address_and_wrap() {
        assert_eq!(read(&[0x18, 0xFE], 0x1234), ("JR 1234H".to_string(), Some(0x1234)));
        assert_eq!(read(&[0x10, 0x7F], 0xFFFE), ("DJNZ 007FH".to_string(), Some(0x007F)));
        assert_eq!(read(&[0xDD, 0x28, 0x80], 0), ("JAF 0FF83H".to_string(), Some(0xFF83)));
        assert_eq!(read(&[0xFD, 0xC3, 0xFC, 0xFF], 8), ("JP (PC+0FFFCH)".to_string(), Some(8)));
        assert_eq!(read(&[0xDD, 0x31, 2, 0, 0x34, 0x12], 0), ("LDW (PC+0002H),1234H".to_string(), Some(8)));
        assert_eq!(read(&[0x3A, 0x34, 0x12], 0), ("LD A,(1234H)".to_string(), None));
    }

    #[test]
    fn an_extended_instruction_counts_from_its_template() {
        assert_eq!(read(&[0xED, 0xA4, 0x10, 0, 1, 2, 3, 4], 0x100), ("EPUM (PC+0010H)".to_string(), Some(0x114)));
    }

    #[test]
    fn nothing_is_cut() {
        assert_eq!(disassemble(&[], 0).class, Class::Cut);
        assert_eq!(disassemble(&[], 0).length, 0);
    }
}
