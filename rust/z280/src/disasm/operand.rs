//! What stands in a template's braces.

use super::Opening;

/// Stands in a text for the target address until the instruction's length is known.
pub(super) const TARGET: &str = "{target}";

const REGISTERS: [&str; 8] = ["B", "C", "D", "E", "H", "L", "(HL)", "A"];
const CONDITIONS: [&str; 8] = ["NZ", "Z", "NC", "C", "PO", "PE", "P", "M"];
const SUMS: [&str; 8] = ["ADD", "ADC", "SUB", "SBC", "AND", "XOR", "OR", "CP"];
const ROTATES: [&str; 8] = ["RLC", "RRC", "RL", "RR", "SLA", "SRA", "TSET", "SRL"];

/// Hexadecimal as an assembler takes it: a zero before a first letter.
pub(super) fn hex(value: u32, digits: usize) -> String {
    let text = format!("{value:0digits$X}H");
    if text.starts_with(|c: char| c.is_ascii_alphabetic()) {
        format!("0{text}")
    } else {
        text
    }
}

/// Fills templates in, from the operation code and the bytes after it.
pub(super) struct Reader<'a> {
    opening: Opening,
    code: u8,
    follow: &'a [u8],
    taken: usize,
    relative: Option<u16>,
}

impl<'a> Reader<'a> {
    pub(super) fn new(opening: Opening, code: u8, follow: &'a [u8]) -> Reader<'a> {
        Reader { opening, code, follow, taken: 0, relative: None }
    }

    /// How many bytes the template needed, even where there were fewer.
    pub(super) fn taken(&self) -> usize {
        self.taken
    }

    /// The displacement of an operand relative to PC.
    pub(super) fn relative(&self) -> Option<u16> {
        self.relative
    }

    /// The template with its words filled in, from left to right, as the bytes stand in the instruction. None where an
    /// operand has no meaning under this opening.
    pub(super) fn fill(&mut self, template: &str) -> Option<String> {
        let mut text = String::new();
        let mut rest = template;
        while let Some((before, braced)) = rest.split_once('{') {
            let (word, after) = braced.split_once('}').expect("a brace is closed");
            text.push_str(before);
            text.push_str(&self.word(word)?);
            rest = after;
        }
        text.push_str(rest);
        Some(text)
    }

    fn word(&mut self, word: &str) -> Option<String> {
        let upper = usize::from(self.code >> 3 & 7);
        let lower = usize::from(self.code & 7);
        Some(match word {
            "r" => REGISTERS[upper].to_string(),
            "s" => REGISTERS[lower].to_string(),
            "m" => return self.byte_operand(upper),
            "o" => return self.byte_operand(lower),
            "w" => return self.word_operand(upper / 2),
            "x" => self.place(upper),
            "p" => ["BC", "DE", "HL", "SP"][upper / 2].to_string(),
            "P" => ["BC", "DE", self.opening.pair(), "SP"][upper / 2].to_string(),
            "q" => ["BC", "DE", "HL", "AF"][upper / 2].to_string(),
            "X" => self.opening.pair().to_string(),
            "c" => CONDITIONS[upper].to_string(),
            "j" => CONDITIONS[upper % 4].to_string(),
            "f" => SUMS[upper].to_string(),
            "k" => ROTATES[upper].to_string(),
            "b" => upper.to_string(),
            "t" => hex(8 * upper as u32, 2),
            "n" => hex(self.byte().into(), 2),
            "nn" => hex(self.next_word().into(), 4),
            "d" => self.short(),
            "dd" => format!("+{}", hex(self.next_word().into(), 4)),
            "PC" => self.pc_relative(),
            "e" => self.jump(),
            "template" => {
                self.taken += 4;
                String::new()
            }
            "-" => return None,
            _ => unreachable!("no word {word} in a template"),
        })
    }

    fn byte(&mut self) -> u8 {
        let byte = self.follow.get(self.taken).copied().unwrap_or(0);
        self.taken += 1;
        byte
    }

    fn next_word(&mut self) -> u16 {
        u16::from_le_bytes([self.byte(), self.byte()])
    }

    fn short(&mut self) -> String {
        let displacement = self.byte() as i8;
        let sign = if displacement < 0 { '-' } else { '+' };
        format!("{sign}{}", hex(displacement.unsigned_abs().into(), 2))
    }

    fn pc_relative(&mut self) -> String {
        let displacement = self.next_word();
        self.relative = Some(displacement);
        format!("(PC+{})", hex(displacement.into(), 4))
    }

    fn jump(&mut self) -> String {
        self.relative = Some(self.byte() as i8 as u16);
        TARGET.to_string()
    }

    /// A byte operand by its three bits: a register or a place in memory (Table 5-12 and the pages' field encodings).
    fn byte_operand(&mut self, code: usize) -> Option<String> {
        let template = match self.opening {
            Opening::None | Opening::Cb | Opening::Ed => REGISTERS[code],
            Opening::Dd | Opening::DdCb | Opening::DdEd => {
                ["(SP{dd})", "(HL+IX)", "(HL+IY)", "(IX+IY)", "IXH", "IXL", "(IX{d})", "({nn})"][code]
            }
            Opening::Fd | Opening::FdCb | Opening::FdEd => {
                ["{PC}", "(IX{dd})", "(IY{dd})", "(HL{dd})", "IYH", "IYL", "(IY{d})", "{-}"][code]
            }
        };
        self.fill(template)
    }

    /// A word operand by its two bits.
    fn word_operand(&mut self, code: usize) -> Option<String> {
        let template = match self.opening {
            Opening::None | Opening::Cb | Opening::Ed => ["BC", "DE", "HL", "SP"][code],
            Opening::Dd | Opening::DdCb | Opening::DdEd => ["(HL)", "({nn})", "IX", "{PC}"][code],
            Opening::Fd | Opening::FdCb | Opening::FdEd => ["(IX{dd})", "(IY{dd})", "IY", "{nn}"][code],
        };
        self.fill(template)
    }

    /// A place in memory by its three bits, the same under ED, DD ED and FD ED.
    fn place(&mut self, code: usize) -> String {
        let places = ["(SP{dd})", "(HL+IX)", "(HL+IY)", "(IX+IY)", "{PC}", "(IX{dd})", "(IY{dd})", "(HL{dd})"];
        self.fill(places[code]).expect("each place has a meaning")
    }
}

#[cfg(test)]
mod tests {
    use super::*;

    #[test]
    fn a_number_does_not_begin_with_a_letter() {
        assert_eq!(hex(0x9F, 2), "9FH");
        assert_eq!(hex(0xA0, 2), "0A0H");
        assert_eq!(hex(0x12, 4), "0012H");
        assert_eq!(hex(0xFFFF, 4), "0FFFFH");
    }
}
