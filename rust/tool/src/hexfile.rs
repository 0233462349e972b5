//! Guests written by hand. A hex file is text, line by line:
//!
//! ```text
//! ; a comment, to the end of its line
//! ssp = 1000h       ; a register or another part of the machine
//! @0100             ; where the next bytes go, hexadecimal
//! 3E 05 76          ; bytes, hexadecimal
//! ```

use crate::failure::Failure;

/// What a hex file says: bytes at addresses, and NAME=VALUE settings in order.
#[derive(Default)]
pub struct HexFile {
    pub pieces: Vec<(usize, Vec<u8>)>,
    pub settings: Vec<String>,
}

impl HexFile {
    pub fn parse(text: &str) -> Result<HexFile, Failure> {
        let mut file = HexFile::default();
        for (number, line) in text.lines().enumerate() {
            let line = line.split(';').next().unwrap_or("").trim();
            if line.contains('=') {
                file.settings.push(line.to_string());
                continue;
            }
            for word in line.split_whitespace() {
                file.word(word).map_err(|wrong| Failure::Input(format!("line {}: {wrong}", number + 1)))?;
            }
        }
        Ok(file)
    }

    fn word(&mut self, word: &str) -> Result<(), String> {
        if let Some(address) = word.strip_prefix('@') {
            let address = u16::from_str_radix(address, 16)
                .map_err(|_| format!("'{word}' is no address; write @ and up to four hexadecimal digits"))?;
            self.pieces.push((address.into(), Vec::new()));
            return Ok(());
        }
        let wrong = || format!("'{word}' is no byte; write two hexadecimal digits, and a comment behind ;");
        let digits = word.bytes().all(|digit| digit.is_ascii_hexdigit());
        if !digits || word.len() % 2 == 1 {
            return Err(wrong());
        }
        if self.pieces.is_empty() {
            self.pieces.push((0, Vec::new()));
        }
        let bytes = &mut self.pieces.last_mut().expect("there is one").1;
        for at in (0..word.len()).step_by(2) {
            bytes.push(u8::from_str_radix(&word[at..at + 2], 16).map_err(|_| wrong())?);
        }
        Ok(())
    }

    /// The address past the last byte.
    pub fn end(&self) -> usize {
        self.pieces.iter().map(|(address, bytes)| address + bytes.len()).max().unwrap_or(0)
    }
}

#[cfg(test)]
mod tests {
    use super::*;

    #[test]
    fn bytes_addresses_settings_and_comments() {
        let file = HexFile::parse("; x = 1\nssp = 10h ; stack\n00 7600\n@0100 C9 ; RET\n\n@20\n").ok().unwrap();
        assert_eq!(file.pieces, [(0, vec![0, 0x76, 0]), (0x100, vec![0xC9]), (0x20, vec![])]);
        assert_eq!(file.settings, ["ssp = 10h"]);
        assert_eq!(file.end(), 0x101);
    }

    #[test]
    fn wrong_words_are_told_with_their_line() {
        for text in ["\n0", "\n0G", "\n@", "\n@12345", "\n+1", "\nhello"] {
            let Err(Failure::Input(message)) = HexFile::parse(text) else { panic!("{text}") };
            assert!(message.starts_with("line 2: "), "{message}");
        }
    }
}
