//! Every operation code of every opening, to be counted and listed.

use super::{decode, Ins, Source};

/// The nine openings; the 0 that ends two of them is a displacement.
pub const OPENINGS: [&[u8]; 9] =
    [&[], &[0xCB], &[0xED], &[0xDD], &[0xFD], &[0xDD, 0xCB, 0], &[0xFD, 0xCB, 0], &[0xDD, 0xED], &[0xFD, 0xED]];

pub const OPENING_NAMES: [&str; 9] = ["none", "CB", "ED", "DD", "FD", "DD CB d", "FD CB d", "DD ED", "FD ED"];

/// Each opening's number with each code, but those that open another.
pub fn all() -> impl Iterator<Item = (usize, u8)> {
    (0..OPENINGS.len()).flat_map(|opening| (0..=255).map(move |code| (opening, code))).filter(|&(opening, code)| {
        match opening {
            0 => !matches!(code, 0xCB | 0xDD | 0xED | 0xFD),
            3 | 4 => !matches!(code, 0xCB | 0xED),
            _ => true,
        }
    })
}

/// Opening and code, then zeros without end.
struct Bytes {
    bytes: Vec<u8>,
    taken: usize,
}

impl Source for Bytes {
    type Fault = std::convert::Infallible;

    fn byte(&mut self) -> Result<u8, Self::Fault> {
        let byte = self.bytes.get(self.taken).copied().unwrap_or(0);
        self.taken += 1;
        Ok(byte)
    }
}

/// The instruction of a code, its operand bytes zero, and how many bytes are
/// fetched for it.
pub fn instruction(opening: usize, code: u8) -> (Ins, usize) {
    let mut source = Bytes { bytes: [OPENINGS[opening], &[code]].concat(), taken: 0 };
    match decode(&mut source) {
        Ok(ins) => (ins, source.taken),
        Err(never) => match never {},
    }
}
