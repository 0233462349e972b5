//! A lent buffer with guard bytes on both sides.

/// Guard bytes on each side. An odd number, so that nothing is aligned.
const GUARD: usize = 61;

/// Backing bytes that are the same on both sides of a comparison: what is not
/// lent is a guard.
pub struct Buffer {
    backing: Vec<u8>,
    length: usize,
}

impl Buffer {
    pub fn new(most: usize) -> Buffer {
        Buffer { backing: vec![0xA5; most + 2 * GUARD], length: 0 }
    }

    pub fn set_length(&mut self, length: usize) {
        assert!(length + 2 * GUARD <= self.backing.len());
        self.length = length;
    }

    pub fn set(&mut self, bytes: &[u8]) {
        self.set_length(bytes.len());
        self.bytes_mut().copy_from_slice(bytes);
    }

    pub fn bytes(&self) -> &[u8] {
        &self.backing[GUARD..GUARD + self.length]
    }

    pub fn bytes_mut(&mut self) -> &mut [u8] {
        &mut self.backing[GUARD..GUARD + self.length]
    }

    /// The lent bytes with the guards before and behind them.
    pub fn guarded(&self) -> &[u8] {
        &self.backing[..GUARD + self.length + GUARD]
    }

    pub fn copy_from(&mut self, other: &Buffer) {
        self.length = other.length;
        let guarded = other.guarded();
        self.backing[..guarded.len()].copy_from_slice(guarded);
    }

    /// Turns over one guard bit behind the lent bytes.
    pub fn spoil_guard(&mut self) {
        self.backing[GUARD + self.length] ^= 1;
    }
}

#[cfg(test)]
mod tests {
    use super::*;

    #[test]
    fn guards_stand_on_both_sides() {
        let mut buffer = Buffer::new(8);
        buffer.set(&[1, 2, 3]);
        let guarded = buffer.guarded();
        assert_eq!(guarded.len(), 3 + 2 * GUARD);
        assert_eq!(guarded[GUARD..GUARD + 3], [1, 2, 3]);
        let before = guarded.to_vec();
        buffer.spoil_guard();
        assert_ne!(buffer.guarded(), before);
        assert_eq!(buffer.bytes(), [1, 2, 3]);
    }
}
