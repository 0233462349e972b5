use std::error::Error;
use std::fmt;

/// Why a call did nothing: document 01's ten refusal numbers. What was lent to a refused call is as it was.
///
/// ```
/// use z280::{Machine, Refusal};
///
/// let refusal = Machine::reset(17).unwrap_err();
/// assert_eq!(refusal, Refusal::MemoryLength);
/// assert_eq!(refusal.number(), 1);
/// assert!(refusal.to_string().contains("1 to 16 frames"));
/// ```
#[derive(Clone, Copy, Debug, PartialEq, Eq, Hash)]
#[repr(u8)]
pub enum Refusal {
    /// 1: memory isn't the whole frames that the machine has, or a frame count isn't 1 to 16.
    MemoryLength = 1,
    /// 2: a bit that may not be set is set.
    ReservedBit = 2,
    /// 3: a stored form isn't 101 bytes, or an answer or event isn't 12.
    BufferLength = 3,
    /// 4: the stored version isn't 1.
    Version = 4,
    /// 5: a padding bit of the stored form is set.
    Padding = 5,
    /// 6: a descriptor number is above 31.
    NoDescriptor = 6,
    /// 7: the descriptor is already valid.
    AlreadyValid = 7,
    /// 8: the event can't be delivered.
    Undeliverable = 8,
    /// 9: fatal: a push or vector read of a delivery violates or lacks memory.
    Fatal = 9,
    /// 10: the stored frame count isn't 1 to 16.
    FrameCount = 10,
}

impl Refusal {
    /// All ten, by number.
    pub const ALL: [Refusal; 10] = [
        Refusal::MemoryLength,
        Refusal::ReservedBit,
        Refusal::BufferLength,
        Refusal::Version,
        Refusal::Padding,
        Refusal::NoDescriptor,
        Refusal::AlreadyValid,
        Refusal::Undeliverable,
        Refusal::Fatal,
        Refusal::FrameCount,
    ];

    /// Document 01's number.
    pub fn number(self) -> u8 {
        self as u8
    }

    /// The refusal of that number; 0 and numbers above 10 are none.
    pub fn from_number(number: u8) -> Option<Refusal> {
        Refusal::ALL.into_iter().find(|refusal| refusal.number() == number)
    }

    /// A call's answer as a result.
    pub(crate) fn check(number: u8) -> Result<(), Refusal> {
        Refusal::from_number(number).map_or(Ok(()), Err)
    }
}

impl fmt::Display for Refusal {
    fn fmt(&self, f: &mut fmt::Formatter<'_>) -> fmt::Result {
        f.write_str(match self {
            Refusal::MemoryLength => "refused 1: lend exactly the machine's frames of 4,096 bytes, 1 to 16 frames",
            Refusal::ReservedBit => {
                "refused 2: clear the bits that may not be set; allowed are MSR 537Fh, TCR 07h, \
                 stack limit FFF0h, vector pointer FFF0h, MMU control CC1Fh"
            }
            Refusal::BufferLength => "refused 3: a stored form has exactly 101 bytes, an answer or event 12",
            Refusal::Version => "refused 4: the first byte of a stored form is its version and has to be 1",
            Refusal::Padding => "refused 5: the last seven bits of a stored form have to be zero",
            Refusal::NoDescriptor => "refused 6: descriptors are numbered 0 to 31",
            Refusal::AlreadyValid => "refused 7: this descriptor is valid already; nothing has to be done",
            Refusal::Undeliverable => "refused 8: deliver only events 1, 3, 4 and 7, with the values they came with",
            Refusal::Fatal => {
                "refused 9: make the pages below the system stack pointer valid, writable and backed, \
                 and let the vector pointer name a frame of the memory"
            }
            Refusal::FrameCount => "refused 10: the stored frame count has to be 1 to 16",
        })
    }
}

impl Error for Refusal {}

#[cfg(test)]
mod tests {
    use super::*;

    #[test]
    fn numbers_go_both_ways() {
        assert_eq!(Refusal::from_number(0), None);
        assert_eq!(Refusal::from_number(11), None);
        for number in 1..=10 {
            let refusal = Refusal::from_number(number).unwrap();
            assert_eq!(refusal.number(), number);
            assert!(refusal.to_string().starts_with(&format!("refused {number}: ")));
        }
    }
}
