//! The fields of a stored form (document 01, "Stored form"): bit-packed, most significant first.

/// Bytes of a stored form.
pub const FORM_BYTES: usize = 101;

/// Where a field's first bit stands, counted from the most significant bit of byte 0, and how many bits it has.
#[derive(Clone, Copy)]
pub(crate) struct Field {
    at: usize,
    width: usize,
}

impl Field {
    const fn first(width: usize) -> Field {
        Field { at: 0, width }
    }

    /// The field that follows this one.
    const fn then(self, width: usize) -> Field {
        Field { at: self.at + self.width, width }
    }

    /// The n-th of equal fields, of which this is the first.
    pub(crate) const fn nth(self, n: usize) -> Field {
        Field { at: self.at + n * self.width, width: self.width }
    }

    pub(crate) fn get(self, form: &[u8; FORM_BYTES]) -> u16 {
        (self.at..self.at + self.width).fold(0, |value, bit| value << 1 | u16::from(form[bit / 8] >> (7 - bit % 8) & 1))
    }

    /// Puts the value's low bits there.
    pub(crate) fn put(self, form: &mut [u8; FORM_BYTES], value: u16) {
        for i in 0..self.width {
            let bit = self.at + i;
            let mask = 0x80 >> (bit % 8);
            if value >> (self.width - 1 - i) & 1 == 1 {
                form[bit / 8] |= mask;
            } else {
                form[bit / 8] &= !mask;
            }
        }
    }
}

const VERSION: Field = Field::first(8);
pub(crate) const FRAMES_LESS_ONE: Field = VERSION.then(4);
pub(crate) const AF: Field = FRAMES_LESS_ONE.then(16);
pub(crate) const BC: Field = AF.then(16);
pub(crate) const DE: Field = BC.then(16);
pub(crate) const HL: Field = DE.then(16);
pub(crate) const AF_ALT: Field = HL.then(16);
pub(crate) const BC_ALT: Field = AF_ALT.then(16);
pub(crate) const DE_ALT: Field = BC_ALT.then(16);
pub(crate) const HL_ALT: Field = DE_ALT.then(16);
pub(crate) const IX: Field = HL_ALT.then(16);
pub(crate) const IY: Field = IX.then(16);
pub(crate) const PC: Field = IY.then(16);
pub(crate) const SSP: Field = PC.then(16);
pub(crate) const USP: Field = SSP.then(16);
pub(crate) const BANK_AF: Field = USP.then(1);
pub(crate) const BANK_OTHERS: Field = BANK_AF.then(1);
pub(crate) const MSR: Field = BANK_OTHERS.then(16);
pub(crate) const TCR: Field = MSR.then(3);
pub(crate) const IOPAGE: Field = TCR.then(8);
/// The upper 12 bits of the stack limit.
pub(crate) const LIMIT: Field = IOPAGE.then(12);
/// The upper 12 bits of the vector pointer.
pub(crate) const VECTOR: Field = LIMIT.then(12);
pub(crate) const MMU: Field = VECTOR.then(16);
pub(crate) const DESCRIPTORS: Field = MMU.then(16);

#[cfg(test)]
mod tests {
    use super::*;

    #[test]
    fn descriptors_and_seven_bits_of_padding_fill_the_form() {
        let padding = DESCRIPTORS.nth(31).then(7);
        assert_eq!(padding.at + padding.width, 8 * FORM_BYTES);
    }

    #[test]
    fn put_changes_its_own_bits_alone() {
        for field in [VERSION, FRAMES_LESS_ONE, AF, BANK_AF, BANK_OTHERS, MSR, TCR, LIMIT, MMU, DESCRIPTORS.nth(31)] {
            for (fill, value) in [(0x00, 0xFFFF), (0xFF, 0x0000), (0xFF, 0x5A5A), (0x00, 0x5A5A)] {
                let mut form = [fill; FORM_BYTES];
                field.put(&mut form, value);
                let low_bits = ((1u32 << field.width) - 1) as u16;
                assert_eq!(field.get(&form), value & low_bits);
                field.put(&mut form, if fill == 0 { 0 } else { 0xFFFF });
                assert_eq!(form, [fill; FORM_BYTES]);
            }
        }
    }
}
