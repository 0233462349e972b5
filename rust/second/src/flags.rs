//! Sums, logic and rotates on plain numbers, and the flags they leave.
//!
//! Every function takes the old F and hands the new one back. Bits 5 and 3
//! stay, and so does a flag that a page calls unaffected (document 01, Flags).

pub const S: u8 = 0x80;
pub const Z: u8 = 0x40;
pub const H: u8 = 0x10;
pub const V: u8 = 0x04;
pub const N: u8 = 0x02;
pub const C: u8 = 0x01;
pub const ALL: u8 = S | Z | H | V | N | C;

/// F with the flags of `mask` taken from `new`.
pub fn replaced(f: u8, mask: u8, new: u8) -> u8 {
    f & !mask | new & mask
}

pub fn flag(mask: u8, set: bool) -> u8 {
    if set {
        mask
    } else {
        0
    }
}

fn parity(value: u8) -> u8 {
    flag(V, value.count_ones().is_multiple_of(2))
}

/// The six flags of a sum or difference of `bits` bit numbers. `raw` is the
/// result before it is cut; `a ^ b ^ raw` has the carries into each bit.
fn six(bits: u32, a: u32, b: u32, raw: u32, n: u8) -> u8 {
    let carries = a ^ b ^ raw;
    let into = |bit: u32| carries >> bit & 1 == 1;
    let result = raw & ((1 << bits) - 1);
    flag(S, result >> (bits - 1) == 1)
        | flag(Z, result == 0)
        | flag(H, into(bits - 4))
        | flag(V, into(bits - 1) != into(bits))
        | n
        | flag(C, into(bits))
}

pub fn add8(a: u8, b: u8, carry: bool) -> (u8, u8) {
    let (a, b) = (u32::from(a), u32::from(b));
    let raw = a + b + u32::from(carry);
    (raw as u8, six(8, a, b, raw, 0))
}

pub fn sub8(a: u8, b: u8, borrow: bool) -> (u8, u8) {
    let (a, b) = (u32::from(a), u32::from(b));
    let raw = a.wrapping_sub(b).wrapping_sub(borrow.into());
    (raw as u8, six(8, a, b, raw, N))
}

pub fn add16(a: u16, b: u16, carry: bool) -> (u16, u8) {
    let (a, b) = (u32::from(a), u32::from(b));
    let raw = a + b + u32::from(carry);
    (raw as u16, six(16, a, b, raw, 0))
}

pub fn sub16(a: u16, b: u16, borrow: bool) -> (u16, u8) {
    let (a, b) = (u32::from(a), u32::from(b));
    let raw = a.wrapping_sub(b).wrapping_sub(borrow.into());
    (raw as u16, six(16, a, b, raw, N))
}

/// AND, OR and XOR: parity, N and C clear; H is set by AND alone.
pub fn logic(result: u8, h: bool) -> u8 {
    flag(S, result & 0x80 != 0) | flag(Z, result == 0) | flag(H, h) | parity(result)
}

/// The seven rotates and shifts (6096 to 7030).
#[derive(Clone, Copy, PartialEq, Eq, Debug)]
pub enum Rotate {
    Rlc,
    Rrc,
    Rl,
    Rr,
    Sla,
    Sra,
    Srl,
}

/// The rotated byte, and all six flags.
pub fn rotate(kind: Rotate, value: u8, carry: bool) -> (u8, u8) {
    let carry_in = u8::from(carry);
    let left = matches!(kind, Rotate::Rlc | Rotate::Rl | Rotate::Sla);
    let result = match kind {
        Rotate::Rlc => value.rotate_left(1),
        Rotate::Rrc => value.rotate_right(1),
        Rotate::Rl => value << 1 | carry_in,
        Rotate::Rr => value >> 1 | carry_in << 7,
        Rotate::Sla => value << 1,
        Rotate::Sra => value >> 1 | value & 0x80,
        Rotate::Srl => value >> 1,
    };
    let out = if left { value & 0x80 != 0 } else { value & 1 != 0 };
    (result, logic(result, false) | flag(C, out))
}
