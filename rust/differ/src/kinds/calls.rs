//! Delivery, making valid, reset, and every refusal.

use second::FRAME;

use crate::pair::{Call, Pair};
use crate::record;
use crate::rng::Rng;

const DELIVERIES: usize = 400;
const MADE_VALID: usize = 100;
const REFUSED: usize = 600;

/// The four events that delivery takes come more often than the others.
const NUMBERS: [u16; 24] = [1, 1, 1, 3, 3, 3, 4, 4, 4, 7, 7, 7, 0, 2, 5, 6, 8, 9, 10, 11, 256, 257, 1025, 65535];

pub fn deliveries(pair: &mut Pair, rng: &mut Rng) {
    for _ in 0..DELIVERIES {
        let frames = record::frames(rng);
        let m = record::random(rng, frames);
        pair.set_record(&m, frames);
        let event = event(rng, frames);
        pair.set_answer(&event);
        pair.call(Call::Deliver);
    }
}

/// An event, one in four with a value out of its range.
fn event(rng: &mut Rng, frames: usize) -> [u8; 12] {
    let number = rng.pick(&NUMBERS);
    let mut address = || u32::from(record::word(rng, frames));
    let (mut first, mut second) = (address(), address());
    match number {
        1 => first = rng.below(32) as u32,
        3 | 7 => second = 0,
        _ => {}
    }
    if rng.chance(1, 4) {
        let odd = [1, 31, 32, 33, 255, 256, 65535, 65536, 65537, 0x0100_0000, u32::MAX];
        let place = if rng.chance(1, 2) { &mut first } else { &mut second };
        *place = rng.pick(&odd);
    }
    let mut bytes = [0; 12];
    bytes[0..2].copy_from_slice(&number.to_le_bytes());
    bytes[2..4].copy_from_slice(&rng.word().to_le_bytes());
    bytes[4..8].copy_from_slice(&first.to_le_bytes());
    bytes[8..12].copy_from_slice(&second.to_le_bytes());
    bytes
}

pub fn making_valid(pair: &mut Pair, rng: &mut Rng) {
    for _ in 0..MADE_VALID {
        let frames = record::frames(rng);
        let m = record::random(rng, frames);
        pair.set_record(&m, frames);
        let number = descriptor_number(rng);
        pair.call(Call::MakeValid(number));
    }
}

fn descriptor_number(rng: &mut Rng) -> u8 {
    if rng.chance(3, 4) {
        rng.below(34) as u8
    } else {
        rng.byte()
    }
}

/// Calls with one to three things wrong, so that the order of refusals shows.
pub fn refusals(pair: &mut Pair, rng: &mut Rng) {
    for _ in 0..REFUSED {
        let frames = record::frames(rng);
        let m = record::random(rng, frames);
        pair.set_record(&m, frames);
        let event = event(rng, frames);
        pair.set_answer(&event);
        for _ in 0..1 + rng.below(3) {
            spoil(pair, rng, frames);
        }
        let call = match rng.below(5) {
            0 => Call::Reset(rng.pick(&[0, 1, 2, 15, 16, 17, 18, 255])),
            1 => Call::Step,
            2 => Call::Run(rng.below(3) as u16),
            3 => Call::Deliver,
            _ => Call::MakeValid(descriptor_number(rng)),
        };
        pair.call(call);
    }
}

fn spoil(pair: &mut Pair, rng: &mut Rng, frames: usize) {
    let mut form = pair.form().to_vec();
    match rng.below(8) {
        0 => spoil_length(&mut form, rng),
        1 => form.iter_mut().take(1).for_each(|version| *version = rng.byte()),
        2 => set_bit(&mut form, forbidden_bit(rng)),
        3 => set_bit(&mut form, 801 + rng.below(7) as usize),
        4 => set_bit(&mut form, rng.below(808) as usize),
        5 => return spoil_memory(pair, rng, frames),
        6 => return spoil_answer(pair, rng),
        _ => {}
    }
    pair.set_form(&form);
}

fn spoil_length(form: &mut Vec<u8>, rng: &mut Rng) {
    let length = rng.pick(&[0, 1, 50, 99, 100, 102, 103, 202]);
    form.resize(length, rng.byte());
}

/// A bit of the form that may not be set: MSR from bit 222, MMU control from
/// bit 273.
fn forbidden_bit(rng: &mut Rng) -> usize {
    let (first, allowed) = if rng.chance(1, 2) { (222, 0x537F) } else { (273, 0xCC1F) };
    loop {
        let bit = rng.below(16) as usize;
        if allowed & 0x8000 >> bit == 0 {
            return first + bit;
        }
    }
}

fn set_bit(form: &mut [u8], bit: usize) {
    if let Some(byte) = form.get_mut(bit / 8) {
        *byte |= 0x80 >> (bit % 8);
    }
}

fn spoil_memory(pair: &mut Pair, rng: &mut Rng, frames: usize) {
    let whole = frames * FRAME;
    let lengths = [0, 1, whole - 1, whole + 1, whole - FRAME, whole + FRAME, 16 * FRAME, 17 * FRAME, 2048];
    let length = rng.pick(&lengths);
    pair.set_memory_length(length);
}

fn spoil_answer(pair: &mut Pair, rng: &mut Rng) {
    let length = rng.pick(&[0, 1, 4, 11, 13, 16, 24]);
    pair.set_answer(&vec![rng.byte(); length]);
}

#[cfg(test)]
mod tests {
    use super::*;
    use second::{form, Refusal};

    /// The positions of the bits that may not be set are the form's.
    #[test]
    fn forbidden_bits_are_refused() {
        let mut rng = Rng::new(1, 1);
        for _ in 0..200 {
            let mut bytes = [0; form::LENGTH];
            bytes[0] = 1;
            set_bit(&mut bytes, forbidden_bit(&mut rng));
            assert_eq!(form::read(&bytes), Err(Refusal::Bits));
        }
    }
}
