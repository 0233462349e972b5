//! Single steps: every operation code of every opening, once a round.

use second::decode::codes::OPENINGS;
use second::{Machine, FRAME};

use crate::pair::{Answer, Call, Pair};
use crate::record;
use crate::rng::Rng;

const MODIFIED: u16 = 1;

pub fn round(pair: &mut Pair, rng: &mut Rng) {
    let noise: Vec<u8> = (0..16 * FRAME).map(|_| rng.byte()).collect();
    pair.set_memory(&noise);
    for opening in 0..OPENINGS.len() {
        for code in 0..=255 {
            one(pair, rng, opening, code);
        }
    }
}

fn one(pair: &mut Pair, rng: &mut Rng, opening: usize, code: u8) {
    let frames = record::frames(rng);
    let m = record::random(rng, frames);
    pair.set_record(&m, frames);
    let bytes = format_bytes(rng, opening, code, frames);
    let planted = plant(pair, &m, &bytes, OPENINGS[opening].len() + 1);
    pair.set_answer(&[rng.byte(); 12]);
    let answer = pair.call(Call::Step);
    if planted && answer.refusal == 0 {
        note(pair, &m, opening, code, answer);
    }
}

/// The opening, the code, and four bytes for the rest of the format.
fn format_bytes(rng: &mut Rng, opening: usize, code: u8, frames: usize) -> Vec<u8> {
    let mut bytes = OPENINGS[opening].to_vec();
    if bytes.len() == 3 {
        bytes[2] = rng.byte();
    }
    bytes.push(code);
    bytes.extend(record::word(rng, frames).to_le_bytes());
    bytes.extend(record::word(rng, frames).to_le_bytes());
    bytes
}

/// Lays the bytes where they will be fetched. Answers whether the first
/// `needed` of them can be fetched as they were laid: pages may be aliases.
fn plant(pair: &mut Pair, m: &Machine, bytes: &[u8], needed: usize) -> bool {
    let memory = pair.memory().len();
    let places: Vec<Option<usize>> = (0..bytes.len() as u16).map(|n| record::program_place(m, n, memory)).collect();
    for (place, &byte) in places.iter().zip(bytes) {
        if let Some(at) = *place {
            pair.poke(at, byte);
        }
    }
    let mut first = places.iter().zip(bytes).take(needed);
    first.all(|(place, &byte)| place.is_some_and(|at| pair.memory()[at] == byte))
}

fn note(pair: &mut Pair, m: &Machine, opening: usize, code: u8, answer: Answer) {
    let event = usize::from(answer.event);
    let (mode, translation) = record::ground(m);
    let after = pair.machine();
    let tally = &mut pair.tally;
    tally.grounds[mode][translation][event] += 1;
    tally.codes[opening][usize::from(code)][event] += 1;
    let newly = |(old, new): (&u16, &u16)| (old ^ new) & MODIFIED != 0;
    let pages = m.descriptors.iter().zip(&after.descriptors).filter(|&d| newly(d)).count();
    tally.over_borders += u64::from(pages == 2);
}
