//! Runs of random guests, whose events are delivered or made good.

use second::decode::codes::{all, instruction, OPENINGS};
use second::decode::Ins;
use second::{Machine, FRAME};

use crate::pair::{Call, Pair};
use crate::record::{self, KIND};
use crate::rng::Rng;

const WORLDS: usize = 2;
const STORIES: usize = 24;

pub fn round(pair: &mut Pair, rng: &mut Rng) {
    for _ in 0..WORLDS {
        let frames = record::frames(rng);
        pair.set_memory(&program(rng, frames));
        for _ in 0..STORIES {
            story(pair, rng, frames);
        }
    }
}

/// Codes that a guest can complete, and those that end its run: HALT and SC,
/// and all others.
struct Codes {
    plain: Vec<(usize, u8)>,
    halt_and_call: Vec<(usize, u8)>,
    ending: Vec<(usize, u8)>,
}

impl Codes {
    fn new() -> Codes {
        let (mut plain, mut halt_and_call, mut ending) = (vec![], vec![], vec![]);
        for (opening, code) in all() {
            let list = match instruction(opening, code).0 {
                Ins::Halt | Ins::SystemCall(_) => &mut halt_and_call,
                Ins::None | Ins::Extended | Ins::Port { .. } => &mut ending,
                _ => &mut plain,
            };
            list.push((opening, code));
        }
        Codes { plain, halt_and_call, ending }
    }

    /// One in 64 ends a run.
    fn draw(&self, rng: &mut Rng) -> (usize, u8) {
        let from = match rng.below(128) {
            0 => &self.ending,
            1 => &self.halt_and_call,
            _ => &self.plain,
        };
        rng.pick(from)
    }
}

/// Memory full of whole instructions.
pub fn program(rng: &mut Rng, frames: usize) -> Vec<u8> {
    let codes = Codes::new();
    let length = frames * FRAME;
    let mut memory = Vec::with_capacity(length + 8);
    while memory.len() < length {
        let (opening, code) = codes.draw(rng);
        let start = memory.len();
        memory.extend(OPENINGS[opening]);
        if OPENINGS[opening].len() == 3 {
            memory[start + 2] = rng.byte();
        }
        memory.push(code);
        let rest = start + instruction(opening, code).1 - memory.len();
        let operand = [record::word(rng, frames).to_le_bytes(), record::word(rng, frames).to_le_bytes()];
        memory.extend(&operand.as_flattened()[..rest]);
    }
    memory.truncate(length);
    memory
}

pub fn budget(rng: &mut Rng) -> u16 {
    match rng.below(64) {
        0 => 0,
        1 => 65535,
        2..=15 => rng.below(4) as u16,
        _ => rng.below(400) as u16,
    }
}

/// A run, and what a host does about its event, some times over.
fn story(pair: &mut Pair, rng: &mut Rng, frames: usize) {
    let m: Machine = if rng.chance(1, 2) { record::random_of(rng, frames, KIND) } else { record::random(rng, frames) };
    pair.set_record(&m, frames);
    for _ in 0..4 {
        pair.set_answer(&[rng.byte(); 12]);
        let budget = budget(rng);
        let answer = pair.call(Call::Run(budget));
        match answer.event {
            0 | 6 => {}
            1 if rng.chance(1, 2) => {
                let descriptor = answer.first as u8;
                if pair.call(Call::MakeValid(descriptor)).refusal != 0 {
                    return;
                }
            }
            // The answer is handed to delivery as it came.
            1 | 3 | 4 | 7 => {
                if pair.call(Call::Deliver).refusal != 0 {
                    return;
                }
                pair.tally.delivered_in_stories += 1;
            }
            _ => return,
        }
    }
}
