//! Demand 3: a guest whose pages were withheld and made valid one by one ends
//! as the same guest does with all of them there from the start.

use second::Machine;

use crate::kinds::guests;
use crate::pair::{Answer, Call, Pair, Wrong};
use crate::record::{self, Temper};
use crate::report::Mismatch;
use crate::rng::Rng;

const WORLDS: usize = 1;
const GUESTS: usize = 12;

/// The guest that gets the planted error.
const PLANTED_AT: u64 = 5;

const USER: u16 = 0x4000;
const USER_TRANSLATE: u16 = 0x8000;
const LAST_FAULTING: u16 = 0x1F;
const VALID: u16 = 8;

/// Protected pages stay; withheld ones are drawn afterwards.
const WHOLE: Temper = Temper { withheld: 0, protected: 2, outside: 1 };

pub fn round(pair: &mut Pair, rng: &mut Rng) {
    for _ in 0..WORLDS {
        let frames = record::frames(rng);
        let memory = guests::program(rng, frames);
        for _ in 0..GUESTS {
            guest(pair, rng, frames, &memory);
        }
    }
}

/// The end of a run: how it ended, the steps, the record and memory.
struct End {
    answer: Answer,
    m: Machine,
    memory: Vec<u8>,
}

fn guest(pair: &mut Pair, rng: &mut Rng, frames: usize, memory: &[u8]) {
    let mut m = record::random_of(rng, frames, WHOLE);
    m.msr |= USER;
    m.mmu_control |= USER_TRANSLATE;
    let budget = rng.below(500) as u16;
    let whole = run(pair, &m, memory, frames, budget, &mut 0);
    let mut held = m;
    for d in &mut held.descriptors[..16] {
        if rng.chance(1, 2) {
            *d &= !VALID;
        }
    }
    if pair.wrong == Some(Wrong::Guest) && pair.tally.guests == PLANTED_AT {
        held.alternate_bc ^= 1;
    }
    let mut resumptions = 0;
    let resumed = run(pair, &held, memory, frames, budget, &mut resumptions);
    pair.tally.guests += 1;
    pair.tally.resumptions += resumptions;
    pair.tally.resumed_guests += u64::from(resumptions > 0);
    if !agree(&whole, &resumed) {
        pair.guest_differs(&m, &held, budget);
    }
}

/// Runs to the budget, making each withheld page valid when it is first met.
fn run(pair: &mut Pair, m: &Machine, memory: &[u8], frames: usize, budget: u16, resumptions: &mut u64) -> End {
    pair.set_record(m, frames);
    pair.set_memory(memory);
    pair.set_answer(&[0; 12]);
    let mut steps = 0;
    loop {
        let mut answer = pair.call(Call::Run(budget - steps));
        steps += answer.steps;
        let withheld = answer.event == 1 && !pair.machine().is_valid(answer.first as u8);
        if withheld && pair.call(Call::MakeValid(answer.first as u8)).refusal == 0 {
            *resumptions += 1;
            continue;
        }
        answer.steps = steps;
        return End { answer, m: pair.machine(), memory: pair.memory().to_vec() };
    }
}

/// The same event after as many steps, the same memory and record. Pages that
/// were never met are still withheld, and the last faulting descriptor is the
/// last one met unless both ended with a violation.
fn agree(whole: &End, resumed: &End) -> bool {
    let mut m = resumed.m;
    for (now, then) in m.descriptors.iter_mut().zip(&whole.m.descriptors) {
        *now |= then & VALID;
    }
    if whole.answer.event != 1 {
        m.mmu_control = m.mmu_control & !LAST_FAULTING | whole.m.mmu_control & LAST_FAULTING;
    }
    whole.answer == resumed.answer && whole.m == m && whole.memory == resumed.memory
}

impl Pair {
    fn guest_differs(&mut self, whole: &Machine, held: &Machine, budget: u16) {
        let round = self.round;
        self.keep(Mismatch::of_guest(round, budget, whole, held));
    }
}

#[cfg(test)]
mod tests {
    use super::*;

    fn end(event: u16, m: Machine) -> End {
        End { answer: Answer { refusal: 0, event, steps: 3, first: 0, second: 0 }, m, memory: vec![1, 2] }
    }

    #[test]
    fn only_pages_never_met_and_the_last_fault_may_differ() {
        let mut whole = Machine::default();
        whole.descriptors[3] = VALID;
        let held = Machine { mmu_control: 3, ..Machine::default() };
        assert!(agree(&end(0, whole), &end(0, held)));
        assert!(!agree(&end(1, whole), &end(1, held)));
        assert!(!agree(&end(0, whole), &end(6, held)));
        assert!(!agree(&end(0, whole), &end(0, Machine { pc: 1, ..held })));
        let mut written = held;
        written.descriptors[3] = 1;
        assert!(!agree(&end(0, whole), &end(0, written)));
        let other_memory = End { memory: vec![1, 3], ..end(0, held) };
        assert!(!agree(&end(0, whole), &other_memory));
    }
}
