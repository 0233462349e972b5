//! Random forms, lengths, memories and events to every call. The seed is fixed; Z280_FUZZ_ROUNDS sets how many.
//!
//! Each buffer lies between guard bytes. A refused call changes no byte, the refusal is the one that the input calls
//! for, an accepted one leaves a form that is accepted again, and the same input has the same outcome.

use std::env;
use z280::{calls, Event, Machine, ANSWER_BYTES, FORM_BYTES, FRAME_BYTES};

/// Marsaglia's xorshift, 64 bits.
struct Random(u64);

impl Random {
    fn next(&mut self) -> u64 {
        self.0 ^= self.0 << 13;
        self.0 ^= self.0 >> 7;
        self.0 ^= self.0 << 17;
        self.0
    }

    fn below(&mut self, limit: usize) -> usize {
        (self.next() >> 16) as usize % limit
    }

    fn one_in(&mut self, n: usize) -> bool {
        self.below(n) == 0
    }

    fn fill(&mut self, bytes: &mut [u8]) {
        bytes.fill_with(|| (self.next() >> 32) as u8);
    }

    fn bytes(&mut self, length: usize) -> Vec<u8> {
        let mut bytes = vec![0; length];
        self.fill(&mut bytes);
        bytes
    }

    fn word(&mut self) -> u16 {
        (self.next() >> 24) as u16
    }

    /// The length that is right, mostly.
    fn length(&mut self, right: usize) -> usize {
        match self.below(16) {
            0 => self.below(right + 2),
            1 => right + 1,
            _ => right,
        }
    }
}

const GUARD: usize = 16;

/// A buffer between guards, and what was in it.
struct Lent {
    all: Vec<u8>,
    before: Vec<u8>,
}

impl Lent {
    fn new(content: &[u8]) -> Lent {
        let all = [&[0xC3; GUARD], content, &[0x3C; GUARD]].concat();
        Lent { before: all.clone(), all }
    }

    fn get(&mut self) -> &mut [u8] {
        let end = self.all.len() - GUARD;
        &mut self.all[GUARD..end]
    }

    fn assert_guards(&self) {
        let end = self.all.len() - GUARD;
        assert_eq!(self.all[..GUARD], self.before[..GUARD]);
        assert_eq!(self.all[end..], self.before[end..]);
    }

    fn assert_unchanged(&self) {
        assert_eq!(self.all, self.before);
    }
}

/// A machine that a call accepts, with registers, descriptors and control bits at random.
fn machine(random: &mut Random) -> Machine {
    let mut machine = Machine::reset(1 + random.below(4) as u8).unwrap();
    let registers = [
        Machine::set_af,
        Machine::set_bc,
        Machine::set_de,
        Machine::set_hl,
        Machine::set_ix,
        Machine::set_iy,
        Machine::set_pc,
        Machine::set_ssp,
        Machine::set_usp,
    ];
    for set in registers {
        let wide = if random.one_in(4) { 0xFFFF } else { machine.memory_len() as u16 - 1 };
        set(&mut machine, random.word() & wide);
    }
    machine.set_msr(random.word() & 0x537F).unwrap();
    machine.set_tcr(random.word() as u8 & 7).unwrap();
    machine.set_vector(random.word() & 0x0030).unwrap();
    if random.one_in(2) {
        machine.set_mmu(random.word() & 0xCC1F).unwrap();
    }
    for number in 0..32 {
        let control = if random.one_in(4) { random.word() & 0xF } else { 8 };
        machine.set_descriptor(number, (random.word() & 0x0030) | control).unwrap();
    }
    machine
}

/// A form: of a machine, of a machine with damage, or nothing but noise.
fn form(random: &mut Random) -> Vec<u8> {
    let mut form = machine(random).form().to_vec();
    match random.below(8) {
        0 => random.fill(&mut form),
        1 => {
            let bit = random.below(8 * FORM_BYTES);
            form[bit / 8] ^= 1 << (bit % 8);
        }
        2 => form[FORM_BYTES - 1] |= random.word() as u8,
        _ => (),
    }
    let length = random.length(FORM_BYTES);
    form.resize(length, 0);
    form
}

/// What a call has to refuse a form by, written from document 01 and apart from the crate's own code; 0 for nothing.
fn form_refusal(form: &[u8]) -> u8 {
    if form.len() != FORM_BYTES {
        return 3;
    }
    if form[0] != 1 {
        return 4;
    }
    let bits = |at: usize, width: usize| {
        (at..at + width).fold(0u32, |v, i| v << 1 | u32::from(form[i / 8] >> (7 - i % 8) & 1))
    };
    // MSR stands at bit 222, MMU control at 273, the padding at 801; the other control registers have no spare bit.
    if bits(222, 16) & !0x537F != 0 || bits(273, 16) & !0xCC1F != 0 {
        return 2;
    }
    if bits(801, 7) != 0 {
        return 5;
    }
    0
}

fn event(random: &mut Random) -> Vec<u8> {
    let mut event = match random.below(4) {
        0 => random.bytes(ANSWER_BYTES),
        1 => Event::SystemCall { operand: random.word(), next: random.word() }.to_bytes().to_vec(),
        2 => Event::AccessViolation { descriptor: random.below(32) as u8, address: random.word() }.to_bytes().to_vec(),
        _ => Event::Privileged { address: random.word() }.to_bytes().to_vec(),
    };
    if random.one_in(8) {
        event[0] = random.below(12) as u8;
    }
    let length = random.length(ANSWER_BYTES);
    event.resize(length, 0);
    event
}

/// One input: which call, and everything that it is lent.
struct Case {
    call: usize,
    form: Vec<u8>,
    memory: Vec<u8>,
    answer: Vec<u8>,
    number: u16,
}

impl Case {
    fn new(random: &mut Random) -> Case {
        let call = random.below(5);
        let form = form(random);
        let right = form.get(1).map_or(1, |byte| usize::from(byte >> 4) + 1) * FRAME_BYTES;
        let mut memory = vec![0; random.length(right)];
        // Short noise where the guest begins, and some frames of it in some cases: much of a case is its memory.
        let noise = if random.one_in(4) { memory.len() } else { memory.len().min(256) };
        random.fill(&mut memory[..noise]);
        let answer = if call == 3 { event(random) } else { vec![0x77; random.length(ANSWER_BYTES)] };
        Case { call, form, memory, answer, number: random.word() }
    }

    /// The refusals that come before the call's own.
    fn common_refusal(&self) -> u8 {
        let refusal = form_refusal(&self.form);
        if refusal != 0 || self.call == 4 {
            return refusal;
        }
        if self.memory.len() != (usize::from(self.form[1] >> 4) + 1) * FRAME_BYTES {
            return 1;
        }
        if self.answer.len() == ANSWER_BYTES {
            0
        } else {
            3
        }
    }

    fn make(&self, form: &mut Lent, memory: &mut Lent, answer: &mut Lent) -> u8 {
        match self.call {
            0 => calls::reset(form.get(), self.number as u8 % 20),
            1 => calls::step(form.get(), memory.get(), answer.get()),
            2 => calls::run(form.get(), memory.get(), self.number % 300, answer.get()),
            3 => calls::deliver(form.get(), memory.get(), answer.get()),
            _ => calls::make_valid(form.get(), self.number as u8 % 40),
        }
    }

    /// Makes the call, tests what holds of every outcome, and gives the outcome.
    fn outcome(&self) -> (u8, [Vec<u8>; 3]) {
        let mut lent = [&self.form, &self.memory, &self.answer].map(|content| Lent::new(content));
        let [form, memory, answer] = &mut lent;
        let refusal = self.make(form, memory, answer);
        lent.iter().for_each(Lent::assert_guards);
        if refusal != 0 {
            lent.iter().for_each(Lent::assert_unchanged);
        }
        (refusal, lent.map(|mut buffer| buffer.get().to_vec()))
    }

    fn check(&self) -> u8 {
        let (refusal, [form, memory, answer]) = self.outcome();
        assert_eq!(self.outcome(), (refusal, [form.clone(), memory, answer.clone()]), "two outcomes of one input");
        match self.call {
            0 => {
                let frames = self.number as u8 % 20;
                let wanted = if self.form.len() != FORM_BYTES { 3 } else { u8::from(!(1..=16).contains(&frames)) };
                assert_eq!(refusal, wanted);
            }
            1 | 2 => {
                assert_eq!(refusal, self.common_refusal());
                if refusal == 0 {
                    let answer: [u8; ANSWER_BYTES] = answer.try_into().unwrap();
                    assert!(Event::from_bytes(&answer).is_some(), "no event: {answer:?}");
                }
            }
            3 => self.check_own(refusal, &[8, 9]),
            _ => self.check_own(refusal, &[6, 7]),
        }
        if refusal == 0 {
            assert_eq!(form_refusal(&form), 0, "the form after an accepted call");
        }
        refusal
    }

    fn check_own(&self, refusal: u8, own: &[u8]) {
        match self.common_refusal() {
            0 => assert!(refusal == 0 || own.contains(&refusal), "refusal {refusal}"),
            common => assert_eq!(refusal, common),
        }
    }
}

#[test]
fn any_bytes_to_every_call() {
    let rounds = env::var("Z280_FUZZ_ROUNDS").map_or(60_000, |text| text.parse().expect("a number"));
    let mut random = Random(0x2545_F491_4F6C_DD1D);
    let mut seen = [[0usize; 11]; 5];
    for _ in 0..rounds {
        let case = Case::new(&mut random);
        seen[case.call][usize::from(case.check())] += 1;
    }
    println!("cases of reset, step, run, deliver and make_valid by refusal number:\n{seen:?}");
    if rounds >= 10_000 {
        let reached = |call: usize, refusals: &[usize]| refusals.iter().all(|&refusal| seen[call][refusal] > 0);
        assert!(reached(0, &[0, 1, 3]));
        assert!(reached(1, &[0, 1, 2, 3, 4, 5]));
        assert!(reached(2, &[0, 1, 2, 3, 4, 5]));
        assert!(reached(3, &[0, 1, 2, 3, 4, 5, 8, 9]));
        assert!(reached(4, &[0, 2, 3, 4, 5, 6, 7]));
    }
}
