//! Both machines side by side: each call is made on both, and every byte that
//! either could reach is compared.

use second::{calls, form, Machine};
use z280::calls as proved;

use crate::buffer::Buffer;
use crate::report::Mismatch;
use crate::tally::Tally;

/// More than any buffer that is lent: the lengths that are refused too.
const MOST_FORM: usize = 256;
const MOST_MEMORY: usize = 17 * second::FRAME + 16;
const MOST_ANSWER: usize = 64;

#[derive(Clone, Copy, PartialEq, Eq, Debug)]
pub enum Call {
    Reset(u8),
    Step,
    Run(u16),
    Deliver,
    MakeValid(u8),
}

impl Call {
    pub const NAMES: [&'static str; 5] = ["reset", "step", "run", "deliver", "make valid"];

    pub fn index(self) -> usize {
        match self {
            Call::Reset(_) => 0,
            Call::Step => 1,
            Call::Run(_) => 2,
            Call::Deliver => 3,
            Call::MakeValid(_) => 4,
        }
    }
}

/// The buffers of one machine. `answer` also holds the event for delivery.
pub struct Side {
    pub form: Buffer,
    pub memory: Buffer,
    pub answer: Buffer,
}

impl Side {
    fn new() -> Side {
        Side { form: Buffer::new(MOST_FORM), memory: Buffer::new(MOST_MEMORY), answer: Buffer::new(MOST_ANSWER) }
    }

    fn copy_from(&mut self, other: &Side) {
        self.form.copy_from(&other.form);
        self.memory.copy_from(&other.memory);
        self.answer.copy_from(&other.answer);
    }

    fn is_like(&self, other: &Side) -> bool {
        self.form.guarded() == other.form.guarded()
            && self.answer.guarded() == other.answer.guarded()
            && self.memory.guarded() == other.memory.guarded()
    }

    fn on_proved(&mut self, call: Call) -> u8 {
        let (form, memory, answer) = (self.form.bytes_mut(), self.memory.bytes_mut(), self.answer.bytes_mut());
        match call {
            Call::Reset(frames) => proved::reset(form, frames),
            Call::Step => proved::step(form, memory, answer),
            Call::Run(budget) => proved::run(form, memory, budget, answer),
            Call::Deliver => proved::deliver(form, memory, answer),
            Call::MakeValid(descriptor) => proved::make_valid(form, descriptor),
        }
    }

    fn on_second(&mut self, call: Call) -> u8 {
        let (form, memory, answer) = (self.form.bytes_mut(), self.memory.bytes_mut(), self.answer.bytes_mut());
        match call {
            Call::Reset(frames) => calls::reset(form, frames),
            Call::Step => calls::step(form, memory, answer),
            Call::Run(budget) => calls::run(form, memory, budget, answer),
            Call::Deliver => calls::deliver(form, memory, answer),
            Call::MakeValid(descriptor) => calls::make_valid(form, descriptor),
        }
    }
}

/// What was answered.
#[derive(Clone, Copy, PartialEq, Eq, Debug)]
pub struct Answer {
    pub refusal: u8,
    pub event: u16,
    pub steps: u16,
    pub first: u32,
    pub second: u32,
}

/// An error planted in one call on the second's side, or in one withheld guest,
/// to see that it is found.
#[derive(Clone, Copy, PartialEq, Eq, Debug)]
pub enum Wrong {
    Form,
    Memory,
    Answer,
    Refusal,
    Guard,
    Guest,
}

impl Wrong {
    pub const ALL: [(&'static str, Wrong); 6] = [
        ("form", Wrong::Form),
        ("memory", Wrong::Memory),
        ("answer", Wrong::Answer),
        ("refusal", Wrong::Refusal),
        ("guard", Wrong::Guard),
        ("guest", Wrong::Guest),
    ];
}

/// The step that gets the planted error.
const PLANTED_AT: u64 = 1000;

pub struct Pair {
    before: Side,
    proved: Side,
    second: Side,
    pub wrong: Option<Wrong>,
    pub tally: Tally,
    pub mismatches: Vec<Mismatch>,
    pub mismatch_count: u64,
    pub round: u64,
}

impl Pair {
    /// How many mismatches are kept in full.
    const KEPT: usize = 5;

    pub fn new(wrong: Option<Wrong>) -> Pair {
        Pair {
            before: Side::new(),
            proved: Side::new(),
            second: Side::new(),
            wrong,
            tally: Tally::new(),
            mismatches: Vec::new(),
            mismatch_count: 0,
            round: 0,
        }
    }

    /// Changes all three sides alike. Between calls they are the same.
    fn each(&mut self, change: impl Fn(&mut Side)) {
        change(&mut self.before);
        change(&mut self.proved);
        change(&mut self.second);
    }

    pub fn set_form(&mut self, form: &[u8]) {
        self.each(|side| side.form.set(form));
    }

    pub fn set_record(&mut self, m: &Machine, frames: usize) {
        let mut bytes = [0; form::LENGTH];
        form::write(m, frames, &mut bytes).expect("a record that may be");
        self.set_form(&bytes);
        self.set_memory_length(frames * second::FRAME);
    }

    pub fn set_memory_length(&mut self, length: usize) {
        self.each(|side| side.memory.set_length(length));
    }

    pub fn set_memory(&mut self, bytes: &[u8]) {
        self.each(|side| side.memory.set(bytes));
    }

    pub fn poke(&mut self, at: usize, byte: u8) {
        self.each(|side| side.memory.bytes_mut()[at] = byte);
    }

    pub fn set_answer(&mut self, bytes: &[u8]) {
        self.each(|side| side.answer.set(bytes));
    }

    pub fn memory(&self) -> &[u8] {
        self.before.memory.bytes()
    }

    pub fn form(&self) -> &[u8] {
        self.before.form.bytes()
    }

    pub fn machine(&self) -> Machine {
        form::read(self.form()).expect("a form that was accepted before").0
    }

    /// Makes the call on both sides and compares. Afterwards all sides are as
    /// the second left them: its forms can be read, whatever the other wrote.
    pub fn call(&mut self, call: Call) -> Answer {
        let by_proved = self.proved.on_proved(call);
        let mut by_second = self.second.on_second(call);
        if call == Call::Step && self.tally.calls(call) == PLANTED_AT {
            self.plant(&mut by_second);
        }
        let same = by_proved == by_second && self.proved.is_like(&self.second);
        let kept = by_proved == 0 || self.proved.is_like(&self.before);
        if !(same && kept) {
            let results = (by_proved, by_second);
            let sides = (&self.before, &self.proved, &self.second);
            let mismatch = Mismatch::new(self.round, call, results, sides);
            self.keep(mismatch);
        }
        if !same {
            self.proved.copy_from(&self.second);
        }
        self.before.copy_from(&self.second);
        let answer = self.answered(by_second);
        self.tally.count(call, answer);
        answer
    }

    /// Counts a mismatch; the first ones are kept in full.
    pub fn keep(&mut self, mismatch: Mismatch) {
        self.mismatch_count += 1;
        if self.mismatches.len() < Self::KEPT {
            self.mismatches.push(mismatch);
        }
    }

    fn plant(&mut self, by_second: &mut u8) {
        let side = &mut self.second;
        match self.wrong {
            None | Some(Wrong::Guest) => {}
            Some(Wrong::Form) => side.form.bytes_mut()[2] ^= 1,
            Some(Wrong::Memory) => *side.memory.bytes_mut().last_mut().expect("a frame") ^= 1,
            Some(Wrong::Answer) => side.answer.bytes_mut()[11] ^= 1,
            Some(Wrong::Refusal) => *by_second ^= 1,
            Some(Wrong::Guard) => side.memory.spoil_guard(),
        }
    }

    fn answered(&self, refusal: u8) -> Answer {
        let mut bytes = [0; calls::ANSWER];
        if let Some(answer) = self.second.answer.bytes().get(..calls::ANSWER) {
            bytes.copy_from_slice(answer);
        }
        let word = |at: usize| u16::from_le_bytes([bytes[at], bytes[at + 1]]);
        let long = |at: usize| u32::from(word(at)) | u32::from(word(at + 2)) << 16;
        Answer { refusal, event: word(0), steps: word(2), first: long(4), second: long(8) }
    }
}
