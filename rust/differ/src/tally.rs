//! Totals: what was called, how it ended, and which operation codes were met.

use second::decode::codes::{all, instruction, OPENINGS, OPENING_NAMES};
use second::decode::{Control, Ins};

use crate::pair::{Answer, Call};

/// Events 0 to 9.
pub const EVENTS: usize = 10;
/// Refusals 0 to 10; no form of version 1 can meet number 10.
pub const REFUSALS: usize = 11;

pub struct Tally {
    calls: [u64; 5],
    /// By call and number.
    pub refusals: [[u64; REFUSALS]; 5],
    /// Of step, then of run, by number.
    pub events: [[u64; EVENTS]; 2],
    pub run_steps: u64,
    /// Of step, by mode, translation and event.
    pub grounds: [[[u64; EVENTS]; 3]; 2],
    /// Of step, by opening, code and event.
    pub codes: Vec<[[u64; EVENTS]; 256]>,
    /// Steps that wrote to two pages at once.
    pub over_borders: u64,
    pub guests: u64,
    pub resumed_guests: u64,
    pub resumptions: u64,
    pub delivered_in_stories: u64,
}

impl Tally {
    pub fn new() -> Tally {
        Tally {
            calls: [0; 5],
            refusals: [[0; REFUSALS]; 5],
            events: [[0; EVENTS]; 2],
            run_steps: 0,
            grounds: [[[0; EVENTS]; 3]; 2],
            codes: vec![[[0; EVENTS]; 256]; OPENINGS.len()],
            over_borders: 0,
            guests: 0,
            resumed_guests: 0,
            resumptions: 0,
            delivered_in_stories: 0,
        }
    }

    pub fn calls(&self, call: Call) -> u64 {
        self.calls[call.index()]
    }

    pub fn all_calls(&self) -> u64 {
        self.calls.iter().sum()
    }

    pub fn count(&mut self, call: Call, answer: Answer) {
        self.calls[call.index()] += 1;
        let refusal = usize::from(answer.refusal).min(REFUSALS - 1);
        self.refusals[call.index()][refusal] += 1;
        let event = usize::from(answer.event).min(EVENTS - 1);
        match call {
            Call::Step if refusal == 0 => self.events[0][event] += 1,
            Call::Run(_) if refusal == 0 => {
                self.events[1][event] += 1;
                self.run_steps += u64::from(answer.steps);
            }
            _ => {}
        }
    }

    /// What was expected to happen at least once and did not.
    pub fn gaps(&self) -> Vec<String> {
        let mut gaps = Vec::new();
        for (opening, code) in all() {
            for &event in expected_events(opening, code) {
                if self.codes[opening][usize::from(code)][event] == 0 {
                    gaps.push(format!("opening {}, code {code:02X}: no event {event}", OPENING_NAMES[opening]));
                }
            }
        }
        for (call, wanted) in EXPECTED_REFUSALS.iter().enumerate() {
            for &refusal in *wanted {
                if self.refusals[call][refusal] == 0 {
                    gaps.push(format!("{}: no refusal {refusal}", Call::NAMES[call]));
                }
            }
        }
        for (events, name) in self.events.iter().zip(["step", "run"]) {
            for (event, _) in events.iter().enumerate().filter(|(_, &count)| count == 0) {
                gaps.push(format!("{name}: no event {event}"));
            }
        }
        let grounds = self.grounds.iter().flatten().flatten();
        // 10 events on 6 grounds; but without translation there is no event 1,
        // in system mode no 3, and in user mode no 6 and no 7.
        let met = grounds.filter(|&&count| count > 0).count();
        if met != 60 - 2 - 3 - 6 {
            gaps.push(format!("mode, translation and event: {met} of 49 met"));
        }
        for (count, name) in [
            (self.over_borders, "step that writes to two pages"),
            (self.resumed_guests, "guest that was resumed"),
            (self.delivered_in_stories, "event of a run that was delivered"),
        ] {
            if count == 0 {
                gaps.push(format!("no {name}"));
            }
        }
        gaps
    }
}

/// Refusals that each call can give, 0 for none.
const EXPECTED_REFUSALS: [&[usize]; 5] =
    [&[0, 1, 3], &[0, 1, 2, 3, 4, 5], &[0, 1, 2, 3, 4, 5], &[0, 1, 2, 3, 4, 5, 8, 9], &[0, 2, 3, 4, 5, 6, 7]];

/// Events that steps on a code have to end with, each at least once.
fn expected_events(opening: usize, code: u8) -> &'static [usize] {
    match instruction(opening, code).0 {
        Ins::None => &[9],
        Ins::Extended => &[5, 9],
        Ins::Port { .. } => &[3, 8],
        Ins::Halt => &[3, 6, 7],
        Ins::SystemCall(_) => &[4],
        Ins::Control(Control::ReadControl(_)) | Ins::Control(Control::WriteControl(_)) => &[0, 3, 9],
        Ins::Control(Control::EnableInterrupts(_))
        | Ins::Control(Control::DisableInterrupts(_))
        | Ins::Control(Control::ReadUserSp(_))
        | Ins::Control(Control::WriteUserSp(_))
        | Ins::Control(Control::ReturnLong) => &[0, 3],
        _ => &[0],
    }
}
