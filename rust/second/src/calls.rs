//! The library's five calls, on plain bytes. Each answers 0 or a refusal's
//! number; a refused call leaves every byte as it was.

use crate::event::{Event, Refusal};
use crate::form;
use crate::machine::Machine;
use crate::FRAME;

/// Bytes of an answer or an event: number 16, steps 16, two values of 32,
/// little-endian.
pub const ANSWER: usize = 12;

fn number(result: Result<(), Refusal>) -> u8 {
    match result {
        Ok(()) => 0,
        Err(refusal) => refusal as u8,
    }
}

/// The record, where the memory is exactly the frames that the form names.
fn opened(form: &[u8], memory: &[u8]) -> Result<(Machine, usize), Refusal> {
    let (m, frames) = form::read(form)?;
    if memory.len() == frames * FRAME {
        Ok((m, frames))
    } else {
        Err(Refusal::Memory)
    }
}

fn answer_bytes(event: Event, steps: u16) -> [u8; ANSWER] {
    let (number, first, second) = event.numbers();
    let mut out = [0; ANSWER];
    out[0..2].copy_from_slice(&number.to_le_bytes());
    out[2..4].copy_from_slice(&steps.to_le_bytes());
    out[4..8].copy_from_slice(&first.to_le_bytes());
    out[8..12].copy_from_slice(&second.to_le_bytes());
    out
}

/// The event that these bytes name, where delivery takes it. Steps are not
/// looked at.
fn deliverable(bytes: &[u8; ANSWER]) -> Option<Event> {
    let long = |at: usize| u32::from_le_bytes([bytes[at], bytes[at + 1], bytes[at + 2], bytes[at + 3]]);
    let (first, second) = (long(4), long(8));
    let word = |value: u32| u16::try_from(value).ok();
    match u16::from_le_bytes([bytes[0], bytes[1]]) {
        1 if first < 32 => Some(Event::AccessViolation { descriptor: first as u8, address: word(second)? }),
        3 if second == 0 => Some(Event::Privileged { address: word(first)? }),
        7 if second == 0 => Some(Event::BreakOnHalt { address: word(first)? }),
        4 => Some(Event::SystemCall { operand: word(first)?, next: word(second)? }),
        _ => None,
    }
}

pub fn reset(form: &mut [u8], frames: u8) -> u8 {
    if form.len() != form::LENGTH {
        return Refusal::Length as u8;
    }
    number(form::write(&Machine::default(), frames.into(), form))
}

pub fn step(form: &mut [u8], memory: &mut [u8], answer: &mut [u8]) -> u8 {
    number(try_run(form, memory, 1, answer))
}

pub fn run(form: &mut [u8], memory: &mut [u8], budget: u16, answer: &mut [u8]) -> u8 {
    number(try_run(form, memory, budget, answer))
}

fn try_run(form: &mut [u8], memory: &mut [u8], budget: u16, answer: &mut [u8]) -> Result<(), Refusal> {
    let (mut m, frames) = opened(form, memory)?;
    if answer.len() != ANSWER {
        return Err(Refusal::Length);
    }
    let (event, steps) = crate::run(&mut m, memory, budget)?;
    answer.copy_from_slice(&answer_bytes(event, steps));
    form::write(&m, frames, form)
}

pub fn deliver(form: &mut [u8], memory: &mut [u8], event: &[u8]) -> u8 {
    number(try_deliver(form, memory, event))
}

fn try_deliver(form: &mut [u8], memory: &mut [u8], event: &[u8]) -> Result<(), Refusal> {
    let (mut m, frames) = opened(form, memory)?;
    let event: &[u8; ANSWER] = event.try_into().map_err(|_| Refusal::Length)?;
    let event = deliverable(event).ok_or(Refusal::Undeliverable)?;
    crate::deliver(&mut m, memory, event)?;
    form::write(&m, frames, form)
}

pub fn make_valid(form: &mut [u8], descriptor: u8) -> u8 {
    number(try_make_valid(form, descriptor))
}

fn try_make_valid(form: &mut [u8], descriptor: u8) -> Result<(), Refusal> {
    let (mut m, frames) = form::read(form)?;
    crate::make_valid(&mut m, descriptor)?;
    form::write(&m, frames, form)
}
