//! Delivering a trap, and making a page valid (document 01).

use crate::event::{Event, Refusal};
use crate::frames_of;
use crate::machine::{Machine, Mode};
use crate::mmu::Space;

/// What delivery pushes, first to last, and its entry of Table 6-5.
struct Trap {
    words: [u16; 3],
    count: usize,
    offset: usize,
}

fn trap(m: &Machine, event: Event) -> Option<Trap> {
    let two = |address, offset| Trap { words: [address, m.msr, 0], count: 2, offset };
    match event {
        Event::AccessViolation { address, .. } => Some(two(address, 0x4C)),
        Event::Privileged { address } => Some(two(address, 0x54)),
        Event::BreakOnHalt { address } => Some(two(address, 0x40)),
        Event::SystemCall { operand, next } => Some(Trap { words: [next, m.msr, operand], count: 3, offset: 0x50 }),
        _ => None,
    }
}

/// Delivery, in system mode by system data translation. Refusals 1, 2, 8, 9;
/// a refused delivery changes nothing.
pub fn deliver(m: &mut Machine, memory: &mut [u8], event: Event) -> Result<(), Refusal> {
    frames_of(memory).ok_or(Refusal::Memory)?;
    if !m.is_allowed() {
        return Err(Refusal::Bits);
    }
    let trap = trap(m, event).ok_or(Refusal::Undeliverable)?;
    let mut pushed = [0; 6];
    let physical = &mut pushed[..2 * trap.count];
    let top = m.system_sp;
    for (physical, address) in physical.iter_mut().zip(below(top)) {
        let at = m.translate(Mode::System, Space::Data, address, true).map_err(|_| Refusal::Fatal)?;
        *physical = at as usize;
    }
    let vector = (usize::from(m.vector_pointer) >> 4) << 12 | trap.offset;
    if physical.iter().any(|&at| at >= memory.len()) || vector + 3 >= memory.len() {
        return Err(Refusal::Fatal);
    }
    // From the top of the stack downward: the upper byte of each word first.
    let bytes = trap.words.iter().flat_map(|word| word.to_be_bytes());
    for ((&at, byte), address) in physical.iter().zip(bytes).zip(below(top)) {
        memory[at] = byte;
        m.mark(Mode::System, Space::Data, address);
    }
    m.system_sp = top.wrapping_sub(2 * trap.count as u16);
    // The entry is an MSR value followed by a PC value (7757); it is read
    // after the pushes and sees them.
    let word = |at: usize| u16::from_le_bytes([memory[at], memory[at + 1]]);
    m.load_msr(word(vector));
    m.pc = word(vector + 2);
    Ok(())
}

/// The addresses below a stack pointer, downward.
fn below(top: u16) -> impl Iterator<Item = u16> {
    (1..).map(move |n| top.wrapping_sub(n))
}

/// Sets the valid bit, nothing else. Refusals 2, 6, 7.
pub fn make_valid(m: &mut Machine, descriptor: u8) -> Result<(), Refusal> {
    if !m.is_allowed() {
        Err(Refusal::Bits)
    } else if descriptor > 31 {
        Err(Refusal::DescriptorNumber)
    } else if m.is_valid(descriptor) {
        Err(Refusal::AlreadyValid)
    } else {
        m.validate(descriptor);
        Ok(())
    }
}
