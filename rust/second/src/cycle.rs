//! One step and its accesses (document 01, One step, in order).

use crate::decode::{decode, Byte, Mem, Source, Word};
use crate::event::{Event, Refusal};
use crate::execute::execute;
use crate::frames_of;
use crate::machine::{Machine, Mode, Reg16};
use crate::mmu::Space;

/// What ends an instruction early.
pub(crate) type Outcome<T> = Result<T, Event>;

/// A logical address and the space that it lies in.
#[derive(Clone, Copy, PartialEq, Eq, Debug)]
pub(crate) struct Place {
    pub address: u16,
    pub space: Space,
}

impl Place {
    pub fn data(address: u16) -> Place {
        Place { address, space: Space::Data }
    }

    fn second(self) -> Place {
        Place { address: self.address.wrapping_add(1), ..self }
    }
}

/// An instruction under way. It works on a copy of the record, and its writes
/// wait until all of them have been checked; so a fault leaves nothing behind.
pub(crate) struct Cycle<'a> {
    pub m: Machine,
    memory: &'a mut [u8],
    mode: Mode,
    /// PC at the start: "its address" of every event.
    pub start: u16,
    /// The byte after those fetched so far; at last the next instruction.
    pub next: u16,
    writes: [(Place, u8); 2],
    written: usize,
}

impl Source for Cycle<'_> {
    type Fault = Event;

    fn byte(&mut self) -> Outcome<u8> {
        let byte = self.read(Place { address: self.next, space: Space::Program })?;
        self.next = self.next.wrapping_add(1);
        Ok(byte)
    }
}

impl<'a> Cycle<'a> {
    fn new(m: Machine, memory: &'a mut [u8]) -> Cycle<'a> {
        Cycle { m, memory, mode: m.mode(), start: m.pc, next: m.pc, writes: [(Place::data(0), 0); 2], written: 0 }
    }

    pub fn in_user_mode(&self) -> bool {
        self.mode == Mode::User
    }

    /// At each access a violation is tested before memory's size.
    fn physical(&self, place: Place, write: bool) -> Outcome<usize> {
        let physical = self
            .m
            .translate(self.mode, place.space, place.address, write)
            .map_err(|descriptor| Event::AccessViolation { descriptor, address: self.start })?;
        if (physical as usize) < self.memory.len() {
            Ok(physical as usize)
        } else {
            Err(Event::NoMemory { physical })
        }
    }

    pub fn read(&self, place: Place) -> Outcome<u8> {
        Ok(self.memory[self.physical(place, false)?])
    }

    /// Low byte first, each byte translated by itself.
    pub fn read_word(&self, place: Place) -> Outcome<u16> {
        let low = self.read(place)?;
        let high = self.read(place.second())?;
        Ok(u16::from_le_bytes([low, high]))
    }

    pub fn write(&mut self, place: Place, value: u8) {
        self.writes[self.written] = (place, value);
        self.written += 1;
    }

    pub fn write_word(&mut self, place: Place, value: u16) {
        let [low, high] = value.to_le_bytes();
        self.write(place, low);
        self.write(place.second(), high);
    }

    /// Checks all writes in order before any byte changes, then stores.
    fn commit(&mut self) -> Outcome<()> {
        let mut at = [0; 2];
        for (physical, (place, _)) in at.iter_mut().zip(&self.writes[..self.written]) {
            *physical = self.physical(*place, true)?;
        }
        for (physical, (place, value)) in at.into_iter().zip(self.writes[..self.written].iter()) {
            self.memory[physical] = *value;
            self.m.mark(self.mode, place.space, place.address);
        }
        Ok(())
    }

    fn instruction(&mut self) -> Outcome<()> {
        let ins = decode(self)?;
        self.m.pc = self.next;
        execute(self, ins)?;
        self.commit()
    }

    /// The effective address. Relative counts from the next instruction (1043)
    /// and lies in program space.
    pub fn place(&self, mem: Mem) -> Place {
        let m = &self.m;
        match mem {
            Mem::At(r) => Place::data(m.get16(r)),
            Mem::Direct(address) => Place::data(address),
            Mem::Indexed(r, displacement) => Place::data(m.get16(r).wrapping_add(displacement)),
            Mem::Based(base, index) => Place::data(m.get16(base).wrapping_add(m.get16(index))),
            Mem::Relative(displacement) => {
                Place { address: self.next.wrapping_add(displacement), space: Space::Program }
            }
        }
    }

    pub fn get(&self, from: Byte) -> Outcome<u8> {
        match from {
            Byte::Reg(r) => Ok(self.m.get8(r)),
            Byte::Imm(n) => Ok(n),
            Byte::Mem(mem) => self.read(self.place(mem)),
        }
    }

    pub fn put(&mut self, to: Byte, value: u8) {
        match to {
            Byte::Reg(r) => self.m.set8(r, value),
            Byte::Imm(_) => unreachable!("no format has an immediate destination"),
            Byte::Mem(mem) => self.write(self.place(mem), value),
        }
    }

    pub fn get_word(&self, from: Word) -> Outcome<u16> {
        match from {
            Word::Reg(r) => Ok(self.m.get16(r)),
            Word::Imm(nn) => Ok(nn),
            Word::Mem(mem) => self.read_word(self.place(mem)),
        }
    }

    pub fn put_word(&mut self, to: Word, value: u16) {
        match to {
            Word::Reg(r) => self.m.set16(r, value),
            Word::Imm(_) => unreachable!("no format has an immediate destination"),
            Word::Mem(mem) => self.write_word(self.place(mem), value),
        }
    }

    /// SP falls by two, then the word is stored there (5815).
    pub fn push(&mut self, value: u16) {
        let sp = self.m.get16(Reg16::Sp).wrapping_sub(2);
        self.m.set16(Reg16::Sp, sp);
        self.write_word(Place::data(sp), value);
    }

    pub fn pop(&mut self) -> Outcome<u16> {
        let sp = self.m.get16(Reg16::Sp);
        let value = self.read_word(Place::data(sp))?;
        self.m.set16(Reg16::Sp, sp.wrapping_add(2));
        Ok(value)
    }
}

fn unchecked_step(m: &mut Machine, memory: &mut [u8]) -> Event {
    let mut cycle = Cycle::new(*m, memory);
    match cycle.instruction() {
        Ok(()) => {
            *m = cycle.m;
            Event::Completed
        }
        Err(event) => {
            match event {
                Event::AccessViolation { descriptor, .. } => m.latch(descriptor),
                Event::Halted => m.pc = cycle.next,
                _ => {}
            }
            event
        }
    }
}

/// One step. Refusals 1, 2.
pub fn step(m: &mut Machine, memory: &mut [u8]) -> Result<Event, Refusal> {
    let (event, _) = run(m, memory, 1)?;
    Ok(event)
}

/// Up to `budget` steps: the first event other than 0, and the steps that
/// completed. Refusals 1, 2.
pub fn run(m: &mut Machine, memory: &mut [u8], budget: u16) -> Result<(Event, u16), Refusal> {
    frames_of(memory).ok_or(Refusal::Memory)?;
    if !m.is_allowed() {
        return Err(Refusal::Bits);
    }
    for completed in 0..budget {
        let event = unchecked_step(m, memory);
        if event != Event::Completed {
            return Ok((event, completed));
        }
    }
    Ok((Event::Completed, budget))
}
