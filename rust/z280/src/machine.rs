use crate::form::{self, Field, FORM_BYTES};
use crate::{calls, Event, Refusal, ANSWER_BYTES};
use std::fmt;

/// Bytes of a frame.
pub const FRAME_BYTES: usize = 4096;

/// Bits of the control registers that may be set (document 01, "The machine record").
const MSR_BITS: u16 = 0x537F;
const TCR_BITS: u16 = 0x07;
const UPPER_12: u16 = 0xFFF0;
const MMU_BITS: u16 = 0xCC1F;

/// What a run did.
#[derive(Clone, Copy, Debug, PartialEq, Eq)]
pub struct Ran {
    /// What ended it; `Completed` where the budget did.
    pub event: Event,
    /// The steps that completed.
    pub steps: u16,
}

/// A machine: registers, control registers, descriptors and the number of its frames, kept as a stored form.
///
/// Memory is not part of it: each call is lent [`memory_len`](Machine::memory_len) bytes. A `Machine` is always one
/// that the library accepts, since a setter refuses what a call would refuse.
///
/// ```
/// use z280::{Event, Machine};
///
/// let mut machine = Machine::reset(1)?;
/// let mut memory = vec![0; machine.memory_len()];
/// memory[..5].copy_from_slice(&[0x3E, 0x05, 0xC6, 0x25, 0x76]); // LD A,5; ADD A,25h; HALT
/// let ran = machine.run(&mut memory, 1000)?;
/// assert_eq!((ran.event, ran.steps), (Event::Halted, 2));
/// assert_eq!(machine.af() >> 8, 0x2A);
/// # Ok::<(), z280::Refusal>(())
/// ```
#[derive(Clone, PartialEq, Eq)]
pub struct Machine {
    form: [u8; FORM_BYTES],
}

/// Registers of 16 bits, each of whose values is allowed.
macro_rules! registers {
    ($($get:ident, $set:ident, $field:ident, $what:literal;)*) => {
        impl Machine {
            $(
                #[doc = concat!("Gives ", $what, ".")]
                pub fn $get(&self) -> u16 {
                    form::$field.get(&self.form)
                }

                #[doc = concat!("Sets ", $what, ".")]
                pub fn $set(&mut self, value: u16) {
                    form::$field.put(&mut self.form, value);
                }
            )*
        }
    };
}

registers! {
    af, set_af, AF, "AF of the bank in use, A above F";
    bc, set_bc, BC, "BC of the bank in use";
    de, set_de, DE, "DE of the bank in use";
    hl, set_hl, HL, "HL of the bank in use";
    af_alt, set_af_alt, AF_ALT, "the alternate AF";
    bc_alt, set_bc_alt, BC_ALT, "the alternate BC";
    de_alt, set_de_alt, DE_ALT, "the alternate DE";
    hl_alt, set_hl_alt, HL_ALT, "the alternate HL";
    ix, set_ix, IX, "IX";
    iy, set_iy, IY, "IY";
    pc, set_pc, PC, "PC, the address of the next instruction";
    ssp, set_ssp, SSP, "the system stack pointer";
    usp, set_usp, USP, "the user stack pointer";
}

/// The whole of a machine: made, stored, and its five calls.
impl Machine {
    /// The reset record, zero throughout, with 1 to 16 frames; else refusal 1.
    pub fn reset(frames: u8) -> Result<Machine, Refusal> {
        let mut form = [0; FORM_BYTES];
        Refusal::check(calls::reset(&mut form, frames))?;
        Ok(Machine { form })
    }

    /// Takes a stored form; refusals 3, 4, 10, 2, 5, tested in this order.
    ///
    /// ```
    /// use z280::{Machine, Refusal};
    ///
    /// let machine = Machine::reset(4)?;
    /// assert_eq!(Machine::from_form(machine.form())?, machine);
    /// assert_eq!(Machine::from_form(&[0; 100]), Err(Refusal::BufferLength));
    /// assert_eq!(Machine::from_form(&[2; 101]), Err(Refusal::Version));
    /// # Ok::<(), Refusal>(())
    /// ```
    pub fn from_form(form: &[u8]) -> Result<Machine, Refusal> {
        let mut copy: [u8; FORM_BYTES] = form.try_into().map_err(|_| Refusal::BufferLength)?;
        // The proved reader judges the form: no descriptor has number 255, so a form that it accepts gives refusal 6.
        match Refusal::check(calls::make_valid(&mut copy, 255)) {
            Err(refusal) if refusal != Refusal::NoDescriptor => Err(refusal),
            _ => Ok(Machine { form: copy }),
        }
    }

    /// The stored form.
    pub fn form(&self) -> &[u8; FORM_BYTES] {
        &self.form
    }

    /// Works one instruction, or one repetition of a repeating one. Refusal 1 unless memory has
    /// [`memory_len`](Machine::memory_len) bytes.
    ///
    /// ```
    /// use z280::{Event, Machine, Refusal};
    ///
    /// let mut machine = Machine::reset(1)?;
    /// let mut memory = [0; 4096];
    /// memory[1] = 0x76; // NOP; HALT
    /// assert_eq!(machine.step(&mut memory)?, Event::Completed);
    /// assert_eq!(machine.step(&mut memory)?, Event::Halted);
    /// assert_eq!(machine.pc(), 2);
    /// assert_eq!(machine.step(&mut memory[..100]), Err(Refusal::MemoryLength));
    /// # Ok::<(), Refusal>(())
    /// ```
    pub fn step(&mut self, memory: &mut [u8]) -> Result<Event, Refusal> {
        let mut answer = [0; ANSWER_BYTES];
        Refusal::check(calls::step(&mut self.form, memory, &mut answer))?;
        Ok(event_of(&answer))
    }

    /// Steps until an event other than `Completed`, or until the budget is used up. Refused as `step` is.
    ///
    /// ```
    /// use z280::{Event, Machine};
    ///
    /// let mut machine = Machine::reset(1)?;
    /// let mut memory = [0; 4096]; // NOP throughout
    /// let ran = machine.run(&mut memory, 100)?;
    /// assert_eq!((ran.event, ran.steps, machine.pc()), (Event::Completed, 100, 100));
    /// # Ok::<(), z280::Refusal>(())
    /// ```
    pub fn run(&mut self, memory: &mut [u8], budget: u16) -> Result<Ran, Refusal> {
        let mut answer = [0; ANSWER_BYTES];
        Refusal::check(calls::run(&mut self.form, memory, budget, &mut answer))?;
        Ok(Ran { event: event_of(&answer), steps: u16::from_le_bytes([answer[2], answer[3]]) })
    }

    /// Delivers a trap to the guest's own handler: events 1, 3, 4 and 7; others are refusal 8. Pushes on the system
    /// stack and takes MSR and PC from the vector table; refusal 9 where that faults.
    ///
    /// ```
    /// use z280::{Event, Machine, Refusal};
    ///
    /// let mut machine = Machine::reset(3)?;
    /// let mut memory = vec![0; machine.memory_len()];
    /// memory[..4].copy_from_slice(&[0xED, 0x71, 0x34, 0x12]); // SC 1234h
    /// memory[0x50..0x54].copy_from_slice(&[0, 0, 0x00, 0x01]); // its vector: MSR 0, PC 0100h
    /// machine.set_ssp(0x2000);
    /// let event = machine.step(&mut memory)?;
    /// assert_eq!(event, Event::SystemCall { operand: 0x1234, next: 4 });
    /// machine.deliver(&mut memory, event)?;
    /// assert_eq!((machine.pc(), machine.ssp()), (0x0100, 0x1FFA));
    /// assert_eq!(memory[0x1FFA..0x2000], [0x34, 0x12, 0, 0, 4, 0]);
    /// assert_eq!(machine.deliver(&mut memory, Event::Halted), Err(Refusal::Undeliverable));
    /// # Ok::<(), Refusal>(())
    /// ```
    pub fn deliver(&mut self, memory: &mut [u8], event: Event) -> Result<(), Refusal> {
        Refusal::check(calls::deliver(&mut self.form, memory, &event.to_bytes()))
    }

    /// Sets a descriptor's valid bit, nothing else; refusal 6 above 31, refusal 7 where it is set already.
    ///
    /// ```
    /// use z280::{Event, Machine, Refusal};
    ///
    /// let mut machine = Machine::reset(1)?;
    /// let mut memory = [0; 4096];
    /// machine.set_mmu(0x0800)?; // the system's pages are translated, and none is valid
    /// let event = machine.step(&mut memory)?;
    /// assert_eq!(event, Event::AccessViolation { descriptor: 16, address: 0 });
    /// machine.make_valid(16)?;
    /// assert_eq!(machine.step(&mut memory)?, Event::Completed);
    /// assert_eq!(machine.make_valid(16), Err(Refusal::AlreadyValid));
    /// assert_eq!(machine.make_valid(32), Err(Refusal::NoDescriptor));
    /// # Ok::<(), Refusal>(())
    /// ```
    pub fn make_valid(&mut self, descriptor: u8) -> Result<(), Refusal> {
        Refusal::check(calls::make_valid(&mut self.form, descriptor))
    }
}

/// Frames, banks, control registers, descriptors.
impl Machine {
    /// The number of frames, 1 to 16.
    pub fn frames(&self) -> u8 {
        form::FRAMES_LESS_ONE.get(&self.form) as u8 + 1
    }

    /// The bytes of memory that each call has to be lent.
    pub fn memory_len(&self) -> usize {
        usize::from(self.frames()) * FRAME_BYTES
    }

    /// Sets the number of frames; refusal 1 unless it is 1 to 16.
    pub fn set_frames(&mut self, frames: u8) -> Result<(), Refusal> {
        if !(1..=16).contains(&frames) {
            return Err(Refusal::MemoryLength);
        }
        form::FRAMES_LESS_ONE.put(&mut self.form, u16::from(frames) - 1);
        Ok(())
    }

    /// Whether the alternate AF is in use, as JAF asks.
    pub fn bank_af(&self) -> bool {
        form::BANK_AF.get(&self.form) == 1
    }

    /// Sets the bank bit of AF; no value is swapped.
    pub fn set_bank_af(&mut self, alternate: bool) {
        form::BANK_AF.put(&mut self.form, alternate.into());
    }

    /// Whether the alternate BC, DE and HL are in use, as JAR asks.
    pub fn bank_others(&self) -> bool {
        form::BANK_OTHERS.get(&self.form) == 1
    }

    /// Sets the bank bit of BC, DE and HL; no value is swapped.
    pub fn set_bank_others(&mut self, alternate: bool) {
        form::BANK_OTHERS.put(&mut self.form, alternate.into());
    }

    /// The master status register: user mode 4000h, break on halt 1000h, single-step bits, enables.
    pub fn msr(&self) -> u16 {
        form::MSR.get(&self.form)
    }

    /// Sets the master status register; refusal 2 for a bit outside 537Fh.
    ///
    /// ```
    /// # let mut machine = z280::Machine::reset(1)?;
    /// machine.set_msr(0x4000)?;
    /// assert!(machine.user());
    /// assert_eq!(machine.set_msr(0x8000), Err(z280::Refusal::ReservedBit));
    /// assert_eq!(machine.msr(), 0x4000);
    /// # Ok::<(), z280::Refusal>(())
    /// ```
    pub fn set_msr(&mut self, value: u16) -> Result<(), Refusal> {
        self.set_allowed(form::MSR, value, MSR_BITS, 0)
    }

    /// Whether MSR says user mode.
    pub fn user(&self) -> bool {
        self.msr() & 0x4000 != 0
    }

    /// The trap control register: user I/O inhibited 4, extended unit 2, stack warning 1.
    pub fn tcr(&self) -> u8 {
        form::TCR.get(&self.form) as u8
    }

    /// Sets the trap control register; refusal 2 for a bit outside 07h.
    pub fn set_tcr(&mut self, value: u8) -> Result<(), Refusal> {
        self.set_allowed(form::TCR, value.into(), TCR_BITS, 0)
    }

    /// The I/O page, bits 23 to 16 of each port.
    pub fn iopage(&self) -> u8 {
        form::IOPAGE.get(&self.form) as u8
    }

    /// Sets the I/O page.
    pub fn set_iopage(&mut self, value: u8) {
        form::IOPAGE.put(&mut self.form, value.into());
    }

    /// The stack limit.
    pub fn limit(&self) -> u16 {
        form::LIMIT.get(&self.form) << 4
    }

    /// Sets the stack limit; refusal 2 for a bit outside FFF0h.
    pub fn set_limit(&mut self, value: u16) -> Result<(), Refusal> {
        self.set_allowed(form::LIMIT, value, UPPER_12, 4)
    }

    /// The vector pointer, whose upper 12 bits are bits 23 to 12 of the vector table's physical address.
    pub fn vector(&self) -> u16 {
        form::VECTOR.get(&self.form) << 4
    }

    /// Sets the vector pointer; refusal 2 for a bit outside FFF0h.
    pub fn set_vector(&mut self, value: u16) -> Result<(), Refusal> {
        self.set_allowed(form::VECTOR, value, UPPER_12, 4)
    }

    /// MMU control: user translate 8000h, user separation 4000h, system translate 0800h, system separation 0400h,
    /// last faulting descriptor 1Fh.
    pub fn mmu(&self) -> u16 {
        form::MMU.get(&self.form)
    }

    /// Sets MMU control; refusal 2 for a bit outside CC1Fh.
    pub fn set_mmu(&mut self, value: u16) -> Result<(), Refusal> {
        self.set_allowed(form::MMU, value, MMU_BITS, 0)
    }

    /// A page descriptor: frame in bits 15 to 4, valid 8, write protect 4, cacheable 2, modified 1. Numbers 0 to 15
    /// are the user's, 16 to 31 the system's; refusal 6 above.
    pub fn descriptor(&self, number: u8) -> Result<u16, Refusal> {
        Ok(descriptor_field(number)?.get(&self.form))
    }

    /// Sets a page descriptor; refusal 6 for a number above 31.
    ///
    /// ```
    /// # let mut machine = z280::Machine::reset(1)?;
    /// machine.set_descriptor(31, 0x00F8)?; // frame 0Fh, valid
    /// assert_eq!(machine.descriptor(31)?, 0x00F8);
    /// assert_eq!(machine.set_descriptor(32, 0), Err(z280::Refusal::NoDescriptor));
    /// # Ok::<(), z280::Refusal>(())
    /// ```
    pub fn set_descriptor(&mut self, number: u8, value: u16) -> Result<(), Refusal> {
        descriptor_field(number)?.put(&mut self.form, value);
        Ok(())
    }

    /// Puts a control register's upper bits, without the lowest ones that are not stored, where all its set bits are
    /// allowed.
    fn set_allowed(&mut self, field: Field, value: u16, allowed: u16, not_stored: u16) -> Result<(), Refusal> {
        if value & !allowed != 0 {
            return Err(Refusal::ReservedBit);
        }
        field.put(&mut self.form, value >> not_stored);
        Ok(())
    }
}

fn descriptor_field(number: u8) -> Result<Field, Refusal> {
    if number > 31 {
        return Err(Refusal::NoDescriptor);
    }
    Ok(form::DESCRIPTORS.nth(number.into()))
}

/// The event of a call that was not refused; the library's promise says that there is one.
fn event_of(answer: &[u8; ANSWER_BYTES]) -> Event {
    Event::from_bytes(answer).unwrap_or_else(|| panic!("libz280.a gave no event of document 01: {answer:?}"))
}

impl fmt::Debug for Machine {
    fn fmt(&self, f: &mut fmt::Formatter<'_>) -> fmt::Result {
        write!(f, "Machine {{ pc: {:04X}, ", self.pc())?;
        write!(f, "af: {:04X}, bc: {:04X}, de: {:04X}, hl: {:04X}, ", self.af(), self.bc(), self.de(), self.hl())?;
        write!(f, "ix: {:04X}, iy: {:04X}, ssp: {:04X}, usp: {:04X}, ", self.ix(), self.iy(), self.ssp(), self.usp())?;
        write!(f, "msr: {:04X}, mmu: {:04X}, frames: {} }}", self.msr(), self.mmu(), self.frames())
    }
}
