//! From logical to physical (chapter 7, from 7817).

use crate::machine::{Machine, Mode};

const VALID: u16 = 8;
const WRITE_PROTECT: u16 = 4;
const MODIFIED: u16 = 1;

const LAST_FAULTING: u16 = 0x1F;

/// Instruction bytes and operands relative to PC are program, all else is
/// data (1049, 7844).
#[derive(Clone, Copy, PartialEq, Eq, Debug)]
pub enum Space {
    Program,
    Data,
}

/// A descriptor's number and the physical address that it gives.
struct Mapped {
    descriptor: usize,
    physical: u32,
}

impl Machine {
    /// The translate and separation enables of a mode (7898 to 7904).
    fn enables(&self, mode: Mode) -> (bool, bool) {
        let (translate, separate) = match mode {
            Mode::User => (0x8000, 0x4000),
            Mode::System => (0x0800, 0x0400),
        };
        (self.mmu_control & translate != 0, self.mmu_control & separate != 0)
    }

    /// None where the mode does not translate. Rights are not looked at.
    fn mapped(&self, mode: Mode, space: Space, address: u16) -> Option<Mapped> {
        let (translating, separated) = self.enables(mode);
        if !translating {
            return None;
        }
        // Table 7-1: the system's sixteen come after the user's.
        let first = if mode == Mode::User { 0 } else { 16 };
        let (index, offset_bits) = if separated {
            let half = if space == Space::Program { 8 } else { 0 };
            (half + (address >> 13) as usize, 13)
        } else {
            ((address >> 12) as usize, 12)
        };
        let descriptor = first + index;
        let offset_mask = (1u32 << offset_bits) - 1;
        // The frame field is bits 15 to 4 and stands at bit 12. With 13 offset
        // bits its lowest bit is dropped (7884, P2 and P3).
        let frame = (self.descriptors[descriptor] >> 4) as u32;
        let base = (frame << 12) & !offset_mask;
        Some(Mapped { descriptor, physical: base | (address as u32 & offset_mask) })
    }

    /// The physical address, or the number of the violated descriptor.
    pub fn translate(&self, mode: Mode, space: Space, address: u16, write: bool) -> Result<u32, u8> {
        let Some(Mapped { descriptor, physical }) = self.mapped(mode, space, address) else {
            return Ok(address.into());
        };
        let attributes = self.descriptors[descriptor];
        let barred = attributes & VALID == 0 || write && attributes & WRITE_PROTECT != 0;
        if barred {
            Err(descriptor as u8)
        } else {
            Ok(physical)
        }
    }

    /// Sets the modified bit of a written page; without translation there is
    /// none to set (7898).
    pub(crate) fn mark(&mut self, mode: Mode, space: Space, address: u16) {
        if let Some(Mapped { descriptor, .. }) = self.mapped(mode, space, address) {
            self.descriptors[descriptor] |= MODIFIED;
        }
    }

    /// The page fault identifier (7908).
    pub(crate) fn latch(&mut self, descriptor: u8) {
        self.mmu_control = self.mmu_control & !LAST_FAULTING | u16::from(descriptor);
    }

    pub fn is_valid(&self, descriptor: u8) -> bool {
        self.descriptors[descriptor as usize] & VALID != 0
    }

    pub(crate) fn validate(&mut self, descriptor: u8) {
        self.descriptors[descriptor as usize] |= VALID;
    }
}
