//! CPU control (5.4.9). All but NOP are privileged.

use crate::cycle::{Cycle, Outcome};
use crate::decode::Control;
use crate::machine::{may_be_set, Machine};

/// The control registers that LDCTL reaches, by the address in C (4345). The
/// others count as left out (document 01).
#[derive(Clone, Copy, PartialEq, Eq)]
pub enum Register {
    Msr,
    StackLimit,
    VectorPointer,
    IoPage,
    Tcr,
}

impl Register {
    pub fn named_by_c(m: &Machine) -> Option<Register> {
        match m.bc as u8 {
            0x00 => Some(Register::Msr),
            0x04 => Some(Register::StackLimit),
            0x06 => Some(Register::VectorPointer),
            0x08 => Some(Register::IoPage),
            0x10 => Some(Register::Tcr),
            _ => None,
        }
    }
}

pub fn execute(c: &mut Cycle, control: Control) -> Outcome<()> {
    let m = &mut c.m;
    match control {
        Control::Nop => {}
        // Mask bit 7 has no enable in the MSR (2775, 3099).
        Control::EnableInterrupts(mask) => m.load_msr(m.msr | u16::from(mask & 0x7F)),
        Control::DisableInterrupts(mask) => m.load_msr(m.msr & !u16::from(mask & 0x7F)),
        Control::ReadControl(to) => {
            let value = read_control(m);
            m.set16(to, value);
        }
        Control::WriteControl(from) => {
            let value = m.get16(from);
            write_control(m, value);
        }
        Control::ReadUserSp(to) => {
            let value = m.user_sp;
            m.set16(to, value);
        }
        Control::WriteUserSp(from) => m.user_sp = m.get16(from),
        Control::ReturnLong => return return_long(c),
    }
    Ok(())
}

/// A byte register is read with zero above it (document 01).
fn read_control(m: &Machine) -> u16 {
    match Register::named_by_c(m) {
        Some(Register::Msr) => m.msr,
        Some(Register::StackLimit) => m.stack_limit,
        Some(Register::VectorPointer) => m.vector_pointer,
        Some(Register::IoPage) => m.io_page.into(),
        Some(Register::Tcr) => m.tcr.into(),
        None => unreachable!("event 9 came before"),
    }
}

fn write_control(m: &mut Machine, value: u16) {
    match Register::named_by_c(m) {
        Some(Register::Msr) => m.load_msr(value),
        Some(Register::StackLimit) => m.stack_limit = value & may_be_set::STACK_LIMIT,
        Some(Register::VectorPointer) => m.vector_pointer = value & may_be_set::VECTOR_POINTER,
        Some(Register::IoPage) => m.io_page = value as u8,
        Some(Register::Tcr) => m.tcr = value as u8 & may_be_set::TCR,
        None => unreachable!("event 9 came before"),
    }
}

/// RETIL: MSR at SP, PC above it (6004), all from the system stack.
fn return_long(c: &mut Cycle) -> Outcome<()> {
    let msr = c.pop()?;
    let pc = c.pop()?;
    c.m.pc = pc;
    c.m.load_msr(msr);
    Ok(())
}
