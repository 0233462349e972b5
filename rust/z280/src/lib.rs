//! The proved Z280 machine for Rust.
//!
//! The machine's five calls are those of `libz280.a`, whose every answer is proved; this crate gives them safe Rust
//! faces and names. [`Machine`] is a machine, [`Event`] what ended a step, [`Refusal`] why a call did nothing.
//! [`disasm`] reads instructions. Nothing is kept between calls, so any number of machines run on any number of
//! threads.
//!
//! ```
//! use z280::{Event, Machine};
//!
//! let mut machine = Machine::reset(1)?;
//! let mut memory = vec![0; machine.memory_len()];
//! memory[..2].copy_from_slice(&[0x00, 0x76]); // NOP; HALT
//! let ran = machine.run(&mut memory, 1000)?;
//! assert_eq!((ran.event, ran.steps, machine.pc()), (Event::Halted, 1, 2));
//! # Ok::<(), z280::Refusal>(())
//! ```
#![deny(missing_docs)]
#![deny(unsafe_code)]

pub mod calls;
pub mod disasm;
mod event;
mod form;
mod machine;
mod refusal;

pub use disasm::{disassemble, Class, Disassembled};
pub use event::{Direction, Event, ANSWER_BYTES};
pub use form::FORM_BYTES;
pub use machine::{Machine, Ran, FRAME_BYTES};
pub use refusal::Refusal;
