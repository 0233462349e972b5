//! A second interpreter of the Z280 machine, in plain Rust.
//!
//! It is written from document 01 and the manual's pages alone and shares no
//! line with the proved library, so that a misreading has to be made twice to
//! stay hidden. `differ` compares the two. Line numbers in the comments are
//! lines of the manual's text (document 000).

#![forbid(unsafe_code)]

pub mod calls;
mod cycle;
pub mod decode;
mod deliver;
mod event;
mod execute;
mod flags;
pub mod form;
mod machine;
mod mmu;

pub use cycle::{run, step};
pub use deliver::{deliver, make_valid};
pub use event::{Event, Refusal};
pub use machine::{Machine, Mode, Reg16, Reg8};
pub use mmu::Space;

/// Bytes of one frame of memory.
pub const FRAME: usize = 4096;

/// The number of frames, where there are 1 to 16 whole ones.
pub fn frames_of(memory: &[u8]) -> Option<usize> {
    let frames = memory.len() / FRAME;
    (memory.len().is_multiple_of(FRAME) && (1..=16).contains(&frames)).then_some(frames)
}
