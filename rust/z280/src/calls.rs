//! The library's five calls as they stand in `include/z280.h`, over slices of any length.
//!
//! Each takes any bytes: a wrong length or a damaged form is answered by a refusal number, and a refused call
//! changes no byte. So these functions are safe; [`Machine`](crate::Machine) is the convenient way to them.
//! This is the only module with `unsafe` code.

#![allow(unsafe_code)]

mod c {
    extern "C" {
        pub fn z280_reset(form: *mut u8, form_len: usize, frames: u8) -> u8;
        pub fn z280_step(
            form: *mut u8,
            form_len: usize,
            memory: *mut u8,
            memory_len: usize,
            answer: *mut u8,
            answer_len: usize,
        ) -> u8;
        pub fn z280_run(
            form: *mut u8,
            form_len: usize,
            memory: *mut u8,
            memory_len: usize,
            budget: u16,
            answer: *mut u8,
            answer_len: usize,
        ) -> u8;
        pub fn z280_deliver(
            form: *mut u8,
            form_len: usize,
            memory: *mut u8,
            memory_len: usize,
            event: *const u8,
            event_len: usize,
        ) -> u8;
        pub fn z280_make_valid(form: *mut u8, form_len: usize, descriptor: u8) -> u8;
    }
}

/// Writes the reset record with that many frames. Refusal 3 unless the form is 101 bytes, then 1 unless frames is
/// 1 to 16.
pub fn reset(form: &mut [u8], frames: u8) -> u8 {
    // SAFETY: pointer and length are one slice's; the call keeps neither.
    unsafe { c::z280_reset(form.as_mut_ptr(), form.len(), frames) }
}

/// One step. The answer's 12 bytes are described at [`Event::from_bytes`](crate::Event::from_bytes).
pub fn step(form: &mut [u8], memory: &mut [u8], answer: &mut [u8]) -> u8 {
    // SAFETY: each pointer and length are one slice's; three `&mut` do not overlap; the call keeps none.
    unsafe {
        c::z280_step(
            form.as_mut_ptr(),
            form.len(),
            memory.as_mut_ptr(),
            memory.len(),
            answer.as_mut_ptr(),
            answer.len(),
        )
    }
}

/// Steps until an event other than 0 or until the budget is used up.
pub fn run(form: &mut [u8], memory: &mut [u8], budget: u16, answer: &mut [u8]) -> u8 {
    // SAFETY: as for `step`.
    unsafe {
        c::z280_run(
            form.as_mut_ptr(),
            form.len(),
            memory.as_mut_ptr(),
            memory.len(),
            budget,
            answer.as_mut_ptr(),
            answer.len(),
        )
    }
}

/// Delivers a trap: events 1, 3, 4 and 7. The steps in the event's bytes are ignored.
pub fn deliver(form: &mut [u8], memory: &mut [u8], event: &[u8]) -> u8 {
    // SAFETY: as for `step`; the event is only read, and `&` beside `&mut` does not overlap.
    unsafe {
        c::z280_deliver(form.as_mut_ptr(), form.len(), memory.as_mut_ptr(), memory.len(), event.as_ptr(), event.len())
    }
}

/// Sets the valid bit of a descriptor, nothing else.
pub fn make_valid(form: &mut [u8], descriptor: u8) -> u8 {
    // SAFETY: pointer and length are one slice's; the call keeps neither.
    unsafe { c::z280_make_valid(form.as_mut_ptr(), form.len(), descriptor) }
}
