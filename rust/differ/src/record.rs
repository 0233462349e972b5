//! Random records: registers near page borders and signed limits, and
//! descriptors of several tempers.

use second::{Machine, Mode, Space, FRAME};

use crate::rng::Rng;

/// Values at which sums, shifts and counters turn over.
const LIMITS: [u16; 18] = [
    0x0000, 0x0001, 0x0002, 0x000F, 0x0010, 0x007F, 0x0080, 0x00FF, 0x0100, 0x0FFF, 0x1000, 0x7FFF, 0x8000, 0x8001,
    0xEFFF, 0xFF80, 0xFFFE, 0xFFFF,
];

/// Distances from a border. A word at -1 lies on both sides, and so does one
/// that is pushed with SP at 1.
const AROUND: [i16; 12] = [-6, -3, -2, -1, -1, -1, 0, 1, 1, 1, 2, 3];

/// Addresses of the control registers that LDCTL reaches (4345), to be drawn
/// as C: by chance alone they would be rare.
const CONTROL: [u16; 5] = [0x00, 0x04, 0x06, 0x08, 0x10];

/// A word that is a limit, or next to a page border, or anything.
pub fn word(rng: &mut Rng, frames: usize) -> u16 {
    match rng.below(8) {
        0 | 1 => rng.pick(&LIMITS),
        2..=4 => {
            // A border of a page of 4 KB, mostly inside memory.
            let pages = if rng.chance(3, 4) { frames as u64 + 1 } else { 16 };
            let border = (rng.below(pages) << 12) as u16;
            border.wrapping_add_signed(rng.pick(&AROUND))
        }
        5 => (rng.below((frames * FRAME) as u64)) as u16,
        _ => rng.word(),
    }
}

/// How descriptors are drawn: chances in 16 to be withheld, protected, and
/// outside memory.
#[derive(Clone, Copy)]
pub struct Temper {
    pub withheld: u64,
    pub protected: u64,
    pub outside: u64,
}

pub const KIND: Temper = Temper { withheld: 0, protected: 0, outside: 0 };
const TEMPERS: [Temper; 4] =
    [KIND, KIND, Temper { withheld: 2, protected: 2, outside: 1 }, Temper { withheld: 5, protected: 5, outside: 4 }];

fn descriptor(rng: &mut Rng, frames: usize, temper: Temper) -> u16 {
    let frame = if rng.chance(temper.outside, 16) {
        // Just past memory, or anywhere in the 16 MB.
        if rng.chance(1, 2) {
            frames as u64
        } else {
            rng.below(4096)
        }
    } else {
        rng.below(frames as u64)
    };
    let valid = u16::from(!rng.chance(temper.withheld, 16)) * 8;
    let protected = u16::from(rng.chance(temper.protected, 16)) * 4;
    (frame as u16) << 4 | valid | protected | rng.below(4) as u16
}

/// Any record that may be. Each control bit that may be set is drawn.
pub fn random(rng: &mut Rng, frames: usize) -> Machine {
    let temper = rng.pick(&TEMPERS);
    random_of(rng, frames, temper)
}

pub fn random_of(rng: &mut Rng, frames: usize, temper: Temper) -> Machine {
    let mut w = || word(rng, frames);
    let mut m = Machine {
        af: w(),
        bc: w(),
        de: w(),
        hl: w(),
        alternate_af: w(),
        alternate_bc: w(),
        alternate_de: w(),
        alternate_hl: w(),
        ix: w(),
        iy: w(),
        pc: w(),
        system_sp: w(),
        user_sp: w(),
        ..Machine::default()
    };
    m.af = m.af & 0xFF00 | u16::from(rng.byte());
    if rng.chance(1, 8) {
        m.bc = m.bc & 0xFF00 | rng.pick(&CONTROL);
    }
    m.bank_af = rng.chance(1, 2);
    m.bank_others = rng.chance(1, 2);
    m.msr = rng.word() & 0x537F;
    m.tcr = rng.below(8) as u8;
    m.io_page = rng.byte();
    m.stack_limit = rng.word() & 0xFFF0;
    m.vector_pointer = match rng.below(8) {
        0 => rng.word() & 0xFFF0,
        1 => (frames as u16) << 4,
        _ => (rng.below(frames as u64) as u16) << 4,
    };
    m.mmu_control = rng.word() & 0xCC1F;
    for d in &mut m.descriptors {
        *d = descriptor(rng, frames, temper);
    }
    m
}

/// 1 to 16 frames; few and all of them more often.
pub fn frames(rng: &mut Rng) -> usize {
    match rng.below(4) {
        0 => 16,
        1 => 1 + rng.below(16) as usize,
        _ => 1 + rng.below(4) as usize,
    }
}

/// Where instruction byte `n` from PC lies in memory, if it can be fetched.
pub fn program_place(m: &Machine, n: u16, memory: usize) -> Option<usize> {
    let address = m.pc.wrapping_add(n);
    let physical = m.translate(m.mode(), Space::Program, address, false).ok()? as usize;
    (physical < memory).then_some(physical)
}

/// 0 user, 1 system; 0 translation off, 1 on, 2 separated.
pub fn ground(m: &Machine) -> (usize, usize) {
    let (mode, translate, separate) = match m.mode() {
        Mode::User => (0, 0x8000, 0x4000),
        Mode::System => (1, 0x0800, 0x0400),
    };
    let translation = match (m.mmu_control & translate != 0, m.mmu_control & separate != 0) {
        (false, _) => 0,
        (true, false) => 1,
        (true, true) => 2,
    };
    (mode, translation)
}
