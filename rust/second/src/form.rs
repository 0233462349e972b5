//! The stored form (document 01): 808 bits, most significant first.

use crate::event::Refusal;
use crate::machine::Machine;

pub const LENGTH: usize = 101;
const VERSION: u32 = 1;

struct Writer<'a> {
    out: &'a mut [u8],
    held: u32,
    bits: u32,
    at: usize,
}

impl Writer<'_> {
    fn put(&mut self, width: u32, value: u32) {
        self.held = self.held << width | value;
        self.bits += width;
        while self.bits >= 8 {
            self.bits -= 8;
            self.out[self.at] = (self.held >> self.bits) as u8;
            self.at += 1;
        }
    }

    fn words(&mut self, words: &[u16]) {
        for &word in words {
            self.put(16, word.into());
        }
    }
}

struct Reader<'a> {
    form: &'a [u8],
    held: u32,
    bits: u32,
    at: usize,
}

impl Reader<'_> {
    fn take(&mut self, width: u32) -> u32 {
        while self.bits < width {
            self.held = self.held << 8 | u32::from(self.form[self.at]);
            self.bits += 8;
            self.at += 1;
        }
        self.bits -= width;
        self.held >> self.bits & ((1 << width) - 1)
    }

    fn word(&mut self) -> u16 {
        self.take(16) as u16
    }
}

/// Writes the form. Refusals 1, 2, 3; bytes past the form stay.
pub fn write(m: &Machine, frames: usize, out: &mut [u8]) -> Result<(), Refusal> {
    if !(1..=16).contains(&frames) {
        return Err(Refusal::Memory);
    }
    if !m.is_allowed() {
        return Err(Refusal::Bits);
    }
    if out.len() < LENGTH {
        return Err(Refusal::Length);
    }
    let mut w = Writer { out, held: 0, bits: 0, at: 0 };
    w.put(8, VERSION);
    w.put(4, frames as u32 - 1);
    w.words(&[m.af, m.bc, m.de, m.hl]);
    w.words(&[m.alternate_af, m.alternate_bc, m.alternate_de, m.alternate_hl]);
    w.words(&[m.ix, m.iy, m.pc, m.system_sp, m.user_sp]);
    w.put(1, m.bank_af.into());
    w.put(1, m.bank_others.into());
    w.put(16, m.msr.into());
    w.put(3, m.tcr.into());
    w.put(8, m.io_page.into());
    w.put(12, (m.stack_limit >> 4).into());
    w.put(12, (m.vector_pointer >> 4).into());
    w.put(16, m.mmu_control.into());
    w.words(&m.descriptors);
    w.put(7, 0);
    Ok(())
}

/// Reads a form: the record and its frames. Refusals 3, 4, 10, 2, 5.
pub fn read(form: &[u8]) -> Result<(Machine, usize), Refusal> {
    if form.len() != LENGTH {
        return Err(Refusal::Length);
    }
    let mut r = Reader { form, held: 0, bits: 0, at: 0 };
    if r.take(8) != VERSION {
        return Err(Refusal::Version);
    }
    // Four bits name 1 to 16 frames, so refusal 10 has no form of version 1.
    let frames = r.take(4) as usize + 1;
    let m = record(&mut r);
    if !m.is_allowed() {
        return Err(Refusal::Bits);
    }
    if r.take(7) != 0 {
        return Err(Refusal::Padding);
    }
    Ok((m, frames))
}

fn record(r: &mut Reader) -> Machine {
    // Fields are evaluated in the order written, which is the form's.
    Machine {
        af: r.word(),
        bc: r.word(),
        de: r.word(),
        hl: r.word(),
        alternate_af: r.word(),
        alternate_bc: r.word(),
        alternate_de: r.word(),
        alternate_hl: r.word(),
        ix: r.word(),
        iy: r.word(),
        pc: r.word(),
        system_sp: r.word(),
        user_sp: r.word(),
        bank_af: r.take(1) == 1,
        bank_others: r.take(1) == 1,
        msr: r.word(),
        tcr: r.take(3) as u8,
        io_page: r.take(8) as u8,
        stack_limit: (r.take(12) as u16) << 4,
        vector_pointer: (r.take(12) as u16) << 4,
        mmu_control: r.word(),
        descriptors: std::array::from_fn(|_| r.word()),
    }
}
