//! The machine record and its registers (document 01, The machine record).

/// The record. AF to HL are the bank in use; the reset record is `default()`.
#[derive(Clone, Copy, PartialEq, Eq, Debug, Default)]
pub struct Machine {
    pub af: u16,
    pub bc: u16,
    pub de: u16,
    pub hl: u16,
    pub alternate_af: u16,
    pub alternate_bc: u16,
    pub alternate_de: u16,
    pub alternate_hl: u16,
    pub ix: u16,
    pub iy: u16,
    pub pc: u16,
    pub system_sp: u16,
    pub user_sp: u16,
    /// The alternate AF is in use.
    pub bank_af: bool,
    /// The alternate BC, DE and HL are in use.
    pub bank_others: bool,
    pub msr: u16,
    pub tcr: u8,
    pub io_page: u8,
    pub stack_limit: u16,
    pub vector_pointer: u16,
    pub mmu_control: u16,
    /// 0 to 15 user, 16 to 31 system.
    pub descriptors: [u16; 32],
}

/// The bits that may be set in each control register.
pub mod may_be_set {
    pub const MSR: u16 = 0x537F;
    pub const TCR: u8 = 0x07;
    pub const STACK_LIMIT: u16 = 0xFFF0;
    pub const VECTOR_POINTER: u16 = 0xFFF0;
    pub const MMU_CONTROL: u16 = 0xCC1F;
}

const MSR_USER: u16 = 0x4000;
const MSR_BREAK_ON_HALT: u16 = 0x1000;
const TCR_INHIBIT_USER_IO: u8 = 4;
const TCR_EXTENDED_UNIT: u8 = 2;

#[derive(Clone, Copy, PartialEq, Eq, Debug)]
pub enum Mode {
    User,
    System,
}

/// Byte registers: Table 5-12, and the halves of IX and IY.
#[derive(Clone, Copy, PartialEq, Eq, Debug)]
pub enum Reg8 {
    A,
    B,
    C,
    D,
    E,
    H,
    L,
    Ixh,
    Ixl,
    Iyh,
    Iyl,
}

/// Word registers. `Sp` is the stack pointer of the mode in force (1087).
#[derive(Clone, Copy, PartialEq, Eq, Debug)]
pub enum Reg16 {
    Af,
    Bc,
    De,
    Hl,
    Ix,
    Iy,
    Sp,
}

impl Machine {
    /// Refusal 2 is given where this does not hold.
    pub fn is_allowed(&self) -> bool {
        use may_be_set as may;
        self.msr & !may::MSR == 0
            && self.tcr & !may::TCR == 0
            && self.stack_limit & !may::STACK_LIMIT == 0
            && self.vector_pointer & !may::VECTOR_POINTER == 0
            && self.mmu_control & !may::MMU_CONTROL == 0
    }

    pub fn mode(&self) -> Mode {
        if self.msr & MSR_USER != 0 {
            Mode::User
        } else {
            Mode::System
        }
    }

    pub(crate) fn breaks_on_halt(&self) -> bool {
        self.msr & MSR_BREAK_ON_HALT != 0
    }

    pub(crate) fn inhibits_user_io(&self) -> bool {
        self.tcr & TCR_INHIBIT_USER_IO != 0
    }

    pub(crate) fn has_extended_unit(&self) -> bool {
        self.tcr & TCR_EXTENDED_UNIT != 0
    }

    /// Loading a control register stores the other bits as zero (document 01).
    pub(crate) fn load_msr(&mut self, value: u16) {
        self.msr = value & may_be_set::MSR;
    }

    pub fn get16(&self, r: Reg16) -> u16 {
        match r {
            Reg16::Af => self.af,
            Reg16::Bc => self.bc,
            Reg16::De => self.de,
            Reg16::Hl => self.hl,
            Reg16::Ix => self.ix,
            Reg16::Iy => self.iy,
            Reg16::Sp => match self.mode() {
                Mode::User => self.user_sp,
                Mode::System => self.system_sp,
            },
        }
    }

    pub fn set16(&mut self, r: Reg16, value: u16) {
        *self.word_mut(r) = value;
    }

    fn word_mut(&mut self, r: Reg16) -> &mut u16 {
        match r {
            Reg16::Af => &mut self.af,
            Reg16::Bc => &mut self.bc,
            Reg16::De => &mut self.de,
            Reg16::Hl => &mut self.hl,
            Reg16::Ix => &mut self.ix,
            Reg16::Iy => &mut self.iy,
            Reg16::Sp => match self.mode() {
                Mode::User => &mut self.user_sp,
                Mode::System => &mut self.system_sp,
            },
        }
    }

    pub fn get8(&self, r: Reg8) -> u8 {
        let (word, high) = r.place();
        let [h, l] = self.get16(word).to_be_bytes();
        if high {
            h
        } else {
            l
        }
    }

    pub fn set8(&mut self, r: Reg8, value: u8) {
        let (word, high) = r.place();
        let [h, l] = self.get16(word).to_be_bytes();
        let bytes = if high { [value, l] } else { [h, value] };
        self.set16(word, u16::from_be_bytes(bytes));
    }

    pub fn f(&self) -> u8 {
        self.af as u8
    }

    pub fn set_f(&mut self, f: u8) {
        self.af = self.af & 0xFF00 | f as u16;
    }
}

impl Reg8 {
    /// The word register that holds it, and whether it is the upper half.
    fn place(self) -> (Reg16, bool) {
        match self {
            Reg8::A => (Reg16::Af, true),
            Reg8::B => (Reg16::Bc, true),
            Reg8::C => (Reg16::Bc, false),
            Reg8::D => (Reg16::De, true),
            Reg8::E => (Reg16::De, false),
            Reg8::H => (Reg16::Hl, true),
            Reg8::L => (Reg16::Hl, false),
            Reg8::Ixh => (Reg16::Ix, true),
            Reg8::Ixl => (Reg16::Ix, false),
            Reg8::Iyh => (Reg16::Iy, true),
            Reg8::Iyl => (Reg16::Iy, false),
        }
    }
}
