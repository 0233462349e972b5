//! Short notation for records and memory.
#![allow(dead_code)]

use second::Machine;

/// A machine and its whole 64 KB, with translation off.
#[derive(Clone, PartialEq, Debug)]
pub struct World {
    pub m: Machine,
    pub memory: Vec<u8>,
}

impl World {
    pub fn new(code: &[u8], pc: u16) -> World {
        let m = Machine { pc, ..Machine::default() };
        let mut memory = vec![0; 65536];
        memory[pc as usize..][..code.len()].copy_from_slice(code);
        World { m, memory }
    }

    /// Settings such as `a=48 hl=2454 f=szxhxvn1 2454:18`, hexadecimal. In
    /// `f` a digit is that bit and any other letter leaves the bit alone.
    pub fn set(&mut self, text: &str) {
        for part in text.split_whitespace() {
            if let Some((address, byte)) = part.split_once(':') {
                self.memory[hex(address) as usize] = hex(byte) as u8;
            } else {
                let (name, value) = part.split_once('=').expect("name=value");
                self.set_register(name, value);
            }
        }
    }

    fn set_register(&mut self, name: &str, value: &str) {
        if name == "f" {
            let f = flags(self.m.f(), value);
            return self.m.set_f(f);
        }
        let value = hex(value);
        let high = |word: &mut u16| *word = *word & 0xFF | value << 8;
        let low = |word: &mut u16| *word = *word & 0xFF00 | value;
        let m = &mut self.m;
        match name {
            "a" => high(&mut m.af),
            "b" => high(&mut m.bc),
            "c" => low(&mut m.bc),
            "d" => high(&mut m.de),
            "h" => high(&mut m.hl),
            "l" => low(&mut m.hl),
            "bc" => m.bc = value,
            "de" => m.de = value,
            "hl" => m.hl = value,
            "bc'" => m.alternate_bc = value,
            "de'" => m.alternate_de = value,
            "hl'" => m.alternate_hl = value,
            "ix" => m.ix = value,
            "iy" => m.iy = value,
            "pc" => m.pc = value,
            "sp" => m.system_sp = value,
            "msr" => m.msr = value,
            "io" => m.io_page = value as u8,
            "bank_af" => m.bank_af = value != 0,
            "bank_others" => m.bank_others = value != 0,
            _ => panic!("no register {name}"),
        }
    }
}

pub fn hex(text: &str) -> u16 {
    u16::from_str_radix(text, 16).expect("hexadecimal")
}

fn flags(old: u8, pattern: &str) -> u8 {
    pattern.chars().enumerate().fold(old, |f, (n, c)| match c {
        '0' => f & !(0x80 >> n),
        '1' => f | 0x80 >> n,
        _ => f,
    })
}
