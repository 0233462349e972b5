//! Loads and exchanges, 8 and 16 bit (5.4.1, 5.4.2). Only POP AF and
//! EX AF,AF' touch the flags: they load F whole.

use std::mem::swap;

use crate::cycle::{Cycle, Outcome, Place};
use crate::decode::{Byte, Load};
use crate::machine::{Machine, Reg16, Reg8};

pub fn execute(c: &mut Cycle, load: Load) -> Outcome<()> {
    match load {
        Load::Byte { to, from } => {
            let value = c.get(from)?;
            c.put(to, value);
        }
        Load::ExchangeA(with) => exchange_a(c, with)?,
        Load::ExchangeHWithL => c.m.hl = c.m.hl.swap_bytes(),
        Load::Word { to, from } => {
            let value = c.get_word(from)?;
            c.put_word(to, value);
        }
        // The address alone, with no access (4297).
        Load::Address { to, of } => c.m.set16(to, c.place(of).address),
        Load::ExchangeWithHl(with) => {
            let value = c.m.get16(with);
            c.m.set16(with, c.m.hl);
            c.m.hl = value;
        }
        Load::ExchangeWithTop(r) => exchange_with_top(c, r)?,
        Load::Push(from) => {
            let value = c.get_word(from)?;
            c.push(value);
        }
        Load::Pop(to) => {
            let value = c.pop()?;
            c.put_word(to, value);
        }
        Load::ExchangeAf => exchange_af(&mut c.m),
        Load::ExchangeOthers => exchange_others(&mut c.m),
    }
    Ok(())
}

fn exchange_a(c: &mut Cycle, with: Byte) -> Outcome<()> {
    let (value, a) = (c.get(with)?, c.m.get8(Reg8::A));
    c.put(with, a);
    c.m.set8(Reg8::A, value);
    Ok(())
}

fn exchange_with_top(c: &mut Cycle, r: Reg16) -> Outcome<()> {
    let top = Place::data(c.m.get16(Reg16::Sp));
    let value = c.read_word(top)?;
    c.write_word(top, c.m.get16(r));
    c.m.set16(r, value);
    Ok(())
}

/// The values swap and the bank bit turns over (document 01; 3105).
fn exchange_af(m: &mut Machine) {
    swap(&mut m.af, &mut m.alternate_af);
    m.bank_af = !m.bank_af;
}

/// The same for the other three pairs (3357).
fn exchange_others(m: &mut Machine) {
    swap(&mut m.bc, &mut m.alternate_bc);
    swap(&mut m.de, &mut m.alternate_de);
    swap(&mut m.hl, &mut m.alternate_hl);
    m.bank_others = !m.bank_others;
}
