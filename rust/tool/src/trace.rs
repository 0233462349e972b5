use crate::args::{Args, Known};
use crate::drive::{ending, Host, Reaction};
use crate::failure::Failure;
use crate::guest::Guest;
use crate::names::REGISTERS;
use crate::place::bytes_at_pc;
use std::io::Write;
use z280::{disassemble, Event, Machine};

pub const KNOWN: Known = Known { flags: &["deliver", "make-valid"], values: &["steps", "set", "out"] };

const STEPS: u32 = 100;

/// Runs a guest step by step, one line each.
pub fn command(args: &Args, out: &mut dyn Write) -> Result<(), Failure> {
    let limit = args.number("steps", u32::MAX)?.unwrap_or(STEPS);
    let mut guest = Guest::read(args.file()?, args)?;
    let host = Host::new(args);
    let mut steps = 0;
    let mut last = Event::Completed;
    for _ in 0..limit {
        let start = instruction(&guest);
        let before = guest.machine.clone();
        let memory = guest.memory.clone();
        let event = guest.machine.step(&mut guest.memory)?;
        let mut notes = changes(&before, &guest.machine);
        notes.extend(written(&memory, &guest.memory));
        if event == Event::Completed {
            steps += 1;
        } else {
            notes.push(format!("event {}: {event}", event.number()));
        }
        writeln!(out, "{}", format!("{start}{}", notes.join(" ")).trim_end())?;
        last = event;
        if event == Event::Completed {
            continue;
        }
        match react(&host, &mut guest, event)? {
            Some(line) => writeln!(out, "{line}")?,
            None => break,
        }
        last = Event::Completed;
    }
    writeln!(out, "{}", ending(&guest, last, steps))?;
    match args.value("out") {
        Some(path) => guest.write_image(path),
        None => Ok(()),
    }
}

/// Lets the host act, and tells in a line what it did.
fn react(host: &Host, guest: &mut Guest, event: Event) -> Result<Option<String>, Failure> {
    let before = guest.machine.clone();
    let memory = guest.memory.clone();
    let what = match host.react(guest, event)? {
        Reaction::Stop => return Ok(None),
        Reaction::Delivered => format!("-- trap delivered, PC={:04X}", guest.machine.pc()),
        Reaction::MadeValid(number) => format!("-- page of descriptor {number} made valid"),
    };
    let mut notes = changes(&before, &guest.machine);
    notes.extend(written(&memory, &guest.memory));
    Ok(Some(format!("{what} {}", notes.join(" "))))
}

/// Address, bytes and mnemonic of what comes next, filled up to the column of what changed.
fn instruction(guest: &Guest) -> String {
    let bytes = bytes_at_pc(guest);
    let pc = guest.machine.pc();
    let found = disassemble(&bytes, pc);
    let listed: Vec<String> = bytes[..found.length].iter().map(|byte| format!("{byte:02X}")).collect();
    let text = if bytes.is_empty() { "(not there)" } else { &found.text };
    format!("{pc:04X}  {:<18}{text:<24}", listed.join(" "))
}

/// Registers, control registers and descriptors that differ, with their new values. PC is the next line's address.
fn changes(before: &Machine, after: &Machine) -> Vec<String> {
    let mut notes = Vec::new();
    for (name, label, get, _) in REGISTERS {
        let (old, new) = (get(before), get(after));
        match name {
            _ if old == new => (),
            "pc" => (),
            "af" => notes.extend(accumulator_and_flags(old, new)),
            _ => notes.push(format!("{label}={new:04X}")),
        }
    }
    let mut note = |label: &str, digits: usize, old: u16, new: u16| {
        if old != new {
            notes.push(format!("{label}={new:0digits$X}"));
        }
    };
    note("BANKAF", 1, before.bank_af().into(), after.bank_af().into());
    note("BANKX", 1, before.bank_others().into(), after.bank_others().into());
    note("MSR", 4, before.msr(), after.msr());
    note("TCR", 2, before.tcr().into(), after.tcr().into());
    note("IOPAGE", 2, before.iopage().into(), after.iopage().into());
    note("LIMIT", 4, before.limit(), after.limit());
    note("VECTOR", 4, before.vector(), after.vector());
    note("MMU", 4, before.mmu(), after.mmu());
    for number in 0..32 {
        let of = |machine: &Machine| machine.descriptor(number).expect("a number below 32");
        note(&format!("D{number}"), 4, of(before), of(after));
    }
    notes
}

/// F by its six flags, a letter where one is set; the two bits without a name where they changed.
fn accumulator_and_flags(old: u16, new: u16) -> Vec<String> {
    let mut notes = Vec::new();
    if old >> 8 != new >> 8 {
        notes.push(format!("A={:02X}", new >> 8));
    }
    if old & 0xFF != new & 0xFF {
        let flags = [(0x80, 'S'), (0x40, 'Z'), (0x10, 'H'), (0x04, 'V'), (0x02, 'N'), (0x01, 'C')];
        let text: String = flags.iter().map(|&(bit, letter)| if new & bit != 0 { letter } else { '-' }).collect();
        notes.push(format!("F={text}"));
    }
    for (bit, number) in [(0x20, 5), (0x08, 3)] {
        if (old ^ new) & bit != 0 {
            notes.push(format!("F{number}={}", u8::from(new & bit != 0)));
        }
    }
    notes
}

/// Bytes of memory that differ, by physical address; neighbours together.
fn written(before: &[u8], after: &[u8]) -> Vec<String> {
    let mut notes: Vec<String> = Vec::new();
    let mut past = usize::MAX;
    for (at, (_, new)) in before.iter().zip(after).enumerate().filter(|(_, (old, new))| old != new) {
        match notes.last_mut() {
            Some(note) if past == at => note.push_str(&format!(" {new:02X}")),
            _ => notes.push(format!("[{at:04X}]={new:02X}")),
        }
        past = at + 1;
    }
    notes
}

#[cfg(test)]
mod tests {
    use super::*;

    #[test]
    fn flags_are_named_where_they_changed() {
        assert_eq!(accumulator_and_flags(0x0000, 0x0500), ["A=05"]);
        assert_eq!(accumulator_and_flags(0x0500, 0x05D7), ["F=SZHVNC"]);
        assert_eq!(accumulator_and_flags(0x0500, 0x0628), ["A=06", "F=------", "F5=1", "F3=1"]);
    }

    #[test]
    fn neighbouring_bytes_stand_together() {
        assert_eq!(written(&[0; 6], &[0, 1, 2, 0, 0, 3]), ["[0001]=01 02", "[0005]=03"]);
    }

    #[test]
    fn every_part_of_the_record_is_noticed() {
        let before = Machine::reset(1).unwrap();
        let parts = crate::names::NAMES.split(' ').filter(|name| !["to", "pc", "frames"].contains(name));
        for name in parts {
            let mut after = before.clone();
            let value = if ["limit", "vector"].contains(&name) { "10h" } else { "1" };
            crate::names::assign(&mut after, &format!("{name}={value}")).ok().unwrap();
            assert_eq!(changes(&before, &after).len(), 1, "{name}");
        }
    }
}
