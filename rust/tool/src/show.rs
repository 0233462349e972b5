use crate::args::{Args, Known};
use crate::failure::Failure;
use crate::guest::Guest;
use crate::names::REGISTERS;
use crate::place::bytes_at_pc;
use std::io::Write;
use z280::{disassemble, Machine};

pub const KNOWN: Known = Known { flags: &[], values: &["set"] };

/// A stored form in words.
pub fn command(args: &Args, out: &mut dyn Write) -> Result<(), Failure> {
    let guest = Guest::read(args.file()?, args)?;
    let machine = &guest.machine;
    writeln!(out, "frames   {} ({} bytes of memory)", machine.frames(), machine.memory_len())?;
    for row in REGISTERS.chunks(4) {
        let cells: Vec<String> =
            row.iter().map(|(_, label, get, _)| format!("{label:<4} {:04X}", get(machine))).collect();
        writeln!(out, "{}", cells.join("   "))?;
    }
    let next = disassemble(&bytes_at_pc(&guest), machine.pc());
    writeln!(out, "next     {}", if next.length == 0 { "(no memory there)" } else { &next.text })?;
    writeln!(out, "flags    {}", flags(machine.af()))?;
    writeln!(out, "banks    AF {}, BC DE HL {}", bank(machine.bank_af()), bank(machine.bank_others()))?;
    controls(machine, out)?;
    descriptors(machine, out)
}

fn bank(alternate: bool) -> &'static str {
    if alternate {
        "alternate"
    } else {
        "first"
    }
}

/// The names of the bits that are set.
fn named(value: u16, names: &[(u16, &'static str)]) -> String {
    let set: Vec<&str> = names.iter().filter(|(bit, _)| value & bit != 0).map(|(_, name)| *name).collect();
    if set.is_empty() {
        "none set".to_string()
    } else {
        set.join(", ")
    }
}

fn flags(af: u16) -> String {
    let names = [
        (0x80, "S sign"),
        (0x40, "Z zero"),
        (0x10, "H half carry"),
        (0x04, "P/V parity or overflow"),
        (0x02, "N subtract"),
        (0x01, "C carry"),
    ];
    named(af, &names)
}

fn controls(machine: &Machine, out: &mut dyn Write) -> Result<(), Failure> {
    let msr = machine.msr();
    let mode = if machine.user() { "user mode" } else { "system mode" };
    let bits = named(msr, &[(0x1000, "break on halt"), (0x0200, "single-step pending"), (0x0100, "single-step")]);
    writeln!(out, "MSR      {msr:04X}  {mode}; {bits}; interrupt enables {:02X}", msr & 0x7F)?;
    let tcr = machine.tcr();
    let bits = named(tcr.into(), &[(4, "user I/O inhibited"), (2, "extended unit"), (1, "stack warning")]);
    writeln!(out, "TCR      {tcr:02X}    {bits}")?;
    writeln!(out, "I/O page {:02X}", machine.iopage())?;
    writeln!(out, "limit    {:04X}", machine.limit())?;
    let vector = machine.vector();
    writeln!(out, "vector   {vector:04X}  table at physical address {:06X}", u32::from(vector >> 4) << 12)?;
    let mmu = machine.mmu();
    let names = [
        (0x8000, "user translate"),
        (0x4000, "user separation"),
        (0x0800, "system translate"),
        (0x0400, "system separation"),
    ];
    writeln!(out, "MMU      {mmu:04X}  {}; last faulting descriptor {}", named(mmu, &names), mmu & 0x1F)?;
    Ok(())
}

fn descriptors(machine: &Machine, out: &mut dyn Write) -> Result<(), Failure> {
    let mut zero = 0;
    for number in 0..32 {
        let descriptor = machine.descriptor(number)?;
        if descriptor == 0 {
            zero += 1;
            continue;
        }
        let mode = if number < 16 { "user" } else { "system" };
        let bits = named(descriptor, &[(8, "valid"), (4, "write protected"), (2, "cacheable"), (1, "modified")]);
        writeln!(out, "D{number:<7} {descriptor:04X}  {mode} page, frame {:03X}h; {bits}", descriptor >> 4)?;
    }
    if zero > 0 {
        writeln!(out, "{zero} of 32 descriptors are zero")?;
    }
    Ok(())
}
