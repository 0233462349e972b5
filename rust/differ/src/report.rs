//! Mismatches and totals, for people.

use std::fmt::{self, Display, Formatter, Write};

use second::decode::codes::{all, instruction, OPENING_NAMES};
use second::decode::Ins;
use second::{form, Machine};

use crate::pair::{Call, Side};
use crate::tally::{Tally, EVENTS, REFUSALS};

/// One mismatch in full: everything that is needed to see it again.
pub struct Mismatch(String);

impl Mismatch {
    pub fn new(round: u64, call: Call, results: (u8, u8), sides: (&Side, &Side, &Side)) -> Mismatch {
        let mut text = String::new();
        describe(&mut text, round, call, results, sides).expect("writing to a string");
        Mismatch(text)
    }

    pub fn of_guest(round: u64, budget: u16, whole: &Machine, held: &Machine) -> Mismatch {
        Mismatch(format!(
            "round {round}: a guest with withheld pages ends otherwise, budget {budget}\n  \
             whole {whole:04X?}\n  held  {held:04X?}\n"
        ))
    }
}

impl Display for Mismatch {
    fn fmt(&self, f: &mut Formatter) -> fmt::Result {
        f.write_str(&self.0)
    }
}

fn hex(bytes: &[u8]) -> String {
    bytes.iter().map(|byte| format!("{byte:02X}")).collect()
}

fn describe(
    out: &mut String,
    round: u64,
    call: Call,
    (by_proved, by_second): (u8, u8),
    (before, proved, second): (&Side, &Side, &Side),
) -> fmt::Result {
    writeln!(out, "mismatch in round {round}: {call:?}, refusals: proved {by_proved}, second {by_second}")?;
    writeln!(out, "  form before   {}", hex(before.form.bytes()))?;
    writeln!(out, "  form proved   {}", hex(proved.form.bytes()))?;
    writeln!(out, "  form second   {}", hex(second.form.bytes()))?;
    for (name, side) in [("before", before), ("proved", proved), ("second", second)] {
        match form::read(side.form.bytes()) {
            Ok((m, frames)) => writeln!(out, "  {name}: {frames} frames, {m:04X?}")?,
            Err(refusal) => writeln!(out, "  {name}: a form with refusal {refusal:?}")?,
        }
    }
    writeln!(out, "  answer before {}", hex(before.answer.bytes()))?;
    writeln!(out, "  answer proved {}", hex(proved.answer.bytes()))?;
    writeln!(out, "  answer second {}", hex(second.answer.bytes()))?;
    writeln!(out, "  memory of {} bytes", before.memory.bytes().len())?;
    instruction_bytes(out, before)?;
    memory_differences(out, before, proved, second)?;
    for (name, same) in [
        ("form", proved.form.guarded() == second.form.guarded()),
        ("memory", proved.memory.guarded() == second.memory.guarded()),
        ("answer", proved.answer.guarded() == second.answer.guarded()),
    ] {
        if !same {
            writeln!(out, "  {name} or its guard bytes differ")?;
        }
    }
    Ok(())
}

fn instruction_bytes(out: &mut String, before: &Side) -> fmt::Result {
    let Ok((m, _)) = form::read(before.form.bytes()) else {
        return Ok(());
    };
    let memory = before.memory.bytes();
    write!(out, "  bytes at PC {:04X}:", m.pc)?;
    for n in 0..8 {
        match crate::record::program_place(&m, n, memory.len()) {
            Some(at) => write!(out, " {:02X}", memory[at])?,
            None => write!(out, " --")?,
        }
    }
    writeln!(out)
}

fn memory_differences(out: &mut String, before: &Side, proved: &Side, second: &Side) -> fmt::Result {
    let triples = before.memory.bytes().iter().zip(proved.memory.bytes()).zip(second.memory.bytes());
    let differing = triples.enumerate().filter(|(_, ((_, p), s))| p != s);
    for (at, ((b, p), s)) in differing.take(16) {
        writeln!(out, "  memory {at:05X}: before {b:02X}, proved {p:02X}, second {s:02X}")?;
    }
    Ok(())
}

/// The totals of a whole run.
pub fn print_totals(tally: &Tally) {
    println!("calls and refusals");
    println!("  {:<12}{:>12}   by refusal number", "call", "calls");
    for (call, name) in Call::NAMES.iter().enumerate() {
        let refusals = &tally.refusals[call];
        let listed: Vec<String> =
            (0..REFUSALS).filter(|&n| refusals[n] > 0).map(|n| format!("{n}: {}", refusals[n])).collect();
        println!("  {:<12}{:>12}   {}", name, refusals.iter().sum::<u64>(), listed.join(", "));
    }
    println!("events");
    for (name, events) in ["step", "run"].iter().zip(&tally.events) {
        let listed: Vec<String> = (0..EVENTS).map(|n| format!("{n}: {}", events[n])).collect();
        println!("  {:<12}{}", name, listed.join(", "));
    }
    println!("steps completed inside runs: {}", tally.run_steps);
    println!("steps that wrote to two pages: {}", tally.over_borders);
    println!("events of runs delivered: {}", tally.delivered_in_stories);
    println!(
        "withheld guests: {}, of which resumed {}, resumptions {}",
        tally.guests, tally.resumed_guests, tally.resumptions
    );
    print_grounds(tally);
    print_codes(tally);
}

fn print_grounds(tally: &Tally) {
    println!("steps by mode and translation");
    for (mode, name) in ["user", "system"].iter().enumerate() {
        let counts: Vec<String> = ["off", "on", "separated"]
            .iter()
            .enumerate()
            .map(|(n, way)| format!("{way} {}", tally.grounds[mode][n].iter().sum::<u64>()))
            .collect();
        println!("  {:<12}{}", name, counts.join(", "));
    }
}

fn print_codes(tally: &Tally) {
    println!("operation codes: built and completed, ports, extended, no instruction; fewest steps of a code");
    for (opening, name) in OPENING_NAMES.iter().enumerate() {
        let mut classes = [0; 4];
        let mut fewest = u64::MAX;
        for (_, code) in all().filter(|&(o, _)| o == opening) {
            let counts = &tally.codes[opening][usize::from(code)];
            let (class, wanted) = match instruction(opening, code).0 {
                Ins::Port { .. } => (1, 8),
                Ins::Extended => (2, 5),
                Ins::None => (3, 9),
                Ins::Halt => (0, 6),
                Ins::SystemCall(_) => (0, 4),
                _ => (0, 0),
            };
            classes[class] += u32::from(counts[wanted] > 0);
            fewest = fewest.min(counts[wanted]);
        }
        let [built, ports, extended, none] = classes;
        println!("  {name:<12}{built:>4} {ports:>4} {extended:>4} {none:>4}; {fewest}");
    }
}
