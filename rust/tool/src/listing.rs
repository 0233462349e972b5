use crate::args::{Args, Known};
use crate::failure::Failure;
use crate::guest::{is_hex, parse_hex, read_file, Guest};
use std::io::Write;
use z280::{disassemble, Class, Disassembled};

pub const KNOWN: Known = Known { flags: &[], values: &["at", "from", "count"] };

/// Instructions of an image that are listed where nothing else is said.
const COUNT: u32 = 16;

/// Disassembles a hex file, an image's memory, or a file of bytes.
pub fn command(args: &Args, out: &mut dyn Write) -> Result<(), Failure> {
    let path = args.file()?;
    let bytes = read_file(path)?;
    let from = args.number("from", 0xFFFF)?.map(|from| from as usize);
    let count = args.number("count", u32::MAX)?;
    if is_hex(path) {
        for (address, bytes) in parse_hex(path, &bytes)?.pieces {
            list(&bytes, address, from.unwrap_or(address), count, out)?;
        }
        return Ok(());
    }
    if let (Ok(guest), None) = (Guest::from_image(&bytes), args.value("at")) {
        let from = from.unwrap_or(guest.machine.pc().into());
        return list(&guest.memory, 0, from, count.or(Some(COUNT)), out);
    }
    let at = args.number("at", 0xFFFF)?.unwrap_or(0) as usize;
    list(&bytes, at, from.unwrap_or(at), count, out)
}

/// Lists bytes that stand at an address, from another address on.
fn list(bytes: &[u8], at: usize, from: usize, count: Option<u32>, out: &mut dyn Write) -> Result<(), Failure> {
    let mut next = from.saturating_sub(at);
    let mut left = count.unwrap_or(u32::MAX);
    while next < bytes.len() && left > 0 {
        let found = disassemble(&bytes[next..], (at + next) as u16);
        writeln!(out, "{}", line(&bytes[next..next + found.length], (at + next) as u16, &found))?;
        next += found.length;
        left -= 1;
    }
    Ok(())
}

fn line(bytes: &[u8], address: u16, found: &Disassembled) -> String {
    let listed: Vec<String> = bytes.iter().map(|byte| format!("{byte:02X}")).collect();
    let mut remarks = Vec::new();
    if let Some(target) = found.target.filter(|_| found.text.contains("(PC")) {
        remarks.push(format!("at {target:04X}H"));
    }
    remarks.extend(match found.class {
        Class::Built => None,
        Class::Port => Some("stops with event 8".to_string()),
        Class::LeftOut => Some("left out: event 9".to_string()),
        Class::Extended => Some("extended: event 5".to_string()),
        Class::Undefined => Some("no such instruction: event 9".to_string()),
        Class::Cut => Some("the bytes end here".to_string()),
    });
    let remark = if remarks.is_empty() { String::new() } else { format!("; {}", remarks.join(", ")) };
    format!("{address:04X}  {:<24}{:<24}{remark}", listed.join(" "), found.text).trim_end().to_string()
}
