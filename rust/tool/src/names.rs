//! The parts of a machine by the names that `--set` and hex files use, those of tools/image.py.

use crate::failure::Failure;
use crate::number::number;
use z280::{Machine, Refusal};

type Get = fn(&Machine) -> u16;
type Set = fn(&mut Machine, u16);

/// Registers of 16 bits: name, as a trace writes it, getter and setter.
pub const REGISTERS: [(&str, &str, Get, Set); 13] = [
    ("af", "AF", Machine::af, Machine::set_af),
    ("bc", "BC", Machine::bc, Machine::set_bc),
    ("de", "DE", Machine::de, Machine::set_de),
    ("hl", "HL", Machine::hl, Machine::set_hl),
    ("af2", "AF'", Machine::af_alt, Machine::set_af_alt),
    ("bc2", "BC'", Machine::bc_alt, Machine::set_bc_alt),
    ("de2", "DE'", Machine::de_alt, Machine::set_de_alt),
    ("hl2", "HL'", Machine::hl_alt, Machine::set_hl_alt),
    ("ix", "IX", Machine::ix, Machine::set_ix),
    ("iy", "IY", Machine::iy, Machine::set_iy),
    ("pc", "PC", Machine::pc, Machine::set_pc),
    ("ssp", "SSP", Machine::ssp, Machine::set_ssp),
    ("usp", "USP", Machine::usp, Machine::set_usp),
];

/// All names, for messages.
pub const NAMES: &str = "af bc de hl af2 bc2 de2 hl2 ix iy pc ssp usp bankaf bankx msr tcr iopage limit vector mmu \
                         d0 to d31 frames";

/// Carries out NAME=VALUE.
pub fn assign(machine: &mut Machine, assignment: &str) -> Result<(), Failure> {
    let Some((name, text)) = assignment.split_once('=') else {
        return Err(Failure::Usage(format!("'{assignment}' has to be NAME=VALUE, NAME one of {NAMES}")));
    };
    let (name, text) = (name.trim().to_ascii_lowercase(), text.trim());
    let word = || number(text, 0xFFFF).map(|value| value as u16);
    let byte = || number(text, 0xFF).map(|value| value as u8);
    let bit = || number(text, 1).map(|value| value == 1);
    if let Some((_, _, _, set)) = REGISTERS.iter().find(|register| register.0 == name) {
        set(machine, word()?);
        return Ok(());
    }
    match name.as_str() {
        "bankaf" => machine.set_bank_af(bit()?),
        "bankx" => machine.set_bank_others(bit()?),
        "iopage" => machine.set_iopage(byte()?),
        _ => {
            let done: Result<(), Refusal> = match name.as_str() {
                "msr" => machine.set_msr(word()?),
                "tcr" => machine.set_tcr(byte()?),
                "limit" => machine.set_limit(word()?),
                "vector" => machine.set_vector(word()?),
                "mmu" => machine.set_mmu(word()?),
                "frames" => machine.set_frames(byte()?),
                _ => machine.set_descriptor(descriptor(&name)?, word()?),
            };
            done.map_err(|refusal| Failure::Input(format!("{assignment}: {refusal}")))?;
        }
    }
    Ok(())
}

fn descriptor(name: &str) -> Result<u8, Failure> {
    name.strip_prefix('d')
        .and_then(|digits| digits.parse().ok())
        .filter(|number| *number < 32)
        .ok_or_else(|| Failure::Usage(format!("nothing is named '{name}'; names are {NAMES}")))
}

#[cfg(test)]
mod tests {
    use super::*;

    #[test]
    fn every_name_can_be_set_and_only_those() {
        let mut machine = Machine::reset(1).unwrap();
        for name in NAMES.split(' ').filter(|name| *name != "to") {
            assert!(
                assign(&mut machine, &format!("{name}=1")).is_ok() || ["limit", "vector"].contains(&name),
                "{name}"
            );
        }
        assert!(assign(&mut machine, "limit=10h").is_ok() && assign(&mut machine, "VECTOR = 0x20").is_ok());
        assert_eq!((machine.limit(), machine.vector(), machine.frames()), (0x10, 0x20, 1));
        for wrong in
            ["af", "xx=1", "d32=1", "d=1", "af=65536", "tcr=256", "tcr=8", "msr=8000h", "bankaf=2", "frames=17"]
        {
            assert!(assign(&mut machine, wrong).is_err(), "{wrong}");
        }
    }
}
