//! Where an instruction's bytes lie (document 01, "From logical to physical"): for showing them, before the step. The
//! machine itself does its own translation; the test below holds the two together.

use crate::guest::Guest;
use z280::Machine;

/// The physical address of a logical one, for fetching an instruction; or the descriptor that isn't valid.
pub fn fetch_place(machine: &Machine, address: u16) -> Result<usize, u8> {
    let (translate, separate, first) = if machine.user() { (0x8000, 0x4000, 0) } else { (0x0800, 0x0400, 16) };
    if machine.mmu() & translate == 0 {
        return Ok(address.into());
    }
    // Separated pages have 13 bits and the program its own eight descriptors; the frame field's lowest bit is dropped.
    let separated = machine.mmu() & separate != 0;
    let (bits, first) = if separated { (13, first + 8) } else { (12, first) };
    let number = first + (address >> bits) as u8;
    let descriptor = machine.descriptor(number).expect("a number below 32");
    if descriptor & 8 == 0 {
        return Err(number);
    }
    let frame = usize::from(descriptor >> (bits - 8));
    Ok(frame << bits | usize::from(address) & ((1 << bits) - 1))
}

/// The bytes from PC on, as far as they are there, at most as many as the longest instruction has.
pub fn bytes_at_pc(guest: &Guest) -> Vec<u8> {
    let byte = |ahead: u16| {
        let place = fetch_place(&guest.machine, guest.machine.pc().wrapping_add(ahead)).ok()?;
        guest.memory.get(place).copied()
    };
    (0..8).map_while(byte).collect()
}

#[cfg(test)]
mod tests {
    use super::*;
    use z280::Event;

    /// A step on memory full of HALT tells where the machine looked for its first byte.
    #[test]
    fn the_machine_fetches_from_there() {
        let mut state = 0x2545_F491_4F6C_DD1D_u64;
        let mut random = || {
            state ^= state << 13;
            state ^= state >> 7;
            state ^= state << 17;
            (state >> 24) as u16
        };
        let mut seen = [0; 3];
        for _ in 0..20_000 {
            let mut machine = Machine::reset(16).unwrap();
            machine.set_msr(random() & 0x4000).unwrap();
            machine.set_mmu(random() & 0xCC00).unwrap();
            machine.set_pc(random());
            for number in 0..32 {
                machine.set_descriptor(number, random() & 0x01FF).unwrap();
            }
            let (place, address) = (fetch_place(&machine, machine.pc()), machine.pc());
            let mut memory = vec![0; machine.memory_len()];
            if let Some(byte) = place.ok().and_then(|place| memory.get_mut(place)) {
                *byte = 0x76;
            }
            let event = machine.clone().step(&mut memory).unwrap();
            match place {
                Err(descriptor) => assert_eq!(event, Event::AccessViolation { descriptor, address }),
                Ok(place) if place >= memory.len() => assert_eq!(event, Event::NoMemory { physical: place as u32 }),
                Ok(_) if machine.user() => assert_eq!(event, Event::Privileged { address }),
                Ok(_) => assert_eq!(event, Event::Halted),
            }
            seen[match place {
                Err(_) => 0,
                Ok(place) if place >= memory.len() => 1,
                Ok(_) => 2,
            }] += 1;
        }
        assert!(seen.iter().all(|&count| count > 1000), "{seen:?}");
    }
}
