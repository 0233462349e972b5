use std::fmt;

/// Bytes of an answer, and of an event that is handed to delivery.
pub const ANSWER_BYTES: usize = 12;

/// Which way a port's byte or word goes.
#[derive(Clone, Copy, Debug, PartialEq, Eq, Hash)]
pub enum Direction {
    /// The guest waits for a value from the port.
    In,
    /// The guest hands a value to the port.
    Out,
}

/// What ended a step or a run, with its own data (document 01, "One step, in order").
///
/// "Its address" is PC at the start of the instruction. All events but `Completed`, `AccessViolation` and `Halted`
/// change nothing; `AccessViolation` changes the last faulting descriptor alone.
#[derive(Clone, Copy, Debug, PartialEq, Eq, Hash)]
pub enum Event {
    /// 0: the instruction is done.
    Completed,
    /// 1: an access by an invalid descriptor, or a write by a protected one.
    AccessViolation {
        /// The descriptor's number, 0 to 31.
        descriptor: u8,
        /// The instruction's address.
        address: u16,
    },
    /// 2: no memory there.
    NoMemory {
        /// The physical address, 24 bits.
        physical: u32,
    },
    /// 3: a privileged instruction in user mode.
    Privileged {
        /// The instruction's address.
        address: u16,
    },
    /// 4: the SC instruction.
    SystemCall {
        /// The operand of SC.
        operand: u16,
        /// The address after SC.
        next: u16,
    },
    /// 5: an extended instruction, while TCR's extended bit is 0.
    Extended {
        /// The instruction's address.
        address: u16,
    },
    /// 6: HALT; PC is past it.
    Halted,
    /// 7: HALT, where MSR says break on halt.
    BreakOnHalt {
        /// The instruction's address.
        address: u16,
    },
    /// 8: input or output.
    PortWanted {
        /// The port: I/O page above the 16 bits that the instruction gives.
        port: u32,
        /// Input or output.
        direction: Direction,
    },
    /// 9: no such instruction, or one that this machine leaves out.
    NoInstruction {
        /// The instruction's address.
        address: u16,
    },
}

impl Event {
    /// Document 01's number.
    pub fn number(self) -> u16 {
        self.parts().0
    }

    /// Number, first and second value, in the order of document 01's table.
    fn parts(self) -> (u16, u32, u32) {
        match self {
            Event::Completed => (0, 0, 0),
            Event::AccessViolation { descriptor, address } => (1, descriptor.into(), address.into()),
            Event::NoMemory { physical } => (2, physical, 0),
            Event::Privileged { address } => (3, address.into(), 0),
            Event::SystemCall { operand, next } => (4, operand.into(), next.into()),
            Event::Extended { address } => (5, address.into(), 0),
            Event::Halted => (6, 0, 0),
            Event::BreakOnHalt { address } => (7, address.into(), 0),
            Event::PortWanted { port, direction } => (8, port, (direction == Direction::Out).into()),
            Event::NoInstruction { address } => (9, address.into(), 0),
        }
    }

    /// The 12 bytes that delivery takes; the steps in them are 0.
    ///
    /// ```
    /// let event = z280::Event::SystemCall { operand: 0x1234, next: 0x0104 };
    /// assert_eq!(event.to_bytes(), [4, 0, 0, 0, 0x34, 0x12, 0, 0, 0x04, 0x01, 0, 0]);
    /// assert_eq!(z280::Event::from_bytes(&event.to_bytes()), Some(event));
    /// ```
    pub fn to_bytes(self) -> [u8; ANSWER_BYTES] {
        let (number, first, second) = self.parts();
        let mut bytes = [0; ANSWER_BYTES];
        bytes[..2].copy_from_slice(&number.to_le_bytes());
        bytes[4..8].copy_from_slice(&first.to_le_bytes());
        bytes[8..].copy_from_slice(&second.to_le_bytes());
        bytes
    }

    /// The event in an answer's 12 bytes, all numbers low byte first: event number (16 bits), completed steps (16),
    /// first value (32), second value (32). None where no event has that number and those values.
    pub fn from_bytes(bytes: &[u8; ANSWER_BYTES]) -> Option<Event> {
        let word = |at: usize| u32::from_le_bytes([bytes[at], bytes[at + 1], bytes[at + 2], bytes[at + 3]]);
        let (first, second) = (word(4), word(8));
        let address = first as u16;
        let event = match u16::from_le_bytes([bytes[0], bytes[1]]) {
            0 => Event::Completed,
            1 if first < 32 => Event::AccessViolation { descriptor: first as u8, address: second as u16 },
            2 if first < 1 << 24 => Event::NoMemory { physical: first },
            3 => Event::Privileged { address },
            4 => Event::SystemCall { operand: address, next: second as u16 },
            5 => Event::Extended { address },
            6 => Event::Halted,
            7 => Event::BreakOnHalt { address },
            8 if first < 1 << 24 => {
                let direction = if second == 0 { Direction::In } else { Direction::Out };
                Event::PortWanted { port: first, direction }
            }
            9 => Event::NoInstruction { address },
            _ => return None,
        };
        // Values that were cut short to fit, or are not carried, show here.
        (event.parts() == (event.number(), first, second)).then_some(event)
    }
}

impl fmt::Display for Event {
    fn fmt(&self, f: &mut fmt::Formatter<'_>) -> fmt::Result {
        match *self {
            Event::Completed => write!(f, "completed"),
            Event::AccessViolation { descriptor, address } => {
                write!(f, "access violation by descriptor {descriptor} in the instruction at {address:04X}h")
            }
            Event::NoMemory { physical } => write!(f, "no memory at physical address {physical:06X}h"),
            Event::Privileged { address } => write!(f, "privileged instruction at {address:04X}h in user mode"),
            Event::SystemCall { operand, next } => {
                write!(f, "system call {operand:04X}h, next address {next:04X}h")
            }
            Event::Extended { address } => write!(f, "extended instruction at {address:04X}h"),
            Event::Halted => write!(f, "halted"),
            Event::BreakOnHalt { address } => write!(f, "break on halt at {address:04X}h"),
            Event::PortWanted { port, direction: Direction::In } => write!(f, "input wanted from port {port:06X}h"),
            Event::PortWanted { port, direction: Direction::Out } => write!(f, "output wanted to port {port:06X}h"),
            Event::NoInstruction { address } => write!(f, "no instruction of this machine at {address:04X}h"),
        }
    }
}

#[cfg(test)]
mod tests {
    use super::*;

    /// One of each, with the largest values that it can carry.
    const EACH: [Event; 11] = [
        Event::Completed,
        Event::AccessViolation { descriptor: 31, address: 0xFFFF },
        Event::NoMemory { physical: 0xFF_FFFF },
        Event::Privileged { address: 0xFFFF },
        Event::SystemCall { operand: 0xFFFF, next: 0xFFFE },
        Event::Extended { address: 0xFFFF },
        Event::Halted,
        Event::BreakOnHalt { address: 0xFFFF },
        Event::PortWanted { port: 0xFF_FFFF, direction: Direction::In },
        Event::PortWanted { port: 1, direction: Direction::Out },
        Event::NoInstruction { address: 0xFFFF },
    ];

    #[test]
    fn bytes_go_both_ways() {
        for event in EACH {
            assert_eq!(Event::from_bytes(&event.to_bytes()), Some(event));
        }
    }

    #[test]
    fn steps_are_not_part_of_the_event() {
        let mut bytes = Event::Halted.to_bytes();
        bytes[2] = 77;
        assert_eq!(Event::from_bytes(&bytes), Some(Event::Halted));
    }

    #[test]
    fn values_that_no_event_has_are_none() {
        for event in EACH {
            let mut bytes = event.to_bytes();
            bytes[7] = 1;
            assert_eq!(Event::from_bytes(&bytes), None, "first value too large: {event}");
            let mut bytes = event.to_bytes();
            bytes[11] = 1;
            assert_eq!(Event::from_bytes(&bytes), None, "second value too large: {event}");
        }
        let mut bytes = Event::Completed.to_bytes();
        bytes[0] = 10;
        assert_eq!(Event::from_bytes(&bytes), None);
    }
}
