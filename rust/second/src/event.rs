//! Events and refusals, with document 01's numbers.

/// What a step ends with.
#[derive(Clone, Copy, PartialEq, Eq, Debug)]
pub enum Event {
    Completed,
    AccessViolation { descriptor: u8, address: u16 },
    NoMemory { physical: u32 },
    Privileged { address: u16 },
    SystemCall { operand: u16, next: u16 },
    Extended { address: u16 },
    Halted,
    BreakOnHalt { address: u16 },
    Port { port: u32, output: bool },
    NoInstruction { address: u16 },
}

impl Event {
    /// Number, first and second value, in the order of document 01's table.
    pub fn numbers(self) -> (u16, u32, u32) {
        match self {
            Event::Completed => (0, 0, 0),
            Event::AccessViolation { descriptor, address } => (1, descriptor.into(), address.into()),
            Event::NoMemory { physical } => (2, physical, 0),
            Event::Privileged { address } => (3, address.into(), 0),
            Event::SystemCall { operand, next } => (4, operand.into(), next.into()),
            Event::Extended { address } => (5, address.into(), 0),
            Event::Halted => (6, 0, 0),
            Event::BreakOnHalt { address } => (7, address.into(), 0),
            Event::Port { port, output } => (8, port, output.into()),
            Event::NoInstruction { address } => (9, address.into(), 0),
        }
    }
}

/// Document 01, Refusal numbers.
#[derive(Clone, Copy, PartialEq, Eq, Debug)]
#[repr(u8)]
pub enum Refusal {
    Memory = 1,
    Bits = 2,
    Length = 3,
    Version = 4,
    Padding = 5,
    DescriptorNumber = 6,
    AlreadyValid = 7,
    Undeliverable = 8,
    Fatal = 9,
    Frames = 10,
}
