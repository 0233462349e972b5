//! Ports (5.4.8): no more than which one is wanted.

use crate::decode::PortBy;
use crate::machine::Machine;

/// The 24 bit address. B is as it stands before a block instruction counts it
/// (3696, 5642).
pub fn wanted(m: &Machine, by: PortBy) -> u32 {
    let low = match by {
        PortBy::Number(n) => m.af & 0xFF00 | u16::from(n),
        PortBy::Bc => m.bc,
    };
    u32::from(m.io_page) << 16 | u32::from(low)
}
