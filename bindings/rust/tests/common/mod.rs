//! What document 01's examples start from.

use pmmu::{Family, Registers};

pub const LOGICAL: u32 = 0x0204_1ABC;

/// Family 30, enabled, TC 80C07760, CRP limit 80000002, CRP address 1000.
pub fn registers() -> Registers {
    Registers {
        family: Family::M68030,
        present: true,
        enabled: true,
        tc: 0x80C0_7760,
        crp_limit: 0x8000_0002,
        crp_address: 0x1000,
        ..Registers::default()
    }
}

/// 1004=2002, 2004=3002, 3004=55001, and these.
pub fn longs(others: &[(u32, u32)]) -> Vec<u32> {
    let mut longs = vec![0; 0x2000];
    for &(address, value) in [(0x1004, 0x2002), (0x2004, 0x3002), (0x3004, 0x5_5001)].iter().chain(others) {
        longs[address as usize / 4] = value;
    }
    longs
}
