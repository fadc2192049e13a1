//! Table memory: 8,192 longs at 0, and at most 16 bus-error ranges.

use crate::core::memory::{AddressBus, BusFault, BusFaultKind};

const LONGS: usize = 8192;
const RANGES: usize = 16;

pub struct Tables {
    longs: Box<[u32; LONGS]>,
    /// First and last address of each, both inside.
    ranges: [(u32, u32); RANGES],
    range_count: usize,
    /// Longs asked for, failing ones included.
    pub count: u32,
}

impl Tables {
    pub fn new() -> Self {
        Tables { longs: Box::new([0; LONGS]), ranges: [(0, 0); RANGES], range_count: 0, count: 0 }
    }

    pub fn store(&mut self, address: u32, value: u32) -> Result<(), u8> {
        if !address.is_multiple_of(4) {
            return Err(2);
        }
        *self.longs.get_mut((address / 4) as usize).ok_or(2)? = value;
        Ok(())
    }

    pub fn add_range(&mut self, first: u32, last: u32) -> Result<(), u8> {
        if first > last {
            return Err(3);
        }
        *self.ranges.get_mut(self.range_count).ok_or(8)? = (first, last);
        self.range_count += 1;
        Ok(())
    }

    /// Whether a byte of the long lies in a range. (The long lies in the longs, so
    /// its last byte has an address.)
    #[inline]
    fn in_range(&self, address: u32) -> bool {
        self.ranges[..self.range_count].iter().any(|&(first, last)| first <= address + 3 && address <= last)
    }
}

impl AddressBus for Tables {
    #[inline]
    fn try_read_long(&mut self, address: u32) -> Result<u32, BusFault> {
        self.count += 1;
        match self.longs.get((address / 4) as usize) {
            Some(&long) if !self.in_range(address) => Ok(long),
            _ => Err(BusFault { kind: BusFaultKind::BusError, address }),
        }
    }

    crate::core::cpu::longs_that_may_fail_alone!();
}
