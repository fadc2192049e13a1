//! Both caches as plain numbers, and the state line.

use std::fmt::Write;

pub const ENTRIES: usize = 22;
pub const SLOTS: usize = 64;

/// An entry of the 68030 cache.
#[derive(Clone, Copy, Debug, Default, PartialEq, Eq)]
pub struct Entry {
    pub valid: bool,
    pub code: u8,
    pub page: u32,
    pub base: u32,
    pub wp: bool,
    pub stamp: u64,
}

/// A slot of the 68040 cache; the tag is frame x 2 + supervisor.
#[derive(Clone, Copy, Debug, Default, PartialEq, Eq)]
pub struct Slot {
    pub valid: bool,
    pub tag: u32,
    pub base: u32,
    pub wp: bool,
    pub sup: bool,
}

#[derive(Clone, Debug, PartialEq, Eq)]
pub struct State {
    pub most_recent: u64,
    pub clock: u64,
    pub shift: u64,
    pub entries: [Entry; ENTRIES],
    pub slots: [Slot; SLOTS],
}

impl State {
    pub fn empty() -> Self {
        State {
            most_recent: 0,
            clock: 0,
            shift: 0,
            entries: [Entry::default(); ENTRIES],
            slots: [Slot::default(); SLOTS],
        }
    }

    /// `S m=MRU c=CLOCK s=SHIFT eI=V,FC,PAGE,PHYS,WP,STAMP ... dI=V,TAG,PHYS,WP,SUP ...`,
    /// without the entries and slots whose numbers are all 0.
    pub fn line(&self) -> String {
        let mut line = format!("S m={} c={} s={}", self.most_recent, self.clock, self.shift);
        for (index, e) in self.entries.iter().enumerate().filter(|(_, e)| **e != Entry::default()) {
            let (valid, wp) = (u8::from(e.valid), u8::from(e.wp));
            write!(line, " e{index}={valid},{},{:08X},{:08X},{wp},{}", e.code, e.page, e.base, e.stamp).unwrap();
        }
        for (index, d) in self.slots.iter().enumerate().filter(|(_, d)| **d != Slot::default()) {
            let (valid, wp, sup) = (u8::from(d.valid), u8::from(d.wp), u8::from(d.sup));
            write!(line, " d{index}={valid},{:08X},{:08X},{wp},{sup}", d.tag, d.base).unwrap();
        }
        line
    }

    /// A number for the 68030 cache: see `folded`.
    pub fn sum_030(&self) -> u64 {
        let marks = [self.most_recent, self.clock, self.shift];
        let entries = self
            .entries
            .iter()
            .flat_map(|e| [u64::from(e.valid), e.code.into(), e.page.into(), e.base.into(), e.wp.into(), e.stamp]);
        folded(marks.into_iter().chain(entries))
    }

    /// A number for the 68040 cache: see `folded`.
    pub fn sum_040(&self) -> u64 {
        folded(
            self.slots
                .iter()
                .flat_map(|d| [u64::from(d.valid), d.tag.into(), d.base.into(), d.wp.into(), d.sup.into()]),
        )
    }
}

/// The numbers folded into one below 2^32, in order, from 2166136261:
/// sum = (sum + number mod 2^32) * 16777619 mod 2^32. No step passes 2^58.
fn folded(numbers: impl Iterator<Item = u64>) -> u64 {
    const LIMIT: u64 = 1 << 32;
    numbers.fold(2_166_136_261, |sum, number| (sum + number % LIMIT) * 16_777_619 % LIMIT)
}
