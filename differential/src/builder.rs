//! Builds a trace record by record: accesses, flushes and mistakes around the table
//! trees of `trees.rs`.

use crate::memory::LONGS;
use crate::random::Random;
use crate::trace::{CPU_STATE, INSTRUCTION, NONE, RECORD, Record, Registers, SUPERVISOR, WRITE};
use crate::trees::page_bits;

/// An address whose tables stand in memory. Its low `span` bits may vary.
#[derive(Clone, Copy)]
pub struct Target {
    pub address: u32,
    pub code: u8,
    pub span: u32,
}

/// What a body of a trace consists of.
#[derive(Clone, Copy, PartialEq, Eq)]
pub enum Op {
    Access,
    Load,
    Test,
    Probe,
    FlushAll,
    FlushCode,
    FlushPage,
    FlushFrame,
    /// A store into a planted table.
    Mutate,
    /// A bus-error range.
    Cut,
    /// Other registers of those prepared.
    Switch,
    /// The same registers with one thing changed.
    Tweak,
    /// A record that is refused.
    Bad,
}

pub struct Builder {
    pub random: Random,
    /// The trace is full with this many records.
    pub limit: usize,
    pub records: Vec<Record>,
    /// As the replay has them now.
    pub registers: Registers,
    longs: Vec<u32>,
    /// Table longs with the value that belongs there.
    planted: Vec<(u32, u32)>,
    /// Prepared registers, each with its targets.
    pub sets: Vec<(Registers, Vec<Target>)>,
    pub current: usize,
    /// Pages in use of a region that is wider than a page.
    pub hot: u64,
    /// Chances in a hundred.
    pub writes: u64,
    pub recorded: u64,
    pub overrides: u64,
}

/// The codes that an access can have.
pub const CODES: [u8; 4] = [1, 2, 5, 6];

impl Builder {
    pub fn new(seed: u64, limit: usize) -> Self {
        Builder {
            random: Random::new(seed),
            limit,
            records: Vec::new(),
            registers: Registers::at_start(),
            longs: vec![0; LONGS],
            planted: Vec::new(),
            sets: Vec::new(),
            current: 0,
            hot: 3,
            writes: 35,
            recorded: 80,
            overrides: 12,
        }
    }

    pub fn full(&self) -> bool {
        self.records.len() >= self.limit
    }

    /// Half full: time to stop planting.
    pub fn half_full(&self) -> bool {
        self.records.len() * 2 >= self.limit
    }

    pub fn push(&mut self, record: Record) {
        self.records.push(record);
    }

    // Records with a memory here.

    pub fn set(&mut self, registers: &Registers) {
        self.push(Record::Registers(registers.clone()));
        if [30, 40, 60].contains(&registers.family) {
            self.registers = registers.clone();
        }
    }

    pub fn store(&mut self, address: u32, value: u32) {
        self.push(Record::Store { address, value });
        if address.is_multiple_of(4) && self.inside(address) {
            self.longs[(address / 4) as usize] = value;
        }
    }

    pub fn plant(&mut self, address: u32, value: u32) {
        self.planted.push((address, value));
        self.store(address, value);
    }

    pub fn inside(&self, address: u32) -> bool {
        ((address / 4) as usize) < LONGS
    }

    pub fn long_at(&self, address: u32) -> u32 {
        self.longs[(address / 4) as usize]
    }

    // Registers.

    /// A TC whose IS, widths and page shift sum to 32.
    pub fn sensible_tc(&mut self) -> u32 {
        let shift = self.random.pick(&[8, 10, 12, 12, 12, 13, 15, 18]);
        let is = self.random.pick(&[0, 0, 0, 0, 4, 8, 1]);
        let levels = self.random.pick(&[2, 3, 3, 4]);
        self.tc_of(shift, is, levels)
    }

    /// A TC with this page shift, IS and number of levels (as many as needed for the rest).
    pub fn tc_of(&mut self, shift: u32, is: u32, levels: u32) -> u32 {
        let mut left = 32 - shift - is;
        let mut tc = 0x8000_0000 | shift.min(15) << 20 | is << 16;
        for level in 0..4 {
            let after = levels.saturating_sub(level + 1);
            let width = if after == 0 {
                left.min(15)
            } else {
                let middle = left / (after + 1);
                (middle + self.random.below(3) as u32).clamp(1, 15).min(left)
            };
            tc |= width << (12 - 4 * level);
            left -= width;
            if left == 0 {
                break;
            }
        }
        tc
    }

    /// Any IS and widths: zero widths, sums far above 32.
    pub fn wild_tc(&mut self) -> u32 {
        let nibble = |builder: &mut Self| match builder.random.below(8) {
            0 => 0,
            1 => 15,
            2 => 1,
            _ => builder.random.below(16) as u32,
        };
        let nibbles: Vec<u32> = (0..6).map(|_| nibble(self)).collect();
        nibbles.iter().fold(0x80, |tc, nibble| tc << 4 | nibble)
    }

    /// Registers of this family with a PMMU that is on; roots are set by `tree`.
    pub fn registers_of(&mut self, family: u8, tc: u32) -> Registers {
        let mut registers = Registers::from_longs(family, 3, [0; 11]);
        registers.tc = tc;
        registers.crp_limit = self.random.long() & !3 | self.random.pick(&[2, 3]);
        registers.srp_limit = self.random.long() & !3 | self.random.pick(&[2, 3]);
        registers
    }

    /// A 68030 TT register that matches this address, and mostly this code: of both
    /// directions (RWM set) or of one (R/W alone), with any bits that mean nothing.
    pub fn tt_for(&mut self, address: u32, code: u8) -> u32 {
        let base = if self.random.chance(75) { code } else { self.random.below(8) as u8 };
        let mask = self.random.pick(&[0, 0, 7, 4, 3, 1]);
        let directions = self.random.pick(&[0, 0x100, 0x200, 0x300]);
        let junk = self.random.long() & 0x7C88;
        self.region_for(address) | directions | u32::from(base) << 4 | mask | junk
    }

    /// A 68040 ITT or DTT register that matches this address.
    pub fn ttr_for(&mut self, address: u32) -> u32 {
        let junk = self.random.long() & 0x1FFF;
        self.region_for(address) | (self.random.below(4) as u32) << 13 | junk
    }

    fn region_for(&mut self, address: u32) -> u32 {
        let ignored = self.random.pick(&[0, 0, 1, 0x80, 0x0F, 0xFF, 0x42]);
        let differs = self.random.long() & ignored;
        ((address >> 24) ^ differs) << 24 | ignored << 16 | 0x8000
    }

    // What a body is made of.

    fn target(&mut self) -> Target {
        // Now and then an address of other registers.
        let set =
            if self.random.chance(90) { self.current } else { self.random.below(self.sets.len() as u64) as usize };
        let count = self.sets[set].1.len() as u64;
        let place = self.random.below(count) as usize;
        self.sets[set].1[place]
    }

    /// A target with an address of its region: few pages, any offset.
    pub fn place(&mut self) -> Target {
        let mut target = self.target();
        let page = page_bits(&self.registers).min(31);
        let pages = self.random.below(self.hot) as u32;
        let region = (1u64 << target.span) as u32;
        let mask = region.wrapping_sub(1);
        let offset = self.random.long() & ((1 << page) - 1);
        let moved = (target.address & mask).wrapping_add(pages.wrapping_shl(page)) & !((1 << page) - 1) | offset;
        target.address = target.address & !mask | moved & mask;
        if self.random.chance(6) {
            let registers = self.registers.clone();
            target.address = self.near(&registers, target.address);
        } else if self.random.chance(3) {
            target.address = self.random.long();
        }
        target
    }

    fn code(&mut self, target: Target) -> u8 {
        if self.random.chance(80) { target.code } else { self.random.below(8) as u8 }
    }

    fn mask(&mut self) -> u8 {
        self.random.pick(&[7, 7, 7, 4, 0, 1, 2, 3, 5, 6])
    }

    pub fn access(&mut self) {
        let target = self.place();
        let code = if self.random.chance(88) { target.code } else { self.random.pick(&CODES) };
        let mut flags = privilege_flags(code);
        if self.random.chance(15) {
            flags ^= CPU_STATE;
        }
        if self.random.chance(self.writes) {
            flags |= WRITE;
        }
        if self.random.chance(self.recorded) {
            flags |= RECORD;
        }
        let override_code = if self.random.chance(self.overrides) { self.code(target) } else { NONE };
        self.push(Record::Access { flags, override_code, address: target.address });
    }

    /// An access exactly as given, recorded, with the CPU in the same state.
    pub fn access_at(&mut self, address: u32, code: u8, write: bool) {
        let flags = privilege_flags(code) | RECORD | if write { WRITE } else { 0 };
        self.push(Record::Access { flags, override_code: NONE, address });
    }

    pub fn probe_at(&mut self, address: u32, code: u8, write: bool) {
        let flags = privilege_flags(code) & !SUPERVISOR | if write { WRITE } else { 0 };
        self.push(Record::Probe { flags, address });
    }

    pub fn op(&mut self, op: Op) {
        match op {
            Op::Access => self.access(),
            // Refused there: seldom is enough.
            Op::Load | Op::Test if self.registers.family != 30 && self.random.chance(85) => self.access(),
            Op::Load => {
                let target = self.place();
                let record = Record::Load {
                    code: self.code(target),
                    write: self.random.below(2) as u8,
                    address: target.address,
                };
                self.push(record);
            }
            Op::Test => {
                let target = self.place();
                let level = if self.random.chance(35) { 7 } else { self.random.below(8) as u8 };
                let record = Record::Test {
                    code: self.code(target),
                    write: self.random.below(2) as u8,
                    level,
                    address: target.address,
                };
                self.push(record);
            }
            Op::Probe => {
                let target = self.place();
                let write = self.random.chance(self.writes);
                self.probe_at(target.address, target.code, write);
            }
            Op::FlushAll => self.push(Record::FlushAll),
            Op::FlushCode => {
                let target = self.target();
                let record = Record::FlushCode { code: self.code(target), mask: self.mask() };
                self.push(record);
            }
            Op::FlushPage => {
                let target = self.place();
                let record = Record::FlushPage { code: self.code(target), mask: self.mask(), address: target.address };
                self.push(record);
            }
            Op::FlushFrame => {
                let address = self.place().address;
                let shift = 12 + (self.registers.tc >> 14 & 1);
                let other = self.random.pick(&[0, 0, 0, 64, 1]);
                self.push(Record::FlushFrame { frame: (address >> shift) ^ other });
            }
            Op::Mutate => self.mutate(),
            Op::Cut => self.cut(),
            Op::Switch => {
                self.current = self.random.below(self.sets.len() as u64) as usize;
                let registers = self.sets[self.current].0.clone();
                self.set(&registers);
            }
            Op::Tweak => self.tweak(),
            Op::Bad => self.bad(),
        }
    }

    /// Changes a table long, or puts back what belongs there.
    fn mutate(&mut self) {
        if self.planted.is_empty() {
            return self.access();
        }
        let place = self.random.below(self.planted.len() as u64) as usize;
        let (address, value) = self.planted[place];
        let changed = match self.random.below(12) {
            0..=5 => value,
            6 => value ^ 4,
            7 => value ^ 0x100,
            8 => value ^ 0x80,
            9 => value & !3 | self.random.below(4) as u32,
            10 => value ^ self.random.long() & 0xFFFF_FF00,
            _ => 0,
        };
        self.store(address, changed);
    }

    /// A bus-error range: mostly one that touches a table long by a byte or just not.
    pub fn cut(&mut self) {
        let at = if self.planted.is_empty() || self.random.chance(25) {
            self.random.below(4 * LONGS as u64) as u32 & !3
        } else {
            let place = self.random.below(self.planted.len() as u64) as usize;
            self.planted[place].0
        };
        let (first, last) = match self.random.below(10) {
            0 => (at, at),
            1 => (at + 3, at + 3),
            2 => (at + 1, at + 2),
            3 => (at.saturating_sub(2), at),
            4 => (at + 3, at + 9),
            5 => (at.saturating_sub(4), at.saturating_sub(1)),
            6 => (at + 4, at + 4),
            7 => (0x8000, u32::MAX),
            8 => (at.saturating_sub(8), at + 11),
            _ => (u32::MAX - self.random.below(64) as u32, u32::MAX),
        };
        self.push(Record::Range { first, last });
    }

    /// The registers as they are, with one thing changed.
    fn tweak(&mut self) {
        let target = self.target();
        let mut r = self.registers.clone();
        match self.random.below(14) {
            0 => r.enabled = !r.enabled,
            1 => r.has_pmmu = !r.has_pmmu,
            2 => r.tc ^= 0x0100_0000,
            3 => r.tc ^= 0x0200_0000,
            4 => r.tc ^= 0x4000,
            5 => r.tc ^= 1 << self.random.below(20),
            6 => r.crp_limit ^= self.random.within(1, 3) as u32,
            7 => {
                let anywhere = self.random.long();
                r.crp_address = self.random.pick(&[r.srp_address, 0xFFFF_FFF0, 0x8000, anywhere]);
            }
            8 => std::mem::swap(&mut r.crp_address, &mut r.srp_address),
            9 => r.tt0 = self.tt_for(target.address, target.code),
            10 => r.tt1 = self.tt_for(target.address, target.code),
            11 => r.family = self.random.pick(&[30, 40, 60]),
            12 => {
                let ttr = self.ttr_for(target.address);
                let place = self.random.below(4);
                *[&mut r.itt0, &mut r.itt1, &mut r.dtt0, &mut r.dtt1][place as usize] = ttr;
            }
            _ => r.tc = (r.tc & !0xF) | self.random.below(16) as u32,
        }
        self.set(&r);
    }

    /// A record that is refused: by 1, 2, 3 or 5, or on families 40 and 60 by 6 where 5
    /// applies as well.
    fn bad(&mut self) {
        let target = self.place();
        let address = target.address;
        let over = self.random.within(8, 254) as u8;
        let write = self.random.below(2) as u8;
        let record = match self.random.below(12) {
            0 => {
                let mut registers = self.registers.clone();
                registers.family = self.random.pick(&[0, 20, 31, 41, 50, 0x30, 0x40, 0x60, 255]);
                registers.tc = self.random.long();
                Record::Registers(registers)
            }
            1 | 2 => Record::Access { flags: privilege_flags(target.code) | RECORD, override_code: over, address },
            3 => Record::Load { code: self.random.pick(&[8, 9, over, 255]), write, address },
            4 => Record::Test { code: self.random.pick(&[8, over, 255]), write, level: 7, address },
            5 => Record::Test { code: target.code, write, level: self.random.pick(&[8, over, 255]), address },
            6 => Record::FlushCode { code: over, mask: 7 },
            7 => Record::FlushCode { code: target.code, mask: self.random.pick(&[8, over, 255]) },
            8 => Record::FlushPage { code: self.random.pick(&[over, 1]), mask: over, address },
            9 => Record::FlushFrame { frame: self.random.pick(&[1 << 20, u32::MAX, address | 1 << 20]) },
            10 => {
                let outside = self.random.pick(&[0x8000, 0x7FFE, 2, 0xFFFF_FFFC, address | 1, 0x7FFF]);
                Record::Store { address: outside, value: self.random.long() }
            }
            _ => Record::Range { first: address | 1, last: address & !1 },
        };
        self.push(record);
    }

    /// Fills the trace with what the weights say. Changed registers last for a few
    /// records, so that most accesses meet tables that were made for them.
    pub fn body(&mut self, weights: &[(Op, u64)]) {
        let numbers: Vec<u64> = weights.iter().map(|&(_, weight)| weight).collect();
        let mut changed_for = 0;
        while !self.full() {
            let op = weights[self.random.weighted(&numbers)].0;
            self.op(op);
            let registers = self.sets[self.current].0.clone();
            if self.registers == registers {
                changed_for = 0;
            } else if changed_for == 8 || self.random.chance(15) {
                self.set(&registers);
            } else {
                changed_for += 1;
            }
        }
    }
}

/// Supervisor, instruction and the CPU's own state for a code.
pub fn privilege_flags(code: u8) -> u8 {
    let supervisor = if code & 4 != 0 { SUPERVISOR | CPU_STATE } else { 0 };
    supervisor | if code & 3 == 2 { INSTRUCTION } else { 0 }
}
