//! Random tables and what the original's walks find in them, one line each.

use crate::builder::{Builder, CODES};
use crate::memory::{LONGS, TableMemory};
use crate::original::Original;
use crate::replay::{Access, Answer, Machine};
use crate::trace::{Record, Registers};
use crate::trees::Shape;
use std::collections::BTreeMap;
use std::io::Write;

/// One walk: what it is given.
struct Case {
    registers: Registers,
    address: u32,
    code: u8,
    write: bool,
    /// Where the longs start.
    base: u32,
    /// Address and value of each long that is not 0.
    pairs: Vec<(u32, u32)>,
    ranges: Vec<(u32, u32)>,
}

/// Writes one line of decimal numbers for each case: see README.md.
pub fn walks(out: &mut impl Write, seed: u64, count: u64) -> std::io::Result<()> {
    for n in 0..count {
        let case = case(seed.wrapping_mul(1_000_003).wrapping_add(n));
        let numbers: Vec<String> = case.numbers().iter().map(u64::to_string).collect();
        writeln!(out, "{}", numbers.join(" "))?;
    }
    Ok(())
}

fn case(seed: u64) -> Case {
    let mut b = Builder::new(seed, 40);
    let family = b.random.pick(&[30, 30, 30, 40, 60]);
    let tc = match family {
        30 if b.random.chance(70) => b.sensible_tc() | b.random.pick(&[0, 0, 0x0100_0000, 0x0200_0000, 0x0300_0000]),
        30 => b.wild_tc(),
        _ => b.random.pick(&[0x8000, 0xC000]),
    };
    let mut registers = b.registers_of(family, tc);
    if b.random.chance(4) {
        registers.crp_limit ^= 2;
    }
    b.hot = 2;
    let paths = b.random.within(1, 3) as usize;
    b.tree(&registers, &Shape { long: 50, ..Shape::MIXED }, paths, &CODES);
    let first = b.sets[0].1[0];
    if b.random.chance(25) {
        b.cut();
    }
    let target = if b.random.chance(60) { first } else { b.place() };
    Case {
        registers: b.sets[0].0.clone(),
        address: target.address,
        code: if b.random.chance(85) { target.code } else { b.random.pick(&CODES) },
        write: b.random.chance(35),
        base: 0,
        pairs: last_of_each(b.records.iter().filter_map(stored)),
        ranges: b.records.iter().filter_map(ranged).collect(),
    }
    .moved(b.random.chance(15))
}

fn stored(record: &Record) -> Option<(u32, u32)> {
    match *record {
        Record::Store { address, value } => Some((address, value)),
        _ => None,
    }
}

/// The last value for each address.
fn last_of_each(stores: impl Iterator<Item = (u32, u32)>) -> Vec<(u32, u32)> {
    stores.collect::<BTreeMap<u32, u32>>().into_iter().collect()
}

fn ranged(record: &Record) -> Option<(u32, u32)> {
    match *record {
        Record::Range { first, last } => Some((first, last)),
        _ => None,
    }
}

impl Case {
    /// The same case with the longs at the top of the address space: roots, ranges
    /// and whatever looks like a pointer into the longs move with them.
    fn moved(mut self, to_top: bool) -> Self {
        if !to_top {
            return self;
        }
        let size = 4 * LONGS as u32;
        let base = 0u32.wrapping_sub(size);
        self.base = base;
        let move_inside = |value: &mut u32| {
            if (1..size).contains(value) {
                *value += base;
            }
        };
        for (address, value) in &mut self.pairs {
            *address += base;
            move_inside(value);
        }
        for (first, last) in &mut self.ranges {
            move_inside(first);
            move_inside(last);
            *last = (*last).max(*first);
        }
        self.registers.crp_address = self.registers.crp_address.wrapping_add(base);
        self.registers.srp_address = self.registers.srp_address.wrapping_add(base);
        self
    }

    fn memory(&self) -> TableMemory {
        let mut memory = TableMemory::new(self.base, vec![0; LONGS], self.ranges.clone());
        for &(address, value) in &self.pairs {
            memory.store(address, value).expect("planted inside");
        }
        memory
    }

    /// The case, then its answers.
    fn numbers(&self) -> Vec<u64> {
        let r = &self.registers;
        let mut numbers: Vec<u64> = vec![r.family.into()];
        numbers.extend([r.tc, r.crp_limit, r.crp_address, r.srp_limit, r.srp_address].map(u64::from));
        numbers.extend([u64::from(self.address), self.code.into(), self.write.into()]);
        numbers.extend([u64::from(self.base), LONGS as u64]);
        for list in [&self.pairs, &self.ranges] {
            numbers.push(list.len() as u64);
            numbers.extend(list.iter().flat_map(|&(first, second)| [u64::from(first), second.into()]));
        }
        numbers.extend(self.translated());
        if r.family == 30 {
            (1..=7).for_each(|level| numbers.extend(self.tested(level)));
        }
        numbers
    }

    /// `0 address 0 0 count`, or `1 address kind cause count`.
    fn translated(&self) -> [u64; 5] {
        let supervisor = self.code & 4 != 0;
        let access = Access {
            address: self.address,
            write: self.write,
            supervisor,
            instruction: self.code & 3 == 2,
            cpu_supervisor: supervisor,
            override_code: None,
            record: true,
        };
        let mut machine = Original::default();
        let (answer, count) = self.memory().counted(|memory| machine.translate(&self.registers, &access, memory));
        match answer {
            Answer::Address(physical) => [0, physical.into(), 0, 0, count.into()],
            Answer::Fault { kind, cause, address } => [1, address.into(), kind.into(), cause.into(), count.into()],
        }
    }

    /// `MMUSR address count`.
    fn tested(&self, level: u8) -> [u64; 3] {
        let mut machine = Original::default();
        let ((mmusr, address), count) = self
            .memory()
            .counted(|memory| machine.test(&self.registers, self.code, self.write, level, self.address, memory));
        [mmusr.into(), address.into(), count.into()]
    }
}
