//! A run of translations as a host makes them: `door SIDE FAMILY PAGES CALLS [RANGES]`, with
//! SIDE `original` (its `translate_address`) or `proved` (the crate `pmmu`). It prints a sum
//! over all answers and the nanoseconds that the calls took, all told. The original's bus
//! holds at most 16 ranges.

// The original's modules `mmu` and `core`, and the stand-in for its CPU: see
// differential/build.rs.
include!(concat!(env!("OUT_DIR"), "/original.rs"));

#[path = "../pages.rs"]
mod pages;
#[allow(dead_code)]
#[path = "../plain/tables.rs"]
mod tables;

use crate::core::cpu::CpuCore;
use crate::core::types::CpuType;
use std::time::Instant;

/// What is translated: address, and whether it writes.
type Accesses = Vec<(u32, bool)>;

fn main() {
    let words: Vec<String> = std::env::args().skip(1).collect();
    let number = |at: usize| words[at].parse::<u32>().expect("SIDE FAMILY PAGES CALLS [RANGES]");
    let (family, pages, calls) = (number(1) as u8, number(2), number(3));
    let ranges = if words.len() > 4 { number(4) } else { 0 };
    let accesses = pages::accesses(pages, calls).collect();
    let (sum, nanoseconds) = match words[0].as_str() {
        "original" => original(family, pages, ranges, &accesses),
        "proved" => proved(family, pages, ranges, &accesses),
        other => panic!("SIDE is original or proved, not {other}"),
    };
    println!("{sum} {nanoseconds}");
}

/// The sum over what each access gives, and the time that it took.
fn timed(accesses: &Accesses, mut translate: impl FnMut(u32, bool) -> u32) -> (u64, u128) {
    let started = Instant::now();
    let sum =
        accesses.iter().fold(0, |sum, &(address, write)| (sum + u64::from(translate(address, write))) % 1_000_000_007);
    (sum, started.elapsed().as_nanos())
}

fn original(family: u8, pages: u32, ranges: u32, accesses: &Accesses) -> (u64, u128) {
    let mut cpu = CpuCore {
        cpu_type: if family == 30 { CpuType::M68030 } else { CpuType::M68040 },
        has_pmmu: true,
        pmmu_enabled: true,
        mmu_tc: pages::tc(family),
        mmu_crp_limit: pages::LIMIT,
        mmu_crp_aptr: pages::ROOT,
        mmu_srp_limit: pages::LIMIT,
        mmu_srp_aptr: pages::ROOT,
        ..CpuCore::default()
    };
    let mut bus = tables::Tables::new();
    pages::longs(pages).for_each(|(address, value)| bus.store(address, value).expect("inside"));
    pages::ranges(ranges).for_each(|(first, last)| bus.add_range(first, last).expect("at most 16"));
    timed(accesses, |address, write| {
        mmu::translate_address(&mut cpu, &mut bus, address, write, false, false).expect("every page is mapped")
    })
}

fn proved(family: u8, pages: u32, ranges: u32, accesses: &Accesses) -> (u64, u128) {
    let registers = pmmu::Registers {
        family: pmmu::Family(family.into()),
        present: true,
        enabled: true,
        tc: pages::tc(family),
        crp_limit: pages::LIMIT,
        crp_address: pages::ROOT,
        srp_limit: pages::LIMIT,
        srp_address: pages::ROOT,
        ..pmmu::Registers::default()
    };
    let mut longs = vec![0; 8192];
    pages::longs(pages).for_each(|(address, value)| longs[address as usize / 4] = value);
    let ranges: Vec<pmmu::Range> = pages::ranges(ranges).map(|(first, last)| pmmu::Range { first, last }).collect();
    let tables = pmmu::Tables { longs: &longs, base: 0, ranges: &ranges };
    let mut pmmu = pmmu::Pmmu::new();
    timed(accesses, |address, write| {
        let access = pmmu::Access { write, ..pmmu::Access::read(address) };
        pmmu.translate(&registers, &access, tables).expect("every page is mapped").address
    })
}
