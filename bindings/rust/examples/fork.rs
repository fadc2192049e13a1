//! A warm pair of caches is audited, and cloned for several workers. Each has its own copy
//! of the tables, in which it clears the descriptor of one page, its guard, and flushes
//! that page: then it meets its own guard and no other's. A snapshot whose guard was set
//! without its flush is not forked: the audit names the page.
//!
//!     cargo run --release --example fork

use pmmu::{Access, Error, Family, FaultCause, Pmmu, Registers, Stale, Tables};
use std::thread;

const WORKERS: u32 = 4;
const PAGES: u32 = 16;
const ROOT: u32 = 0x1000;
const POINTERS: u32 = 0x1200;
const PAGE_TABLE: u32 = 0x1400;

/// The place of the long at this address.
fn place(address: u32) -> usize {
    address as usize / 4
}

/// The address of a page: the first page table maps 4 KiB pages.
fn address_of(page: u32) -> u32 {
    page << 12
}

/// Three levels of 7, 7 and 6 bits: pages 0 to 15 stand at 00400000 and above.
fn tables() -> Vec<u32> {
    let mut longs = vec![0; place(PAGE_TABLE) + 64];
    longs[place(ROOT)] = POINTERS | 2;
    longs[place(POINTERS)] = PAGE_TABLE | 2;
    for page in 0..PAGES {
        longs[place(PAGE_TABLE) + page as usize] = 0x0040_0001 + (page << 12);
    }
    longs
}

/// The pages at whose addresses a worker faults, after it has set its own guard.
fn faults(mut pmmu: Pmmu, mut longs: Vec<u32>, registers: &Registers, guard: u32) -> Vec<u32> {
    longs[place(PAGE_TABLE) + guard as usize] = 0;
    pmmu.flush_page(0, 0, address_of(guard)).expect("code and mask are at most 7");
    let tables = Tables { longs: &longs, base: 0, ranges: &[] };
    let mut met = Vec::new();
    for page in 0..PAGES {
        match pmmu.translate(registers, &Access::read(address_of(page)), tables) {
            Ok(found) => assert_eq!((found.address, found.count), (0x0040_0000 + (page << 12), 0), "a warm hit"),
            Err(Error::Fault(fault)) => {
                assert_eq!((fault.cause, fault.count), (FaultCause::PageFault, 3), "a walk to the guard");
                met.push(page);
            }
            Err(Error::Refused(refusal)) => panic!("{refusal}"),
        }
    }
    met
}

/// Audits the snapshot, and gives a copy of it to each worker: the pages at which each faults. A stale snapshot is not forked.
fn fork(warm: &Pmmu, longs: &[u32], registers: &Registers) -> Result<Vec<Vec<u32>>, Vec<Stale>> {
    let stale = warm.audit(registers, Tables { longs, base: 0, ranges: &[] }).expect("nothing to refuse");
    if !stale.is_empty() {
        return Err(stale);
    }
    Ok(thread::scope(|scope| {
        let workers: Vec<_> = (0..WORKERS)
            .map(|guard| {
                let (own, own_longs) = (warm.clone(), longs.to_vec());
                scope.spawn(move || faults(own, own_longs, registers, guard))
            })
            .collect();
        workers.into_iter().map(|worker| worker.join().expect("a worker ends")).collect()
    }))
}

fn main() {
    let registers = Registers {
        family: Family::M68030,
        present: true,
        enabled: true,
        tc: 0x80C0_7760,
        crp_limit: 0x8000_0002,
        crp_address: ROOT,
        ..Registers::default()
    };
    let longs = tables();
    let mut warm = Pmmu::new();
    for page in 0..PAGES {
        let tables = Tables { longs: &longs, base: 0, ranges: &[] };
        warm.translate(&registers, &Access::read(address_of(page)), tables).expect("every page is mapped");
    }
    println!("warm: {PAGES} pages in the cache");

    let met = fork(&warm, &longs, &registers).expect("a clean snapshot");
    for (worker, pages) in (0..WORKERS).zip(met) {
        assert_eq!(pages, [worker], "its own guard and no other");
        println!("worker {worker}: a fault at page {worker} alone, {} pages from its warm cache", PAGES - 1);
    }

    let mut guarded = longs.clone();
    guarded[place(PAGE_TABLE) + 5] = 0;
    let stale = fork(&warm, &guarded, &registers).expect_err("page 5's guard was set without its flush");
    for entry in &stale {
        println!("not forked: {entry}");
    }
    let none_lost = warm.caches().entries().iter().filter(|entry| entry.valid).count();
    println!("warm: {none_lost} pages still in the cache");
}
