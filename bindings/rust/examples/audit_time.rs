//! What an audit of full caches costs: 22 entries of the 68030, 64 slots of the 68040, each
//! at the end of a walk of three levels. The median and the least of so many batches.
//!
//!     cargo run --release --example audit_time [BATCHES]

use pmmu::{Access, Family, Pmmu, Registers, Tables, ENTRIES, SLOTS};
use std::hint::black_box;
use std::time::Instant;

/// Audits in a batch.
const AUDITS: u32 = 2_000;
const ROOT: u32 = 0x1000;
const POINTERS: u32 = 0x1200;
const PAGE_TABLE: u32 = 0x1400;

fn main() {
    let batches: usize = std::env::args().nth(1).map_or(25, |n| n.parse().expect("how many batches"));
    let mut longs = vec![0; PAGE_TABLE as usize / 4 + SLOTS];
    longs[ROOT as usize / 4] = POINTERS | 2;
    longs[POINTERS as usize / 4] = PAGE_TABLE | 2;
    for page in 0..SLOTS {
        longs[PAGE_TABLE as usize / 4 + page] = 0x0040_0001 + ((page as u32) << 12);
    }
    let tables = Tables { longs: &longs, base: 0, ranges: &[] };
    for (family, tc, entries) in [(Family::M68030, 0x80C0_7760, ENTRIES), (Family::M68040, 0x8000, SLOTS)] {
        let registers = Registers {
            family,
            present: true,
            enabled: true,
            tc,
            crp_limit: 0x8000_0002,
            crp_address: ROOT,
            ..Registers::default()
        };
        let mut pmmu = Pmmu::new();
        for page in 0..entries as u32 {
            pmmu.translate(&registers, &Access::read(page << 12), tables).expect("every page is mapped");
        }
        let mut each: Vec<f64> = (0..batches).map(|_| microseconds(&pmmu, &registers, tables)).collect();
        each.sort_by(f64::total_cmp);
        let (median, least) = (each[batches / 2], each[0]);
        println!("family {}: {entries} entries, {median:.2} microseconds an audit (least {least:.2})", family.0);
    }
}

/// What one audit of a batch takes.
fn microseconds(pmmu: &Pmmu, registers: &Registers, tables: Tables<'_>) -> f64 {
    let started = Instant::now();
    for _ in 0..AUDITS {
        assert_eq!(black_box(pmmu).audit(registers, tables), Ok(vec![]));
    }
    started.elapsed().as_secs_f64() * 1e6 / f64::from(AUDITS)
}
