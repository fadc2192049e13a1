//! What the benchmarks translate: the same tables, registers and accesses for both
//! families. Three levels of 7, 7 and 6 bits, 4 KiB pages: a root and a pointer table,
//! and a page table for each 64 pages.

const LOGICAL: u32 = 0x0200_0000;
pub const ROOT: u32 = 0x1000;
const POINTERS: u32 = 0x1200;
const PAGE_TABLES: u32 = 0x2000;

/// The limit long of both roots.
pub const LIMIT: u32 = 0x8000_0002;

/// TC of the family.
pub fn tc(family: u8) -> u32 {
    if family == 30 { 0x80C0_7760 } else { 0x8000 }
}

/// Address and value of each table long.
pub fn longs(pages: u32) -> impl Iterator<Item = (u32, u32)> {
    let root = [(ROOT + 4 * (LOGICAL >> 25), POINTERS | 2)];
    let pointers = (0..pages.div_ceil(64)).map(|table| (POINTERS + 4 * table, (PAGE_TABLES + 0x100 * table) | 2));
    let pages = (0..pages).map(|page| (PAGE_TABLES + 4 * page, 0x4000_0000 | (page * 1021 % 4096) << 12 | 1));
    root.into_iter().chain(pointers).chain(pages)
}

/// First and last address of each bus-error range: no table lies in one.
pub fn ranges(count: u32) -> impl Iterator<Item = (u32, u32)> {
    (0..count).map(|range| (0x0010_0000 + 0x100 * range, 0x0010_007F + 0x100 * range))
}

/// Address of each access, and whether it writes: any page, any offset, one write in four.
pub fn accesses(pages: u32, count: u32) -> impl Iterator<Item = (u32, bool)> {
    let mut x: u64 = 12_345;
    let mut below = move |bound: u32| {
        x = x.wrapping_mul(6_364_136_223_846_793_005).wrapping_add(1_442_695_040_888_963_407);
        ((x >> 33) % u64::from(bound)) as u32
    };
    (0..count).map(move |_| {
        let address = LOGICAL + (below(pages) << 12) + below(4096);
        (address, below(4) == 0)
    })
}
