//! Looks pages up in the original's two caches alone. Each three arguments, FAMILY
//! PAGES COUNT, are a run of COUNT look-ups over so many pages. Pages that all fit are
//! inserted first and then only looked up; others are inserted at each miss. A run is
//! told in a line with a sum over all answers, by which another program of the same
//! loops can be compared: crates/cache_bench.

// The original's modules `mmu` and `core`, and the stand-in for its CPU: see
// differential/build.rs.
include!(concat!(env!("OUT_DIR"), "/original.rs"));

use mmu::{Atc, Atc030};

fn main() {
    let numbers: Vec<u32> = std::env::args().skip(1).map(|word| word.parse().expect("FAMILY PAGES COUNT ..")).collect();
    for run in numbers.chunks_exact(3) {
        let [family, pages, count] = [run[0], run[1], run[2]];
        let sum = match family {
            30 if pages <= 22 => warm_030(pages, count),
            30 => cold_030(pages, count),
            _ if pages <= 64 => warm_040(pages, count),
            _ => cold_040(pages, count),
        };
        println!("680{family} cache, {pages} pages, {count} look-ups: sum {sum}");
    }
}

/// The sum over `count` accesses: a hit adds the base, a miss 5. The pages come
/// from x = (x * 1103515245 + 12345) mod 2^31 from 12345, as x / 65536 mod pages;
/// each page's base is its number.
fn over(pages: u32, count: u32, mut access: impl FnMut(u32) -> u64) -> u64 {
    let mut sum = 0;
    let mut x: u32 = 12345;
    for _ in 0..count {
        x = ((u64::from(x) * 1_103_515_245 + 12_345) % (1 << 31)) as u32;
        sum = (sum + access(x / 65_536 % pages)) % 1_000_000_007;
    }
    sum
}

fn cold_030(pages: u32, count: u32) -> u64 {
    let mut cache = Atc030::default();
    over(pages, count, |page| match cache.lookup(1, page, 12, false) {
        Some(base) => base.into(),
        None => {
            cache.insert(1, page, 12, page, false);
            5
        }
    })
}

fn warm_030(pages: u32, count: u32) -> u64 {
    let mut cache = Atc030::default();
    for page in 0..pages {
        cache.insert(1, page, 12, page, false);
    }
    over(pages, count, |page| cache.lookup(1, page, 12, false).map_or(5, u64::from))
}

fn cold_040(pages: u32, count: u32) -> u64 {
    let mut cache = Atc::default();
    over(pages, count, |page| match cache.lookup(page, false, false) {
        Some(base) => base.into(),
        None => {
            cache.insert(page, false, page, false, false);
            5
        }
    })
}

fn warm_040(pages: u32, count: u32) -> u64 {
    let mut cache = Atc::default();
    for page in 0..pages {
        cache.insert(page, false, page, false, false);
    }
    over(pages, count, |page| cache.lookup(page, false, false).map_or(5, u64::from))
}
