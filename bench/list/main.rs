//! Lists of a tree as a host makes them: `list SIDE PAGES LISTS`, with SIDE `plain` (the plain
//! Rust lister of the test bed) or `proved` (the crate `pmmu`). It prints a sum over all ranges
//! and the nanoseconds that the lists took, all told.

#[allow(dead_code)]
#[path = "../../differential/src/listing.rs"]
mod listing;
#[allow(dead_code)]
#[path = "../pages.rs"]
mod pages;
#[allow(dead_code)]
#[path = "../../differential/src/trace.rs"]
mod trace;

use listing::{Found, Range};
use std::hint::black_box;
use std::time::Instant;

const LONGS: usize = 8192;
const USER_DATA: u8 = 1;

fn main() {
    let words: Vec<String> = std::env::args().skip(1).collect();
    let number = |at: usize| words[at].parse::<u32>().expect("SIDE PAGES LISTS");
    let (pages, lists) = (number(1), number(2));
    let mut longs = vec![0; LONGS];
    pages::longs(pages).for_each(|(address, value)| longs[address as usize / 4] = value);
    let mut room = Vec::new();
    let (sum, nanoseconds) = match words[0].as_str() {
        "plain" => timed(lists, || plain(&longs, &mut room)),
        "proved" => timed(lists, || proved(&longs)),
        other => panic!("SIDE is plain or proved, not {other}"),
    };
    println!("{sum} {nanoseconds}");
}

/// The sum over so many lists, and the time that they took.
fn timed(lists: u32, mut list: impl FnMut() -> u64) -> (u64, u128) {
    let started = Instant::now();
    let sum = (0..lists).fold(0, |sum: u64, _| sum.wrapping_mul(31).wrapping_add(list()));
    (sum, started.elapsed().as_nanos())
}

/// A range in a list's sum.
fn weight(sum: u64, first: u32, physical: u32) -> u64 {
    sum.wrapping_mul(16_777_619).wrapping_add(u64::from(first ^ physical))
}

/// Into a list that is kept for the next one.
fn plain(longs: &[u32], list: &mut Vec<Range>) -> u64 {
    let mut registers = trace::Registers::at_start();
    registers.tc = pages::tc(30);
    (registers.crp_limit, registers.crp_address) = (pages::LIMIT, pages::ROOT);
    let (longs, ranges): (&[u32], &[(u32, u32)]) = (black_box(longs), black_box(&[]));
    let fetch = |at: u32| {
        let long = longs.get(at as usize / 4).filter(|_| at % 4 == 0);
        let failing = |&(first, last): &(u32, u32)| u64::from(first) <= u64::from(at) + 3 && at <= last;
        long.copied().filter(|_| !ranges.iter().any(failing))
    };
    list.clear();
    listing::list(&registers, USER_DATA, 0, fetch, |range| list.push(range)).expect("no refusal");
    black_box(&*list).iter().fold(0, |sum, range| match range.found {
        Found::Mapped { physical, .. } => weight(sum, range.first, physical),
        Found::Unfetchable => panic!("every page is mapped"),
    })
}

fn proved(longs: &[u32]) -> u64 {
    let registers = pmmu::Registers {
        family: pmmu::Family::M68030,
        tc: pages::tc(30),
        crp_limit: pages::LIMIT,
        crp_address: pages::ROOT,
        ..pmmu::Registers::default()
    };
    let tables = pmmu::Tables { longs: black_box(longs), base: 0, ranges: &[] };
    let list = pmmu::Pmmu::list(&registers, USER_DATA, tables).expect("no refusal");
    list.fold(0, |sum, range| weight(sum, range.first, range.page.expect("every page is mapped").physical))
}
