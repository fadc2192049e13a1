//! The static library's functions, and one safe function over each. Nothing else of this
//! crate is unsafe.
//!
//! Each call is sound for the same reasons. The library's functions are
//! `pub extern "C"` over references, proved to keep to what they are lent for every
//! input: none has a condition that a caller would have to meet. A `&[u64; N]` is a
//! pointer to N numbers, a `&[T]` a pointer and a length; a [`Range`] has C's layout on
//! both sides. What is lent here are Rust's own references, so it is aligned,
//! initialised and alive during the call, and what is lent as `&mut` is lent once. The
//! numbers have no padding, and any bits are a number.

use crate::caches::{Caches, NUMBERS_030, NUMBERS_040};
use crate::given::{Access, Range, Registers, Tables};

/// The five numbers of an answer: what it is (0 an address, a status or done, 1 a fault,
/// 2 a refusal, 3 nothing), its number, two numbers more, and the count. Of an audit: what
/// it is (0 clean, 1 stale, 2 a refusal), an index or the refusal's number, and the cache.
pub(crate) type Answer = [u32; 5];

/// The ten numbers of what is said of one entry: what it is (0 said, 2 a refusal), its
/// page's first address or the refusal's number, its code; what the cache gives (0 a base,
/// 3 nothing), the base's low and high half; what the tables give (0 an address, 1 a fault),
/// its address, and the fault's kind and cause.
pub(crate) type Said = [u32; 10];

/// Ranges that a list is given room for at a time, and their numbers.
pub(crate) const ROOM: usize = 512;
pub(crate) type Numbers = [u64; ROOM];

/// The three numbers of a list's answer: what it is (0 all, 1 more, 2 a refusal), how many were
/// written or the refusal's number, and the address to go on from.
pub(crate) type Listed = [u64; 3];

mod library {
    use super::{Answer, Listed, Range, Said, NUMBERS_030, NUMBERS_040};

    extern "C" {
        pub fn mmu_empty(c030: &mut [u64; NUMBERS_030], c040: &mut [u64; NUMBERS_040]);
        pub fn mmu_translate(
            c030: &mut [u64; NUMBERS_030],
            c040: &mut [u64; NUMBERS_040],
            longs: *const u32,
            longs_len: usize,
            base: u32,
            ranges: *const Range,
            ranges_len: usize,
            registers: &[u32; 13],
            flags: u32,
            code: u32,
            address: u32,
            out: &mut Answer,
        );
        pub fn mmu_load(
            c030: &mut [u64; NUMBERS_030],
            longs: *const u32,
            longs_len: usize,
            base: u32,
            ranges: *const Range,
            ranges_len: usize,
            registers: &[u32; 13],
            code: u32,
            write: bool,
            address: u32,
            out: &mut Answer,
        );
        pub fn mmu_test(
            longs: *const u32,
            longs_len: usize,
            base: u32,
            ranges: *const Range,
            ranges_len: usize,
            registers: &[u32; 13],
            code: u32,
            write: bool,
            level: u32,
            address: u32,
            out: &mut Answer,
        );
        pub fn mmu_audit(
            c030: &[u64; NUMBERS_030],
            c040: &[u64; NUMBERS_040],
            longs: *const u32,
            longs_len: usize,
            base: u32,
            ranges: *const Range,
            ranges_len: usize,
            registers: &[u32; 13],
            from: u32,
            out: &mut Answer,
        );
        pub fn mmu_finding(
            c030: &[u64; NUMBERS_030],
            c040: &[u64; NUMBERS_040],
            longs: *const u32,
            longs_len: usize,
            base: u32,
            ranges: *const Range,
            ranges_len: usize,
            registers: &[u32; 13],
            index: u32,
            write: bool,
            out: &mut Said,
        );
        pub fn mmu_list(
            longs: *const u32,
            longs_len: usize,
            base: u32,
            ranges: *const u32,
            ranges_len: usize,
            registers: &[u32; 13],
            code: u32,
            from: u32,
            out: *mut u64,
            out_len: usize,
            answer: &mut Listed,
        );
        pub fn mmu_probe(
            c030: &[u64; NUMBERS_030],
            c040: &[u64; NUMBERS_040],
            registers: &[u32; 13],
            flags: u32,
            address: u32,
            out: &mut Answer,
        );
        pub fn mmu_flush_all(c030: &mut [u64; NUMBERS_030], c040: &mut [u64; NUMBERS_040]) -> u32;
        pub fn mmu_flush_code(c030: &mut [u64; NUMBERS_030], code: u32, mask: u32) -> u32;
        pub fn mmu_flush_page(c030: &mut [u64; NUMBERS_030], code: u32, mask: u32, address: u32) -> u32;
        pub fn mmu_flush_frame(c040: &mut [u64; NUMBERS_040], frame: u32) -> u32;
    }
}

/// Makes both caches empty.
pub(crate) fn empty(c: &mut Caches) {
    let Caches { c030, c040 } = c;
    // SAFETY: two arrays of the sizes that the library names, each lent once.
    unsafe { library::mmu_empty(c030, c040) }
}

#[inline]
pub(crate) fn translate(c: &mut Caches, m: Tables<'_>, registers: &Registers, access: &Access) -> Answer {
    let Caches { c030, c040 } = c;
    let mut out = [0; 5];
    // SAFETY: arrays of the sizes that the library names, each lent once; each slice's pointer with its own length.
    unsafe {
        library::mmu_translate(
            c030,
            c040,
            m.longs.as_ptr(),
            m.longs.len(),
            m.base,
            m.ranges.as_ptr(),
            m.ranges.len(),
            &registers.numbers(),
            access.flags(),
            access.override_number(),
            access.address,
            &mut out,
        );
    }
    out
}

pub(crate) fn load(
    c: &mut Caches,
    m: Tables<'_>,
    registers: &Registers,
    code: u8,
    write: bool,
    address: u32,
) -> Answer {
    let mut out = [0; 5];
    // SAFETY: as for `translate`; a `bool` is 0 or 1 on both sides.
    unsafe {
        library::mmu_load(
            &mut c.c030,
            m.longs.as_ptr(),
            m.longs.len(),
            m.base,
            m.ranges.as_ptr(),
            m.ranges.len(),
            &registers.numbers(),
            code.into(),
            write,
            address,
            &mut out,
        );
    }
    out
}

pub(crate) fn test(m: Tables<'_>, registers: &Registers, code: u8, write: bool, level: u8, address: u32) -> Answer {
    let mut out = [0; 5];
    // SAFETY: as for `load`; no cache is lent.
    unsafe {
        library::mmu_test(
            m.longs.as_ptr(),
            m.longs.len(),
            m.base,
            m.ranges.as_ptr(),
            m.ranges.len(),
            &registers.numbers(),
            code.into(),
            write,
            level.into(),
            address,
            &mut out,
        );
    }
    out
}

pub(crate) fn audit(c: &Caches, m: Tables<'_>, registers: &Registers, from: u32) -> Answer {
    let mut out = [0; 5];
    // SAFETY: as for `translate`; the library only reads what is lent as `&`.
    unsafe {
        library::mmu_audit(
            &c.c030,
            &c.c040,
            m.longs.as_ptr(),
            m.longs.len(),
            m.base,
            m.ranges.as_ptr(),
            m.ranges.len(),
            &registers.numbers(),
            from,
            &mut out,
        );
    }
    out
}

pub(crate) fn finding(c: &Caches, m: Tables<'_>, registers: &Registers, index: u32, write: bool) -> Said {
    let mut out = [0; 10];
    // SAFETY: as for `audit`; a `bool` is 0 or 1 on both sides.
    unsafe {
        library::mmu_finding(
            &c.c030,
            &c.c040,
            m.longs.as_ptr(),
            m.longs.len(),
            m.base,
            m.ranges.as_ptr(),
            m.ranges.len(),
            &registers.numbers(),
            index,
            write,
            &mut out,
        );
    }
    out
}

pub(crate) fn list(m: Tables<'_>, registers: &Registers, code: u8, from: u32, out: &mut Numbers) -> Listed {
    let mut answer = [0; 3];
    // SAFETY: as for `test`; a range is two numbers and nothing between them, so the ranges are twice as many numbers;
    // `out` and `answer` are lent once, each with its own length.
    unsafe {
        library::mmu_list(
            m.longs.as_ptr(),
            m.longs.len(),
            m.base,
            m.ranges.as_ptr().cast(),
            2 * m.ranges.len(),
            &registers.numbers(),
            code.into(),
            from,
            out.as_mut_ptr(),
            out.len(),
            &mut answer,
        );
    }
    answer
}

#[inline]
pub(crate) fn probe(c: &Caches, registers: &Registers, flags: u32, address: u32) -> Answer {
    let Caches { c030, c040 } = c;
    let mut out = [0; 5];
    // SAFETY: arrays of the sizes that the library names; it only reads what is lent as `&`.
    unsafe { library::mmu_probe(c030, c040, &registers.numbers(), flags, address, &mut out) }
    out
}

pub(crate) fn flush_all(c: &mut Caches) -> u32 {
    let Caches { c030, c040 } = c;
    // SAFETY: arrays of the sizes that the library names, each lent once.
    unsafe { library::mmu_flush_all(c030, c040) }
}

pub(crate) fn flush_code(c: &mut Caches, code: u8, mask: u8) -> u32 {
    // SAFETY: as for `flush_all`.
    unsafe { library::mmu_flush_code(&mut c.c030, code.into(), mask.into()) }
}

pub(crate) fn flush_page(c: &mut Caches, code: u8, mask: u8, address: u32) -> u32 {
    // SAFETY: as for `flush_all`.
    unsafe { library::mmu_flush_page(&mut c.c030, code.into(), mask.into(), address) }
}

pub(crate) fn flush_frame(c: &mut Caches, frame: u32) -> u32 {
    // SAFETY: as for `flush_all`.
    unsafe { library::mmu_flush_frame(&mut c.c040, frame) }
}
