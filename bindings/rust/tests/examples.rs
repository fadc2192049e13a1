//! The twelve examples of document 01, through the door.

mod common;

use common::{longs, registers, LOGICAL};
use pmmu::{Access, Error, Family, FaultCause, FaultKind, Pmmu, Registers, Status, Tables, Translated};

fn family_40(tc: u32) -> Registers {
    Registers { family: Family::M68040, tc, ..registers() }
}

fn lent(longs: &[u32]) -> Tables<'_> {
    Tables { longs, base: 0, ranges: &[] }
}

/// Address and count of a read.
fn read(pmmu: &mut Pmmu, registers: &Registers, longs: &[u32]) -> Result<(u32, u32), Error> {
    pmmu.translate(registers, &Access::read(LOGICAL), lent(longs)).map(|Translated { address, count }| (address, count))
}

/// Kind, cause, address and count of a fault.
fn fault(answer: Result<Translated, Error>) -> (FaultKind, FaultCause, u32, u32) {
    match answer {
        Err(Error::Fault(fault)) => (fault.kind, fault.cause, fault.address, fault.count),
        other => panic!("a fault was expected: {other:?}"),
    }
}

/// MMUSR, address and count of a PTEST of user data.
fn test(registers: &Registers, level: u8, longs: &[u32]) -> (u16, u32, u32) {
    let Status { mmusr, address, count } =
        Pmmu::test(registers, 1, false, level, LOGICAL, lent(longs)).expect("nothing to refuse");
    (mmusr, address, count)
}

#[test]
fn example_1_a_read_and_a_hit() {
    let mut pmmu = Pmmu::new();
    assert_eq!(read(&mut pmmu, &registers(), &longs(&[])), Ok((0x0005_5ABC, 3)));
    assert_eq!(read(&mut pmmu, &registers(), &longs(&[])), Ok((0x0005_5ABC, 0)));
}

#[test]
fn examples_2_and_3_levels_of_a_test() {
    assert_eq!(test(&registers(), 7, &longs(&[])), (0x0003, 0x3004, 3));
    assert_eq!(test(&registers(), 2, &longs(&[])), (0x0002, 0x2004, 2));
}

#[test]
fn example_4_an_early_page() {
    let longs = longs(&[(0x2004, 0x0080_0001)]);
    assert_eq!(read(&mut Pmmu::new(), &registers(), &longs), Ok((0x0080_1ABC, 2)));
}

#[test]
fn example_5_write_protection() {
    let (mut pmmu, longs) = (Pmmu::new(), longs(&[(0x2004, 0x3006)]));
    assert_eq!(read(&mut pmmu, &registers(), &longs), Ok((0x0005_5ABC, 3)));
    let written = pmmu.translate(&registers(), &Access::write(LOGICAL), lent(&longs));
    assert_eq!(fault(written), (FaultKind::AccessLevelViolation, FaultCause::WriteProtect, LOGICAL, 3));
    assert_eq!(test(&registers(), 7, &longs), (0x0803, 0x3004, 3));
}

#[test]
fn examples_6_and_7_an_indirect_descriptor() {
    let good = longs(&[(0x3004, 0x4003), (0x4000, 1), (0x4004, 0x6_6000)]);
    assert_eq!(read(&mut Pmmu::new(), &registers(), &good), Ok((0x0006_6ABC, 5)));
    assert_eq!(test(&registers(), 7, &good), (0x0003, 0x4000, 5));

    let bad = longs(&[(0x3004, 0x4003), (0x4000, 0), (0x4004, 0x6_6000)]);
    let answer = Pmmu::new().translate(&registers(), &Access::read(LOGICAL), lent(&bad));
    assert_eq!(fault(answer), (FaultKind::AccessLevelViolation, FaultCause::Indirect, LOGICAL, 5));
    assert_eq!(test(&registers(), 7, &bad), (0x0403, 0x4000, 5));
}

#[test]
fn example_8_a_root_of_type_1() {
    let registers = Registers { crp_limit: 0x8000_0001, ..registers() };
    let answer = Pmmu::new().translate(&registers, &Access::read(LOGICAL), lent(&longs(&[])));
    assert_eq!(fault(answer), (FaultKind::ConfigurationError, FaultCause::PageFault, LOGICAL, 0));
    assert_eq!(test(&registers, 7, &longs(&[])), (0x8000, 0x1000, 0));
}

/// The page shift that a first read leaves in the cache; 0 where nothing is cached.
fn shift_after(tc: u32) -> u64 {
    let longs = longs(&[(0x1000, 0x0010_0001), (0x1004, 0x0010_0001)]);
    let mut pmmu = Pmmu::new();
    let answer = pmmu.translate(&Registers { tc, ..registers() }, &Access::read(0), lent(&longs));
    answer.expect("a page");
    pmmu.caches().page_shift()
}

#[test]
fn example_9_page_shifts() {
    assert_eq!(shift_after(0x80C0_7060), 25, "widths 7, 0, 6");
    assert_eq!(shift_after(0x80CF_F100), 1, "IS 15, widths 15, 1");
    assert_eq!(shift_after(0x80C0_FF20), 0, "a sum of 32");
    assert_eq!(shift_after(0x81C0_0000), 0, "a sum of 0");
}

#[test]
fn example_10_w_before_s_on_the_68040() {
    let (mut pmmu, longs) = (Pmmu::new(), longs(&[(0x3004, 0x5_5085)]));
    let registers = family_40(0x8000);
    let written = pmmu.translate(&registers, &Access::write(LOGICAL), lent(&longs));
    assert_eq!(fault(written), (FaultKind::AccessLevelViolation, FaultCause::WriteProtect, LOGICAL, 3));
    let read = pmmu.translate(&registers, &Access::read(LOGICAL), lent(&longs));
    assert_eq!(fault(read), (FaultKind::AccessLevelViolation, FaultCause::SupervisorProtect, LOGICAL, 3));
}

#[test]
fn example_11_pages_of_8_kib_on_the_68040() {
    let longs = longs(&[(0x3000, 0x5_5001)]);
    assert_eq!(read(&mut Pmmu::new(), &family_40(0xC000), &longs), Ok((0x0005_5ABC, 3)));
}

/// Which of pages 1 and 2 are still there after pages 1 to 22, a hit on 1, and 23.
fn left_after(recorded: bool) -> [bool; 2] {
    let longs = longs(&[(0x1000, 0x0010_0001)]);
    let mut pmmu = Pmmu::new();
    let mut access = |page: u32, recorded: bool| {
        let access = Access { recorded, ..Access::read(page << 12) };
        pmmu.translate(&registers(), &access, lent(&longs)).expect("a page").count
    };
    for page in 1..=22 {
        assert_eq!(access(page, true), 1);
    }
    assert_eq!(access(1, recorded), 0);
    assert_eq!(access(23, true), 1);
    [1, 2].map(|page| pmmu.probe(&registers(), false, false, false, page << 12) != Ok(None))
}

#[test]
fn example_12_what_a_full_cache_drops() {
    assert_eq!(left_after(true), [true, false]);
    assert_eq!(left_after(false), [false, true]);
}
