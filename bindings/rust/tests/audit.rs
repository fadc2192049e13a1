//! The audit: each kind of damage is named with what the cache and the tables say, each
//! harmless kind is clean, in both caches; and its refusals. The answers are by hand from
//! document 01.

mod common;

use common::LOGICAL;
use pmmu::{Access, Cache, Caches, Family, FaultCause, Pmmu, Range, Refusal, Registers, Stale, Tables, ENTRIES, SLOTS};

/// The first address of the examples' page, and where its base is.
const PAGE: u32 = 0x0204_1000;
const BASE: u64 = 0x0005_5000;

fn registers(family: Family) -> Registers {
    let tc = if family == Family::M68030 { 0x80C0_7760 } else { 0x8000 };
    Registers { family, tc, ..common::registers() }
}

fn tables(longs: &[u32]) -> Tables<'_> {
    Tables { longs, base: 0, ranges: &[] }
}

/// The examples' tables; the 68040 has its own indexes for 02041ABC: 1, 1 and 1 too, so the same tables serve.
fn warm(family: Family, access: &Access, longs: &[u32]) -> Pmmu {
    let mut pmmu = Pmmu::new();
    pmmu.translate(&registers(family), access, tables(longs)).expect("a page");
    pmmu
}

fn audit(pmmu: &Pmmu, family: Family, longs: &[u32]) -> Vec<Stale> {
    let before = pmmu.clone();
    let stale = pmmu.audit(&registers(family), tables(longs)).expect("no refusal");
    assert_eq!(*pmmu, before, "an audit changes nothing");
    stale
}

/// The one entry that an audit names.
fn one(stale: &[Stale]) -> Stale {
    assert_eq!(stale.len(), 1, "{stale:?}");
    stale[0]
}

fn changed(pmmu: &Pmmu, change: impl Fn(&mut Caches)) -> Pmmu {
    let mut caches = pmmu.caches().clone();
    change(&mut caches);
    Pmmu::from(caches)
}

#[test]
fn a_guard_without_its_flush_is_named() {
    let mut pmmu = warm(Family::M68030, &Access::read(LOGICAL), &common::longs(&[]));
    assert_eq!(audit(&pmmu, Family::M68030, &common::longs(&[])), []);

    let guarded = common::longs(&[(0x3004, 0)]);
    let stale = one(&audit(&pmmu, Family::M68030, &guarded));
    assert_eq!((stale.cache, stale.index, stale.address, stale.code), (Cache::M68030, 0, PAGE, 1));
    for said in [stale.read, stale.write] {
        assert_eq!(said.cached, Some(BASE));
        let fault = said.tables.expect_err("the guard");
        assert_eq!((fault.cause, fault.address), (FaultCause::PageFault, PAGE));
    }
    assert_eq!(
        stale.to_string(),
        "68030 entry 0, page 02041000, code 1; read: cache 00055000, tables PageFault; write: cache 00055000, tables PageFault"
    );

    pmmu.flush_page(0, 0, LOGICAL).expect("no refusal");
    assert_eq!(audit(&pmmu, Family::M68030, &guarded), []);
}

#[test]
fn every_stale_entry_is_named_in_order() {
    let (mut pmmu, mut longs) = (Pmmu::new(), common::longs(&[]));
    for k in 0..32 {
        longs[0x3000 / 4 + k as usize] = 0x0010_0001 + (k << 12);
    }
    for k in 0..ENTRIES as u32 {
        let access = Access::read(0x0204_0000 + (k << 12));
        pmmu.translate(&registers(Family::M68030), &access, tables(&longs)).expect("a page");
    }
    assert_eq!(audit(&pmmu, Family::M68030, &longs), []);
    for k in 0..ENTRIES {
        longs[0x3000 / 4 + k] = 0;
    }
    let named: Vec<usize> = audit(&pmmu, Family::M68030, &longs).iter().map(|stale| stale.index).collect();
    assert_eq!(named, (0..ENTRIES).collect::<Vec<_>>());
}

#[test]
fn damage_of_the_68030_is_named() {
    let longs = common::longs(&[]);
    let pmmu = warm(Family::M68030, &Access::read(LOGICAL), &longs);
    // another page, WP from a table above, a bus error, a tree that is gone, S for a user
    let moved = one(&audit(&pmmu, Family::M68030, &common::longs(&[(0x3004, 0x6_6001)])));
    assert_eq!((moved.read.cached, moved.read.tables), (Some(BASE), Ok(0x0006_6000)));

    let protected = one(&audit(&pmmu, Family::M68030, &common::longs(&[(0x2004, 0x3006)])));
    assert_eq!(protected.read.tables, Ok(BASE as u32), "only the write differs");
    assert_eq!(protected.write.tables.expect_err("WP").cause, FaultCause::WriteProtect);

    let range = [Range { first: 0x3004, last: 0x3004 }];
    let lost =
        pmmu.audit(&registers(Family::M68030), Tables { longs: &longs, base: 0, ranges: &range }).expect("no refusal");
    assert_eq!(one(&lost).read.tables.expect_err("a bus error").cause, FaultCause::TableWalkBusError);

    let gone = one(&audit(&pmmu, Family::M68030, &common::longs(&[(0x1004, 0)])));
    assert_eq!(gone.read.tables.expect_err("no table").cause, FaultCause::PageFault);

    // a long page descriptor with S: 2004 names a table of long descriptors
    let supervisors = common::longs(&[(0x2004, 0x4003), (0x4008, 0x0101), (0x400C, 0x5_5000)]);
    let denied = one(&audit(&pmmu, Family::M68030, &supervisors));
    assert_eq!(denied.read.tables.expect_err("S").cause, FaultCause::SupervisorProtect);

    // a base that no walk gave, and the last entry
    let base = changed(&pmmu, |c| c.c030[ENTRIES] = 2 * 0x0006_6000);
    assert_eq!(one(&audit(&base, Family::M68030, &longs)).read.cached, Some(0x0006_6000));
    let high = changed(&pmmu, |c| c.c030[ENTRIES] |= 1 << 40);
    assert_eq!(one(&audit(&high, Family::M68030, &longs)).read.cached, Some(BASE | 1 << 39));
    let last = changed(&pmmu, |c| {
        c.c030.swap(0, ENTRIES - 1);
        c.c030[2 * ENTRIES - 1] = 2 * 0x0006_6000;
    });
    assert_eq!(one(&audit(&last, Family::M68030, &longs)).index, ENTRIES - 1);
}

#[test]
fn what_no_access_meets_is_clean() {
    let (longs, guarded) = (common::longs(&[]), common::longs(&[(0x3004, 0)]));
    let pmmu = warm(Family::M68030, &Access::read(LOGICAL), &longs);
    // WP of the entry alone: a write goes to the walk
    assert_eq!(audit(&changed(&pmmu, |c| c.c030[ENTRIES] |= 1), Family::M68030, &longs), []);
    // another shift, an invalid entry, a PLOAD's raw code 0, 3, 4 or 7
    assert_eq!(audit(&changed(&pmmu, |c| c.c030[3 * ENTRIES + 2] = 13), Family::M68030, &guarded), []);
    assert_eq!(audit(&changed(&pmmu, |c| c.c030[0] &= !1), Family::M68030, &guarded), []);
    for code in 0..8 {
        let raw = changed(&pmmu, |c| c.c030[0] = c.c030[0] & !0xE | code << 1);
        let named = audit(&raw, Family::M68030, &guarded).len();
        assert_eq!(named, usize::from([1, 2, 5, 6].contains(&code)), "code {code}");
    }
    // the cache of the other family
    assert_eq!(audit(&pmmu, Family::M68040, &guarded), []);
}

#[test]
fn every_space_is_looked_at() {
    let longs = common::longs(&[]);
    for (supervisor, instruction, code) in [(false, false, 1), (false, true, 2), (true, false, 5), (true, true, 6)] {
        let access = Access { supervisor, own: supervisor, instruction, ..Access::read(LOGICAL) };
        let pmmu = warm(Family::M68030, &access, &longs);
        let stale = one(&audit(&pmmu, Family::M68030, &common::longs(&[(0x3004, 0)])));
        assert_eq!(stale.code, code);
    }
}

#[test]
fn damage_of_the_68040_is_named() {
    let longs = common::longs(&[]);
    for family in [Family::M68040, Family::M68060] {
        for supervisor in [false, true] {
            let access = Access { supervisor, own: supervisor, ..Access::read(LOGICAL) };
            let both = Registers { srp_limit: 0x8000_0002, srp_address: 0x1000, ..registers(family) };
            let mut pmmu = Pmmu::new();
            pmmu.translate(&both, &access, tables(&longs)).expect("a page");
            let audit = |pmmu: &Pmmu, longs: &[u32]| pmmu.audit(&both, tables(longs)).expect("no refusal");
            assert_eq!(audit(&pmmu, &longs), []);
            let slot = (PAGE >> 12) as usize % SLOTS;

            let gone = one(&audit(&pmmu, &common::longs(&[(0x3004, 0)])));
            assert_eq!((gone.cache, gone.index, gone.address), (Cache::M68040, slot, PAGE));
            assert_eq!(gone.code, if supervisor { 5 } else { 1 });
            assert_eq!(gone.read.tables.expect_err("the guard").cause, FaultCause::PageFault);

            // W of the page: a write; S of the page: a user
            let protected = one(&audit(&pmmu, &common::longs(&[(0x3004, 0x5_5005)])));
            assert_eq!(protected.write.tables.expect_err("W").cause, FaultCause::WriteProtect);
            let supervisors = audit(&pmmu, &common::longs(&[(0x3004, 0x5_5081)]));
            assert_eq!(supervisors.len(), usize::from(!supervisor), "S denies a user alone");

            // W of the slot alone, and the last slot
            assert_eq!(audit(&changed(&pmmu, |c| c.c040[SLOTS + slot] |= 2), &longs), []);
            let last = changed(&pmmu, |c| c.c040.copy_within(slot..=slot, SLOTS - 1));
            assert_eq!(one(&audit(&last, &longs)).index, SLOTS - 1);
        }
    }
}

#[test]
fn refusals_come_in_their_order() {
    let longs = common::longs(&[]);
    let pmmu = warm(Family::M68030, &Access::read(LOGICAL), &longs);
    let bad = changed(&pmmu, |c| c.c030[3 * ENTRIES] = 22);
    let crossed = [Range { first: 1, last: 0 }];
    let refused = |pmmu: &Pmmu, family, base, ranges: &[Range]| {
        pmmu.audit(&Registers { family, ..common::registers() }, Tables { longs: &longs, base, ranges })
            .expect_err("a refusal")
    };
    assert_eq!(refused(&bad, Family(50), 2, &crossed), Refusal::Family);
    assert_eq!(refused(&bad, Family::M68030, 2, &crossed), Refusal::Base);
    assert_eq!(refused(&bad, Family::M68030, 0, &crossed), Refusal::Range);
    assert_eq!(refused(&bad, Family::M68030, 0, &[]), Refusal::Cache);
    let shifted = changed(&pmmu, |c| c.c030[3 * ENTRIES + 2] = 32);
    assert_eq!(refused(&shifted, Family::M68040, 0, &[]), Refusal::Cache);
}
