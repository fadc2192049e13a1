//! Each number of refusal at each call that can give it, in their order; and that a
//! refusal leaves the caches.

mod common;

use common::LOGICAL;
use pmmu::{Access, Caches, Error, Family, Pmmu, Range, Refusal, Registers, Tables, ENTRIES};

const NO_FAMILY: Family = Family(50);

fn registers(family: Family) -> Registers {
    Registers { family, ..common::registers() }
}

fn longs() -> Vec<u32> {
    common::longs(&[])
}

/// A cache with an entry in it.
fn warm() -> Pmmu {
    let (mut pmmu, longs) = (Pmmu::new(), longs());
    let tables = Tables { longs: &longs, base: 0, ranges: &[] };
    pmmu.translate(&registers(Family::M68030), &Access::read(LOGICAL), tables).expect("a page");
    pmmu
}

/// The same with these marks: most recent, clock, shift.
fn marked(marks: [u64; 3]) -> Pmmu {
    let mut caches: Caches = warm().caches().clone();
    caches.c030[3 * ENTRIES..].copy_from_slice(&marks);
    Pmmu::from(caches)
}

/// What is wrong with a call.
#[derive(Clone, Copy, Default)]
struct Wrong {
    family: bool,
    not_030: bool,
    code: bool,
    base: bool,
    range: bool,
    cache: bool,
}

impl Wrong {
    fn registers(&self) -> Registers {
        registers(match self {
            Wrong { family: true, .. } => NO_FAMILY,
            Wrong { not_030: true, .. } => Family::M68040,
            _ => Family::M68030,
        })
    }

    fn pmmu(&self) -> Pmmu {
        if self.cache {
            marked([22, 1, 12])
        } else {
            warm()
        }
    }

    fn ranges(&self) -> Vec<Range> {
        let mut ranges = vec![Range { first: 0x9000, last: 0x9FFF }];
        if self.range {
            ranges.push(Range { first: 5, last: 4 });
        }
        ranges
    }

    fn tables<'a>(&self, longs: &'a [u32], ranges: &'a [Range]) -> Tables<'a> {
        Tables { longs, base: if self.base { 2 } else { 0 }, ranges }
    }

    fn code(&self) -> u8 {
        if self.code {
            8
        } else {
            1
        }
    }

    /// The refusal of each of the eight calls, each over its own caches, which must stay
    /// as they were where it refuses.
    fn refused(&self) -> [Option<Refusal>; 8] {
        let (registers, longs, ranges, code) = (self.registers(), longs(), self.ranges(), self.code());
        let tables = self.tables(&longs, &ranges);
        let access = Access { code: self.code.then_some(code), ..Access::read(LOGICAL) };
        let kept = |call: &dyn Fn(&mut Pmmu) -> Option<Refusal>| {
            let mut pmmu = self.pmmu();
            let refusal = call(&mut pmmu);
            assert!(refusal.is_none() || pmmu == self.pmmu(), "a refusal leaves the caches");
            refusal
        };
        [
            kept(&|pmmu| match pmmu.translate(&registers, &access, tables) {
                Err(Error::Refused(refusal)) => Some(refusal),
                _ => None,
            }),
            kept(&|pmmu| pmmu.load(&registers, code, false, LOGICAL, tables).err()),
            kept(&|_| Pmmu::test(&registers, code, false, 7, LOGICAL, tables).err()),
            kept(&|pmmu| pmmu.probe(&registers, false, false, false, LOGICAL).err()),
            kept(&|pmmu| pmmu.flush_all().err()),
            kept(&|pmmu| pmmu.flush_code(code, 0).err()),
            kept(&|pmmu| pmmu.flush_page(code, 0, LOGICAL).err()),
            kept(&|pmmu| pmmu.flush_frame(if self.code { 1 << 20 } else { 1 }).err()),
        ]
    }
}

/// Which checks each of the eight calls takes, in the order 1, 6, 5, 2, 3, 4.
const TAKES: [&[Refusal]; 8] = {
    use Refusal::{Base, Cache, Code, Family, Only030, Range};
    [
        &[Family, Code, Base, Range, Cache],
        &[Family, Only030, Code, Base, Range, Cache],
        &[Family, Only030, Code, Base, Range],
        &[Family, Cache],
        &[Cache],
        &[Code, Cache],
        &[Code, Cache],
        &[Code],
    ]
};

/// Every subset of the six mistakes, at every call: the first that applies is given.
#[test]
fn the_first_that_applies() {
    for bits in 0..64 {
        let has = |bit: u32| bits >> bit & 1 != 0;
        let wrong = Wrong {
            family: has(0),
            not_030: has(1) && !has(0),
            code: has(2),
            base: has(3),
            range: has(4),
            cache: has(5),
        };
        let applies = |refusal: &Refusal| match refusal {
            Refusal::Family => wrong.family,
            Refusal::Only030 => wrong.not_030,
            Refusal::Code => wrong.code,
            Refusal::Base => wrong.base,
            Refusal::Range => wrong.range,
            Refusal::Cache => wrong.cache,
            Refusal::Tree => false, // the lister's alone
        };
        let first = TAKES.map(|checks| checks.iter().copied().find(applies));
        assert_eq!(wrong.refused(), first, "mistakes {bits:06b}");
    }
}

/// The bounds of each check: just inside, and just outside.
#[test]
fn bounds() {
    let longs = longs();
    let registers = registers(Family::M68030);
    let at = |base: u32, longs: &[u32]| {
        Pmmu::test(&registers, 7, true, 7, LOGICAL, Tables { longs, base, ranges: &[] }).err()
    };
    assert_eq!(at(0u32.wrapping_sub(4 * longs.len() as u32), &longs), None, "the longs end at 2^32");
    assert_eq!(at(0u32.wrapping_sub(4 * longs.len() as u32) + 4, &longs), Some(Refusal::Base));
    assert_eq!(at(1, &[]), Some(Refusal::Base));
    assert_eq!(at(u32::MAX - 3, &[]), None);

    assert_eq!(marked([21, 1, 31]).flush_all(), Ok(()));
    assert_eq!(marked([22, 1, 31]).flush_all(), Err(Refusal::Cache));
    assert_eq!(marked([21, 1, 32]).flush_all(), Err(Refusal::Cache));
    assert_eq!(warm().flush_code(7, 7), Ok(()));
    assert_eq!(warm().flush_code(0, 8), Err(Refusal::Code));
    assert_eq!(warm().flush_page(0, 255, 0), Err(Refusal::Code));
    assert_eq!(warm().flush_frame((1 << 20) - 1), Ok(()));
    assert_eq!(warm().flush_frame(u32::MAX), Err(Refusal::Code));

    let tables = Tables { longs: &longs, base: 0, ranges: &[] };
    let level = |level: u8| Pmmu::test(&registers, 1, false, level, LOGICAL, tables).err();
    assert_eq!([level(7), level(8), level(255)], [None, Some(Refusal::Code), Some(Refusal::Code)]);
}

/// Every override from 8 to 255 is refused, 255 too; also when the PMMU is off.
#[test]
fn overrides() {
    let longs = longs();
    let tables = Tables { longs: &longs, base: 0, ranges: &[] };
    let off = Registers { enabled: false, ..registers(Family::M68030) };
    for code in 0..=255 {
        let answer = warm().translate(&off, &Access { code: Some(code), ..Access::read(LOGICAL) }, tables);
        let refused = answer == Err(Error::Refused(Refusal::Code));
        assert_eq!(refused, code > 7, "override {code}");
        assert!(refused || answer.is_ok_and(|found| (found.address, found.count) == (LOGICAL, 0)));
    }
}

/// Any number of ranges is taken, and each of them is looked at.
#[test]
fn many_ranges() {
    let longs = longs();
    let translate = |ranges: &[Range]| {
        let tables = Tables { longs: &longs, base: 0, ranges };
        Pmmu::new().translate(&registers(Family::M68030), &Access::read(LOGICAL), tables)
    };
    for count in [1, 16, 17, 1000] {
        let mut ranges = vec![Range { first: 0x9000, last: 0x9000 }; count];
        assert!(translate(&ranges).is_ok(), "{count} ranges elsewhere");
        ranges[count - 1] = Range { first: 0x3007, last: 0x3007 };
        let met = translate(&ranges);
        assert!(
            matches!(met, Err(Error::Fault(fault)) if fault.address == 0x3004 && fault.count == 3),
            "{count} ranges"
        );
        ranges[count - 1] = Range { first: 0x9001, last: 0x9000 };
        assert_eq!(translate(&ranges), Err(Error::Refused(Refusal::Range)), "{count} ranges, the last one crossed");
    }
}
