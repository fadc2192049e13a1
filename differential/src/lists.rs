//! What a 68030 table tree maps (request 01), by the original's own walks at addresses:
//! no table is read here.
//!
//! A walk of an address shows how many of its bits decide: PTEST's N counts the levels
//! whose descriptors were fetched, so the leaf that was met covers all addresses with the
//! same bits in these levels, and the next walk is that of the address behind them. What
//! the walk found is asked of translations with both caches empty:
//!
//! - unfetchable: PTEST says B. Document 01 has a failing fetch not in N, so it is the
//!   fetch of the next level; or of an indirect target, where N is all levels. (B is also
//!   said of a configuration fault. The refusals have shut those out.)
//! - invalid, and not listed: PTEST says I, and the translation is a PageFault or Indirect.
//! - S: a user's read is a SupervisorProtect. Physical start: a supervisor's read of the
//!   first address. WP: a supervisor's write is a WriteProtect. So each tree is seen by
//!   both privileges, whatever the code: see [`Walker::seen_by`].

use crate::builder::{Builder, CODES};
use crate::compare::{Tally, written};
use crate::dump;
use crate::listing::{self, Found, Range};
use crate::memory::TableMemory;
use crate::original::Original;
use crate::random::Random;
use crate::replay::{Access, Answer, Machine};
use crate::trace::{Registers, encode};
use crate::trees::Shape;
use std::path::Path;
use std::{fs, io};

/// Leaves of a tree that are walked, at most: of a dump, and of a random tree.
const LEAVES: usize = 1 << 22;
const FEW_LEAVES: usize = 1 << 13;

/// MMUSR: bus error, invalid, and the number of levels.
const B: u16 = 0x8000;
const I: u16 = 0x0400;
const N: u16 = 7;

/// The ranges of the dump's tree from an address on, or the number of a refusal. Nothing
/// where the tree has more leaves there than are to be walked.
fn walked(
    registers: &Registers,
    memory: &mut TableMemory,
    code: u8,
    from: u32,
    most: usize,
) -> Option<Result<Vec<Range>, u8>> {
    if let Some(number) = listing::refusal(registers, code) {
        return Some(Err(number));
    }
    let mut walker = Walker::new(registers, code, memory);
    let mut ranges = Vec::new();
    let mut next = Some(from);
    for _ in 0..=most {
        let Some(address) = next else { return Some(Ok(ranges)) };
        let leaf = walker.leaf(address);
        ranges.extend(leaf.found.map(|found| Range { first: leaf.first, consumed: leaf.consumed, found }));
        next = listing::last_of(leaf.first, leaf.consumed).checked_add(1);
    }
    None
}

/// Where a walk ends, and for which addresses.
struct Leaf {
    first: u32,
    consumed: u32,
    found: Option<Found>,
}

struct Walker<'m> {
    /// With the PMMU on and no transparent register.
    registers: Registers,
    code: u8,
    widths: Vec<u32>,
    memory: &'m mut TableMemory,
}

impl<'m> Walker<'m> {
    fn new(registers: &Registers, code: u8, memory: &'m mut TableMemory) -> Self {
        let registers = Registers { has_pmmu: true, enabled: true, tt0: 0, tt1: 0, ..registers.clone() };
        let widths = listing::widths(registers.tc).collect();
        Walker { registers, code, widths, memory }
    }

    /// The leaf that the walk of an address meets.
    fn leaf(&mut self, address: u32) -> Leaf {
        let (mmusr, _) = Original::default().test(&self.registers, self.code, false, 7, address, self.memory);
        let by_code = usize::from(listing::by_code(self.registers.tc));
        let fetched = usize::from(mmusr & N);
        let levels = fetched + usize::from(mmusr & B != 0 && fetched < by_code + self.widths.len());
        let consumed = self.widths.iter().take(levels - by_code.min(levels)).sum();
        let first = address & !listing::last_of(0, consumed);
        let found = match mmusr & (B | I) {
            0 => Some(self.page(first)),
            B => Some(Found::Unfetchable),
            _ => None,
        };
        self.memory.asked.clear();
        Leaf { first, consumed, found }
    }

    /// The page that the walks of this address find, which is its first.
    fn page(&mut self, first: u32) -> Found {
        let Answer::Address(physical) = self.seen_by(true, first, false) else { panic!("no page at {first:08X}") };
        let wp = match self.seen_by(true, first, true) {
            Answer::Address(_) => false,
            fault => is_fault(&fault, 4),
        };
        let sup = match self.seen_by(false, first, false) {
            Answer::Address(_) => false,
            fault => is_fault(&fault, 5),
        };
        Found::Mapped { physical, wp, sup }
    }

    /// The same walk by a user or a supervisor. The selected root becomes CRP for both; a
    /// function-code level is indexed by the code, so the root moves by the four entries
    /// that lie between the codes of the two privileges.
    fn seen_by(&mut self, supervisor: bool, address: u32, write: bool) -> Answer {
        let (limit, root) = listing::root(&self.registers, self.code);
        let code = self.code & 3 | u8::from(supervisor) << 2;
        let size = if limit & 3 == 3 { 8 } else { 4 };
        let moved = (u32::from(self.code).wrapping_sub(code.into())).wrapping_mul(size);
        let mut registers = self.registers.clone();
        registers.tc &= !(1 << 25);
        registers.crp_limit = limit;
        registers.crp_address = if listing::by_code(registers.tc) { root.wrapping_add(moved) } else { root };
        translated(&registers, self.memory, code, address, write)
    }
}

/// A translation with both caches empty.
fn translated(registers: &Registers, memory: &mut TableMemory, code: u8, address: u32, write: bool) -> Answer {
    let supervisor = code & 4 != 0;
    let access = Access {
        address,
        write,
        supervisor,
        instruction: code & 3 == 2,
        cpu_supervisor: supervisor,
        override_code: None,
        record: true,
    };
    memory.counted(|memory| Original::default().translate(registers, &access, memory)).0
}

/// Whether a fault has this cause of an access level violation, which it must have.
fn is_fault(answer: &Answer, wanted: u8) -> bool {
    assert!(
        matches!(*answer, Answer::Fault { kind: 2, cause, .. } if cause == wanted),
        "{answer} where 2 {wanted} is due"
    );
    true
}

/// Whether a whole list agrees with the walks of this code: the first and the last address of
/// each range and one between, and the first and the last of each gap, read and written. Else
/// what doesn't.
fn agrees(
    registers: &Registers,
    memory: &mut TableMemory,
    code: u8,
    ranges: &[Range],
    random: &mut Random,
) -> Result<(), String> {
    let mut walker = Walker::new(registers, code, memory);
    let mut free = 0;
    for range in ranges {
        let (first, last) = (u64::from(range.first), u64::from(range.last()));
        if first < free {
            return Err(format!("{range} doesn't ascend"));
        }
        walker.agrees_in_gap(free, first)?;
        for address in [first, last, random.within(first, last)] {
            walker.agrees_in(range, address as u32)?;
        }
        free = last + 1;
    }
    walker.agrees_in_gap(free, 1 << 32)
}

impl Walker<'_> {
    /// A read and a write of an address in a range.
    fn agrees_in(&mut self, range: &Range, address: u32) -> Result<(), String> {
        for write in [false, true] {
            let answer = translated(&self.registers, self.memory, self.code, address, write);
            let violation = |cause| Answer::Fault { kind: 2, cause, address };
            let right = match range.found {
                Found::Mapped { sup: true, .. } if self.code & 4 == 0 => answer == violation(5),
                Found::Mapped { wp: true, .. } if write => answer == violation(4),
                Found::Mapped { physical, .. } => {
                    answer == Answer::Address(physical.wrapping_add(address - range.first))
                }
                Found::Unfetchable => matches!(answer, Answer::Fault { kind: 3, cause: 6, .. }),
            };
            if !right {
                return Err(format!("{range} is listed, and {address:08X} gives {answer} (write: {write})"));
            }
        }
        Ok(())
    }

    /// Reads and writes of the first and the last address of a gap; an empty gap has none.
    fn agrees_in_gap(&mut self, first: u64, behind: u64) -> Result<(), String> {
        if first == behind {
            return Ok(());
        }
        for address in [first as u32, (behind - 1) as u32] {
            for write in [false, true] {
                let answer = translated(&self.registers, self.memory, self.code, address, write);
                let invalid = |cause| Answer::Fault { kind: 2, cause, address };
                if answer != invalid(2) && answer != invalid(3) {
                    return Err(format!("{address:08X} is in no range, and gives {answer} (write: {write})"));
                }
            }
        }
        Ok(())
    }
}

/// The list of the dump in a trace, by the original's walks: its lines.
pub fn list(trace: &[u8], code: u8, from: u32) -> Result<Vec<String>, String> {
    let list = match dump::kept(trace) {
        Ok((registers, mut memory)) => walked(&registers, &mut memory, code, from, LEAVES),
        Err(number) => Some(Err(number)),
    };
    list.map(|list| listing::lines(&list)).ok_or(format!("the tree has more than {LEAVES} leaves"))
}

// Random trees.

/// A tree as a trace, a code, and its list by the original's walks.
pub struct Case {
    pub trace: Vec<u8>,
    pub code: u8,
    pub list: Result<Vec<Range>, u8>,
}

/// Compares the lists of so many random trees: by the original's walks, by plain Rust, and, where
/// a program is named, by it. What fails is told.
pub fn lists(lister: Option<&Path>, seed: u64, trees: usize, folder: &Path) -> io::Result<Tally> {
    fs::create_dir_all(folder)?;
    let mut tally = Tally::default();
    for seed in (seed..).map(|seed| seed.wrapping_mul(2)) {
        if tally.passed + tally.failed == trees {
            break;
        }
        let mut random = Random::new(seed + 1);
        let Some(case) = Case::of(seed) else { continue };
        match case.compared(lister, &mut random, folder) {
            Ok(()) => tally.passed += 1,
            Err(what) => {
                tally.failed += 1;
                let kept = folder.join(format!("failing_list_{seed}.trace"));
                fs::write(&kept, &case.trace)?;
                println!("list: seed {seed}, code {}: {what}; kept: {}", case.code, kept.display());
            }
        }
        tally.records += case.list.map_or(0, |ranges| ranges.len());
    }
    Ok(tally)
}

impl Case {
    /// The tree of a seed; nothing where it has too many leaves.
    pub fn of(seed: u64) -> Option<Self> {
        let mut b = Builder::new(seed, 400);
        let tc = tc(&mut b);
        let registers = b.registers_of(30, tc);
        if b.random.chance(40) {
            let paths = b.random.within(1, 4) as usize;
            b.tree(&registers, &Shape { long: 50, ..Shape::MIXED }, paths, &CODES);
        } else {
            soup(&mut b, registers);
        }
        for _ in 0..b.random.pick(&[0, 0, 1, 1, 2, 3]) {
            b.cut();
        }
        let code = around(&mut b);
        let trace = encode(&b.records);
        let (registers, mut memory) = dump::kept(&trace).expect("a good trace");
        let list = walked(&registers, &mut memory, code, 0, FEW_LEAVES)?;
        Some(Case { trace, code, list })
    }

    fn compared(&self, lister: Option<&Path>, random: &mut Random, folder: &Path) -> Result<(), String> {
        let (registers, mut memory) = dump::kept(&self.trace).expect("a good trace");
        if let Ok(ranges) = &self.list {
            agrees(&registers, &mut memory, self.code, ranges, random)?;
        }
        for from in [0, self.start(random)] {
            let walked = walked(&registers, &mut memory, self.code, from, FEW_LEAVES).expect("few leaves");
            let mut plain = Vec::new();
            let ended = listing::list(&registers, self.code, from, |at| memory.read(at), |range| plain.push(range));
            if walked != ended.map(|()| plain) {
                return Err(format!("from {from:08X} the walks and the plain lister differ"));
            }
            let Some(lister) = lister else { continue };
            let arguments = [self.code.to_string(), format!("{from:08X}")];
            let text = written(lister, &arguments, &self.trace, &folder.join("list.trace"));
            let wanted = listing::lines(&walked);
            if !text.ends_with('\n') || !text.lines().eq(wanted.iter().map(String::as_str)) {
                let wrong = text.lines().zip(&wanted).find(|(got, wanted)| got != wanted);
                return Err(format!("from {from:08X} the lister differs: {wrong:?}"));
            }
        }
        Ok(())
    }

    /// Where to start: mostly at a range's boundary, beside it or inside.
    fn start(&self, random: &mut Random) -> u32 {
        let any = random.long();
        match &self.list {
            Ok(ranges) if !ranges.is_empty() && !random.chance(20) => {
                let range = random.pick(ranges);
                let (first, last) = (range.first, range.last());
                let inside = random.within(first.into(), last.into()) as u32;
                random.pick(&[first, last, inside, first.wrapping_sub(1), last.wrapping_add(1)])
            }
            _ => random.pick(&[any, any, 1, u32::MAX]),
        }
    }
}

/// A TC without IS: mostly few leaves, sometimes sums up to 32.
fn tc(b: &mut Builder) -> u32 {
    let sum = b.random.pick(&[1, 2, 3, 5, 8, 9, 10, 11, 12, 12, 16, 20, 24, 31, 32]);
    let levels = b.random.within(1, 4) as u32;
    let others = b.random.pick(&[0, 0, 0x0100_0000, 0x0200_0000, 0x0300_0000]);
    b.tc_of(32 - sum, 0, levels) | others
}

/// A few longs full of descriptors that point at each other, in both formats.
fn soup(b: &mut Builder, mut registers: Registers) {
    let longs = b.random.pick(&[16, 32, 64, 128]);
    let base = 16 * b.random.below(0x7F0 - 64) as u32;
    let somewhere = |b: &mut Builder| base + 4 * b.random.below(longs) as u32;
    let [tables, pages] = b.random.pick(&[[20, 40], [40, 30], [60, 20], [10, 80]]);
    for long in 0..longs as u32 {
        let junk = b.random.long();
        let value = match b.random.below(100) {
            n if n < tables => somewhere(b) & !3 | junk & 4 | b.random.pick(&[2, 3]),
            n if n < tables + pages => junk & !3 | 1,
            _ => junk & !3,
        };
        b.plant(base + 4 * long, value);
    }
    registers.crp_address = somewhere(b);
    registers.srp_address = somewhere(b);
    b.set(&registers);
}

/// Changes what a list doesn't depend on; now and then also something that is refused. Gives the code.
fn around(b: &mut Builder) -> u8 {
    let mut r = b.registers.clone();
    r.has_pmmu = b.random.chance(50);
    r.enabled = b.random.chance(50);
    if b.random.chance(30) {
        r.tt0 = b.random.long();
        r.tt1 = b.random.long();
    }
    let mut code = b.random.pick(&CODES);
    if b.random.chance(8) {
        match b.random.below(6) {
            0 => r.family = b.random.pick(&[40, 60]),
            1 => r.tc |= 1 << b.random.within(16, 19),
            2 => r.tc &= !0xF000,
            3 => r.tc |= 0xFFFF,
            4 => r.crp_limit ^= 2,
            _ => code = b.random.pick(&[0, 3, 4, 7, 8, 9, 255]),
        }
    }
    b.set(&r);
    code
}
