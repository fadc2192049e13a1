//! The crate `pmmu` beside the original: the generated traces of the differential test
//! bed through both, every line compared, and both caches after every record. A line
//! has the address, the fault or MMUSR, and the count of longs asked for.

// The original's modules `mmu` and `core`, and the stand-in for its CPU: see
// differential/build.rs.
include!(concat!(env!("OUT_DIR"), "/original.rs"));

// The test bed's own modules: what it generates, and how it replays.
#[allow(dead_code)]
#[path = "../../differential/src/builder.rs"]
mod builder;
#[allow(dead_code)]
#[path = "../../differential/src/compare.rs"]
mod compare;
#[allow(dead_code)]
#[path = "../../differential/src/dump.rs"]
mod dump;
#[allow(dead_code)]
#[path = "../../differential/src/generate.rs"]
mod generate;
#[allow(dead_code)]
#[path = "../../differential/src/listing.rs"]
mod listing;
#[allow(dead_code)]
#[path = "../../differential/src/lists.rs"]
mod lists;
#[allow(dead_code)]
#[path = "../../differential/src/malformed.rs"]
mod malformed;
#[allow(dead_code)]
#[path = "../../differential/src/memory.rs"]
mod memory;
#[allow(dead_code)]
#[path = "../../differential/src/original.rs"]
mod original;
#[allow(dead_code)]
#[path = "../../differential/src/random.rs"]
mod random;
#[allow(dead_code)]
#[path = "../../differential/src/replay.rs"]
mod replay;
#[allow(dead_code)]
#[path = "../../differential/src/slips.rs"]
mod slips;
#[allow(dead_code)]
#[path = "../../differential/src/state.rs"]
mod state;
#[allow(dead_code)]
#[path = "../../differential/src/themes.rs"]
mod themes;
#[allow(dead_code)]
#[path = "../../differential/src/trace.rs"]
mod trace;
#[allow(dead_code)]
#[path = "../../differential/src/trees.rs"]
mod trees;

mod audits;
mod listed;

use memory::TableMemory;
use original::Original;
use pmmu::{Caches, Error, Family, Fault, Pmmu, Range, Tables};
use random::Random;
use replay::{Access, Answer, Machine, replay};
use state::{Entry, Slot, State};
use trace::Registers;

/// Records that the traces must have in all.
const RECORDS: usize = 200_000;

/// Calls on moved memory.
const MOVED: usize = 60_000;

/// The crate as a machine of the test bed. What it is given has passed its refusals.
#[derive(Default)]
struct Door {
    pmmu: Pmmu,
    ranges: Vec<Range>,
}

impl Door {
    /// The caches, and the tables with the ranges as the crate takes them.
    fn lent<'a>(&'a mut self, memory: &'a TableMemory) -> (&'a mut Pmmu, Tables<'a>) {
        self.ranges = memory.ranges.iter().map(|&(first, last)| Range { first, last }).collect();
        (&mut self.pmmu, Tables { longs: &memory.longs, base: memory.base, ranges: &self.ranges })
    }
}

fn registers_of(r: &Registers) -> pmmu::Registers {
    pmmu::Registers {
        family: Family(r.family.into()),
        present: r.has_pmmu,
        enabled: r.enabled,
        tc: r.tc,
        crp_limit: r.crp_limit,
        crp_address: r.crp_address,
        srp_limit: r.srp_limit,
        srp_address: r.srp_address,
        tt0: r.tt0,
        tt1: r.tt1,
        itt0: r.itt0,
        itt1: r.itt1,
        dtt0: r.dtt0,
        dtt1: r.dtt1,
    }
}

fn access_of(a: &Access) -> pmmu::Access {
    pmmu::Access {
        address: a.address,
        write: a.write,
        supervisor: a.supervisor,
        instruction: a.instruction,
        own: a.cpu_supervisor,
        code: a.override_code,
        recorded: a.record,
    }
}

/// The caches as the test bed tells them.
fn state_of(caches: &Caches) -> State {
    let small = |number: u64| u32::try_from(number).expect("a number of a cache that was reached from empty");
    State {
        most_recent: caches.most_recent(),
        clock: caches.clock(),
        shift: caches.page_shift(),
        entries: caches.entries().map(|e| Entry {
            valid: e.valid,
            code: e.code,
            page: small(e.page),
            base: small(e.base),
            wp: e.write_protected,
            stamp: e.stamp,
        }),
        slots: caches.slots().map(|s| Slot {
            valid: s.valid,
            tag: small(s.frame * 2 + u64::from(s.supervisor)),
            base: small(s.base),
            wp: s.write_protected,
            sup: s.supervisor_only,
        }),
    }
}

/// The library asks for the longs itself: here only their number is known.
fn tell(memory: &mut TableMemory, count: u32) {
    memory.asked.extend(std::iter::repeat_n(0, count as usize));
}

impl Machine for Door {
    fn translate(&mut self, registers: &Registers, access: &Access, memory: &mut TableMemory) -> Answer {
        let (pmmu, tables) = self.lent(memory);
        let answer = pmmu.translate(&registers_of(registers), &access_of(access), tables);
        match answer {
            Ok(found) => {
                tell(memory, found.count);
                Answer::Address(found.address)
            }
            Err(Error::Fault(Fault { kind, cause, address, count })) => {
                tell(memory, count);
                Answer::Fault { kind: kind as u8, cause: cause as u8, address }
            }
            Err(Error::Refused(refusal)) => panic!("{refusal}"),
        }
    }

    fn load(&mut self, registers: &Registers, code: u8, write: bool, address: u32, memory: &mut TableMemory) {
        let (pmmu, tables) = self.lent(memory);
        let count = pmmu.load(&registers_of(registers), code, write, address, tables).expect("nothing to refuse");
        tell(memory, count);
    }

    fn test(
        &mut self,
        registers: &Registers,
        code: u8,
        write: bool,
        level: u8,
        address: u32,
        memory: &mut TableMemory,
    ) -> (u16, u32) {
        let (_, tables) = self.lent(memory);
        let found = Pmmu::test(&registers_of(registers), code, write, level, address, tables);
        let found = found.expect("nothing to refuse");
        tell(memory, found.count);
        (found.mmusr, found.address)
    }

    fn probe(
        &mut self,
        registers: &Registers,
        cpu_supervisor: bool,
        instruction: bool,
        write: bool,
        address: u32,
    ) -> Option<u32> {
        let found = self.pmmu.probe(&registers_of(registers), cpu_supervisor, instruction, write, address);
        found.expect("nothing to refuse")
    }

    fn flush_all(&mut self) {
        self.pmmu.flush_all().expect("nothing to refuse");
    }

    fn flush_code(&mut self, code: u8, mask: u8) {
        self.pmmu.flush_code(code, mask).expect("nothing to refuse");
    }

    fn flush_page(&mut self, code: u8, mask: u8, address: u32) {
        self.pmmu.flush_page(code, mask, address).expect("nothing to refuse");
    }

    fn flush_frame(&mut self, frame: u32) {
        self.pmmu.flush_frame(frame).expect("nothing to refuse");
    }

    fn state(&self) -> State {
        state_of(self.pmmu.caches())
    }
}

/// Traces of the seeds from 1 on, by both, until there were enough records.
#[test]
fn traces_give_the_original_s_lines_and_states() {
    let (mut records, mut seed) = (0, 0);
    while records < RECORDS {
        seed += 1;
        let trace = generate::trace(seed);
        let by_original = replay(&mut Original::default(), &trace, true);
        let by_door = replay(&mut Door::default(), &trace, true);
        for (index, (original, door)) in by_original.lines.iter().zip(&by_door.lines).enumerate() {
            assert_eq!(original, door, "line {index} of the trace of seed {seed}");
        }
        assert_eq!(by_original.lines.len(), by_door.lines.len(), "lines of the trace of seed {seed}");
        records += by_original.records;
    }
    println!("{records} records in {seed} traces: every line and state as the original's");
}

/// Memory that doesn't start at 0, also at the top of the address space, of any length, any
/// longs in it, and any registers: accesses and tests by both, over one pair of caches each.
#[test]
fn moved_memory_gives_the_original_s_answers_and_states() {
    let mut random = Random::new(7);
    let (mut original, mut door) = (Original::default(), Door::default());
    let (mut hits, mut walked, mut faults) = (0, 0, 0);
    for turn in 0..MOVED {
        let mut memory = moved(&mut random);
        let registers = anywhere(&mut random, &memory);
        let access = access(&mut random);
        let by_original = memory.counted(|memory| original.translate(&registers, &access, memory));
        let by_door = memory.counted(|memory| door.translate(&registers, &access, memory));
        assert_eq!(by_original, by_door, "turn {turn}");
        match by_original {
            (Answer::Address(_), 0) => hits += 1,
            (Answer::Address(_), _) => walked += 1,
            (Answer::Fault { .. }, _) => faults += 1,
        }
        if registers.family == 30 {
            let (code, level) = (random.below(8) as u8, random.below(8) as u8);
            let test = |machine: &mut dyn Machine, memory: &mut TableMemory| {
                memory.counted(|memory| machine.test(&registers, code, false, level, access.address, memory))
            };
            let by_original = test(&mut original, &mut memory);
            assert_eq!(by_original, test(&mut door, &mut memory), "the test of turn {turn}");
        }
        assert_eq!(original.state(), door.state(), "after turn {turn}");
    }
    println!("{MOVED} accesses: {hits} hits, {walked} walks to a page, {faults} faults, all as the original's");
}

/// Up to 1,023 longs that point among themselves, with up to forty ranges.
fn moved(random: &mut Random) -> TableMemory {
    let count = random.within(1, 1023) as u32;
    let base = match random.below(3) {
        0 => 0,
        1 => 0u32.wrapping_sub(4 * count),
        _ => random.below(u64::from(u32::MAX) - 4 * 1023) as u32 & !3,
    };
    let inside = |random: &mut Random| base.wrapping_add(random.below(u64::from(4 * count)) as u32);
    let longs = (0..count)
        .map(|_| if random.chance(80) { inside(random) & !15 | random.below(8) as u32 } else { random.long() });
    let longs = longs.collect();
    let ranges = if random.chance(30) { random.below(41) } else { 0 };
    let ranges = (0..ranges).map(|_| {
        let first = inside(random);
        (first, first.saturating_add(random.below(16) as u32))
    });
    TableMemory::new(base, longs, ranges.collect())
}

/// Registers whose roots stand in this memory.
fn anywhere(random: &mut Random, memory: &TableMemory) -> Registers {
    let family = random.pick(&[30, 30, 40, 60]);
    let root = memory.base.wrapping_add(random.below(512) as u32 * 4);
    let tc = match family {
        30 => {
            0x8000_0000
                | random.pick(&[0, 1, 2, 3]) << 24
                | random.pick(&[0xC0_7760, 0xC0_4880, 0xA8_4440, 0xC0_A3F0, 0x80_2222])
        }
        _ => random.pick(&[0x8000, 0xC000]),
    };
    let limit = 0x8000_0002 | random.below(2) as u32;
    Registers::from_longs(family, 3, [tc, limit, root, limit, root, 0, 0, 0, 0, 0, 0])
}

/// Any access near the bottom or the top of the address space.
fn access(random: &mut Random) -> Access {
    let near = random.long() & random.pick(&[0xFFFF, 0xF_FFFF, 0x0FFF_FFFF, 0xFFFF_FFFF]);
    Access {
        address: if random.chance(20) { !near } else { near },
        write: random.chance(30),
        supervisor: random.chance(50),
        instruction: random.chance(30),
        cpu_supervisor: random.chance(50),
        override_code: random.chance(20).then(|| random.below(8) as u8),
        record: random.chance(80),
    }
}
