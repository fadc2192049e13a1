//! Pairs of replays whose registers and tables change: tasks one after the other, each
//! under its own registers and with its own tables for the same addresses, and a flush of
//! both caches behind each change. And pairs where that flush is missing.

use crate::builder::{Builder, CODES};
use crate::examples::{LOGICAL, on_base, read, store, with};
use crate::memory::TableMemory;
use crate::pairs::{
    BUSY, CALM, Replayed, Shared, Stored, WATCHED, cacheless, is_call, memory_after, registers_after, store_pair, told,
    without_count,
};
use crate::random::Random;
use crate::selftest::oracle_lines;
use crate::trace::{Record, Registers, encode};
use crate::trees::page_bits;
use std::path::Path;

/// What changes from a task to the next.
#[derive(Clone, Copy)]
enum Change {
    Crp,
    Srp,
    /// TC with other widths.
    Widths,
    PageSize,
    Family(u8),
}

use Change::{Crp, Family, PageSize, Srp, Widths};

/// The first task's family, and the changes after it.
const SWITCHES: [(&str, u8, [Change; 3]); 4] = [
    ("switch_a", 30, [Crp, Srp, Widths]),
    ("switch_b", 30, [PageSize, Family(40), Family(30)]),
    ("switch_c", 40, [Crp, PageSize, Family(60)]),
    ("switch_d", 60, [Srp, PageSize, Family(30)]),
];

/// Of so many candidates for each pair the one is kept in which most accesses would be
/// stale without the flushes.
const CANDIDATES: u64 = 40;

/// `crates/independence` has room for so many bytes of a trace and of its lines.
const ROOM: usize = 4096;

/// Writes the pairs; says what they show.
pub fn switches(folder: &Path, seed: u64) -> std::io::Result<Vec<Stored>> {
    let mut seeds = Random::new(seed);
    let mut all = unflushed(folder)?;
    for (name, family, changes) in SWITCHES {
        let candidates = (0..CANDIDATES).map(|_| switched(&mut seeds, family, &changes));
        let fitting = candidates.filter(|pair| pair.iter().all(fits));
        let [first, second] =
            fitting.max_by_key(|[_, second]| stale_without_flushes(second)).expect("a pair that fits");
        check(&first);
        check(&second);
        let pair = store_pair(folder, name, first, second, "steady")?;
        assert!(pair.differ.is_empty(), "{name}: the watched accesses {:?} are answered differently", pair.differ);
        let stale = stale_without_flushes(&pair.second);
        assert!(stale > 0, "{name}: the flushes mean nothing");
        println!("{name}: {}; {stale} stale without the flushes", told(&pair));
        all.push(pair);
    }
    Ok(all)
}

/// Two replays of the same tasks.
fn switched(seeds: &mut Random, family: u8, changes: &[Change]) -> [Replayed; 2] {
    let tasks = tasks(seeds.next(), family, changes);
    [(&CALM, false), (&BUSY, true)].map(|(around, busy)| {
        let parts = tasks.iter().map(|task| flushed(task.replayed(seeds.next(), around), busy));
        parts.reduce(Replayed::then).expect("a task")
    })
}

fn fits(replayed: &Replayed) -> bool {
    let trace = encode(&replayed.records);
    let lines: usize = oracle_lines(&trace, false).iter().map(|line| line.len() + 1).sum();
    trace.len() < ROOM && lines < ROOM
}

/// Registers of the family; the 68030's with SRP in use.
fn registers_of(b: &mut Builder, family: u8) -> Registers {
    let tc = if family == 30 { b.sensible_tc() | 0x0200_0000 } else { b.random.pick(&[0x8000, 0xC000]) };
    b.registers_of(family, tc)
}

fn tasks(seed: u64, family: u8, changes: &[Change]) -> Vec<Shared> {
    let mut b = Builder::new(seed, usize::MAX);
    let home = b.random.long();
    let mut registers = registers_of(&mut b, family);
    let near = |n: usize, b: &mut Builder| if n == 0 { home } else { b.near(&registers, home) };
    let places: Vec<(u32, u8)> = (0..8).map(|n| (near(n, &mut b), CODES[n % CODES.len()])).collect();
    b.root(&mut registers, true, true, home);
    let mut all = vec![task(&mut b, &registers, &places)];
    for &change in changes {
        next(&mut b, &mut registers, change, home);
        all.push(task(&mut b, &registers, &places));
    }
    all
}

/// The registers of the next task, with new roots where its tables are new.
fn next(b: &mut Builder, registers: &mut Registers, change: Change, home: u32) {
    let (user, supervisor) = match change {
        Crp => (true, false),
        Srp => (false, true),
        Widths => {
            registers.tc = other_tc(b, page_bits(registers), registers.tc);
            (true, true)
        }
        PageSize if registers.family == 30 => {
            registers.tc = other_tc(b, if page_bits(registers) == 12 { 13 } else { 12 }, registers.tc);
            (true, true)
        }
        PageSize => {
            registers.tc ^= 0x4000;
            (true, true)
        }
        Family(family) => {
            *registers = registers_of(b, family);
            (true, true)
        }
    };
    b.root(registers, user, supervisor, home);
}

/// Another TC with this page shift, SRP in use.
fn other_tc(b: &mut Builder, shift: u32, tc: u32) -> u32 {
    loop {
        let levels = b.random.pick(&[2, 3, 4]);
        let other = b.tc_of(shift, 0, levels) | 0x0200_0000;
        if other != tc {
            return other;
        }
    }
}

/// A task's tables, and its watched accesses.
fn task(b: &mut Builder, registers: &Registers, places: &[(u32, u8)]) -> Shared {
    b.tree_for(registers, &WATCHED, places);
    let before = b.records.len();
    (0..b.random.within(4, 7)).for_each(|_| b.access());
    let watched = b.records.split_off(before);
    let (registers, targets) = b.sets[b.current].clone();
    Shared::over(&mut memory_after(&b.records), registers, targets, Vec::new(), watched)
}

/// A task's records with the flush behind its registers and tables, before its first
/// call. In the busy replay a PTEST and flushes of parts stand between. Bus-error ranges
/// would last into the next task: they are left out.
fn flushed(part: Replayed, busy: bool) -> Replayed {
    let part = part.without(|record| matches!(record, Record::Range { first, last } if first <= last));
    let at = part.records.iter().position(is_call).expect("a task calls");
    let mut between = Vec::new();
    if busy {
        between.push(Record::Test { code: 1, write: 0, level: 7, address: LOGICAL });
        between.push(Record::FlushCode { code: 1, mask: 7 });
        between.push(Record::FlushFrame { frame: LOGICAL >> 12 });
    }
    between.push(Record::FlushAll);
    part.with(at, between)
}

/// Panics unless each access and PLOAD since the last flush of both caches was made under
/// the registers of the watched access, and every long that its cacheless walk asks for
/// read as it does now.
fn check(replayed: &Replayed) {
    let mut since = Vec::new();
    for (n, record) in replayed.records.iter().enumerate() {
        match record {
            Record::FlushAll => since.clear(),
            Record::Access { .. } | Record::Load { .. } => since.push(n),
            _ => {}
        }
        if replayed.watched.contains(&n) {
            since.iter().for_each(|&then| assert!(suits(replayed, then, n), "record {then} doesn't suit record {n}"));
        }
    }
}

/// Whether the registers at the first record are those at the second, a watched access,
/// and so are the longs that its cacheless walk asks for.
fn suits(replayed: &Replayed, then: usize, now: usize) -> bool {
    let [before, after] = [then, now].map(|n| &replayed.records[..n]);
    let [mut old, mut new]: [TableMemory; 2] = [before, after].map(memory_after);
    let registers = registers_after(after);
    cacheless(&registers, &replayed.records[now], &mut new);
    let asked = new.asked.clone();
    registers_after(before) == registers && asked.iter().all(|&at| old.fetch(at) == new.fetch(at))
}

/// How many watched accesses are answered otherwise where no flush of both caches stands.
fn stale_without_flushes(replayed: &Replayed) -> usize {
    let without = replayed.without(|record| *record == Record::FlushAll);
    without.lines().iter().zip(without.walks()).filter(|(line, walk)| without_count(line) != walk).count()
}

/// Pairs just outside the condition: behind a change the first replay has a flush of both
/// caches; in the second it is missing, or another flush stands in its place.
fn unflushed(folder: &Path) -> std::io::Result<Vec<Stored>> {
    let base = with(|_| ());
    let on_040 = with(|registers| (registers.family, registers.tc) = (40, 0x8000));
    let other_crp = with(|registers| registers.crp_address = 0x1800);
    let load = Record::Load { code: 1, write: 0, address: LOGICAL };
    let mask_0 = Record::FlushCode { code: 0, mask: 0 };
    let changed = store(0x3004, 0x77001);
    let kept = [
        ("stale_long", &base, read(LOGICAL), &changed, None, "a long changes after an access, without a flush"),
        ("stale_load", &base, load, &changed, None, "a long changes after a PLOAD, without a flush"),
        ("stale_registers", &base, read(LOGICAL), &other_crp, None, "CRP changes after an access, without a flush"),
        (
            "stale_mask_0",
            &on_040,
            read(LOGICAL),
            &changed,
            Some(mask_0),
            "a long changes after an access of a 68040, and the flush behind it empties the 68030 cache alone",
        ),
    ];
    let mut all = Vec::new();
    for (name, registers, before, change, instead, what) in kept {
        let replay = |flush: Option<Record>| {
            let mut then = vec![before.clone(), change.clone()];
            then.extend(flush);
            then.extend([read(LOGICAL), Record::FlushAll, read(LOGICAL)]);
            let mut records = on_base(&[(0x1804, 0x2802), (0x2804, 0x3802), (0x3804, 0x88001)], &then);
            records[0] = registers.clone();
            let watched = (0..records.len()).filter(|&n| records[n] == read(LOGICAL)).collect();
            Replayed { records, watched }
        };
        let [first, second] = [Some(Record::FlushAll), instead].map(replay);
        let heading = format!("not steady: in the second replay {what}");
        let pair = store_pair(folder, name, first, second, &heading)?;
        assert_eq!(pair.differ, [pair.walks.len() - 2], "{name}: the access behind the change alone is stale");
        all.push(pair);
    }
    Ok(all)
}
