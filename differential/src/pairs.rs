//! Pairs of replays: the same watched accesses in the same order, under the same
//! registers, and all else different. The longs that the cacheless walks of the watched
//! accesses ask for are stored before the first call and read the same throughout.

use crate::builder::{Builder, CODES, Op, Target};
use crate::examples::{LOGICAL, on_base, read, store};
use crate::memory::{LONGS, TableMemory};
use crate::original::Original;
use crate::random::Random;
use crate::replay::{Access, Machine};
use crate::selftest::oracle_lines;
use crate::switches::switches;
use crate::trace::{Record, Registers, encode};
use crate::trees::Shape;
use std::collections::{BTreeMap, BTreeSet};
use std::fs;
use std::path::Path;

const FAMILIES: [(u8, &str); 3] = [(30, "68030"), (40, "68040"), (60, "68060")];

/// What the watched accesses of each family must show: an address, a bad target, an
/// invalid descriptor, WP, S and a bus error.
const SHOWN: [&str; 6] = ["A", "F 2 2", "F 2 3", "F 2 4", "F 2 5", "F 3 6"];

/// The trees of the watched accesses.
pub const WATCHED: Shape = Shape { long: 40, early: 10, indirect: 25, bad_target: 30, invalid: 6, wp: 18, sup: 14 };

/// Of so many candidates for each pair the one that shows most is kept.
const CANDIDATES: u64 = 40;

/// What the two replays of a pair share.
pub struct Shared {
    registers: Registers,
    targets: Vec<Target>,
    watched: Vec<Record>,
    /// The cacheless walk's answer for each.
    answers: Vec<String>,
    /// Each long that these walks ask for: its value, or a bus error.
    longs: BTreeMap<u32, Option<u32>>,
    /// The ranges behind the bus errors.
    ranges: Vec<(u32, u32)>,
}

/// One replay, and which of its records are watched.
pub struct Replayed {
    pub records: Vec<Record>,
    pub watched: Vec<usize>,
}

/// How much is done around the watched accesses.
pub struct Around {
    /// Paths of other addresses that are planted before the first call.
    paths: u64,
    /// Whether the long behind each watched one is stored as well.
    beside: bool,
    /// Records before each watched access, at most.
    most: u64,
    ops: &'static [(Op, u64)],
    shape: Shape,
}

/// The first replay of a pair.
pub const CALM: Around = Around {
    paths: 2,
    beside: false,
    most: 5,
    ops: &[(Op::Access, 50), (Op::Probe, 12), (Op::Test, 8), (Op::FlushPage, 3), (Op::Mutate, 8), (Op::Bad, 3)],
    shape: Shape::PLAIN,
};

/// The second.
pub const BUSY: Around = Around {
    paths: 6,
    beside: true,
    most: 12,
    ops: &[
        (Op::Access, 40),
        (Op::Load, 14),
        (Op::Test, 8),
        (Op::Probe, 8),
        (Op::FlushAll, 2),
        (Op::FlushCode, 3),
        (Op::FlushPage, 6),
        (Op::FlushFrame, 6),
        (Op::Mutate, 14),
        (Op::Cut, 2),
        (Op::Bad, 4),
    ],
    shape: Shape::MIXED,
};

/// Writes so many pairs, those that switch (`switches.rs`) and some that are not steady, into
/// `data`; then `args` with their names and `stdout`, what `crates/independence` must write.
/// Says what their watched accesses show.
pub fn pairs(folder: &Path, count: usize, seed: u64) -> std::io::Result<bool> {
    let data = folder.join("data");
    fs::create_dir_all(&data)?;
    let mut seeds = Random::new(seed);
    let mut all = Vec::new();
    let mut shown: BTreeMap<u8, BTreeSet<String>> = BTreeMap::new();
    for n in 0..count {
        let (family, name) = FAMILIES[n % FAMILIES.len()];
        let name = format!("{name}_{}", char::from(b'a' + (n / FAMILIES.len()) as u8));
        let so_far = shown.entry(family).or_default();
        let candidates = (0..CANDIDATES).map(|_| shared(family, seeds.next()));
        let shared = candidates.max_by_key(|shared| shared.gain(so_far)).expect("a candidate");
        so_far.extend(shared.kinds());
        let [first, second] = [&CALM, &BUSY].map(|around| shared.replayed(seeds.next(), around));
        shared.check(&first);
        shared.check(&second);
        let pair = store_pair(&data, &name, first, second, "steady")?;
        assert!(pair.differ.is_empty(), "{name}: the watched accesses {:?} are answered differently", pair.differ);
        println!("{name}: {}", told(&pair));
        all.push(pair);
    }
    all.push(stale(&data)?);
    all.extend(switches(&data, seeds.next())?);
    store_report(folder, all)?;
    let missing = |family: &u8| SHOWN.iter().filter(|kind| !shown[family].contains(**kind)).collect::<Vec<_>>();
    let missing: Vec<_> = shown.keys().map(|family| (family, missing(family))).collect();
    println!("{count} pairs, a stale one and those that switch written; not shown: {missing:?}");
    Ok(missing.iter().all(|(_, kinds)| kinds.is_empty()))
}

/// The kind of an answer: `A`, or `F` with kind and cause.
fn kind_of(answer: &str) -> String {
    let words: Vec<&str> = answer.split(' ').collect();
    words[..words.len() - 1].join(" ")
}

fn shared(family: u8, seed: u64) -> Shared {
    let mut b = Builder::new(seed, 400);
    let tc = match family {
        30 => b.sensible_tc() | b.random.pick(&[0, 0x0100_0000, 0x0200_0000, 0x0300_0000]),
        _ => b.random.pick(&[0x8000, 0xC000]),
    };
    let registers = b.registers_of(family, tc);
    let paths = b.random.within(6, 10) as usize;
    b.tree(&registers, &WATCHED, paths, &CODES);
    b.cut();
    let before = b.records.len();
    (0..b.random.within(12, 36)).for_each(|_| b.access());
    let watched = b.records.split_off(before);
    let (registers, targets) = b.sets[0].clone();
    let ranges = b.records.iter().filter_map(ranged).collect();
    Shared::over(&mut memory_after(&b.records), registers, targets, ranges, watched)
}

fn ranged(record: &Record) -> Option<(u32, u32)> {
    match *record {
        Record::Range { first, last } => Some((first, last)),
        _ => None,
    }
}

/// A bus-error range anywhere.
fn elsewhere(b: &mut Builder) {
    let first = b.random.below(4 * LONGS as u64) as u32;
    let last = first + b.random.below(64) as u32;
    b.push(Record::Range { first, last });
}

/// A store of any value.
fn any_value(b: &mut Builder, address: u32) {
    let value = b.random.long();
    b.store(address, value);
}

/// The program's memory after these records.
pub fn memory_after(records: &[Record]) -> TableMemory {
    let mut memory = TableMemory::of_program();
    records.iter().for_each(|record| change(&mut memory, record));
    memory
}

/// The registers after these records.
pub fn registers_after(records: &[Record]) -> Registers {
    let loaded = |record: &Record| match record {
        Record::Registers(registers) if [30, 40, 60].contains(&registers.family) => Some(registers.clone()),
        _ => None,
    };
    records.iter().rev().find_map(loaded).unwrap_or_else(Registers::at_start)
}

/// What a record does to the memory, or to none where it is refused.
pub fn change(memory: &mut TableMemory, record: &Record) {
    match *record {
        Record::Store { address, value } => drop(memory.store(address, value)),
        Record::Range { first, last } if first <= last && memory.ranges.len() < 16 => memory.ranges.push((first, last)),
        _ => {}
    }
}

/// The access's line, without the count, from empty caches.
pub fn cacheless(registers: &Registers, access: &Record, memory: &mut TableMemory) -> String {
    let Record::Access { flags, override_code, address } = *access else { panic!("only accesses are watched") };
    let access = Access::of(flags, override_code, address);
    memory.counted(|memory| Original::default().translate(registers, &access, memory)).0.to_string()
}

/// Whether the record is a call, and no change of memory or registers.
pub fn is_call(record: &Record) -> bool {
    !matches!(record, Record::Registers(_) | Record::Store { .. } | Record::Range { .. })
}

impl Shared {
    /// The watched accesses over this memory.
    pub fn over(
        memory: &mut TableMemory,
        registers: Registers,
        targets: Vec<Target>,
        ranges: Vec<(u32, u32)>,
        watched: Vec<Record>,
    ) -> Self {
        let mut shared = Shared { registers, targets, watched, answers: Vec::new(), longs: BTreeMap::new(), ranges };
        for access in &shared.watched {
            shared.answers.push(cacheless(&shared.registers, access, memory));
            for address in memory.asked.clone() {
                shared.longs.insert(address, memory.fetch(address));
            }
        }
        shared
    }

    fn kinds(&self) -> BTreeSet<String> {
        self.answers.iter().map(|answer| kind_of(answer)).collect()
    }

    /// How much it shows, what was not shown before counting most; nothing where more
    /// than half are faults.
    fn gain(&self, so_far: &BTreeSet<String>) -> usize {
        let kinds = self.kinds();
        let addresses = self.answers.iter().filter(|answer| answer.starts_with('A')).count();
        if addresses * 2 < self.answers.len() { 0 } else { kinds.len() + 4 * kinds.difference(so_far).count() }
    }

    /// A replay of the watched accesses with other records around them.
    pub fn replayed(&self, seed: u64, around: &Around) -> Replayed {
        let mut b = Builder::new(seed, usize::MAX);
        self.prepare(&mut b);
        b.sets.push((self.registers.clone(), self.targets.clone()));
        (0..around.paths).for_each(|_| self.plant_other(&mut b, &around.shape));
        (0..3).for_each(|_| elsewhere(&mut b));
        if around.beside {
            self.longs.keys().for_each(|&address| any_value(&mut b, address.wrapping_add(4)));
        }
        let mut watched = Vec::new();
        for access in &self.watched {
            (0..b.random.within(1, around.most)).for_each(|_| self.other(&mut b, around));
            watched.push(b.records.len());
            b.push(access.clone());
        }
        self.mended(b.records, &watched)
    }

    /// The registers, the watched longs and their ranges, in any order.
    fn prepare(&self, b: &mut Builder) {
        let mut longs: Vec<(u32, u32)> =
            self.longs.iter().filter_map(|(&address, &value)| Some((address, value?))).collect();
        b.random.shuffle(&mut longs);
        let registers_at = b.random.below(longs.len() as u64 + 1) as usize;
        for (n, &(address, value)) in longs.iter().enumerate() {
            if n == registers_at {
                b.set(&self.registers);
            }
            b.plant(address, value);
        }
        if b.registers != self.registers {
            b.set(&self.registers);
        }
        self.ranges.iter().for_each(|&(first, last)| b.push(Record::Range { first, last }));
    }

    /// A path to an address beside the watched ones.
    fn plant_other(&self, b: &mut Builder, shape: &Shape) {
        let target = b.random.pick(&self.targets);
        let address = b.near(&self.registers, target.address);
        b.extend(address, target.code, shape);
    }

    /// One record that is not watched, or the records of a path.
    fn other(&self, b: &mut Builder, around: &Around) {
        match b.random.below(40) {
            0 => self.plant_other(b, &around.shape),
            1..=3 => {
                let address = 4 * b.random.below(LONGS as u64) as u32;
                any_value(b, address);
            }
            _ => {
                let weights: Vec<u64> = around.ops.iter().map(|&(_, weight)| weight).collect();
                let op = around.ops[b.random.weighted(&weights)].0;
                b.op(op);
            }
        }
    }

    /// The records with the watched longs let alone: a store into one stores what stands
    /// there, and a range that touches one that can be read is left out.
    fn mended(&self, records: Vec<Record>, watched: &[usize]) -> Replayed {
        let mut replayed = Replayed { records: Vec::new(), watched: Vec::new() };
        for (n, mut record) in records.into_iter().enumerate() {
            match &mut record {
                Record::Store { address, value } => {
                    if let Some(&Some(kept)) = self.longs.get(address) {
                        *value = kept;
                    }
                }
                Record::Range { first, last } if self.touches(*first, *last) => continue,
                _ => {}
            }
            if watched.contains(&n) {
                replayed.watched.push(replayed.records.len());
            }
            replayed.records.push(record);
        }
        replayed
    }

    /// Whether a range touches a watched long that can be read.
    fn touches(&self, first: u32, last: u32) -> bool {
        self.longs.iter().any(|(&address, value)| value.is_some() && first <= address + 3 && address <= last)
    }

    /// Panics unless the replay has the watched accesses in order, every call is under the
    /// registers and finds every watched long as it is, and much else is called.
    fn check(&self, replayed: &Replayed) {
        let found: Vec<&Record> = replayed.watched.iter().map(|&n| &replayed.records[n]).collect();
        assert!(found.iter().copied().eq(&self.watched), "other watched accesses");
        let mut memory = TableMemory::of_program();
        let mut registers = Registers::at_start();
        for record in &replayed.records {
            change(&mut memory, record);
            match record {
                Record::Registers(r) if [30, 40, 60].contains(&r.family) => registers = r.clone(),
                _ => {}
            }
            if is_call(record) {
                assert!(registers == self.registers, "other registers");
                assert!(self.longs.iter().all(|(&at, &value)| memory.fetch(at) == value), "a watched long changed");
            }
        }
        assert!(replayed.unwatched_calls() >= self.watched.len(), "too little is called besides");
    }
}

impl Replayed {
    /// What the original answers each watched access, with its count.
    pub fn lines(&self) -> Vec<String> {
        let lines = oracle_lines(&encode(&self.records), false);
        // `v1` comes before the first record's line.
        self.watched.iter().map(|&n| lines[n + 1].clone()).collect()
    }

    /// The cacheless walk's answer for each watched access at its moment.
    pub fn walks(&self) -> Vec<String> {
        let walk = |&n: &usize| {
            let before = &self.records[..n];
            cacheless(&registers_after(before), &self.records[n], &mut memory_after(before))
        };
        self.watched.iter().map(walk).collect()
    }

    /// The records of the one, then those of the other.
    pub fn then(mut self, other: Replayed) -> Replayed {
        let before = self.records.len();
        self.records.extend(other.records);
        self.watched.extend(other.watched.iter().map(|&n| n + before));
        self
    }

    /// The same with these records before the one at `at`.
    pub fn with(mut self, at: usize, between: Vec<Record>) -> Replayed {
        self.watched.iter_mut().filter(|n| **n >= at).for_each(|n| *n += between.len());
        self.records.splice(at..at, between);
        self
    }

    /// The same without the records that are so. None of these is watched.
    pub fn without(&self, so: impl Fn(&Record) -> bool) -> Replayed {
        let before = |n: usize| self.records[..n].iter().filter(|record| !so(record)).count();
        Replayed {
            records: self.records.iter().filter(|record| !so(record)).cloned().collect(),
            watched: self.watched.iter().map(|&n| before(n)).collect(),
        }
    }

    fn unwatched_calls(&self) -> usize {
        self.records.iter().filter(|record| is_call(record)).count() - self.watched.len()
    }
}

/// A pair that was written.
pub struct Stored {
    name: String,
    heading: String,
    first: Replayed,
    pub second: Replayed,
    /// The cacheless walk's answer for each watched access.
    pub walks: Vec<String>,
    /// Which watched accesses are answered differently, or not by the walk.
    pub differ: Vec<usize>,
}

/// How the two replays of a pair differ.
pub fn told(pair: &Stored) -> String {
    format!(
        "{} watched accesses, {} with other counts, among {} and {} other calls",
        pair.walks.len(),
        pair.other_counts(),
        pair.first.unwatched_calls(),
        pair.second.unwatched_calls()
    )
}

/// A line without its count.
pub fn without_count(line: &str) -> &str {
    line.rsplit_once(' ').expect("an access's line ends in its count").0
}

/// Writes both traces, and a row for each watched access: its record in the first and
/// in the second, and the cacheless walk's line.
pub fn store_pair(
    folder: &Path,
    name: &str,
    first: Replayed,
    second: Replayed,
    heading: &str,
) -> std::io::Result<Stored> {
    let walks = first.walks();
    assert_eq!(walks, second.walks(), "{name}: the cacheless walks differ");
    let mut text = format!("{heading}\n");
    let mut differ = Vec::new();
    for (n, (one, two)) in first.lines().iter().zip(second.lines()).enumerate() {
        if [one, &two].iter().any(|line| without_count(line) != walks[n]) {
            differ.push(n);
        }
        text += &format!("{} {} {}\n", first.watched[n], second.watched[n], walks[n]);
    }
    fs::write(folder.join(format!("{name}_1.trace")), encode(&first.records))?;
    fs::write(folder.join(format!("{name}_2.trace")), encode(&second.records))?;
    fs::write(folder.join(format!("{name}.watched")), text)?;
    Ok(Stored { name: name.to_string(), heading: heading.to_string(), first, second, walks, differ })
}

impl Stored {
    /// How many watched accesses are answered alike, but with other counts.
    fn other_counts(&self) -> usize {
        let lines = self.first.lines().into_iter().zip(self.second.lines());
        lines.filter(|(one, two)| one != two && without_count(one) == without_count(two)).count()
    }

    /// What `crates/independence` must write of it, by the original's lines.
    fn report(&self) -> String {
        let [one, two] = [&self.first, &self.second].map(Replayed::lines);
        let mut text = String::new();
        let mut alike = 0;
        for (n, walk) in self.walks.iter().enumerate() {
            let [a, b] = [&one[n], &two[n]].map(|line| without_count(line));
            alike += usize::from(a == b);
            if self.differ.contains(&n) {
                let [first, second] = [self.first.watched[n], self.second.watched[n]];
                text +=
                    &format!("{}: records {first} and {second}: {a} and {b}; the cacheless walk: {walk}\n", self.name);
            }
        }
        text += &format!(
            "{}: {} watched accesses among {} and {} records, {alike} alike, {} the cacheless walk's, {} with other counts\n",
            self.name,
            self.walks.len(),
            self.first.records.len(),
            self.second.records.len(),
            self.walks.len() - self.differ.len(),
            self.other_counts()
        );
        if !self.is_steady() {
            text += &format!("{}: {}\n", self.name, self.heading);
        }
        text
    }

    fn is_steady(&self) -> bool {
        self.heading == "steady"
    }
}

/// Writes the names of the pairs, and what `crates/independence` must write of them all.
fn store_report(folder: &Path, mut all: Vec<Stored>) -> std::io::Result<()> {
    all.sort_by(|one, two| one.name.cmp(&two.name));
    let sum = |steady: bool| {
        let pairs: Vec<&Stored> = all.iter().filter(|pair| pair.is_steady() == steady).collect();
        let watched: usize = pairs.iter().map(|pair| pair.walks.len()).sum();
        let differ: usize = pairs.iter().map(|pair| pair.differ.len()).sum();
        format!("steady: {} pairs, {watched} watched accesses, {differ} differ\n", pairs.len())
    };
    let names: String = all.iter().map(|pair| format!("{}\n", pair.name)).collect();
    let reports: String = all.iter().map(Stored::report).collect();
    fs::write(folder.join("args"), names)?;
    fs::write(folder.join("stdout"), format!("{reports}{}not {}", sum(true), sum(false)))
}

/// The pair just outside the conditions: in the second replay a page is read, and then
/// its descriptor is cleared as the guard planner does, without a flush.
fn stale(folder: &Path) -> std::io::Result<Stored> {
    let beside = LOGICAL + 0x1000;
    let mapped = (0x3008, 0x66001);
    let first = Replayed {
        records: on_base(&[mapped, (0x3004, 0)], &[read(beside), read(LOGICAL), read(LOGICAL), read(beside)]),
        watched: vec![6, 7, 8, 9],
    };
    let flush = Record::FlushPage { code: 1, mask: 7, address: LOGICAL };
    let guard = store(0x3004, 0);
    let second = Replayed {
        records: on_base(
            &[mapped],
            &[read(LOGICAL), read(beside), guard, read(LOGICAL), flush, read(LOGICAL), read(beside)],
        ),
        watched: vec![6, 8, 10, 11],
    };
    let heading =
        "not steady: in the second replay the long at 00003004 is cleared after a call read it, without a flush";
    let pair = store_pair(folder, "68030_stale", first, second, heading)?;
    assert_eq!(pair.differ, [1], "the stale pair's second watched access alone is stale");
    Ok(pair)
}
