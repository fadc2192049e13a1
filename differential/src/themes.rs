//! Traces by theme. A theme fills a builder up to its limit.

use crate::builder::{Builder, CODES, Op, Target};
use crate::trace::{NONE, RECORD, Record, Registers};
use crate::trees::{Shape, page_bits};

pub type Theme = (&'static str, fn(&mut Builder));

pub const THEMES: &[Theme] = &[
    ("walk030_short", walk030_short),
    ("walk030_long", walk030_long),
    ("walk030_mixed", walk030_mixed),
    ("indirect030", indirect030),
    ("indirect030_bad", indirect030_bad),
    ("early030", early030),
    ("wp030", wp030),
    ("sup030", sup030),
    ("fcl", fcl),
    ("sre", sre),
    ("wild_tc", wild_tc),
    ("zero_widths", zero_widths),
    ("configuration", configuration),
    ("tt030", tt030),
    ("walk040_4k", walk040_4k),
    ("walk040_8k", walk040_8k),
    ("indirect040", indirect040),
    ("protection040", protection040),
    ("invalid040", invalid040),
    ("same_slot040", same_slot040),
    ("tt040", tt040),
    ("family60", family60),
    ("flush_all", flush_all),
    ("flush_code", flush_code),
    ("flush_page", flush_page),
    ("flush_frame", flush_frame),
    ("pload", pload),
    ("ptest", ptest),
    ("probe", probe),
    ("ranges", ranges),
    ("ranges_seventeen", ranges_seventeen),
    ("overrides", overrides),
    ("refusals", refusals),
    ("page_size_change", page_size_change),
    ("page_size_change040", page_size_change040),
    ("lru_22", lru_22),
    ("unrecorded", unrecorded),
    ("off", off),
    ("stale", stale),
    ("top_of_memory", top_of_memory),
    ("two_families", two_families),
];

/// The 68030's registers with a sensible TC.
fn sensible(b: &mut Builder) -> Registers {
    let tc = b.sensible_tc();
    b.registers_of(30, tc)
}

/// The same with both roots in one format (2 short, 3 long).
fn of_format(b: &mut Builder, format: u32) -> Registers {
    let mut registers = sensible(b);
    registers.crp_limit = registers.crp_limit & !3 | format;
    registers.srp_limit = registers.srp_limit & !3 | format;
    registers
}

const READING: &[(Op, u64)] = &[(Op::Access, 70), (Op::Test, 15), (Op::Probe, 10), (Op::Load, 5)];

fn walk030_short(b: &mut Builder) {
    let registers = of_format(b, 2);
    b.tree(&registers, &Shape { invalid: 8, ..Shape::PLAIN }, 9, &CODES);
    b.body(READING);
}

fn walk030_long(b: &mut Builder) {
    let registers = of_format(b, 3);
    b.tree(&registers, &Shape { long: 100, invalid: 8, ..Shape::PLAIN }, 7, &CODES);
    b.body(READING);
}

fn walk030_mixed(b: &mut Builder) {
    let registers = sensible(b);
    b.tree(&registers, &Shape { long: 50, ..Shape::MIXED }, 9, &CODES);
    b.body(READING);
}

fn indirect030(b: &mut Builder) {
    let registers = sensible(b);
    b.tree(&registers, &Shape { long: 50, indirect: 85, wp: 25, ..Shape::PLAIN }, 7, &CODES);
    b.body(READING);
}

fn indirect030_bad(b: &mut Builder) {
    let registers = sensible(b);
    let shape = Shape { long: 50, indirect: 95, bad_target: 70, wp: 40, sup: 20, ..Shape::PLAIN };
    b.tree(&registers, &shape, 7, &[1, 5]);
    b.body(READING);
}

fn early030(b: &mut Builder) {
    let registers = sensible(b);
    b.hot = 9;
    b.tree(&registers, &Shape { long: 40, early: 60, wp: 10, ..Shape::PLAIN }, 9, &CODES);
    b.body(READING);
}

fn wp030(b: &mut Builder) {
    let registers = sensible(b);
    b.writes = 55;
    b.tree(&registers, &Shape { long: 40, early: 15, wp: 40, ..Shape::PLAIN }, 8, &CODES);
    b.body(READING);
}

fn sup030(b: &mut Builder) {
    let registers = of_format(b, 3);
    b.tree(&registers, &Shape { long: 85, early: 15, wp: 10, sup: 35, ..Shape::PLAIN }, 7, &CODES);
    b.body(READING);
}

fn fcl(b: &mut Builder) {
    let mut registers = sensible(b);
    registers.tc |= 0x0100_0000;
    b.overrides = 25;
    b.tree(&registers, &Shape { early: 20, ..Shape::MIXED }, 9, &[1, 2, 5, 6, 0, 3, 4, 7]);
    b.body(READING);
}

fn sre(b: &mut Builder) {
    let mut registers = sensible(b);
    registers.tc |= 0x0200_0000;
    if b.random.chance(30) {
        registers.tc |= 0x0100_0000;
    }
    b.tree(&registers, &Shape { long: 40, wp: 10, ..Shape::PLAIN }, 9, &CODES);
    b.body(READING);
}

/// IS up to 15, sums above 32.
fn wild_tc(b: &mut Builder) {
    let tc = b.wild_tc();
    let registers = b.registers_of(30, tc);
    b.tree(&registers, &Shape { long: 40, early: 25, indirect: 20, wp: 8, ..Shape::PLAIN }, 7, &CODES);
    b.body(READING);
}

/// A zero width stops the levels, whatever follows it.
fn zero_widths(b: &mut Builder) {
    let place = b.random.within(1, 3) as u32;
    let tc = b.sensible_tc() & !(15 << (12 - 4 * place));
    let registers = b.registers_of(30, tc);
    b.hot = 4;
    b.tree(&registers, &Shape { long: 30, indirect: 15, wp: 8, ..Shape::PLAIN }, 7, &CODES);
    b.body(READING);
}

/// Root types 0 and 1, and no level at all.
fn configuration(b: &mut Builder) {
    let registers = sensible(b);
    b.tree(&registers, &Shape::PLAIN, 4, &[1, 5]);
    let good = b.sets[0].clone();
    for kind in [0, 1] {
        let mut other = good.clone();
        other.0.crp_limit = other.0.crp_limit & !3 | kind;
        b.sets.push(other);
    }
    for tc in [0x8000_0000, 0x80C0_0776, 0x810C_0000, 0x8005_0000] {
        let mut other = good.clone();
        other.0.tc = tc;
        b.sets.push(other);
    }
    b.body(&[(Op::Access, 45), (Op::Switch, 20), (Op::Test, 20), (Op::Load, 10), (Op::Probe, 5)]);
}

fn tt030(b: &mut Builder) {
    let registers = sensible(b);
    b.overrides = 25;
    b.tree(&registers, &Shape { wp: 10, ..Shape::PLAIN }, 5, &CODES);
    for _ in 0..3 {
        let mut other = b.sets[0].clone();
        let target = b.place();
        other.0.tt0 = b.tt_for(target.address, target.code);
        // Nothing, another region, or the same one: then both may match, or one for each direction.
        other.0.tt1 = match b.random.below(4) {
            0 => 0,
            1 => b.tt_for(!target.address, 5),
            _ => b.tt_for(target.address, target.code),
        };
        if b.random.chance(20) {
            other.0.tt0 &= !0x8000;
        }
        other.1.push(Target { address: !target.address, code: 5, span: 20 });
        b.sets.push(other);
    }
    b.op(Op::Switch);
    b.body(&[(Op::Access, 55), (Op::Test, 15), (Op::Load, 10), (Op::Probe, 10), (Op::Switch, 10)]);
}

const READING_040: &[(Op, u64)] = &[(Op::Access, 80), (Op::Probe, 12), (Op::FlushFrame, 6), (Op::FlushAll, 2)];

fn walk040_4k(b: &mut Builder) {
    let registers = b.registers_of(40, 0x8000);
    b.tree(&registers, &Shape { invalid: 5, wp: 8, ..Shape::PLAIN }, 10, &CODES);
    b.body(READING_040);
}

fn walk040_8k(b: &mut Builder) {
    let registers = b.registers_of(40, 0xC000);
    b.tree(&registers, &Shape { invalid: 5, wp: 8, ..Shape::PLAIN }, 10, &CODES);
    b.body(READING_040);
}

fn tc_040(b: &mut Builder) -> u32 {
    b.random.pick(&[0x8000, 0xC000])
}

fn indirect040(b: &mut Builder) {
    let tc = tc_040(b);
    let registers = b.registers_of(40, tc);
    b.tree(&registers, &Shape { indirect: 80, bad_target: 35, wp: 12, sup: 10, ..Shape::PLAIN }, 9, &CODES);
    b.body(READING_040);
}

fn protection040(b: &mut Builder) {
    let tc = tc_040(b);
    let registers = b.registers_of(40, tc);
    b.writes = 55;
    b.tree(&registers, &Shape { indirect: 15, wp: 30, sup: 45, ..Shape::PLAIN }, 9, &CODES);
    b.body(READING_040);
}

fn invalid040(b: &mut Builder) {
    let tc = tc_040(b);
    let registers = b.registers_of(40, tc);
    b.tree(&registers, &Shape { indirect: 15, bad_target: 50, invalid: 35, ..Shape::PLAIN }, 12, &CODES);
    b.body(READING_040);
}

/// Frames that share a slot: 64 frames apart, and both privileges.
fn same_slot040(b: &mut Builder) {
    let tc = tc_040(b);
    let registers = b.registers_of(40, tc);
    b.tree(&registers, &Shape { wp: 15, sup: 10, ..Shape::PLAIN }, 2, &[1, 5]);
    let home = b.sets[0].1[0].address;
    let step = 64u32 << page_bits(&b.sets[0].0.clone());
    for n in 1..4u32 {
        for code in [1, 5] {
            b.extend(home.wrapping_add(n * step), code, &Shape { wp: 15, ..Shape::PLAIN });
        }
    }
    b.body(READING_040);
}

fn tt040(b: &mut Builder) {
    let family = b.random.pick(&[40, 40, 40, 60]);
    let tc = tc_040(b);
    let registers = b.registers_of(family, tc);
    b.overrides = 25;
    b.tree(&registers, &Shape { wp: 10, sup: 15, ..Shape::PLAIN }, 5, &CODES);
    for _ in 0..3 {
        let mut other = b.sets[0].clone();
        let target = b.place();
        for register in [&mut other.0.itt0, &mut other.0.itt1, &mut other.0.dtt0, &mut other.0.dtt1] {
            let address = if b.random.chance(40) { target.address } else { !target.address };
            *register = if b.random.chance(70) { b.ttr_for(address) } else { b.random.long() & !0x8000 };
        }
        other.1.push(Target { address: !target.address, code: b.random.pick(&CODES), span: 20 });
        b.sets.push(other);
    }
    b.op(Op::Switch);
    b.body(&[(Op::Access, 70), (Op::Probe, 18), (Op::Switch, 12)]);
}

/// The 68040's walk; ITTs and DTTs match nothing, PLOAD and PTEST are refused.
fn family60(b: &mut Builder) {
    let tc = tc_040(b);
    let mut registers = b.registers_of(60, tc);
    registers.itt0 = 0x00FF_C000;
    registers.dtt0 = 0x00FF_C000;
    b.tree(&registers, &Shape { indirect: 20, bad_target: 20, wp: 15, sup: 15, ..Shape::PLAIN }, 9, &CODES);
    b.body(&[(Op::Access, 70), (Op::Probe, 14), (Op::FlushFrame, 8), (Op::Load, 4), (Op::Test, 4)]);
}

fn flush_all(b: &mut Builder) {
    filled_pair(b);
    b.body(&[(Op::Access, 70), (Op::FlushAll, 12), (Op::Probe, 13), (Op::Switch, 5)]);
}

/// Trees for families 30 and 40, to fill both caches.
fn filled_pair(b: &mut Builder) {
    let shape = Shape { wp: 8, ..Shape::PLAIN };
    let registers = b.registers_of(40, 0x8000);
    b.tree(&registers, &shape, 3, &[1, 5]);
    let registers = sensible(b);
    b.tree(&registers, &shape, 4, &[1, 5]);
}

fn flush_code(b: &mut Builder) {
    let registers = sensible(b);
    b.hot = 4;
    b.tree(&registers, &Shape { early: 50, ..Shape::PLAIN }, 6, &CODES);
    b.body(&[(Op::Access, 62), (Op::FlushCode, 18), (Op::Probe, 20)]);
}

fn flush_page(b: &mut Builder) {
    let registers = sensible(b);
    b.hot = 3;
    b.tree(&registers, &Shape { early: 50, ..Shape::PLAIN }, 5, &CODES);
    b.body(&[(Op::Access, 60), (Op::FlushPage, 22), (Op::Probe, 18)]);
}

fn flush_frame(b: &mut Builder) {
    let tc = tc_040(b);
    let registers = b.registers_of(40, tc);
    b.tree(&registers, &Shape { wp: 10, ..Shape::PLAIN }, 5, &[1, 5]);
    b.body(&[(Op::Access, 60), (Op::FlushFrame, 22), (Op::Probe, 18)]);
}

fn pload(b: &mut Builder) {
    let mut registers = sensible(b);
    if b.random.chance(40) {
        registers.tc |= 0x0100_0000;
    }
    b.tree(&registers, &Shape { long: 60, ..Shape::MIXED }, 7, &[1, 5, 2, 6, 0, 3]);
    b.body(&[(Op::Load, 40), (Op::Access, 30), (Op::Probe, 15), (Op::Mutate, 10), (Op::Tweak, 5)]);
}

fn ptest(b: &mut Builder) {
    let registers = sensible(b);
    b.tree(&registers, &Shape { long: 60, wp: 30, sup: 15, ..Shape::MIXED }, 7, &CODES);
    b.body(&[(Op::Test, 75), (Op::Access, 10), (Op::Cut, 4), (Op::Mutate, 8), (Op::Tweak, 3)]);
}

fn probe(b: &mut Builder) {
    filled_pair(b);
    b.writes = 45;
    b.body(&[(Op::Probe, 45), (Op::Access, 40), (Op::Switch, 6), (Op::Tweak, 3), (Op::Mutate, 6)]);
}

fn ranges(b: &mut Builder) {
    filled_pair(b);
    for _ in 0..4 {
        b.cut();
    }
    b.body(&[(Op::Access, 55), (Op::Test, 15), (Op::Load, 6), (Op::Cut, 5), (Op::FlushAll, 14), (Op::Switch, 5)]);
}

/// The seventeenth range, also where it is bad, and fetches after it.
fn ranges_seventeen(b: &mut Builder) {
    let registers = sensible(b);
    b.tree(&registers, &Shape { long: 40, ..Shape::PLAIN }, 4, &[1, 5]);
    for n in 0..18u32 {
        if b.random.chance(15) {
            b.push(Record::Range { first: n + 1, last: n });
        }
        if b.random.chance(12) {
            b.cut();
        } else {
            let first = 0x8000 + 0x100 * n;
            let last = first + b.random.below(9) as u32;
            b.push(Record::Range { first, last });
        }
    }
    b.push(Record::Range { first: 9, last: 8 });
    b.body(&[(Op::Access, 60), (Op::Test, 20), (Op::FlushAll, 12), (Op::Cut, 8)]);
}

/// 0 to 7 and numbers above, on each family.
fn overrides(b: &mut Builder) {
    let family = b.random.pick(&[30, 30, 40, 60]);
    let mut tc = if family == 30 { b.sensible_tc() } else { tc_040(b) };
    if family == 30 {
        tc |= b.random.pick(&[0, 0x0100_0000, 0x0200_0000, 0x0300_0000]);
    }
    let mut registers = b.registers_of(family, tc);
    registers.tt0 = 0x55FE_8100 | (b.random.below(8) as u32) << 4;
    b.tree(&registers, &Shape { long: 40, wp: 8, sup: 12, ..Shape::PLAIN }, 7, &[1, 5, 2, 6]);
    let first = b.place();
    for override_code in [0, 1, 2, 3, 4, 5, 6, 7, 8, 0x80, 0xFE] {
        b.push(Record::Access { flags: RECORD, override_code, address: first.address });
    }
    b.overrides = 85;
    b.body(&[(Op::Access, 100)]);
}

fn refusals(b: &mut Builder) {
    if b.random.chance(70) {
        filled_pair(b);
    } else {
        let registers = b.registers_of(40, 0x8000);
        b.tree(&registers, &Shape::PLAIN, 3, &CODES);
    }
    b.body(&[(Op::Bad, 55), (Op::Access, 20), (Op::Switch, 8), (Op::Tweak, 8), (Op::Test, 5), (Op::Load, 4)]);
}

/// Another page size under a filled 68030 cache, without a flush.
fn page_size_change(b: &mut Builder) {
    let registers = sensible(b);
    b.hot = 5;
    b.tree(&registers, &Shape { early: 60, wp: 8, ..Shape::PLAIN }, 4, &[1, 5]);
    for _ in 0..3 {
        other_page_sizes(b);
    }
    b.body(&[
        (Op::Access, 55),
        (Op::Switch, 12),
        (Op::Probe, 10),
        (Op::Load, 10),
        (Op::FlushPage, 10),
        (Op::FlushCode, 3),
    ]);
}

/// TC bit 14 changes under a filled 68040 cache, without a flush.
fn page_size_change040(b: &mut Builder) {
    let registers = b.registers_of(40, 0x8000);
    b.tree(&registers, &Shape { wp: 8, ..Shape::PLAIN }, 5, &[1, 5]);
    other_page_sizes(b);
    b.body(&[(Op::Access, 64), (Op::Switch, 20), (Op::Probe, 12), (Op::FlushFrame, 4)]);
}

/// More pages than the 68030 cache holds.
fn lru_22(b: &mut Builder) {
    let tc = b.tc_of(12, 0, 3);
    let registers = b.registers_of(30, tc);
    b.tree(&registers, &Shape { long: 30, early: 100, wp: 15, ..Shape::PLAIN }, 1, &[1]);
    b.hot = b.random.within(23, 27);
    b.overrides = 4;
    let home = b.sets[0].1[0].address & !0x3_FFFF;
    for page in 1..=22u32 {
        b.access_at(home + (page << 12), 1, false);
    }
    b.access_at(home + (1 << 12), 1, false);
    b.access_at(home + (23 << 12), 1, false);
    b.probe_at(home + (1 << 12), 1, false);
    b.probe_at(home + (2 << 12), 1, false);
    b.body(&[(Op::Access, 86), (Op::Probe, 8), (Op::FlushPage, 4), (Op::Load, 2)]);
}

/// A profile of its own, not one of `THEMES`: 20 to 40 pages in use, so that inserts choose
/// their places in full caches, after flushes and among entries of the same key (a write on
/// a WP page searches again and is inserted).
pub fn working_set(b: &mut Builder) {
    let tc = b.tc_of(12, 0, 3);
    let registers = b.registers_of(30, tc);
    b.tree(&registers, &Shape { long: 30, early: 100, wp: 35, ..Shape::PLAIN }, 1, &[1]);
    b.hot = b.random.within(20, 40);
    b.overrides = 4;
    b.body(&[
        (Op::Access, 240),
        (Op::Probe, 12),
        (Op::Load, 12),
        (Op::FlushPage, 24),
        (Op::FlushCode, 2),
        (Op::FlushAll, 1),
        (Op::Mutate, 6),
    ]);
}

/// Hits that record no use: the oldest insert goes first.
fn unrecorded(b: &mut Builder) {
    let tc = b.tc_of(12, 0, 3);
    let registers = b.registers_of(30, tc);
    b.tree(&registers, &Shape { early: 100, wp: 15, ..Shape::PLAIN }, 1, &[1]);
    b.hot = 25;
    b.recorded = b.random.pick(&[0, 10, 50]);
    let home = b.sets[0].1[0].address & !0x3_FFFF;
    for page in 1..=22u32 {
        b.access_at(home + (page << 12), 1, false);
    }
    let again = home + (1 << 12);
    b.push(Record::Access { flags: 0, override_code: NONE, address: again });
    b.access_at(home + (23 << 12), 1, false);
    b.probe_at(home + (1 << 12), 1, false);
    b.probe_at(home + (2 << 12), 1, false);
    b.body(&[(Op::Access, 90), (Op::Probe, 10)]);
}

/// Without a PMMU, or with one that is off.
fn off(b: &mut Builder) {
    let registers = sensible(b);
    b.tree(&registers, &Shape { wp: 15, ..Shape::PLAIN }, 4, &[1, 5]);
    let good = b.sets[0].clone();
    for (has_pmmu, enabled) in [(false, true), (true, false), (false, false)] {
        let mut other = good.clone();
        (other.0.has_pmmu, other.0.enabled) = (has_pmmu, enabled);
        b.sets.push(other);
    }
    b.body(&[
        (Op::Access, 40),
        (Op::Switch, 14),
        (Op::Test, 14),
        (Op::Load, 10),
        (Op::Probe, 12),
        (Op::FlushPage, 6),
        (Op::Bad, 4),
    ]);
}

/// Tables that change under a filled cache.
fn stale(b: &mut Builder) {
    filled_pair(b);
    b.body(&[(Op::Access, 55), (Op::Mutate, 20), (Op::Probe, 8), (Op::FlushPage, 8), (Op::Load, 5), (Op::Switch, 4)]);
}

/// Tables that wrap at the top of the address space, and roots outside memory.
fn top_of_memory(b: &mut Builder) {
    let tc = 0x80C0_0000 | b.random.pick(&[0xF500, 0xE600, 0xFF00, 0xD700]);
    let registers = b.registers_of(30, tc);
    b.tree(&registers, &Shape { long: 50, early: 20, ..Shape::PLAIN }, 6, &[1, 5]);
    let good = b.sets[0].clone();
    for root in [0xFFFF_FFF7, 0x8000, 0x7FF0, 0xFFFF_8000] {
        let mut other = good.clone();
        other.0.crp_address = root;
        b.sets.push(other);
    }
    let mut other = good.clone();
    other.0.family = 40;
    other.0.crp_address = 0xFFFF_FFFF;
    b.sets.push(other);
    b.current = 0;
    b.body(&[(Op::Access, 60), (Op::Test, 20), (Op::Switch, 12), (Op::Load, 8)]);
}

/// Both families in one trace: each leaves the other's cache alone.
fn two_families(b: &mut Builder) {
    filled_pair(b);
    b.body(&[
        (Op::Access, 60),
        (Op::Switch, 12),
        (Op::FlushFrame, 6),
        (Op::FlushPage, 6),
        (Op::FlushCode, 3),
        (Op::FlushAll, 2),
        (Op::Probe, 8),
        (Op::Load, 3),
    ]);
}

/// Everything, in proportions that differ from trace to trace.
pub fn mixed(b: &mut Builder) {
    b.hot = b.random.pick(&[1, 2, 4, 8, 12, 26]);
    b.writes = b.random.pick(&[10, 35, 60]);
    b.recorded = b.random.pick(&[100, 80, 30]);
    b.overrides = b.random.pick(&[0, 12, 30]);
    let sets = b.random.within(1, 3);
    for _ in 0..sets {
        mixed_set(b);
    }
    let flushes = b.random.pick(&[1, 1, 3]);
    let cuts = b.random.pick(&[0, 1, 1, 3, 8]);
    let changes = b.random.pick(&[1, 2, 5]);
    b.body(&[
        (Op::Access, 110),
        (Op::Load, 10),
        (Op::Test, 18),
        (Op::Probe, 14),
        (Op::FlushAll, flushes),
        (Op::FlushCode, 2 * flushes),
        (Op::FlushPage, 4 * flushes),
        (Op::FlushFrame, 3 * flushes),
        (Op::Mutate, 3 * changes),
        (Op::Cut, cuts),
        (Op::Switch, 2 * changes),
        (Op::Tweak, changes),
        (Op::Bad, 4),
    ]);
}

fn mixed_set(b: &mut Builder) {
    let family = [30, 40, 60][b.random.weighted(&[60, 30, 10])];
    let mut tc = match family {
        30 if b.random.chance(75) => b.sensible_tc(),
        30 => b.wild_tc(),
        _ => tc_040(b),
    };
    if b.random.chance(25) {
        tc |= 0x0100_0000;
    }
    if b.random.chance(25) {
        tc |= 0x0200_0000;
    }
    let mut registers = b.registers_of(family, tc);
    let far = b.random.long();
    let transparent = b.random.chance(35);
    if transparent {
        registers.tt0 = b.tt_for(far, 1);
        registers.tt1 = b.tt_for(far, 6);
        registers.itt0 = b.ttr_for(far);
        registers.itt1 = b.ttr_for(far);
        registers.dtt0 = b.ttr_for(far);
        registers.dtt1 = b.ttr_for(far);
    }
    let mut shape = Shape::MIXED;
    if b.random.chance(30) {
        shape.early = 50;
    }
    let paths = b.random.within(3, 12) as usize;
    let codes = if b.random.chance(30) { vec![1, 5] } else { CODES.to_vec() };
    b.tree(&registers, &shape, paths, &codes);
    if transparent {
        let code = b.random.pick(&CODES);
        b.sets[b.current].1.push(Target { address: far, code, span: 20 });
    }
    if b.random.chance(15) {
        let mut off = b.sets[b.current].clone();
        (off.0.has_pmmu, off.0.enabled) = b.random.pick(&[(true, false), (false, true), (false, false)]);
        b.sets.push(off);
    }
    if b.random.chance(40) {
        other_page_sizes(b);
    }
}

/// Sets that differ from the current one in the page size, and targets that have the
/// same page number there.
fn other_page_sizes(b: &mut Builder) {
    let (registers, targets) = b.sets[b.current].clone();
    let mut other = registers.clone();
    if registers.family == 30 {
        other.tc ^= b.random.pick(&[1, 0x10, 0x100]);
        if b.random.chance(20) {
            // No page shift at all.
            other.tc |= 0xFFFF;
        }
    } else {
        other.tc ^= 0x4000;
    }
    let (shift, other_shift) = (page_bits(&registers), page_bits(&other));
    let same_page = |target: &Target| Target {
        address: (target.address >> shift) << other_shift,
        span: target.span.max(other_shift),
        ..*target
    };
    let aliases: Vec<Target> = targets.iter().take(3).map(same_page).collect();
    b.sets[b.current].1.extend(aliases.clone());
    let mut there = targets;
    there.extend(aliases);
    b.sets.push((other, there));
}
