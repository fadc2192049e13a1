//! Traces by hand for what themes meet too seldom: corners of the caches, of the
//! registers, of the refusals and of the file. Their lines are the original's.

use super::{LOGICAL, base, family_40, on_base, read, store, tables, under, with, write};
use crate::slips::{HIGH_BITS, UNKNOWN, wrong_bits};
use crate::trace::{
    CPU_STATE, INSTRUCTION, KINDS, NONE, RECORD, Record, Registers, SUPERVISOR, encode, flags_of, framed, length_of,
};

type Named = (String, Vec<u8>);

/// All of them, each with its name.
pub fn corners() -> Vec<Named> {
    let by_records: [(&str, Vec<Record>); 15] = [
        ("corner_use", use_of_entries()),
        ("corner_insert", inserts()),
        ("corner_flush", flushes()),
        ("corner_flush_040", flushes_040()),
        ("corner_off", off()),
        ("corner_two_tts", two_tts()),
        ("corner_tt_fields", tt_fields()),
        ("corner_ttr", two_ttrs()),
        ("corner_target", targets()),
        ("corner_target_040", targets_040()),
        ("corner_types_040", types_040()),
        ("corner_first_state", first_state()),
        ("corner_limits", limits()),
        ("corner_order", order()),
        ("corner_last_range", last_range()),
    ];
    let by_records = by_records.into_iter().map(|(name, records)| (name.to_string(), encode(&records)));
    by_records.chain(malformed()).collect()
}

// The caches.

/// The examples' registers over one early page: logical 0 to 01FFFFFF at 00100000, WP
/// or not.
fn early(wp: bool) -> Vec<Record> {
    vec![with(|_| ()), store(0x1000, 0x0010_0001 | u32::from(wp) << 2)]
}

fn page(number: u32) -> u32 {
    number << 12
}

fn unrecorded(address: u32) -> Record {
    Record::Access { flags: 0, override_code: NONE, address }
}

fn probe(address: u32) -> Record {
    Record::Probe { flags: 0, address }
}

fn load(code: u8, address: u32) -> Record {
    Record::Load { code, write: 0, address }
}

fn test(code: u8, level: u8) -> Record {
    Record::Test { code, write: 0, level, address: LOGICAL }
}

/// Hits of the most recent entry and of others, recorded and not, of reads, and of
/// writes that WP makes miss.
fn use_of_entries() -> Vec<Record> {
    let mut records = early(true);
    records.extend([1, 2, 2, 1, 1].map(|number| read(page(number))));
    records.extend([unrecorded(page(2)), read(page(2)), write(page(2)), write(page(1)), write(page(1))]);
    records.extend([Record::Access { flags: 1, override_code: NONE, address: page(2) }, probe(page(2))]);
    records
}

/// An insert over its own key where a place before it is free; one into the first free
/// place of two; one over its own key with another base and WP.
fn inserts() -> Vec<Record> {
    let mut records = early(true);
    records.extend([1, 2, 3, 4].map(|number| read(page(number))));
    records.extend([1, 2].map(|number| Record::FlushPage { code: 1, mask: 7, address: page(number) }));
    records.extend([write(page(3)), read(page(5)), store(0x1000, 0x0020_0001), write(page(4)), write(page(3))]);
    records
}

/// What each flush of the 68030 cache leaves, and the insert after a flush of all.
fn flushes() -> Vec<Record> {
    let mut records = early(false);
    records.extend([1, 2, 3].map(|number| read(page(number))));
    records.push(Record::Access { flags: RECORD | SUPERVISOR, override_code: NONE, address: page(1) });
    records.extend([
        Record::FlushPage { code: 1, mask: 7, address: page(2) },
        Record::FlushCode { code: 5, mask: 7 },
        Record::FlushAll,
        Record::FlushPage { code: 1, mask: 7, address: page(3) },
        read(page(3)),
        // Another shift: 13.
        with(|registers| registers.tc = 0x80D0_7750),
        read(page(3)),
    ]);
    records
}

/// The same of the 68040 cache.
fn flushes_040() -> Vec<Record> {
    let then = [
        read(LOGICAL),
        Record::Access { flags: RECORD | SUPERVISOR, override_code: NONE, address: LOGICAL + 0x1000 },
        Record::FlushFrame { frame: 0x2081 },
        Record::FlushFrame { frame: 0x2041 },
        Record::FlushFrame { frame: 0x2042 },
        read(LOGICAL),
        Record::FlushAll,
    ];
    let both = |registers: &mut Registers| {
        family_40(0x8000)(registers);
        registers.srp_address = 0x1000;
    };
    under(with(both), &[(0x3008, 0x66001)], &then)
}

// The registers.

/// Every call with the PMMU off, by each of its two flags, over a filled cache.
fn off() -> Vec<Record> {
    let mut records = early(false);
    records.push(read(page(1)));
    for (present, enabled) in [(true, false), (false, true), (false, false)] {
        records.push(with(|registers| (registers.has_pmmu, registers.enabled) = (present, enabled)));
        records.extend([read(page(1)), probe(page(1)), load(1, page(1)), load(1, page(2)), test(1, 7)]);
    }
    records.extend([with(|_| ()), read(page(1))]);
    records
}

/// TT0 and TT1 both set, for two regions and for one.
fn two_tts() -> Vec<Record> {
    let of = |tt0: u32, tt1: u32| with(move |registers| (registers.tt0, registers.tt1) = (tt0, tt1));
    let (second, fourth) = (0x0200_8110, 0x0400_8110);
    let calls = [0x0200_0000, 0x0400_0000, 0x0600_0000].map(read);
    let mut records = Vec::new();
    for registers in [of(second, fourth), of(fourth, second), of(second, second), of(second, 0), of(0, second)] {
        records.push(registers);
        records.extend(calls.clone());
        records.extend([test(1, 0), load(1, 0x0400_0000), probe(0x0400_0000)]);
    }
    records
}

/// Each field of TT0, by every call and in both directions: base and mask, R/W with RWM
/// set and clear, the bits that mean nothing; and a direction for each register.
fn tt_fields() -> Vec<Record> {
    let calls = |write: u8| {
        let access = |override_code: u8| Record::Access { flags: RECORD | write, override_code, address: LOGICAL };
        let state = |flags: u8| Record::Access { flags: RECORD | write | flags, override_code: NONE, address: LOGICAL };
        let codes = [access(NONE), access(0), access(2), access(3), access(5), access(7)];
        let states = [state(SUPERVISOR), state(CPU_STATE)];
        let test = Record::Test { code: 1, write, level: 0, address: LOGICAL };
        let load = Record::Load { code: 1, write, address: LOGICAL };
        let probe = Record::Probe { flags: write, address: LOGICAL };
        [codes.as_slice(), &states, &[Record::FlushAll, test, load, Record::FlushAll, probe]].concat()
    };
    let directions = [0x0200_8017, 0x0200_8117, 0x0200_8217, 0x0200_8317].map(|tt0: u32| (tt0, 0));
    let fields = [(0x0200_8110, 0), (0x0200_8152, 0), (0x0200_8124, 0), (0x0200_FD9F, 0)];
    let pairs = [(0x0200_8207, 0x0200_8007), (0x0200_8107, 0x0200_8107), (0x0300_8107, 0x02FF_8250)];
    let mut records = tables();
    for (tt0, tt1) in [directions.as_slice(), &fields, &pairs].concat() {
        records.push(with(|registers| (registers.tt0, registers.tt1) = (tt0, tt1)));
        records.extend(calls(0));
        records.push(Record::FlushAll);
        records.extend(calls(1));
    }
    records
}

/// The same of the 68040's pairs, for data and for program.
fn two_ttrs() -> Vec<Record> {
    let of = |itt0: u32, itt1: u32, dtt0: u32, dtt1: u32| {
        with(move |registers| {
            family_40(0x8000)(registers);
            (registers.itt0, registers.itt1, registers.dtt0, registers.dtt1) = (itt0, itt1, dtt0, dtt1);
        })
    };
    let (second, fourth) = (0x0200_C000, 0x0400_C000);
    let program = |address: u32| Record::Access { flags: RECORD | INSTRUCTION, override_code: NONE, address };
    let mut records = Vec::new();
    for registers in [of(second, fourth, 0, 0), of(0, 0, second, fourth), of(second, 0, 0, second)] {
        records.push(registers);
        records.extend([0x0200_0000, 0x0400_0000].map(read));
        records.extend([0x0200_0000, 0x0400_0000].map(program));
    }
    records
}

// The walks.

/// Indirect targets whose first or second long can't be read.
fn targets() -> Vec<Record> {
    let seen = [read(LOGICAL), test(1, 7)];
    let mut records = on_base(&[(0x3004, 0x9002)], &seen);
    // A long target at the memory's end: its second long is outside.
    records.extend([store(0x3004, 0x7FFF), store(0x7FFC, 1)]);
    records.extend(seen.clone());
    records.extend([store(0x3004, 0x4003), store(0x4000, 1), Record::Range { first: 0x4007, last: 0x4007 }]);
    records.extend(seen);
    records
}

fn targets_040() -> Vec<Record> {
    let mut records = under(with(family_40(0x8000)), &[(0x3004, 0x9002)], &[read(LOGICAL)]);
    records.extend([store(0x3004, 0x4002), store(0x4000, 0x55001), Record::Range { first: 0x4003, last: 0x4003 }]);
    records.push(read(LOGICAL));
    records
}

/// The four types of a root entry, of a pointer, of a page and of a target.
fn types_040() -> Vec<Record> {
    let mut records = under(with(family_40(0x8000)), &[], &[]);
    let places = [(0x1004, 0x2000), (0x2004, 0x3000), (0x3004, 0x4000), (0x4000, 0x55000)];
    for (place, field) in places {
        for kind in [0, 1, 3, 2] {
            records.extend([store(place, field | kind), read(LOGICAL), Record::FlushAll]);
        }
    }
    records
}

// The refusals.

/// Calls before any record of registers: family 30, and off.
fn first_state() -> Vec<Record> {
    let mut records = vec![read(LOGICAL), write(LOGICAL), probe(LOGICAL), load(1, LOGICAL), test(1, 7), test(1, 0)];
    records.extend(tables());
    records.push(read(LOGICAL));
    records
}

/// The last number that each check passes and the first that it refuses, with the PMMU
/// off and then on.
fn limits() -> Vec<Record> {
    let access = |override_code: u8| Record::Access { flags: RECORD, override_code, address: LOGICAL };
    let around = |make: fn(u8) -> Record| [make(7), make(8)];
    let mut records = Vec::new();
    for registers in [with(|registers| registers.enabled = false), with(|_| ())] {
        records.push(registers);
        records.extend([7, 8, 0xFE].map(access));
        records.extend(around(|n| load(n, LOGICAL)));
        records.extend(around(|n| test(n, 7)));
        records.extend(around(|n| test(1, n)));
        records.extend(around(|n| Record::FlushCode { code: n, mask: 7 }));
        records.extend(around(|n| Record::FlushCode { code: 7, mask: n }));
        records.extend(around(|n| Record::FlushPage { code: n, mask: 7, address: LOGICAL }));
        records.extend(around(|n| Record::FlushPage { code: 7, mask: n, address: LOGICAL }));
    }
    records.extend([0xF_FFFF, 0x10_0000].map(|frame| Record::FlushFrame { frame }));
    records.extend([0x7FFC, 0x8000, 0x7FFD, 0x7FFE, 0x7FFF].map(|address| store(address, 1)));
    records.extend([(1, 0), (0, 0)].map(|(first, last)| Record::Range { first, last }));
    for family in [29, 31, 39, 41, 59, 61] {
        records.push(with(|registers| (registers.family, registers.tc) = (family, 0)));
    }
    records.push(read(LOGICAL));
    records
}

/// Each pair of refusals of one record that a trace can meet, with the PMMU off and on;
/// sixteen ranges, and a seventeenth that is crossed and not.
fn order() -> Vec<Record> {
    let mut records = Vec::new();
    for (family, on) in [(30, false), (40, false), (60, false), (40, true), (60, true)] {
        records.push(with(|registers| {
            (registers.family, registers.has_pmmu, registers.enabled) = (family, on, on);
        }));
        records.extend([load(8, LOGICAL), load(7, LOGICAL), test(8, 8), test(8, 7), test(7, 8), test(7, 7)]);
    }
    records.push(Record::Range { first: 9, last: 8 });
    records.extend((0..16).map(|n| Record::Range { first: 0x9000 + n, last: 0x9000 + n }));
    records.extend([(9, 8), (8, 8)].map(|(first, last)| Record::Range { first, last }));
    records
}

/// The sixteenth range covers the page's descriptor; a store into it is made.
fn last_range() -> Vec<Record> {
    let mut records = on_base(&[], &[read(LOGICAL), Record::FlushAll]);
    records.extend((0..15).map(|n| Record::Range { first: 0x9000 + n, last: 0x9000 + n }));
    records.extend([read(LOGICAL), Record::FlushAll, Record::Range { first: 0x3004, last: 0x3004 }]);
    records.extend([read(LOGICAL), store(0x3004, 0x66001), store(0x3000, 0x66001), read(LOGICAL - 0x1000)]);
    records
}

// The file.

/// A file with this record alone, and a good one behind it.
fn file(body: &[u8]) -> Vec<u8> {
    encode(&[Record::Damaged(framed(body)), Record::FlushAll])
}

/// A good body of this kind: registers of family 30, an access without an override, and
/// else zeros.
fn body_of(kind: u8) -> Vec<u8> {
    let mut body = vec![0; length_of(kind).expect("a known kind")];
    body[0] = kind;
    match kind {
        1 => body[1] = base().family,
        2 => body[2] = NONE,
        _ => {}
    }
    body
}

/// A body of this kind that is refused by 1 or 5.
fn refused_body(kind: u8) -> Vec<u8> {
    let mut body = body_of(kind);
    body[if kind == 2 { 2 } else { 1 }] = 99;
    body
}

/// Each flag bit of each kind that has flags, each kind with a byte too many and too few,
/// unknown kinds, and wrong flags where another refusal applies as well.
fn malformed() -> Vec<Named> {
    let mut files = Vec::new();
    for &(kind, _) in KINDS {
        let body = body_of(kind);
        if let Some((place, _)) = flags_of(kind) {
            for bit in wrong_bits(kind) {
                let mut flagged = body.clone();
                flagged[place] |= 1 << bit;
                files.push((format!("malformed_{kind:02x}_bit_{bit}"), file(&flagged)));
            }
            // The flags of a probe stand where no other number does.
            if kind != 0x0B {
                let mut flagged = refused_body(kind);
                flagged[place] |= 0x80;
                files.push((format!("malformed_{kind:02x}_refused"), file(&flagged)));
            }
        }
        files.push((format!("malformed_{kind:02x}_long"), file(&[&body[..], &[0]].concat())));
        files.push((format!("malformed_{kind:02x}_short"), file(&body[..body.len() - 1])));
    }
    let unknown = UNKNOWN.iter().copied().chain(HIGH_BITS.map(|bit| 1 << bit | 5));
    files.extend(unknown.map(|kind| (format!("malformed_kind_{kind:02x}"), file(&[kind]))));
    files
}
