//! Traces with lines written by hand: document 01's twelve examples, what it says of
//! refusals and the file, and what document 02's requests mend.

mod corners;
mod differences;
mod mended;

use crate::trace::{INSTRUCTION, NONE, RECORD, Record, Registers, SUPERVISOR, WRITE};
pub use corners::corners;
pub use differences::differences;
pub use mended::mended;

/// A trace with the lines that it must give, `v1` and `end` left out. The lines of
/// records that only prepare (K) are left out as well.
pub struct Example {
    pub name: &'static str,
    pub records: Vec<Record>,
    pub lines: Vec<String>,
}

/// A trace where the manual is followed and the Rust is not: the lines here, and the
/// lines of the original as it is shipped.
pub struct Mended {
    pub here: Example,
    pub shipped: Example,
}

pub const LOGICAL: u32 = 0x0204_1ABC;

/// The examples' registers: family 30, enabled, TC 80C07760, CRP 80000002, 1000.
fn base() -> Registers {
    let mut registers = Registers::from_longs(30, 3, [0; 11]);
    registers.tc = 0x80C0_7760;
    registers.crp_limit = 0x8000_0002;
    registers.crp_address = 0x1000;
    registers
}

/// The examples' registers, changed.
pub fn with(change: impl FnOnce(&mut Registers)) -> Record {
    let mut registers = base();
    change(&mut registers);
    Record::Registers(registers)
}

pub fn store(address: u32, value: u32) -> Record {
    Record::Store { address, value }
}

/// The examples' three longs.
fn tables() -> Vec<Record> {
    vec![store(0x1004, 0x2002), store(0x2004, 0x3002), store(0x3004, 0x55001)]
}

pub fn read(address: u32) -> Record {
    Record::Access { flags: RECORD, override_code: NONE, address }
}

fn write(address: u32) -> Record {
    Record::Access { flags: RECORD | WRITE, override_code: NONE, address }
}

fn test(level: u8) -> Record {
    Record::Test { code: 1, write: 0, level, address: LOGICAL }
}

/// The base, then these stores, then these records.
pub fn on_base(stores: &[(u32, u32)], then: &[Record]) -> Vec<Record> {
    let mut records = vec![with(|_| ())];
    records.extend(tables());
    records.extend(stores.iter().map(|&(address, value)| store(address, value)));
    records.extend_from_slice(then);
    records
}

/// The same under other registers.
fn under(registers: Record, stores: &[(u32, u32)], then: &[Record]) -> Vec<Record> {
    let mut records = on_base(stores, then);
    records[0] = registers;
    records
}

/// Pages 1 to 22 inserted, a hit on 1, then 23; probes of pages 1 and 2.
fn pages(hit_flags: u8) -> Vec<Record> {
    let mut records = vec![with(|_| ()), store(0x1000, 0x0010_0001)];
    records.extend((1..=22).map(|page| read(page << 12)));
    records.push(Record::Access { flags: hit_flags, override_code: NONE, address: 1 << 12 });
    records.push(read(23 << 12));
    records.extend([1, 2].map(|page| Record::Probe { flags: 0, address: page << 12 }));
    records
}

/// The lines of pages 1 to 22, then these.
fn inserted_then(rest: [&str; 4]) -> Vec<String> {
    let inserted = (1..=22).map(|page| format!("A 001{page:02X}000 1"));
    inserted.chain(rest.map(String::from)).collect()
}

fn example(name: &'static str, records: Vec<Record>, lines: &[&str]) -> Example {
    Example { name, records, lines: lines.iter().map(|line| line.to_string()).collect() }
}

/// Document 01's twelve examples. Number 9 is seen by what is cached: a second
/// access of the same page costs nothing exactly if there is a page shift.
pub fn twelve() -> Vec<Example> {
    vec![
        example("example_01", on_base(&[], &[read(LOGICAL), read(LOGICAL)]), &["A 00055ABC 3", "A 00055ABC 0"]),
        example("example_02", on_base(&[], &[test(7)]), &["T 0003 00003004 3"]),
        example("example_03", on_base(&[], &[test(2)]), &["T 0002 00002004 2"]),
        example("example_04", on_base(&[(0x2004, 0x0080_0001)], &[read(LOGICAL)]), &["A 00801ABC 2"]),
        example(
            "example_05",
            on_base(&[(0x2004, 0x3006)], &[read(LOGICAL), write(LOGICAL), test(7)]),
            &["A 00055ABC 3", "F 2 4 02041ABC 3", "T 0803 00003004 3"],
        ),
        example(
            "example_06",
            on_base(&[(0x3004, 0x4003), (0x4000, 1), (0x4004, 0x66000)], &[read(LOGICAL), test(7)]),
            &["A 00066ABC 5", "T 0003 00004000 5"],
        ),
        example(
            "example_07",
            on_base(&[(0x3004, 0x4003), (0x4000, 0), (0x4004, 0x66000)], &[read(LOGICAL), test(7)]),
            &["F 2 2 02041ABC 5", "T 0403 00004000 5"],
        ),
        example(
            "example_08",
            under(with(|r| r.crp_limit = 0x8000_0001), &[], &[read(LOGICAL), test(7)]),
            &["F 0 3 02041ABC 0", "T 8000 00001000 0"],
        ),
        example("example_09", page_shifts(), &PAGE_SHIFTS),
        example(
            "example_10",
            under(with(family_40(0x8000)), &[(0x3004, 0x55085)], &[write(LOGICAL), read(LOGICAL)]),
            &["F 2 4 02041ABC 3", "F 2 5 02041ABC 3"],
        ),
        example(
            "example_11",
            under(with(family_40(0xC000)), &[(0x3000, 0x55001)], &[read(LOGICAL)]),
            &["A 00055ABC 3"],
        ),
        Example {
            name: "example_12_recorded",
            records: pages(RECORD),
            lines: inserted_then(["A 00101000 0", "A 00117000 1", "A 00101000 0", "N"]),
        },
        Example {
            name: "example_12_unrecorded",
            records: pages(0),
            lines: inserted_then(["A 00101000 0", "A 00117000 1", "N", "A 00102000 0"]),
        },
    ]
}

fn family_40(tc: u32) -> impl FnOnce(&mut Registers) {
    move |registers| {
        registers.family = 40;
        registers.tc = tc;
    }
}

/// Widths 7, 0, 6 (shift 25); IS 15, widths 15, 1 (shift 1); sum 32 and sum 0 (none,
/// the latter with a function-code level so that the walk has one).
fn page_shifts() -> Vec<Record> {
    let tc = |tc: u32| with(|registers| registers.tc = tc);
    let mut records = vec![store(0x1000, 0x2002), store(0x1004, 0x55001), store(0x2000, 0x66001)];
    let wide = |offset: u32| read(0x0200_0000 + offset);
    records.extend([tc(0x80C0_7060), wide(0), wide(0x1FF_FFFF), read(0x0400_0000)]);
    records.extend([tc(0x80CF_F100), read(0), read(1), read(2)]);
    records.extend([tc(0x80C0_FF20), store(0x2000, 0x3002), store(0x3000, 0x77001), read(0), read(0)]);
    records.extend([tc(0x81C0_0000), Record::FlushAll, read(0x10), read(0x10)]);
    records
}

const PAGE_SHIFTS: [&str; 10] = [
    "A 00055000 1",
    "A 02054FFF 0",
    "F 2 3 04000000 1",
    "A 00066000 2",
    "A 00066001 0",
    "F 2 3 00000002 2",
    "A 00077000 3",
    "A 00077000 3",
    "A 00055010 1",
    "A 00055010 1",
];

/// What document 01 and the settled points say of refusals.
pub fn refusals() -> Vec<Example> {
    let access = |override_code: u8| Record::Access { flags: RECORD, override_code, address: LOGICAL };
    let load = |code: u8| Record::Load { code, write: 0, address: LOGICAL };
    let coded_test = |code: u8, level: u8| Record::Test { code, write: 1, level, address: LOGICAL };
    let range = |first: u32, last: u32| Record::Range { first, last };
    vec![
        example("family", vec![with(|r| r.family = 50), read(0x1234)], &["R 1", "A 00001234 0"]),
        example("override_when_off", vec![access(8), access(0xFE), access(7)], &["R 5", "R 5", "A 02041ABC 0"]),
        example(
            "load_and_test_on_40",
            vec![with(family_40(0x8000)), load(1), load(9), coded_test(9, 9), coded_test(1, 0)],
            &["R 6", "R 6", "R 6", "R 6"],
        ),
        example(
            "codes_and_levels",
            vec![load(8), load(7), coded_test(8, 1), coded_test(1, 8), coded_test(7, 0)],
            &["R 5", "L 0", "R 5", "R 5", "T 0000 00000000 0"],
        ),
        example(
            "flushes",
            vec![
                Record::FlushCode { code: 8, mask: 0 },
                Record::FlushCode { code: 0, mask: 8 },
                Record::FlushPage { code: 8, mask: 7, address: 0 },
                Record::FlushPage { code: 7, mask: 255, address: 0 },
                Record::FlushFrame { frame: 1 << 20 },
                Record::FlushFrame { frame: u32::MAX },
            ],
            &["R 5", "R 5", "R 5", "R 5", "R 5", "R 5"],
        ),
        example(
            "stores",
            vec![store(0x8000, 1), store(2, 1), store(0xFFFF_FFFC, 1), store(0x7FFF, 1), store(0x8001, 1)],
            &["R 2", "R 2", "R 2", "R 2", "R 2"],
        ),
        example("seventeen_ranges", seventeen_ranges(), &["R 3", "R 8", "R 3", "R 8"]),
        example(
            "a_store_into_a_range",
            on_base(&[], &[range(0x3007, 0x3007), store(0x3004, 0x66001), read(LOGICAL)]),
            &["F 3 6 00003004 3"],
        ),
        example(
            "page_size_under_a_filled_040_cache",
            vec![
                with(family_40(0x8000)),
                store(0x1000, 0x1003),
                read(0),
                with(family_40(0xC000)),
                read(0),
                // Base and address both have bit 12: they are joined by OR.
                read(0x1000),
                Record::FlushFrame { frame: 0 },
                read(0),
            ],
            &["A 00001000 3", "A 00001000 0", "A 00001000 0", "A 00000000 3"],
        ),
        example(
            "own_state_and_override",
            vec![
                with(|r| r.tt0 = 0x0200_8150),
                Record::Access { flags: RECORD | SUPERVISOR, override_code: NONE, address: LOGICAL },
                Record::Access { flags: RECORD | SUPERVISOR | INSTRUCTION, override_code: 5, address: LOGICAL },
            ],
            &["F 2 3 02041ABC 1", "A 02041ABC 0"],
        ),
    ]
}

/// Sixteen good ranges, among them a bad one; then a seventeenth, good and bad.
fn seventeen_ranges() -> Vec<Record> {
    let range = |first: u32, last: u32| Record::Range { first, last };
    let mut records = vec![range(0, 0), range(1, 0)];
    records.extend((1..16).map(|n| range(n, n)));
    records.extend([range(0x9000, 0x9000), range(2, 1), range(0, u32::MAX)]);
    records
}

/// A trace with all its lines, state lines included.
pub fn with_states() -> (Vec<Record>, &'static [&'static str]) {
    let mut records = vec![with(|_| ())];
    records.extend(tables());
    records.extend([
        read(LOGICAL),
        Record::FlushCode { code: 8, mask: 0 },
        Record::FlushPage { code: 1, mask: 7, address: LOGICAL },
    ]);
    records.extend([with(family_40(0x8000)), read(LOGICAL), Record::FlushAll]);
    (records, STATES)
}

const STATES: &[&str] = &[
    "v1",
    "K",
    "S m=0 c=0 s=0",
    "K",
    "S m=0 c=0 s=0",
    "K",
    "S m=0 c=0 s=0",
    "K",
    "S m=0 c=0 s=0",
    "A 00055ABC 3",
    "S m=0 c=1 s=12 e0=1,1,00002041,00055000,0,1",
    "R 5",
    "S m=0 c=1 s=12 e0=1,1,00002041,00055000,0,1",
    "K",
    "S m=0 c=1 s=12 e0=0,1,00002041,00055000,0,1",
    "K",
    "S m=0 c=1 s=12 e0=0,1,00002041,00055000,0,1",
    "A 00055ABC 3",
    "S m=0 c=1 s=12 e0=0,1,00002041,00055000,0,1 d1=1,00004082,00055000,0,0",
    "K",
    "S m=0 c=1 s=12 e0=0,1,00002041,00055000,0,1 d1=0,00004082,00055000,0,0",
    "end",
];

/// Whole files, with their lines.
pub const FILES: &[(&[u8], &[&str])] = &[
    (&[1, 0, 7, 2, 0, 0xFF, 0, 0, 0x12, 0x34], &["v1", "A 00001234 0", "end"]),
    (&[1], &["v1", "end"]),
    (&[], &["R 7"]),
    (&[0], &["R 7"]),
    (&[2, 0, 1, 5], &["R 7"]),
    (&[1, 0], &["v1", "R 7"]),
    (&[1, 0, 0], &["v1", "R 7"]),
    (&[1, 0, 1, 5, 0, 2, 5], &["v1", "K", "R 7"]),
    (&[1, 0, 2, 5, 0, 0, 1, 5], &["v1", "R 7"]),
    (&[1, 0, 1, 0x0C, 0, 1, 5], &["v1", "R 7"]),
    (&[1, 0, 1, 0, 0, 1, 5], &["v1", "R 7"]),
    (&[1, 0, 2, 6, 1], &["v1", "R 7"]),
    (&[1, 0, 7, 2, 0x20, 0xFF, 0, 0, 0, 0], &["v1", "R 7"]),
    (&[1, 0, 7, 2, 0x80, 8, 0, 0, 0, 0], &["v1", "R 7"]),
    (&[1, 0, 6, 0x0B, 2, 0, 0, 0, 0], &["v1", "R 7"]),
    (&[1, 0, 6, 0x0B, 0x0D, 0, 0, 0, 0], &["v1", "N", "end"]),
    (&[1, 0, 7, 3, 9, 2, 0, 0, 0, 0], &["v1", "R 7"]),
    (&[1, 0, 8, 4, 9, 2, 9, 0, 0, 0, 0], &["v1", "R 7"]),
    (&[1, 0, 8, 4, 1, 1, 0, 0, 0, 0, 0], &["v1", "T 0000 00000000 0", "end"]),
    (&registers_file(50, 4), &["v1", "R 7"]),
    (&registers_file(50, 3), &["v1", "R 1", "end"]),
    (&registers_file(60, 3), &["v1", "K", "end"]),
];

/// A file with one record of kind 01, its longs 0.
const fn registers_file(family: u8, flags: u8) -> [u8; 50] {
    let mut bytes = [0; 50];
    bytes[0] = 1;
    bytes[2] = 47;
    bytes[3] = 1;
    bytes[4] = family;
    bytes[5] = flags;
    bytes
}
