//! A trace as bytes, as text and as bytes again: the same bytes, on every stored trace of
//! the project and on generated ones; and what is malformed is not converted.

use pmmu_trace::{to_bytes, to_text, Access, Damage, Reader, Record, Registers, Stopped};
use std::fs;
use std::path::{Path, PathBuf};

fn text_of(bytes: &[u8]) -> Result<String, Stopped> {
    let mut text = Vec::new();
    to_text(bytes, &mut text)?;
    Ok(String::from_utf8(text).expect("a text"))
}

fn bytes_of(text: &str) -> Result<Vec<u8>, Stopped> {
    let mut bytes = Vec::new();
    to_bytes(text.as_bytes(), &mut bytes)?;
    Ok(bytes)
}

/// The text of a well-formed trace, which gives the same bytes and the same text again.
fn both_ways(name: &str, bytes: &[u8]) -> String {
    let text = text_of(bytes).unwrap_or_else(|why| panic!("{name}: {why}"));
    let again = bytes_of(&text).unwrap_or_else(|why| panic!("the text of {name}: {why}"));
    assert!(again == bytes, "{name}: its text gives other bytes");
    assert_eq!(text_of(&again).expect("it was read before"), text, "{name}: its bytes give another text");
    text
}

fn damage_of(bytes: &[u8]) -> Damage {
    match text_of(bytes) {
        Err(Stopped::Damaged(damage)) => damage,
        other => panic!("damage was expected: {other:?}"),
    }
}

// ---- Stored traces

/// Every `NAME.trace` below a folder.
fn traces_below(folder: &Path, found: &mut Vec<PathBuf>) {
    for entry in fs::read_dir(folder).expect("a folder") {
        let path = entry.expect("an entry").path();
        if path.is_dir() {
            traces_below(&path, found);
        } else if path.extension().is_some_and(|suffix| suffix == "trace") {
            found.push(path);
        }
    }
}

/// Whether the original, or document 01, says of a stored case that it is malformed: `R 7` is its last line.
fn is_malformed(case: &Path) -> bool {
    let lines = fs::read_to_string(case.with_extension("states")).unwrap_or_default();
    lines.lines().last() == Some("R 7")
}

#[test]
fn stored_traces() {
    let crates = Path::new(env!("CARGO_MANIFEST_DIR")).join("../../crates");
    let mut found = Vec::new();
    traces_below(&crates, &mut found);
    let mut malformed = 0;
    for path in &found {
        let (name, bytes) = (path.display().to_string(), fs::read(path).expect("a file"));
        if is_malformed(path) {
            damage_of(&bytes);
            malformed += 1;
        } else {
            both_ways(&name, &bytes);
        }
    }
    println!("{} stored traces, {malformed} of them malformed", found.len());
    assert!(found.len() >= 203 && malformed >= 75, "the stored traces are where they were");
}

// ---- Generated ones

/// splitmix64
struct Random(u64);

impl Random {
    fn next(&mut self) -> u64 {
        self.0 = self.0.wrapping_add(0x9E37_79B9_7F4A_7C15);
        let mut z = self.0;
        z = (z ^ (z >> 30)).wrapping_mul(0xBF58_476D_1CE4_E5B9);
        z = (z ^ (z >> 27)).wrapping_mul(0x94D0_49BB_1331_11EB);
        z ^ (z >> 31)
    }

    fn below(&mut self, bound: u64) -> u64 {
        self.next() % bound
    }

    fn bit(&mut self) -> bool {
        self.below(2) == 1
    }

    fn byte(&mut self) -> u8 {
        self.next() as u8
    }

    /// A long that is 0, small, all ones or any.
    fn long(&mut self) -> u32 {
        match self.below(5) {
            0 => 0,
            1 => self.below(16) as u32,
            2 => u32::MAX,
            _ => self.next() as u32,
        }
    }
}

/// Any record: every field may hold whatever its bytes can.
fn any_record(random: &mut Random) -> Record {
    match random.below(11) {
        0 => Record::Registers(Registers {
            family: random.byte(),
            present: random.bit(),
            enabled: random.bit(),
            longs: std::array::from_fn(|_| random.long()),
        }),
        1 => Record::Access(Access {
            write: random.bit(),
            supervisor: random.bit(),
            instruction: random.bit(),
            own: random.bit(),
            recorded: random.bit(),
            code: random.byte(),
            address: random.long(),
        }),
        2 => Record::Load { code: random.byte(), write: random.bit(), address: random.long() },
        3 => Record::Test { code: random.byte(), write: random.bit(), level: random.byte(), address: random.long() },
        4 => Record::FlushAll,
        5 => Record::FlushCode { code: random.byte(), mask: random.byte() },
        6 => Record::FlushPage { code: random.byte(), mask: random.byte(), address: random.long() },
        7 => Record::FlushFrame { frame: random.long() },
        8 => Record::Store { address: random.long(), value: random.long() },
        9 => Record::Range { first: random.long(), last: random.long() },
        _ => {
            Record::Probe { own: random.bit(), instruction: random.bit(), write: random.bit(), address: random.long() }
        }
    }
}

fn trace_of(records: &[Record]) -> Vec<u8> {
    let mut bytes = vec![pmmu_trace::VERSION];
    records.iter().for_each(|record| record.write_to(&mut bytes).expect("memory"));
    bytes
}

fn records_of(bytes: &[u8]) -> Vec<Record> {
    let mut reader = Reader::new(bytes).expect("a version byte");
    let mut records = Vec::new();
    while let Some(record) = reader.next_record().expect("a record") {
        records.push(record);
    }
    records
}

#[test]
fn generated_traces() {
    let mut random = Random(24);
    for turn in 0..2000 {
        let count = random.below(40);
        let records: Vec<Record> = (0..count).map(|_| any_record(&mut random)).collect();
        let bytes = trace_of(&records);
        assert_eq!(records_of(&bytes), records, "trace {turn}");
        let text = both_ways(&format!("trace {turn}"), &bytes);
        assert_eq!(text.lines().count(), 1 + records.len(), "a line for each record, and the version's");
    }
}

/// The empty trace is a trace: its text is the version's line.
#[test]
fn the_empty_trace() {
    assert_eq!(both_ways("the empty trace", &[1]), "v1\n");
}

/// Each flag byte, override, code, mask, level, family and write byte: converted exactly where document 01 takes it.
#[test]
fn every_byte_of_every_flag() {
    let mut taken = 0;
    for byte in 0..=255u8 {
        let with = |kind: u8, bytes: &[u8], rest: usize| {
            let body = [&[kind][..], bytes, &vec![0; rest]].concat();
            [&[1, 0, body.len() as u8][..], &body].concat()
        };
        let tried = [
            (with(1, &[byte, 0], 44), true),
            (with(1, &[30, byte], 44), byte & !3 == 0),
            (with(2, &[byte, 0xFF], 4), byte & !0x1F == 0),
            (with(2, &[0, byte], 4), true),
            (with(3, &[byte, 0], 4), true),
            (with(3, &[0, byte], 4), byte <= 1),
            (with(4, &[byte, 0, 0], 4), true),
            (with(4, &[0, byte, 0], 4), byte <= 1),
            (with(4, &[0, 0, byte], 4), true),
            (with(6, &[byte, 0], 0), true),
            (with(6, &[0, byte], 0), true),
            (with(7, &[byte, byte], 4), true),
            (with(0x0B, &[byte], 4), byte & !0x0D == 0),
            (with(byte, &[], 0), byte == 5),
        ];
        for (bytes, is_taken) in tried {
            if is_taken {
                both_ways(&format!("{bytes:02X?}"), &bytes);
                taken += 1;
            } else {
                assert_eq!((damage_of(&bytes).record, damage_of(&bytes).offset), (1, 1), "{bytes:02X?}");
            }
        }
    }
    println!("{taken} single records, both ways");
}

// ---- Damage

/// A well-formed trace cut anywhere: converted exactly where a record ends.
#[test]
fn cut_anywhere() {
    let mut random = Random(7);
    let records: Vec<Record> = (0..60).map(|_| any_record(&mut random)).collect();
    let bytes = trace_of(&records);
    let ends: Vec<usize> = (0..=records.len()).map(|n| trace_of(&records[..n]).len()).collect();
    for length in 0..bytes.len() {
        match ends.iter().position(|&end| end == length) {
            Some(_) => drop(both_ways("a trace cut after a record", &bytes[..length])),
            None if length == 0 => assert_eq!(damage_of(&[]).record, 0),
            None => {
                let whole = ends.iter().filter(|&&end| end < length).count();
                let damage = damage_of(&bytes[..length]);
                assert_eq!((damage.record, damage.offset), (whole as u64, ends[whole - 1] as u64), "cut at {length}");
            }
        }
    }
}

/// Every length but the right one is wrong, for every kind.
#[test]
fn every_other_length() {
    let right = [47, 7, 7, 8, 1, 3, 7, 5, 9, 9, 6];
    for (kind, right) in (1u8..).zip(right) {
        for length in 0..=70usize {
            let mut body = vec![0; length];
            if let Some(first) = body.first_mut() {
                *first = kind;
            }
            let bytes = [&[1, 0, length as u8][..], &body].concat();
            if length == right {
                both_ways(&format!("kind {kind:02X}"), &bytes);
            } else {
                assert_eq!(damage_of(&bytes).offset, 1, "kind {kind:02X}, length {length}");
            }
        }
    }
}

/// Any bytes at all are converted both ways, or told with a place inside them.
#[test]
fn any_bytes() {
    let mut random = Random(11);
    let mut converted = 0;
    for _ in 0..20_000 {
        let count = random.below(4);
        let records: Vec<Record> = (0..count).map(|_| any_record(&mut random)).collect();
        let mut bytes = trace_of(&records);
        for _ in 0..random.below(3) {
            let place = random.below(bytes.len() as u64) as usize;
            bytes[place] = random.byte();
        }
        match text_of(&bytes) {
            Ok(_) => {
                both_ways(&format!("{bytes:02X?}"), &bytes);
                converted += 1;
            }
            Err(Stopped::Damaged(damage)) => assert!(damage.offset <= bytes.len() as u64, "{damage}"),
            Err(other) => panic!("{other}"),
        }
    }
    println!("{converted} of 20000 changed traces are still well-formed");
}
