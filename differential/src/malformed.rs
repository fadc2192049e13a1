//! Traces that meet refusal 7, each way of it by name.

use crate::builder::{Builder, Op};
use crate::themes::mixed;
use crate::trace::{Record, encode, framed, length_of};

/// Puts the mistake behind the records of a well-formed trace.
type Way = fn(&mut Builder) -> Vec<u8>;

pub const WAYS: &[(&str, Way)] = &[
    ("malformed_empty", |_| Vec::new()),
    ("malformed_version", version),
    ("malformed_half_length", |b| with(b, &[0], false)),
    ("malformed_past_end", past_end),
    ("malformed_zero_length", |b| with(b, &framed(&[]), true)),
    ("malformed_long_body", |b| wrong_length(b, true)),
    ("malformed_short_body", |b| wrong_length(b, false)),
    ("malformed_unknown_kind", unknown_kind),
    ("malformed_registers_flags", |b| bad_byte(b, 1, 2, 0b11)),
    ("malformed_access_flags", |b| bad_byte(b, 2, 1, 0b11111)),
    ("malformed_probe_flags", |b| bad_byte(b, 0x0B, 1, 0b1101)),
    ("malformed_load_write", |b| bad_byte(b, 3, 2, 1)),
    ("malformed_test_write", |b| bad_byte(b, 4, 2, 1)),
];

fn good(b: &mut Builder) {
    if b.records.is_empty() {
        mixed(b);
    }
}

/// The good records, the bytes, and where the lengths still fit more good records.
fn with(b: &mut Builder, bytes: &[u8], more: bool) -> Vec<u8> {
    good(b);
    b.push(Record::Damaged(bytes.to_vec()));
    if more {
        b.op(Op::Access);
        b.op(Op::Probe);
    }
    encode(&b.records)
}

fn version(b: &mut Builder) -> Vec<u8> {
    good(b);
    let mut bytes = encode(&b.records);
    bytes[0] = b.random.pick(&[0, 2, 0x31, 0xFF]);
    bytes
}

/// The last record without its last bytes.
fn past_end(b: &mut Builder) -> Vec<u8> {
    good(b);
    let mut bytes = encode(&b.records);
    let last = b.records.last().expect("a record").encode().len() as u64;
    let cut = if last < 4 { 1 } else { b.random.within(1, last - 2) };
    bytes.truncate(bytes.len() - cut as usize);
    bytes
}

fn body_of(b: &mut Builder, kind: u8) -> Vec<u8> {
    let mut body = vec![kind];
    for _ in 1..length_of(kind).expect("a known kind") {
        body.push(b.random.below(2) as u8);
    }
    if kind == 1 {
        body[1] = 30;
    }
    body
}

fn wrong_length(b: &mut Builder, longer: bool) -> Vec<u8> {
    good(b);
    let kind = b.random.within(1, 11) as u8;
    let mut body = body_of(b, kind);
    if longer {
        body.push(0);
    } else {
        body.pop();
    }
    with(b, &framed(&body), true)
}

fn unknown_kind(b: &mut Builder) -> Vec<u8> {
    good(b);
    let mut body = body_of(b, 2);
    body[0] = b.random.pick(&[0, 0x0C, 0x0D, 0x10, 0x80, 0xFF]);
    with(b, &framed(&body), true)
}

/// A record of this kind whose byte at `place` has a bit that is not allowed. Its
/// other numbers are refused as well now and then: 7 comes first.
fn bad_byte(b: &mut Builder, kind: u8, place: usize, allowed: u8) -> Vec<u8> {
    good(b);
    let mut body = body_of(b, kind);
    let bits: Vec<u8> = (0..8).map(|bit| 1 << bit).filter(|bit| allowed & bit == 0).collect();
    body[place] |= b.random.pick(&bits);
    if b.random.chance(40) && place != 1 {
        body[1] = 99;
    }
    with(b, &framed(&body), true)
}
