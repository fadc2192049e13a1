//! Records of a trace and their bytes (document 01, 'The trace and the program').

/// The registers that a call is given.
#[derive(Clone, Debug, PartialEq, Eq)]
pub struct Registers {
    pub family: u8,
    pub has_pmmu: bool,
    pub enabled: bool,
    pub tc: u32,
    pub crp_limit: u32,
    pub crp_address: u32,
    pub srp_limit: u32,
    pub srp_address: u32,
    pub tt0: u32,
    pub tt1: u32,
    pub itt0: u32,
    pub itt1: u32,
    pub dtt0: u32,
    pub dtt1: u32,
}

impl Registers {
    /// What a replay starts from: family 30, all else 0.
    pub fn at_start() -> Self {
        Self::from_longs(30, 0, [0; 11])
    }

    pub fn from_longs(family: u8, flags: u8, longs: [u32; 11]) -> Self {
        let [tc, crp_limit, crp_address, srp_limit, srp_address, tt0, tt1, itt0, itt1, dtt0, dtt1] = longs;
        Registers {
            family,
            has_pmmu: flags & 1 != 0,
            enabled: flags & 2 != 0,
            tc,
            crp_limit,
            crp_address,
            srp_limit,
            srp_address,
            tt0,
            tt1,
            itt0,
            itt1,
            dtt0,
            dtt1,
        }
    }

    pub fn flags(&self) -> u8 {
        u8::from(self.has_pmmu) | u8::from(self.enabled) << 1
    }

    /// The eleven longs in document 01's order.
    pub fn longs(&self) -> [u32; 11] {
        [
            self.tc,
            self.crp_limit,
            self.crp_address,
            self.srp_limit,
            self.srp_address,
            self.tt0,
            self.tt1,
            self.itt0,
            self.itt1,
            self.dtt0,
            self.dtt1,
        ]
    }
}

// Flag bits of kinds 02 and 0B.
pub const WRITE: u8 = 1;
pub const SUPERVISOR: u8 = 2;
pub const INSTRUCTION: u8 = 4;
pub const CPU_STATE: u8 = 8;
pub const RECORD: u8 = 16;

/// No override.
pub const NONE: u8 = 0xFF;

/// One record. The numbers are those of the file: they may still be refused.
#[derive(Clone, Debug, PartialEq, Eq)]
pub enum Record {
    Registers(Registers),
    Access {
        flags: u8,
        override_code: u8,
        address: u32,
    },
    Load {
        code: u8,
        write: u8,
        address: u32,
    },
    Test {
        code: u8,
        write: u8,
        level: u8,
        address: u32,
    },
    FlushAll,
    FlushCode {
        code: u8,
        mask: u8,
    },
    FlushPage {
        code: u8,
        mask: u8,
        address: u32,
    },
    FlushFrame {
        frame: u32,
    },
    Store {
        address: u32,
        value: u32,
    },
    Range {
        first: u32,
        last: u32,
    },
    Probe {
        flags: u8,
        address: u32,
    },
    /// Bytes as they stand, length included: a damaged record, or what is left of one.
    Damaged(Vec<u8>),
}

impl Record {
    /// The record's body, kind first.
    fn body(&self) -> Vec<u8> {
        let with_longs = |head: &[u8], longs: &[u32]| {
            let mut bytes = head.to_vec();
            longs.iter().for_each(|long| bytes.extend(long.to_be_bytes()));
            bytes
        };
        match *self {
            Record::Registers(ref r) => with_longs(&[1, r.family, r.flags()], &r.longs()),
            Record::Access { flags, override_code, address } => with_longs(&[2, flags, override_code], &[address]),
            Record::Load { code, write, address } => with_longs(&[3, code, write], &[address]),
            Record::Test { code, write, level, address } => with_longs(&[4, code, write, level], &[address]),
            Record::FlushAll => vec![5],
            Record::FlushCode { code, mask } => vec![6, code, mask],
            Record::FlushPage { code, mask, address } => with_longs(&[7, code, mask], &[address]),
            Record::FlushFrame { frame } => with_longs(&[8], &[frame]),
            Record::Store { address, value } => with_longs(&[9], &[address, value]),
            Record::Range { first, last } => with_longs(&[0x0A], &[first, last]),
            Record::Probe { flags, address } => with_longs(&[0x0B, flags], &[address]),
            Record::Damaged(_) => Vec::new(),
        }
    }

    /// The record's bytes in a trace, its length first.
    pub fn encode(&self) -> Vec<u8> {
        if let Record::Damaged(bytes) = self {
            return bytes.clone();
        }
        framed(&self.body())
    }

    /// The record of a body, or nothing where the body is malformed (refusal 7).
    pub fn decode(body: &[u8]) -> Option<Record> {
        let (&kind, rest) = body.split_first()?;
        let long = |at: usize| u32::from_be_bytes([rest[at], rest[at + 1], rest[at + 2], rest[at + 3]]);
        if body.len() != length_of(kind)? || wrong_flags(body) != 0 {
            return None;
        }
        let record = match kind {
            0x01 => {
                Record::Registers(Registers::from_longs(rest[0], rest[1], std::array::from_fn(|n| long(2 + 4 * n))))
            }
            0x02 => Record::Access { flags: rest[0], override_code: rest[1], address: long(2) },
            0x03 => Record::Load { code: rest[0], write: rest[1], address: long(2) },
            0x04 => Record::Test { code: rest[0], write: rest[1], level: rest[2], address: long(3) },
            0x05 => Record::FlushAll,
            0x06 => Record::FlushCode { code: rest[0], mask: rest[1] },
            0x07 => Record::FlushPage { code: rest[0], mask: rest[1], address: long(2) },
            0x08 => Record::FlushFrame { frame: long(0) },
            0x09 => Record::Store { address: long(0), value: long(4) },
            0x0A => Record::Range { first: long(0), last: long(4) },
            _ => Record::Probe { flags: rest[0], address: long(1) },
        };
        Some(record)
    }
}

/// The kinds, each with its body's length.
pub const KINDS: &[(u8, usize)] =
    &[(1, 47), (2, 7), (3, 7), (4, 8), (5, 1), (6, 3), (7, 7), (8, 5), (9, 9), (0x0A, 9), (0x0B, 6)];

pub fn length_of(kind: u8) -> Option<usize> {
    KINDS.iter().find(|&&(known, _)| known == kind).map(|&(_, length)| length)
}

/// Where in its body a kind's flags stand, and the bits that they may have.
pub fn flags_of(kind: u8) -> Option<(usize, u8)> {
    match kind {
        0x01 => Some((2, 0b11)),
        0x02 => Some((1, WRITE | SUPERVISOR | INSTRUCTION | CPU_STATE | RECORD)),
        0x03 | 0x04 => Some((2, 1)),
        0x0B => Some((1, WRITE | INSTRUCTION | CPU_STATE)),
        _ => None,
    }
}

/// The bits of the flags that must not be there, of a body that is long enough.
pub fn wrong_flags(body: &[u8]) -> u8 {
    flags_of(body[0]).map_or(0, |(place, allowed)| body[place] & !allowed)
}

/// A body behind its length.
pub fn framed(body: &[u8]) -> Vec<u8> {
    let mut bytes = (body.len() as u16).to_be_bytes().to_vec();
    bytes.extend(body);
    bytes
}

/// A whole trace of version 1.
pub fn encode(records: &[Record]) -> Vec<u8> {
    let mut bytes = vec![1];
    records.iter().for_each(|record| bytes.extend(record.encode()));
    bytes
}

/// What stands next in a trace after its version byte.
pub enum Next<'a> {
    /// The body, and where the next record starts.
    Body(&'a [u8], usize),
    /// A length cut short, or one past the end of the file.
    Short,
    End,
}

pub fn next_body(bytes: &[u8], at: usize) -> Next<'_> {
    match bytes.len() - at {
        0 => return Next::End,
        1 => return Next::Short,
        _ => {}
    }
    let length = usize::from(u16::from_be_bytes([bytes[at], bytes[at + 1]]));
    match bytes.get(at + 2..at + 2 + length) {
        Some(body) => Next::Body(body, at + 2 + length),
        None => Next::Short,
    }
}

/// The records of a trace as stretches of its bytes, lengths included; a stretch
/// that is no whole record comes last.
pub fn stretches(bytes: &[u8]) -> Vec<&[u8]> {
    let mut found = Vec::new();
    let mut at = bytes.len().min(1);
    loop {
        match next_body(bytes, at) {
            Next::Body(_, next) => {
                found.push(&bytes[at..next]);
                at = next;
            }
            Next::Short => {
                found.push(&bytes[at..]);
                return found;
            }
            Next::End => return found,
        }
    }
}
