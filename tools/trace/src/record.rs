//! A record, and its bytes.

use std::io;

/// The override byte of an access without one.
pub const NO_OVERRIDE: u8 = 0xFF;

/// The longest body, its kind included: that of registers.
pub(crate) const LONGEST: usize = 47;

// Flag bits of an access and of a probe.
const WRITE: u8 = 1;
const SUPERVISOR: u8 = 2;
const INSTRUCTION: u8 = 4;
const OWN: u8 = 8;
const RECORDED: u8 = 16;

// Flag bits of registers.
const PRESENT: u8 = 1;
const ENABLED: u8 = 2;

/// The registers of record kind 01.
#[derive(Clone, Copy, Debug, PartialEq, Eq)]
pub struct Registers {
    /// The family: 30, 40 or 60; a player refuses others.
    pub family: u8,
    /// Whether there is a PMMU.
    pub present: bool,
    /// Whether it is enabled.
    pub enabled: bool,
    /// TC, CRP limit and address, SRP limit and address, TT0, TT1, ITT0, ITT1, DTT0, DTT1.
    pub longs: [u32; 11],
}

/// An access, of record kind 02.
#[derive(Clone, Copy, Debug, PartialEq, Eq)]
pub struct Access {
    /// Whether it writes.
    pub write: bool,
    /// Whether it is a supervisor's.
    pub supervisor: bool,
    /// Whether it fetches an instruction.
    pub instruction: bool,
    /// The CPU's own supervisor state.
    pub own: bool,
    /// Whether a hit records a use.
    pub recorded: bool,
    /// The function-code override, or [`NO_OVERRIDE`].
    pub code: u8,
    /// The logical address.
    pub address: u32,
}

/// One record. Its numbers are the file's: a player may still refuse them.
#[derive(Clone, Copy, Debug, PartialEq, Eq)]
#[allow(missing_docs)]
pub enum Record {
    /// 01: the registers from now on.
    Registers(Registers),
    /// 02: an access.
    Access(Access),
    /// 03: PLOAD.
    Load { code: u8, write: bool, address: u32 },
    /// 04: PTEST.
    Test { code: u8, write: bool, level: u8, address: u32 },
    /// 05: both caches are emptied.
    FlushAll,
    /// 06: the 68030 entries of a code, under a mask.
    FlushCode { code: u8, mask: u8 },
    /// 07: those of them that have the address's page.
    FlushPage { code: u8, mask: u8, address: u32 },
    /// 08: a 68040 frame.
    FlushFrame { frame: u32 },
    /// 09: a long is stored.
    Store { address: u32, value: u32 },
    /// 0A: a bus-error range more.
    Range { first: u32, last: u32 },
    /// 0B: a probe.
    Probe { own: bool, instruction: bool, write: bool, address: u32 },
}

impl Record {
    /// Writes the record's bytes, its length first.
    ///
    /// # Errors
    /// A write that fails.
    pub fn write_to(&self, mut out: impl io::Write) -> io::Result<()> {
        let body = self.body();
        let length = body.len() as u8; // at most LONGEST
        out.write_all(&[0, length])?;
        out.write_all(&body)
    }

    /// The body, kind first.
    fn body(&self) -> Vec<u8> {
        match *self {
            Record::Registers(r) => {
                body_of(&[1, r.family, bit(r.present, PRESENT) | bit(r.enabled, ENABLED)], &r.longs)
            }
            Record::Access(a) => body_of(&[2, a.flags(), a.code], &[a.address]),
            Record::Load { code, write, address } => body_of(&[3, code, write.into()], &[address]),
            Record::Test { code, write, level, address } => body_of(&[4, code, write.into(), level], &[address]),
            Record::FlushAll => body_of(&[5], &[]),
            Record::FlushCode { code, mask } => body_of(&[6, code, mask], &[]),
            Record::FlushPage { code, mask, address } => body_of(&[7, code, mask], &[address]),
            Record::FlushFrame { frame } => body_of(&[8], &[frame]),
            Record::Store { address, value } => body_of(&[9], &[address, value]),
            Record::Range { first, last } => body_of(&[0x0A], &[first, last]),
            Record::Probe { own, instruction, write, address } => {
                let flags = bit(own, OWN) | bit(instruction, INSTRUCTION) | bit(write, WRITE);
                body_of(&[0x0B, flags], &[address])
            }
        }
    }

    /// The record of a kind with these bytes after it, which are as many as
    /// [`length_after`] says; or why there is none.
    pub(crate) fn of(kind: u8, after: &[u8]) -> Result<Record, String> {
        let long = |at: usize| u32::from_be_bytes([after[at], after[at + 1], after[at + 2], after[at + 3]]);
        let record = match kind {
            1 => {
                let flags = only(after[1], PRESENT | ENABLED)?;
                Record::Registers(Registers {
                    family: after[0],
                    present: flags & PRESENT != 0,
                    enabled: flags & ENABLED != 0,
                    longs: std::array::from_fn(|n| long(2 + 4 * n)),
                })
            }
            2 => {
                let flags = only(after[0], WRITE | SUPERVISOR | INSTRUCTION | OWN | RECORDED)?;
                Record::Access(Access {
                    write: flags & WRITE != 0,
                    supervisor: flags & SUPERVISOR != 0,
                    instruction: flags & INSTRUCTION != 0,
                    own: flags & OWN != 0,
                    recorded: flags & RECORDED != 0,
                    code: after[1],
                    address: long(2),
                })
            }
            3 => Record::Load { code: after[0], write: write_byte(after[1])?, address: long(2) },
            4 => Record::Test { code: after[0], write: write_byte(after[1])?, level: after[2], address: long(3) },
            5 => Record::FlushAll,
            6 => Record::FlushCode { code: after[0], mask: after[1] },
            7 => Record::FlushPage { code: after[0], mask: after[1], address: long(2) },
            8 => Record::FlushFrame { frame: long(0) },
            9 => Record::Store { address: long(0), value: long(4) },
            0x0A => Record::Range { first: long(0), last: long(4) },
            0x0B => {
                let flags = only(after[0], OWN | INSTRUCTION | WRITE)?;
                Record::Probe {
                    own: flags & OWN != 0,
                    instruction: flags & INSTRUCTION != 0,
                    write: flags & WRITE != 0,
                    address: long(1),
                }
            }
            _ => return Err(unknown(kind)),
        };
        Ok(record)
    }
}

impl Access {
    fn flags(&self) -> u8 {
        bit(self.write, WRITE)
            | bit(self.supervisor, SUPERVISOR)
            | bit(self.instruction, INSTRUCTION)
            | bit(self.own, OWN)
            | bit(self.recorded, RECORDED)
    }
}

/// How many bytes stand after a kind; or that it is unknown.
pub(crate) fn length_after(kind: u8) -> Result<usize, String> {
    match kind {
        1 => Ok(LONGEST - 1),
        2 | 3 | 7 => Ok(6),
        4 => Ok(7),
        5 => Ok(0),
        6 => Ok(2),
        8 => Ok(4),
        9 | 0x0A => Ok(8),
        0x0B => Ok(5),
        _ => Err(unknown(kind)),
    }
}

fn unknown(kind: u8) -> String {
    format!("there is no kind {kind:02X}")
}

/// The bytes, and the longs after them, high byte first.
fn body_of(bytes: &[u8], longs: &[u32]) -> Vec<u8> {
    bytes.iter().copied().chain(longs.iter().flat_map(|long| long.to_be_bytes())).collect()
}

/// The bit where it is set.
fn bit(set: bool, bit: u8) -> u8 {
    if set {
        bit
    } else {
        0
    }
}

/// The flags, if they have no other bits than those that mean something.
fn only(flags: u8, known: u8) -> Result<u8, String> {
    match flags & !known {
        0 => Ok(flags),
        _ => Err(format!("its flags are {flags:02X}, and only the bits {known:02X} mean something")),
    }
}

fn write_byte(byte: u8) -> Result<bool, String> {
    match byte {
        0 => Ok(false),
        1 => Ok(true),
        _ => Err(format!("its write byte is {byte:02X}, not 00 or 01")),
    }
}
