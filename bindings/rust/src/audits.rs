//! What an audit of the caches says.

use crate::answers::{cause_of, kind_of, Fault, Refusal};
use crate::caches::Caches;
use crate::door;
use crate::given::{Registers, Tables};
use std::fmt;

/// Which cache an entry stands in.
#[derive(Clone, Copy, Debug, PartialEq, Eq)]
pub enum Cache {
    /// The 68030's 22 entries.
    M68030,
    /// The 68040's 64 slots.
    M68040,
}

/// What the cache and the tables say to one access.
#[derive(Clone, Copy, Debug, PartialEq, Eq)]
pub struct Finding {
    /// The page's base that the entry gives, or nothing where it lets the walk answer.
    pub cached: Option<u64>,
    /// The address, or the fault, that a walk without caches gives. Its count is 0.
    pub tables: Result<u32, Fault>,
}

/// An entry that gives a wrong answer now.
#[derive(Clone, Copy, Debug, PartialEq, Eq)]
pub struct Stale {
    /// Its cache.
    pub cache: Cache,
    /// Its index there.
    pub index: usize,
    /// The first address of its page.
    pub address: u32,
    /// Its function code; of a 68040 slot the data code of its privilege.
    pub code: u8,
    /// What is said to a read of that address.
    pub read: Finding,
    /// What is said to a write.
    pub write: Finding,
}

impl fmt::Display for Finding {
    fn fmt(&self, f: &mut fmt::Formatter<'_>) -> fmt::Result {
        match self.cached {
            Some(base) => write!(f, "cache {base:08X}, ")?,
            None => write!(f, "cache nothing, ")?,
        }
        match self.tables {
            Ok(address) => write!(f, "tables {address:08X}"),
            Err(fault) => write!(f, "tables {:?}", fault.cause),
        }
    }
}

impl fmt::Display for Stale {
    fn fmt(&self, f: &mut fmt::Formatter<'_>) -> fmt::Result {
        let cache = match self.cache {
            Cache::M68030 => "68030",
            Cache::M68040 => "68040",
        };
        let Stale { index, address, code, read, write, .. } = self;
        write!(f, "{cache} entry {index}, page {address:08X}, code {code}; read: {read}; write: {write}")
    }
}

/// Every stale entry, in order.
pub(crate) fn every(caches: &Caches, registers: &Registers, tables: Tables<'_>) -> Result<Vec<Stale>, Refusal> {
    let (mut found, mut from) = (Vec::new(), 0);
    loop {
        match door::audit(caches, tables, registers, from) {
            [0, ..] => return Ok(found),
            [1, index, cache, ..] => {
                let cache = if cache == 30 { Cache::M68030 } else { Cache::M68040 };
                found.push(stale(caches, registers, tables, cache, index)?);
                from = index + 1;
            }
            [_, number, ..] => return Err(Refusal::of(number)),
        }
    }
}

/// What is said of an entry that the audit named.
fn stale(
    caches: &Caches,
    registers: &Registers,
    tables: Tables<'_>,
    cache: Cache,
    index: u32,
) -> Result<Stale, Refusal> {
    let (address, code, read) = said(door::finding(caches, tables, registers, index, false))?;
    let (.., write) = said(door::finding(caches, tables, registers, index, true))?;
    Ok(Stale { cache, index: index as usize, address, code, read, write })
}

/// An entry's page and code, and a finding, from their numbers.
fn said(numbers: door::Said) -> Result<(u32, u8, Finding), Refusal> {
    let [what, address, code, held, low, high, walked, at, kind, cause] = numbers;
    if what != 0 {
        return Err(Refusal::of(address));
    }
    let cached = (held == 0).then(|| u64::from(high) << 32 | u64::from(low));
    let tables = match walked {
        0 => Ok(at),
        1 => Err(Fault { kind: kind_of(kind), cause: cause_of(cause), address: at, count: 0 }),
        _ => return Err(Refusal::of(at)),
    };
    Ok((address, code as u8, Finding { cached, tables }))
}
