//! What a 68030 table tree maps (request 01), as plain Rust and from document 01's text:
//! a table reads its entries, and an entry opens its own table, level by level.

use crate::trace::Registers;
use std::fmt::{self, Display, Formatter};

/// What stands at a listed range.
#[derive(Clone, Copy, Debug, PartialEq, Eq)]
pub enum Found {
    Mapped {
        physical: u32,
        wp: bool,
        sup: bool,
    },
    /// A long of its descriptor can't be fetched.
    Unfetchable,
}

/// One listed range: 2^(32 - consumed) addresses.
#[derive(Clone, Copy, Debug, PartialEq, Eq)]
pub struct Range {
    pub first: u32,
    pub consumed: u32,
    pub found: Found,
}

impl Range {
    pub fn last(&self) -> u32 {
        last_of(self.first, self.consumed)
    }

    /// The addresses of a mapped range.
    pub fn bytes(&self) -> u64 {
        match self.found {
            Found::Mapped { .. } => 1 << (32 - self.consumed),
            Found::Unfetchable => 0,
        }
    }
}

impl Display for Range {
    fn fmt(&self, f: &mut Formatter) -> fmt::Result {
        write!(f, "{:08X}-{:08X} ", self.first, self.last())?;
        match self.found {
            Found::Mapped { physical, wp, sup } => {
                let flags = match (wp, sup) {
                    (false, false) => "-",
                    (true, false) => "W",
                    (false, true) => "S",
                    (true, true) => "WS",
                };
                write!(f, "{physical:08X} {flags}")
            }
            Found::Unfetchable => f.write_str("unfetchable"),
        }
    }
}

/// The last line of a list: how many ranges, and the addresses of the mapped ones.
pub fn sum(ranges: u64, bytes: u64) -> String {
    format!("{ranges} ranges, {bytes} bytes mapped")
}

/// The lines of a whole list, or of its refusal.
pub fn lines(list: &Result<Vec<Range>, u8>) -> Vec<String> {
    match list {
        Ok(ranges) => {
            let last = sum(ranges.len() as u64, ranges.iter().map(Range::bytes).sum());
            ranges.iter().map(Range::to_string).chain([last]).collect()
        }
        Err(number) => vec![format!("R {number}")],
    }
}

/// The last address that shares its first `consumed` bits with this one.
pub fn last_of(address: u32, consumed: u32) -> u32 {
    address | (u64::from(u32::MAX) >> consumed) as u32
}

/// The root that a walk in this code begins at: limit and address.
pub fn root(registers: &Registers, code: u8) -> (u32, u32) {
    if registers.tc >> 25 & 1 == 1 && code & 4 != 0 {
        (registers.srp_limit, registers.srp_address)
    } else {
        (registers.crp_limit, registers.crp_address)
    }
}

/// The index widths TIA to TID, up to the first zero.
pub fn widths(tc: u32) -> impl Iterator<Item = u32> {
    [12, 8, 4, 0].into_iter().map(move |shift| tc >> shift & 15).take_while(|&width| width != 0)
}

/// Whether TC has a function-code level.
pub fn by_code(tc: u32) -> bool {
    tc >> 24 & 1 == 1
}

/// The refusal that a list of this code meets, in the order 1, 5, 9. (2 and 3 are of the
/// memory: a trace's is never refused.)
pub fn refusal(registers: &Registers, code: u8) -> Option<u8> {
    let nine = registers.family != 30
        || ![1, 2, 5, 6].contains(&code)
        || registers.tc >> 16 & 15 != 0
        || !(1..=32).contains(&widths(registers.tc).sum::<u32>())
        || root(registers, code).0 & 3 < 2;
    match registers.family {
        30 | 40 | 60 if code > 7 => Some(5),
        30 | 40 | 60 => nine.then_some(9),
        _ => Some(1),
    }
}

/// Hands each range of the tree whose last address is `from` or above to `out`, in
/// ascending order. `fetch` reads one long, or fails.
pub fn list(
    registers: &Registers,
    code: u8,
    from: u32,
    fetch: impl FnMut(u32) -> Option<u32>,
    out: impl FnMut(Range),
) -> Result<(), u8> {
    if let Some(number) = refusal(registers, code) {
        return Err(number);
    }
    let mut levels = [0; 4];
    let mut count = 0;
    for width in widths(registers.tc) {
        levels[count] = width;
        count += 1;
    }
    let mut lister = Lister { widths: &levels[..count], from, fetch, out };
    let (limit, address) = root(registers, code);
    let table = Table { at: address & !15, long: limit & 3 == 3, wp: false, sup: false };
    if by_code(registers.tc) {
        lister.entry(&table, code.into(), 0, 0, 0);
    } else {
        lister.table(&table, 0, 0, 0);
    }
    Ok(())
}

/// A table, with what the descriptors on the way to it added.
struct Table {
    at: u32,
    long: bool,
    wp: bool,
    sup: bool,
}

/// One descriptor.
struct Descriptor {
    kind: u32,
    wp: bool,
    sup: bool,
    field: u32,
}

struct Lister<'w, F, O> {
    widths: &'w [u32],
    from: u32,
    fetch: F,
    out: O,
}

impl<F: FnMut(u32) -> Option<u32>, O: FnMut(Range)> Lister<'_, F, O> {
    /// Every entry of a table whose addresses begin at `first`.
    fn table(&mut self, table: &Table, level: usize, first: u32, consumed: u32) {
        let width = self.widths[level];
        let below = consumed + width;
        for index in 0..1 << width {
            // At a sum of 32 the entries of the last table lie one address apart.
            let start = first | ((u64::from(index) << (32 - below)) as u32);
            if last_of(start, below) >= self.from {
                self.entry(table, index, level + 1, start, below);
            }
        }
    }

    /// One entry; `level` is the first of the levels that are left.
    fn entry(&mut self, table: &Table, index: u32, level: usize, first: u32, consumed: u32) {
        let at = table.at.wrapping_add(index * if table.long { 8 } else { 4 });
        let found = match self.descriptor(at, table.long) {
            None => Found::Unfetchable,
            Some(Descriptor { kind: 0, .. }) => return,
            Some(Descriptor { kind: 1, wp, sup, field }) => {
                Found::Mapped { physical: field & !0xFF, wp: table.wp | wp, sup: table.sup | sup }
            }
            Some(next) if level < self.widths.len() => {
                let (wp, sup) = (table.wp | next.wp, table.sup | next.sup);
                let opened = Table { at: next.field & !15, long: next.kind == 3, wp, sup };
                return self.table(&opened, level, first, consumed);
            }
            Some(indirect) => match self.descriptor(indirect.field & !3, indirect.kind == 3) {
                None => Found::Unfetchable,
                Some(Descriptor { kind: 1, wp, sup, field }) => {
                    Found::Mapped { physical: field & !0xFF, wp: table.wp | wp, sup: table.sup | sup }
                }
                Some(_) => return,
            },
        };
        (self.out)(Range { first, consumed, found });
    }

    /// The descriptor at an address; nothing where a long of it fails.
    fn descriptor(&mut self, at: u32, long: bool) -> Option<Descriptor> {
        let first = (self.fetch)(at)?;
        let (sup, field) = if long { (first & 0x100 != 0, (self.fetch)(at.wrapping_add(4))?) } else { (false, first) };
        Some(Descriptor { kind: first & 3, wp: first & 4 != 0, sup, field })
    }
}
