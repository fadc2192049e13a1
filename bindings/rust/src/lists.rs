//! What a table tree maps.

use crate::answers::Refusal;
use crate::door::{self, Numbers};
use crate::given::{Registers, Tables};
use std::fmt;
use std::iter::FusedIterator;

/// A range of a 68030 tree: what every address in it is mapped to.
#[derive(Clone, Copy, Debug, PartialEq, Eq)]
pub struct Mapping {
    /// Its first address.
    pub first: u32,
    /// How many high bits of an address lead to it, 0 to 32: it has 2^(32 - consumed) addresses.
    pub consumed: u32,
    /// Where it is mapped to, or nothing where its descriptor can't be fetched: a walk there
    /// ends in a bus error.
    pub page: Option<Page>,
}

/// Where a range is mapped to.
#[derive(Clone, Copy, Debug, PartialEq, Eq)]
pub struct Page {
    /// The physical address of the range's first; the others follow, wrapping.
    pub physical: u32,
    /// Whether a write faults.
    pub write_protected: bool,
    /// Whether a user's access faults.
    pub supervisor: bool,
}

impl Mapping {
    /// Its last address.
    #[must_use]
    pub fn last(&self) -> u32 {
        self.first | (u64::from(u32::MAX) >> self.consumed) as u32
    }

    /// The range of a number: the first address, 24 bits of the physical start, and in the low
    /// byte 33 x (1 WP, 2 S, 3 both, 4 unfetchable) + the bits consumed.
    fn of(number: u64) -> Self {
        let (kind, consumed) = (number as u8 / 33, number as u8 % 33);
        let page =
            Page { physical: number as u32 & 0xFFFF_FF00, write_protected: kind & 1 != 0, supervisor: kind & 2 != 0 };
        Mapping { first: (number >> 32) as u32, consumed: consumed.into(), page: (kind < 4).then_some(page) }
    }
}

/// As `./list` writes it.
impl fmt::Display for Mapping {
    fn fmt(&self, f: &mut fmt::Formatter<'_>) -> fmt::Result {
        write!(f, "{:08X}-{:08X} ", self.first, self.last())?;
        let Some(Page { physical, write_protected, supervisor }) = self.page else {
            return f.write_str("unfetchable");
        };
        let flags = match (write_protected, supervisor) {
            (false, false) => "-",
            (true, false) => "W",
            (false, true) => "S",
            (true, true) => "WS",
        };
        write!(f, "{physical:08X} {flags}")
    }
}

/// The ranges of a tree, in ascending order: see [`Pmmu::list`](crate::Pmmu::list). The tables
/// stay lent, so they stay as they are until the list is over; little of it is kept at a time.
#[derive(Clone, Debug)]
pub struct Mappings<'t> {
    registers: Registers,
    tables: Tables<'t>,
    code: u8,
    numbers: Numbers,
    /// Of the numbers: how many there are, and how many were taken.
    count: usize,
    taken: usize,
    /// Where to go on, if these are not all.
    next: Option<u32>,
}

impl<'t> Mappings<'t> {
    /// The first ranges whose last address is `from` or above.
    pub(crate) fn start(registers: &Registers, code: u8, from: u32, tables: Tables<'t>) -> Result<Self, Refusal> {
        let (registers, numbers) = (*registers, [0; door::ROOM]);
        let mut list = Mappings { registers, tables, code, numbers, count: 0, taken: 0, next: None };
        list.go_on(from)?;
        Ok(list)
    }

    /// The next ranges, from an address on.
    fn go_on(&mut self, from: u32) -> Result<(), Refusal> {
        let [what, count, next] = door::list(self.tables, &self.registers, self.code, from, &mut self.numbers);
        if what == 2 {
            return Err(Refusal::of(count as u32));
        }
        (self.count, self.taken) = (count as usize, 0);
        self.next = (what == 1).then_some(next as u32);
        Ok(())
    }
}

impl Iterator for Mappings<'_> {
    type Item = Mapping;

    fn next(&mut self) -> Option<Mapping> {
        if self.taken == self.count {
            self.go_on(self.next?).expect("what was taken once is taken again");
        }
        let number = self.numbers[..self.count].get(self.taken)?;
        self.taken += 1;
        Some(Mapping::of(*number))
    }
}

impl FusedIterator for Mappings<'_> {}
