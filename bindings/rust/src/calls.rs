//! The calls.

use crate::answers::{cause_of, kind_of, Error, Fault, Refusal, Status, Translated};
use crate::audits::{self, Stale};
use crate::caches::{Caches, NUMBERS_030, NUMBERS_040};
use crate::door;
use crate::given::{Access, Registers, Tables};
use crate::lists::Mappings;

/// A pair of translation caches, and the calls on it. A clone is a warm copy: give one to
/// each worker.
#[derive(Clone, Debug, PartialEq, Eq)]
pub struct Pmmu {
    caches: Caches,
}

impl Default for Pmmu {
    fn default() -> Self {
        Pmmu::new()
    }
}

impl From<Caches> for Pmmu {
    fn from(caches: Caches) -> Self {
        Pmmu { caches }
    }
}

impl Pmmu {
    /// Both caches empty, every number 0.
    #[must_use]
    pub fn new() -> Self {
        let mut caches = Caches { c030: [0; NUMBERS_030], c040: [0; NUMBERS_040] };
        door::empty(&mut caches);
        Pmmu { caches }
    }

    /// Both caches, to compare or to save.
    #[must_use]
    pub fn caches(&self) -> &Caches {
        &self.caches
    }

    /// The physical address of an access, from the transparent registers, the caches or a
    /// walk; the page that a walk finds is cached.
    ///
    /// # Errors
    /// The fault, or a refusal (1, 5, 2, 3 or 4).
    #[inline]
    pub fn translate(
        &mut self,
        registers: &Registers,
        access: &Access,
        tables: Tables<'_>,
    ) -> Result<Translated, Error> {
        match door::translate(&mut self.caches, tables, registers, access) {
            [0, address, _, _, count] => Ok(Translated { address, count }),
            [1, address, kind, cause, count] => {
                Err(Error::Fault(Fault { kind: kind_of(kind), cause: cause_of(cause), address, count }))
            }
            [_, number, ..] => Err(Error::Refused(Refusal::of(number))),
        }
    }

    /// PLOAD: drops the page, searches, and caches what it finds. Gives the count.
    ///
    /// # Errors
    /// A refusal (1, 6, 5, 2, 3 or 4).
    pub fn load(
        &mut self,
        registers: &Registers,
        code: u8,
        write: bool,
        address: u32,
        tables: Tables<'_>,
    ) -> Result<u32, Refusal> {
        match door::load(&mut self.caches, tables, registers, code, write, address) {
            [0, _, _, _, count] => Ok(count),
            [_, number, ..] => Err(Refusal::of(number)),
        }
    }

    /// PTEST: at most so many levels, whether the PMMU is enabled or not. It touches no
    /// cache, so it takes none.
    ///
    /// # Errors
    /// A refusal (1, 6, 5, 2 or 3).
    pub fn test(
        registers: &Registers,
        code: u8,
        write: bool,
        level: u8,
        address: u32,
        tables: Tables<'_>,
    ) -> Result<Status, Refusal> {
        match door::test(tables, registers, code, write, level, address) {
            [0, mmusr, address, _, count] => Ok(Status { mmusr: mmusr as u16, address, count }),
            [_, number, ..] => Err(Refusal::of(number)),
        }
    }

    /// Every entry that gives a wrong answer by the tables as they are now: of each, its page
    /// and code, what the cache says and what the tables say. None: the caches are clean, and
    /// every access gets the answer that a walk without caches gives. It changes nothing, and
    /// asks neither the transparent registers nor whether the PMMU is on. Ask before you fork.
    ///
    /// # Errors
    /// A refusal (1, 2, 3 or 4): then nothing is said of the caches.
    pub fn audit(&self, registers: &Registers, tables: Tables<'_>) -> Result<Vec<Stale>, Refusal> {
        audits::every(&self.caches, registers, tables)
    }

    /// What the 68030 tree of a function code (1, 2, 5 or 6) maps: each range once, in ascending
    /// order. It agrees with the walk without caches of every address: in a listed range, with its
    /// protection, and in none, which is a fault as invalid. It asks neither the transparent
    /// registers nor whether the PMMU is on, and touches no cache, so it takes none. Trees that
    /// point back at themselves end too, and a list may be long: up to 2^32 ranges.
    ///
    /// ```
    /// # use pmmu::{Family, Pmmu, Registers, Tables};
    /// let registers = Registers {
    ///     family: Family::M68030,
    ///     tc: 0x80C0_7760,
    ///     crp_limit: 0x8000_0002,
    ///     crp_address: 0x1000,
    ///     ..Registers::default()
    /// };
    /// let mut longs = vec![0; 0x800];
    /// longs[0x1004 / 4] = 0x0040_0005; // the root table's second entry: an early page, write-protected
    /// let tables = Tables { longs: &longs, base: 0, ranges: &[] };
    ///
    /// let lines: Vec<String> = Pmmu::list(&registers, 1, tables)?.map(|range| range.to_string()).collect();
    /// assert_eq!(lines, ["02000000-03FFFFFF 00400000 W"]);
    /// # Ok::<(), pmmu::Refusal>(())
    /// ```
    ///
    /// # Errors
    /// A refusal (1, 5, 2, 3 or 9).
    pub fn list<'t>(registers: &Registers, code: u8, tables: Tables<'t>) -> Result<Mappings<'t>, Refusal> {
        Pmmu::list_from(registers, code, 0, tables)
    }

    /// The same from an address on: the ranges whose last address is `from` or above. So the one
    /// that it lies in comes whole.
    ///
    /// # Errors
    /// A refusal (1, 5, 2, 3 or 9).
    pub fn list_from<'t>(
        registers: &Registers,
        code: u8,
        from: u32,
        tables: Tables<'t>,
    ) -> Result<Mappings<'t>, Refusal> {
        Mappings::start(registers, code, from, tables)
    }

    /// The address from a transparent match or an unrecorded hit, else nothing. The CPU's
    /// own state is the privilege, and there is no override.
    ///
    /// # Errors
    /// A refusal (1 or 4).
    #[inline]
    pub fn probe(
        &self,
        registers: &Registers,
        own: bool,
        instruction: bool,
        write: bool,
        address: u32,
    ) -> Result<Option<u32>, Refusal> {
        let flags = u32::from(own) << 3 | u32::from(instruction) << 2 | u32::from(write);
        match door::probe(&self.caches, registers, flags, address) {
            [0, address, ..] => Ok(Some(address)),
            [3, ..] => Ok(None),
            [_, number, ..] => Err(Refusal::of(number)),
        }
    }

    /// Empties both caches.
    ///
    /// # Errors
    /// Refusal 4.
    pub fn flush_all(&mut self) -> Result<(), Refusal> {
        flushed(door::flush_all(&mut self.caches))
    }

    /// Drops the 68030 entries whose code agrees on the mask's bits.
    ///
    /// # Errors
    /// A refusal (5 or 4).
    pub fn flush_code(&mut self, code: u8, mask: u8) -> Result<(), Refusal> {
        flushed(door::flush_code(&mut self.caches, code, mask))
    }

    /// Drops those of them whose page is the address's.
    ///
    /// # Errors
    /// A refusal (5 or 4).
    pub fn flush_page(&mut self, code: u8, mask: u8, address: u32) -> Result<(), Refusal> {
        flushed(door::flush_page(&mut self.caches, code, mask, address))
    }

    /// Drops a 68040 frame for either privilege.
    ///
    /// # Errors
    /// Refusal 5.
    pub fn flush_frame(&mut self, frame: u32) -> Result<(), Refusal> {
        flushed(door::flush_frame(&mut self.caches, frame))
    }
}

/// A flush's answer from its number.
fn flushed(number: u32) -> Result<(), Refusal> {
    match number {
        0 => Ok(()),
        number => Err(Refusal::of(number)),
    }
}
