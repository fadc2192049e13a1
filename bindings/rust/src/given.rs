//! What a call is given: registers, an access, table memory.

/// A processor family, by its number. [`Refusal::Family`](crate::Refusal::Family) answers
/// all but the three that have a name here.
///
/// It is a number and no enum, since a host may hold any: which ones are taken is the
/// library's decision, not the caller's.
#[derive(Clone, Copy, Debug, Default, PartialEq, Eq)]
pub struct Family(pub u32);

impl Family {
    /// The 68030, with 22 cache entries and tables of up to five levels.
    pub const M68030: Family = Family(30);
    /// The 68040, with three levels.
    pub const M68040: Family = Family(40);
    /// The 68060, which walks as the 68040 does.
    pub const M68060: Family = Family(60);
}

/// The registers that a call is given.
#[derive(Clone, Copy, Debug, Default, PartialEq, Eq)]
pub struct Registers {
    /// The processor's family.
    pub family: Family,
    /// Whether there is a PMMU.
    pub present: bool,
    /// Whether it is enabled.
    pub enabled: bool,
    /// TC, the translation control.
    pub tc: u32,
    /// CRP's limit long, whose low two bits are its type.
    pub crp_limit: u32,
    /// CRP's address long.
    pub crp_address: u32,
    /// SRP's limit long.
    pub srp_limit: u32,
    /// SRP's address long.
    pub srp_address: u32,
    /// TT0, of the 68030.
    pub tt0: u32,
    /// TT1, of the 68030.
    pub tt1: u32,
    /// ITT0, of the 68040, for instructions.
    pub itt0: u32,
    /// ITT1, of the 68040, for instructions.
    pub itt1: u32,
    /// DTT0, of the 68040, for data.
    pub dtt0: u32,
    /// DTT1, of the 68040, for data.
    pub dtt1: u32,
}

impl Registers {
    /// Family, flags, and the eleven longs, as the library takes them.
    #[inline]
    pub(crate) fn numbers(&self) -> [u32; 13] {
        [
            self.family.0,
            u32::from(self.present) | u32::from(self.enabled) << 1,
            self.tc,
            self.crp_limit,
            self.crp_address,
            self.srp_limit,
            self.srp_address,
            self.tt0,
            self.tt1,
            self.itt0,
            self.itt1,
            self.dtt0,
            self.dtt1,
        ]
    }
}

/// An access.
#[derive(Clone, Copy, Debug, PartialEq, Eq)]
pub struct Access {
    /// The logical address.
    pub address: u32,
    /// Whether it writes.
    pub write: bool,
    /// Whether it is a supervisor's.
    pub supervisor: bool,
    /// Whether it fetches an instruction.
    pub instruction: bool,
    /// The CPU's own supervisor state, which the transparent registers compare.
    pub own: bool,
    /// A function-code override (as MOVES has it), 0 to 7; a higher one is refused.
    pub code: Option<u8>,
    /// Whether a hit records a use.
    pub recorded: bool,
}

impl Access {
    /// A user's data read whose hits record a use.
    #[must_use]
    pub const fn read(address: u32) -> Self {
        Access { address, write: false, supervisor: false, instruction: false, own: false, code: None, recorded: true }
    }

    /// A user's data write whose hits record a use.
    #[must_use]
    pub const fn write(address: u32) -> Self {
        Access { write: true, ..Access::read(address) }
    }

    /// Bits 0 write, 1 supervisor, 2 instruction, 3 CPU state, 4 record.
    #[inline]
    pub(crate) fn flags(&self) -> u32 {
        u32::from(self.write)
            | u32::from(self.supervisor) << 1
            | u32::from(self.instruction) << 2
            | u32::from(self.own) << 3
            | u32::from(self.recorded) << 4
    }

    /// The override's number, 255 for none. An override of 255 is refused as 256 is.
    #[inline]
    pub(crate) fn override_number(&self) -> u32 {
        match self.code {
            None => 255,
            Some(255) => 256,
            Some(code) => code.into(),
        }
    }
}

/// A bus-error range: a long with a byte in it fails.
#[repr(C)]
#[derive(Clone, Copy, Debug, PartialEq, Eq)]
pub struct Range {
    /// The first address inside.
    pub first: u32,
    /// The last address inside; a range whose first is above it is refused.
    pub last: u32,
}

/// Table memory: lent longs from a base address, and bus-error ranges. A long outside
/// the longs fails too.
#[derive(Clone, Copy, Debug)]
pub struct Tables<'a> {
    /// The longs.
    pub longs: &'a [u32],
    /// The first long's address: a multiple of 4, and the longs end at 2^32 at the latest.
    pub base: u32,
    /// The ranges, any number of them. Each fetch searches them where they lie.
    pub ranges: &'a [Range],
}
