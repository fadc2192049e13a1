//! What a call answers.

use std::fmt;

/// A translation's address.
#[derive(Clone, Copy, Debug, PartialEq, Eq)]
pub struct Translated {
    /// The physical address.
    pub address: u32,
    /// How many longs were asked for; 0 for a hit.
    pub count: u32,
}

/// A translation's fault.
#[derive(Clone, Copy, Debug, PartialEq, Eq)]
pub struct Fault {
    /// Its kind.
    pub kind: FaultKind,
    /// Its cause.
    pub cause: FaultCause,
    /// The logical address, or that of the long that failed.
    pub address: u32,
    /// How many longs were asked for, a failing one included.
    pub count: u32,
}

/// The kinds of fault, in the original's order.
#[derive(Clone, Copy, Debug, PartialEq, Eq)]
pub enum FaultKind {
    /// TC or the root pointer is invalid.
    ConfigurationError,
    /// An illegal operation. No call gives it.
    IllegalOperation,
    /// A mapping is absent or denies the access.
    AccessLevelViolation,
    /// A table long failed.
    BusError,
}

/// The causes of a fault, in the original's order.
#[derive(Clone, Copy, Debug, PartialEq, Eq)]
pub enum FaultCause {
    /// An invalid descriptor in the 68040's root table.
    PointerA,
    /// An invalid descriptor in the 68040's pointer table.
    PointerB,
    /// A bad target of an indirect descriptor.
    Indirect,
    /// An invalid descriptor, or an invalid configuration.
    PageFault,
    /// A write to a write-protected page.
    WriteProtect,
    /// A user's access to a supervisor's page.
    SupervisorProtect,
    /// A table long failed.
    TableWalkBusError,
    /// The access itself failed. No call gives it.
    AccessBusError,
}

/// What PTEST finds.
#[derive(Clone, Copy, Debug, PartialEq, Eq)]
pub struct Status {
    /// MMUSR.
    pub mmusr: u16,
    /// The last descriptor's address.
    pub address: u32,
    /// How many longs were asked for.
    pub count: u32,
}

/// Why a call was refused. The first that applies is given, in the order 1, 6, 5, 2, 3, 4, 9;
/// the caches are then as they were.
#[derive(Clone, Copy, Debug, PartialEq, Eq)]
pub enum Refusal {
    /// 1: the family isn't 30, 40 or 60.
    Family,
    /// 2: the base isn't a multiple of 4, or the longs end above 2^32.
    Base,
    /// 3: a range's first address is above its last.
    Range,
    /// 4: a 68030 cache with its most recent index above 21 or its shift above 31.
    Cache,
    /// 5: an override, function code, mask or PTEST level above 7, or a frame of 2^20 or more.
    Code,
    /// 6: PLOAD or PTEST on family 40 or 60.
    Only030,
    /// 9: a tree that is not listed: family 40 or 60, a function code other than 1, 2, 5 and 6, IS not 0,
    /// a sum of levels of 0 or above 32, or a root of type 0 or 1.
    Tree,
}

impl Refusal {
    /// Its number in document 01.
    #[must_use]
    pub const fn number(self) -> u32 {
        match self {
            Refusal::Family => 1,
            Refusal::Base => 2,
            Refusal::Range => 3,
            Refusal::Cache => 4,
            Refusal::Code => 5,
            Refusal::Only030 => 6,
            Refusal::Tree => 9,
        }
    }

    pub(crate) fn of(number: u32) -> Self {
        match number {
            1 => Refusal::Family,
            2 => Refusal::Base,
            3 => Refusal::Range,
            4 => Refusal::Cache,
            5 => Refusal::Code,
            6 => Refusal::Only030,
            9 => Refusal::Tree,
            other => unreachable!("the library gives no refusal {other}"),
        }
    }
}

impl fmt::Display for Refusal {
    fn fmt(&self, f: &mut fmt::Formatter<'_>) -> fmt::Result {
        f.write_str(match self {
            Refusal::Family => "the family is not 30, 40 or 60",
            Refusal::Base => "the base is not a multiple of 4, or the longs end above 2^32",
            Refusal::Range => "a range's first address is above its last",
            Refusal::Cache => "the 68030 cache's most recent index is above 21 or its shift above 31",
            Refusal::Code => "an override, function code, mask or level is above 7, or a frame is 2^20 or more",
            Refusal::Only030 => "PLOAD and PTEST are of the 68030 alone",
            Refusal::Tree => "a tree or a function code that is not listed",
        })
    }
}

impl std::error::Error for Refusal {}

impl fmt::Display for Fault {
    fn fmt(&self, f: &mut fmt::Formatter<'_>) -> fmt::Result {
        write!(f, "{:?} ({:?}) at {:08X}", self.kind, self.cause, self.address)
    }
}

impl std::error::Error for Fault {}

/// Why a translation gave no address.
#[derive(Clone, Copy, Debug, PartialEq, Eq)]
pub enum Error {
    /// The access faults.
    Fault(Fault),
    /// The call was refused.
    Refused(Refusal),
}

impl fmt::Display for Error {
    fn fmt(&self, f: &mut fmt::Formatter<'_>) -> fmt::Result {
        match self {
            Error::Fault(fault) => fault.fmt(f),
            Error::Refused(refusal) => refusal.fmt(f),
        }
    }
}

impl std::error::Error for Error {}

impl From<Fault> for Error {
    fn from(fault: Fault) -> Self {
        Error::Fault(fault)
    }
}

impl From<Refusal> for Error {
    fn from(refusal: Refusal) -> Self {
        Error::Refused(refusal)
    }
}

/// The kind with this number: they count from 0 in the original's order.
pub(crate) fn kind_of(number: u32) -> FaultKind {
    match number {
        0 => FaultKind::ConfigurationError,
        1 => FaultKind::IllegalOperation,
        2 => FaultKind::AccessLevelViolation,
        3 => FaultKind::BusError,
        other => unreachable!("the library gives no fault kind {other}"),
    }
}

/// The cause with this number.
pub(crate) fn cause_of(number: u32) -> FaultCause {
    match number {
        0 => FaultCause::PointerA,
        1 => FaultCause::PointerB,
        2 => FaultCause::Indirect,
        3 => FaultCause::PageFault,
        4 => FaultCause::WriteProtect,
        5 => FaultCause::SupervisorProtect,
        6 => FaultCause::TableWalkBusError,
        7 => FaultCause::AccessBusError,
        other => unreachable!("the library gives no fault cause {other}"),
    }
}
