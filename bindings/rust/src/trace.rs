//! A host's log: what it does as a trace, and what it was answered as a player's lines.
//!
//! A [`Writer`] writes the trace of document 01, a record for each call. `./play` plays it,
//! and says what each call must answer. A host that also writes the [`Line`] of each of
//! its own answers, as `NAME.expected` beside `NAME.trace`, has `./play-all` say where it
//! was wrong; `examples/log.rs` does so.
//!
//! A player has 8,192 longs at address 0 and takes 16 ranges: what lies outside is refused
//! in its lines (numbers 2 and 8), while the library takes any memory.

use crate::answers::{Error, Fault, Refusal, Status, Translated};
use crate::given::{Access, Range, Registers, Tables};
use pmmu_trace::{Record, NO_OVERRIDE, VERSION};
use std::io::{self, ErrorKind, Write};

/// Writes a trace, record by record, each as soon as its method is called: hand it a
/// [`BufWriter`](std::io::BufWriter) where that is too often.
#[derive(Debug)]
pub struct Writer<W: Write> {
    out: W,
}

impl<W: Write> Writer<W> {
    /// Begins a trace: writes its version.
    ///
    /// # Errors
    /// A write that fails, as in every method.
    pub fn new(mut out: W) -> io::Result<Self> {
        out.write_all(&[VERSION])?;
        Ok(Writer { out })
    }

    /// The registers from now on.
    ///
    /// # Errors
    /// A family above 255 has no byte in a trace: [`ErrorKind::InvalidInput`].
    pub fn registers(&mut self, registers: &Registers) -> io::Result<()> {
        let [family, _, longs @ ..] = registers.numbers();
        let family = u8::try_from(family)
            .map_err(|_| io::Error::new(ErrorKind::InvalidInput, format!("a trace has no family {family}")))?;
        let Registers { present, enabled, .. } = *registers;
        self.write(Record::Registers(pmmu_trace::Registers { family, present, enabled, longs }))
    }

    /// An access, as of [`Pmmu::translate`](crate::Pmmu::translate).
    ///
    /// # Errors
    /// A write that fails.
    pub fn access(&mut self, access: &Access) -> io::Result<()> {
        let Access { address, write, supervisor, instruction, own, code, recorded } = *access;
        // 255 is the file's mark for none. An override of 255 is refused as 254 is.
        let code = code.map_or(NO_OVERRIDE, |code| code.min(NO_OVERRIDE - 1));
        self.write(Record::Access(pmmu_trace::Access { write, supervisor, instruction, own, recorded, code, address }))
    }

    /// A [`Pmmu::load`](crate::Pmmu::load).
    ///
    /// # Errors
    /// A write that fails.
    pub fn load(&mut self, code: u8, write: bool, address: u32) -> io::Result<()> {
        self.write(Record::Load { code, write, address })
    }

    /// A [`Pmmu::test`](crate::Pmmu::test).
    ///
    /// # Errors
    /// A write that fails.
    pub fn test(&mut self, code: u8, write: bool, level: u8, address: u32) -> io::Result<()> {
        self.write(Record::Test { code, write, level, address })
    }

    /// A [`Pmmu::probe`](crate::Pmmu::probe).
    ///
    /// # Errors
    /// A write that fails.
    pub fn probe(&mut self, own: bool, instruction: bool, write: bool, address: u32) -> io::Result<()> {
        self.write(Record::Probe { own, instruction, write, address })
    }

    /// A [`Pmmu::flush_all`](crate::Pmmu::flush_all).
    ///
    /// # Errors
    /// A write that fails.
    pub fn flush_all(&mut self) -> io::Result<()> {
        self.write(Record::FlushAll)
    }

    /// A [`Pmmu::flush_code`](crate::Pmmu::flush_code).
    ///
    /// # Errors
    /// A write that fails.
    pub fn flush_code(&mut self, code: u8, mask: u8) -> io::Result<()> {
        self.write(Record::FlushCode { code, mask })
    }

    /// A [`Pmmu::flush_page`](crate::Pmmu::flush_page).
    ///
    /// # Errors
    /// A write that fails.
    pub fn flush_page(&mut self, code: u8, mask: u8, address: u32) -> io::Result<()> {
        self.write(Record::FlushPage { code, mask, address })
    }

    /// A [`Pmmu::flush_frame`](crate::Pmmu::flush_frame).
    ///
    /// # Errors
    /// A write that fails.
    pub fn flush_frame(&mut self, frame: u32) -> io::Result<()> {
        self.write(Record::FlushFrame { frame })
    }

    /// A long of table memory is stored.
    ///
    /// # Errors
    /// A write that fails.
    pub fn long(&mut self, address: u32, value: u32) -> io::Result<()> {
        self.write(Record::Store { address, value })
    }

    /// A bus-error range more.
    ///
    /// # Errors
    /// A write that fails.
    pub fn range(&mut self, range: Range) -> io::Result<()> {
        self.write(Record::Range { first: range.first, last: range.last })
    }

    /// Table memory as it stands: each long that isn't 0, then the ranges. How many records that is.
    ///
    /// # Errors
    /// A write that fails.
    pub fn tables(&mut self, tables: Tables<'_>) -> io::Result<usize> {
        let mut records = 0;
        let addresses = (0..).map(|place: u32| tables.base.wrapping_add(place.wrapping_mul(4)));
        for (address, &value) in addresses.zip(tables.longs).filter(|&(_, &value)| value != 0) {
            self.long(address, value)?;
            records += 1;
        }
        for &range in tables.ranges {
            self.range(range)?;
            records += 1;
        }
        Ok(records)
    }

    /// Flushes what was written, and gives it back. A trace needs no end: it may stop after any record.
    ///
    /// # Errors
    /// A write that fails.
    pub fn finish(mut self) -> io::Result<W> {
        self.out.flush()?;
        Ok(self.out)
    }

    fn write(&mut self, record: Record) -> io::Result<()> {
        record.write_to(&mut self.out)
    }
}

/// The line that a player gives with the version.
pub const VERSION_LINE: &str = "v1";
/// The line for registers, a long, a range and a flush that were taken.
pub const DONE: &str = "K";
/// The line at the end of a trace.
pub const END: &str = "end";

/// A call's answer as a player's line, its end left out.
pub trait Line {
    /// The line.
    fn line(&self) -> String;
}

impl Line for Refusal {
    fn line(&self) -> String {
        format!("R {}", self.number())
    }
}

/// Of a translation.
impl Line for Result<Translated, Error> {
    fn line(&self) -> String {
        match self {
            Ok(Translated { address, count }) => format!("A {address:08X} {count}"),
            Err(Error::Fault(Fault { kind, cause, address, count })) => {
                format!("F {} {} {address:08X} {count}", *kind as u32, *cause as u32)
            }
            Err(Error::Refused(refusal)) => refusal.line(),
        }
    }
}

/// Of a load.
impl Line for Result<u32, Refusal> {
    fn line(&self) -> String {
        self.map_or_else(|refusal| refusal.line(), |count| format!("L {count}"))
    }
}

/// Of a test.
impl Line for Result<Status, Refusal> {
    fn line(&self) -> String {
        match self {
            Ok(Status { mmusr, address, count }) => format!("T {mmusr:04X} {address:08X} {count}"),
            Err(refusal) => refusal.line(),
        }
    }
}

/// Of a probe.
impl Line for Result<Option<u32>, Refusal> {
    fn line(&self) -> String {
        match self {
            Ok(Some(address)) => format!("A {address:08X} 0"),
            Ok(None) => "N".into(),
            Err(refusal) => refusal.line(),
        }
    }
}

/// Of a flush.
impl Line for Result<(), Refusal> {
    fn line(&self) -> String {
        self.map_or_else(|refusal| refusal.line(), |()| DONE.into())
    }
}
