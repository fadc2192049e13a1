//! The records of a binary trace, one after the other.

use crate::record::{length_after, Record, LONGEST};
use crate::Stopped;
use std::fmt;
use std::io::{BufRead, ErrorKind};

/// The version byte that a trace starts with.
pub const VERSION: u8 = 1;

/// Where a trace is malformed (refusal 7), and why.
#[derive(Clone, Debug, PartialEq, Eq)]
pub struct Damage {
    /// The record, counted from 1; 0 for the version byte.
    pub record: u64,
    /// The offset of its first byte, its length's, from the start of the trace.
    pub offset: u64,
    /// What is wrong.
    pub why: String,
}

impl fmt::Display for Damage {
    fn fmt(&self, f: &mut fmt::Formatter<'_>) -> fmt::Result {
        match self.record {
            0 => f.write_str(&self.why),
            record => write!(f, "record {record}, at byte {}: {}", self.offset, self.why),
        }
    }
}

/// Reads records. It holds no more than one of them.
pub struct Reader<R> {
    input: R,
    record: u64,
    offset: u64,
}

impl<R: BufRead> Reader<R> {
    /// Reads the version byte.
    ///
    /// # Errors
    /// There is none, or it is another, or it can't be read.
    pub fn new(input: R) -> Result<Self, Stopped> {
        let mut reader = Reader { input, record: 0, offset: 0 };
        let mut version = [0];
        match reader.fill(&mut version)? {
            0 => Err(reader.damage("there is not a byte in it: a trace starts with version byte 01".into())),
            _ if version[0] != VERSION => {
                Err(reader.damage(format!("its first byte is {:02X}: a trace starts with version byte 01", version[0])))
            }
            _ => {
                reader.offset = 1;
                Ok(reader)
            }
        }
    }

    /// The next record, or nothing at the end.
    ///
    /// # Errors
    /// It is malformed, or it can't be read.
    pub fn next_record(&mut self) -> Result<Option<Record>, Stopped> {
        self.record += 1;
        let mut length = [0; 2];
        match self.fill(&mut length)? {
            0 => return Ok(None),
            1 => return Err(self.damage("the trace ends within its length".into())),
            _ => {}
        }
        let length = usize::from(u16::from_be_bytes(length));
        let mut body = [0; LONGEST];
        if length == 0 {
            return Err(self.damage("its length is 0".into()));
        }
        if self.fill(&mut body[..1])? == 0 {
            return Err(self.damage("the trace ends after its length".into()));
        }
        let kind = body[0];
        let expected = 1 + length_after(kind).map_err(|why| self.damage(why))?;
        if length != expected {
            return Err(self.damage(format!("its length is {length}, and kind {kind:02X} has {expected}")));
        }
        let got = 1 + self.fill(&mut body[1..length])?;
        if got < length {
            return Err(self.damage(format!("the trace ends after {got} of its {length} bytes")));
        }
        let record = Record::of(kind, &body[1..length]).map_err(|why| self.damage(why))?;
        self.offset += 2 + length as u64;
        Ok(Some(record))
    }

    fn damage(&self, why: String) -> Stopped {
        Stopped::Damaged(Damage { record: self.record, offset: self.offset, why })
    }

    /// Fills the buffer as far as there is input: how many bytes it got.
    fn fill(&mut self, buffer: &mut [u8]) -> Result<usize, Stopped> {
        let mut got = 0;
        while got < buffer.len() {
            match self.input.read(&mut buffer[got..]) {
                Ok(0) => break,
                Ok(n) => got += n,
                Err(error) if error.kind() == ErrorKind::Interrupted => {}
                Err(error) => return Err(Stopped::Read(error)),
            }
        }
        Ok(got)
    }
}
