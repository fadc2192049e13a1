//! The traces that the players play: their records, their bytes and their text, both
//! ways. Standard library alone.
//!
//! A trace is version byte 1 and then records (document 01, 'The trace and the program').
//! The text has one record a line, in words:
//!
//! ```text
//! # the page of 02041ABC, read and then flushed
//! v1
//! registers family=30 pmmu enabled tc=80C07760 crp=80000002,00001000
//! long 00001004=00002002
//! access read user data 02041ABC
//! flush page code=1 mask=7 02041ABC
//! ```
//!
//! Every well-formed trace has a text, and that text gives the same bytes again. What is
//! malformed (refusal 7) has none: it is told where it is, and why.

#![deny(missing_docs)]

mod bytes;
mod record;
mod text;
mod words;

pub use bytes::{Damage, Reader, VERSION};
pub use record::{Access, Record, Registers, NO_OVERRIDE};
pub use text::{Line, Lines, Unread, VERSION_LINE};

use std::fmt;
use std::io;

/// Why a trace was not converted.
#[derive(Debug)]
pub enum Stopped {
    /// A read failed.
    Read(io::Error),
    /// A write failed.
    Write(io::Error),
    /// The bytes are malformed.
    Damaged(Damage),
    /// A line of the text can't be read.
    Unread(Unread),
}

impl fmt::Display for Stopped {
    fn fmt(&self, f: &mut fmt::Formatter<'_>) -> fmt::Result {
        match self {
            Stopped::Read(error) => write!(f, "it can't be read: {error}"),
            Stopped::Write(error) => write!(f, "standard output can't be written: {error}"),
            Stopped::Damaged(damage) => damage.fmt(f),
            Stopped::Unread(unread) => unread.fmt(f),
        }
    }
}

impl std::error::Error for Stopped {}

/// Writes the text of a binary trace.
///
/// # Errors
/// The first record that is malformed, or a read or a write that fails. What was written
/// before it stays written.
pub fn to_text(bytes: impl io::BufRead, mut out: impl io::Write) -> Result<(), Stopped> {
    let mut records = Reader::new(bytes)?;
    writeln!(out, "{VERSION_LINE}").map_err(Stopped::Write)?;
    while let Some(record) = records.next_record()? {
        writeln!(out, "{record}").map_err(Stopped::Write)?;
    }
    out.flush().map_err(Stopped::Write)
}

/// Writes the bytes of a text.
///
/// # Errors
/// The first line that can't be read, or a read or a write that fails. What was written
/// before it stays written.
pub fn to_bytes(text: impl io::BufRead, mut out: impl io::Write) -> Result<(), Stopped> {
    let mut lines = Lines::new(text);
    while let Some(line) = lines.next_line()? {
        let written = match line {
            Line::Version => out.write_all(&[VERSION]),
            Line::Record(record) => record.write_to(&mut out),
            Line::Empty => Ok(()),
        };
        written.map_err(Stopped::Write)?;
    }
    out.flush().map_err(Stopped::Write)
}
