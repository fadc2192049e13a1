//! The text of a trace: a record as words, and the records of a text's lines.

use crate::record::{Access, Record, Registers, NO_OVERRIDE};
use crate::words::{byte, long, Words};
use crate::Stopped;
use std::fmt;
use std::io::{BufRead, Read};

/// The line that stands before the first record.
pub const VERSION_LINE: &str = "v1";

/// The longest line that is read, its end left out. No record comes near it.
const LONGEST_LINE: usize = 4096;

/// The registers of one long each, with their places among the longs.
const SINGLE: [(&str, usize); 7] =
    [("tc", 0), ("tt0", 5), ("tt1", 6), ("itt0", 7), ("itt1", 8), ("dtt0", 9), ("dtt1", 10)];

/// The root pointers, of two longs each (limit and address), with the first one's place.
const ROOTS: [(&str, usize); 2] = [("crp", 1), ("srp", 3)];

/// A line that can't be read.
#[derive(Clone, Debug, PartialEq, Eq)]
pub struct Unread {
    /// The line, counted from 1.
    pub line: u64,
    /// What is wrong.
    pub why: String,
}

impl fmt::Display for Unread {
    fn fmt(&self, f: &mut fmt::Formatter<'_>) -> fmt::Result {
        write!(f, "line {}: {}", self.line, self.why)
    }
}

// ---- A record as words. What has its usual value is left out: a register of 0, the CPU's own state where it is
// the access's, no override, a recorded use.

impl fmt::Display for Record {
    fn fmt(&self, f: &mut fmt::Formatter<'_>) -> fmt::Result {
        match *self {
            Record::Registers(registers) => registers.fmt(f),
            Record::Access(access) => access.fmt(f),
            Record::Load { code, write, address } => {
                write!(f, "pload {} code={code} {address:08X}", direction(write))
            }
            Record::Test { code, write, level, address } => {
                write!(f, "ptest {} code={code} level={level} {address:08X}", direction(write))
            }
            Record::FlushAll => f.write_str("flush all"),
            Record::FlushCode { code, mask } => write!(f, "flush code={code} mask={mask}"),
            Record::FlushPage { code, mask, address } => write!(f, "flush page code={code} mask={mask} {address:08X}"),
            Record::FlushFrame { frame } => write!(f, "flush frame {frame:08X}"),
            Record::Store { address, value } => write!(f, "long {address:08X}={value:08X}"),
            Record::Range { first, last } => write!(f, "range {first:08X}-{last:08X}"),
            Record::Probe { own, instruction, write, address } => {
                write!(f, "probe {} {} {} {address:08X}", direction(write), privilege(own), space(instruction))
            }
        }
    }
}

impl fmt::Display for Registers {
    fn fmt(&self, f: &mut fmt::Formatter<'_>) -> fmt::Result {
        write!(f, "registers family={}", self.family)?;
        if self.present {
            f.write_str(" pmmu")?;
        }
        if self.enabled {
            f.write_str(" enabled")?;
        }
        self.single(f, SINGLE[0])?;
        for (name, place) in ROOTS {
            let (limit, address) = (self.longs[place], self.longs[place + 1]);
            if (limit, address) != (0, 0) {
                write!(f, " {name}={limit:08X},{address:08X}")?;
            }
        }
        SINGLE[1..].iter().try_for_each(|&register| self.single(f, register))
    }
}

impl Registers {
    fn single(&self, f: &mut fmt::Formatter<'_>, (name, place): (&str, usize)) -> fmt::Result {
        match self.longs[place] {
            0 => Ok(()),
            long => write!(f, " {name}={long:08X}"),
        }
    }
}

impl fmt::Display for Access {
    fn fmt(&self, f: &mut fmt::Formatter<'_>) -> fmt::Result {
        write!(f, "access {} {} {}", direction(self.write), privilege(self.supervisor), space(self.instruction))?;
        if self.own != self.supervisor {
            write!(f, " cpu={}", privilege(self.own))?;
        }
        if self.code != NO_OVERRIDE {
            write!(f, " override={}", self.code)?;
        }
        if !self.recorded {
            f.write_str(" unrecorded")?;
        }
        write!(f, " {:08X}", self.address)
    }
}

fn direction(write: bool) -> &'static str {
    if write {
        "write"
    } else {
        "read"
    }
}

fn privilege(supervisor: bool) -> &'static str {
    if supervisor {
        "supervisor"
    } else {
        "user"
    }
}

fn space(instruction: bool) -> &'static str {
    if instruction {
        "instruction"
    } else {
        "data"
    }
}

// ---- The record of a line's words.

fn record_of(mut words: Words<'_>) -> Result<Record, String> {
    let words = &mut words;
    let record = match words.take("a record")? {
        "registers" => Record::Registers(registers(words)?),
        "access" => Record::Access(access(words)?),
        "pload" => Record::Load { code: words.byte("code")?, write: written(words)?, address: words.address()? },
        "ptest" => {
            let (code, level) = (words.byte("code")?, words.byte("level")?);
            Record::Test { code, level, write: written(words)?, address: words.address()? }
        }
        "flush" => flush(words)?,
        "long" => {
            let (address, value) = words.two_longs('=', "ADDRESS=VALUE")?;
            Record::Store { address, value }
        }
        "range" => {
            let (first, last) = words.two_longs('-', "FIRST-LAST")?;
            Record::Range { first, last }
        }
        "probe" => Record::Probe {
            write: written(words)?,
            own: privileged(words)?,
            instruction: fetched(words)?,
            address: words.address()?,
        },
        other => {
            return Err(format!(
                "there is no record '{other}': registers, access, pload, ptest, flush, long, range and probe are"
            ))
        }
    };
    words.end()?;
    Ok(record)
}

fn written(words: &mut Words<'_>) -> Result<bool, String> {
    words.second_of("read", "write")
}

fn privileged(words: &mut Words<'_>) -> Result<bool, String> {
    words.second_of("user", "supervisor")
}

fn fetched(words: &mut Words<'_>) -> Result<bool, String> {
    words.second_of("data", "instruction")
}

fn registers(words: &mut Words<'_>) -> Result<Registers, String> {
    let mut longs = [0; 11];
    for (name, place) in SINGLE {
        if let Some(digits) = words.value(name) {
            longs[place] =
                long(digits).ok_or_else(|| format!("'{name}=' has up to eight hex digits, not '{digits}'"))?;
        }
    }
    for (name, place) in ROOTS {
        if let Some(both) = words.value(name) {
            let found = both.split_once(',').and_then(|(limit, address)| Some((long(limit)?, long(address)?)));
            (longs[place], longs[place + 1]) =
                found.ok_or_else(|| format!("'{name}=' has LIMIT,ADDRESS in hex, not '{both}'"))?;
        }
    }
    let family = words.byte("family")?;
    Ok(Registers { family, present: words.has("pmmu"), enabled: words.has("enabled"), longs })
}

fn access(words: &mut Words<'_>) -> Result<Access, String> {
    let own = words.value("cpu");
    let code = match words.value("override").map(|digits| byte("override", digits)).transpose()? {
        Some(NO_OVERRIDE) => return Err("'override=255' is the mark for none in the bytes: leave it out".into()),
        Some(code) => code,
        None => NO_OVERRIDE,
    };
    let recorded = !words.has("unrecorded");
    let write = written(words)?;
    let supervisor = privileged(words)?;
    let own = match own {
        None => supervisor,
        Some(own) => Words::of(own).second_of("user", "supervisor").map_err(|why| format!("behind 'cpu=' {why}"))?,
    };
    Ok(Access { write, supervisor, own, code, recorded, instruction: fetched(words)?, address: words.address()? })
}

fn flush(words: &mut Words<'_>) -> Result<Record, String> {
    let expected = "'all', 'code=', 'page' or 'frame'";
    if words.next().is_some_and(|word| word.starts_with("code=") || word.starts_with("mask=")) {
        return Ok(Record::FlushCode { code: words.byte("code")?, mask: words.byte("mask")? });
    }
    match words.take(expected)? {
        "all" => Ok(Record::FlushAll),
        "page" => {
            Ok(Record::FlushPage { code: words.byte("code")?, mask: words.byte("mask")?, address: words.address()? })
        }
        "frame" => Ok(Record::FlushFrame { frame: words.address()? }),
        word => Err(format!("{expected} is expected, not '{word}'")),
    }
}

// ---- The lines of a text.

/// What a line has.
#[derive(Clone, Copy, Debug, PartialEq, Eq)]
pub enum Line {
    /// Nothing, or a comment alone.
    Empty,
    /// `v1`, before every record.
    Version,
    /// A record.
    Record(Record),
}

/// Reads lines. It holds no more than one of them.
pub struct Lines<R> {
    input: R,
    line: u64,
    begun: bool,
    raw: Vec<u8>,
}

impl<R: BufRead> Lines<R> {
    /// The lines of this text.
    pub fn new(input: R) -> Self {
        Lines { input, line: 0, begun: false, raw: Vec::new() }
    }

    /// The next line, or nothing at the end.
    ///
    /// # Errors
    /// It can't be read, or it is not what stands there in a trace.
    pub fn next_line(&mut self) -> Result<Option<Line>, Stopped> {
        self.raw.clear();
        self.line += 1;
        let most = LONGEST_LINE as u64 + 2;
        let got = self.input.by_ref().take(most).read_until(b'\n', &mut self.raw).map_err(Stopped::Read)?;
        if got == 0 {
            return if self.begun { Ok(None) } else { Err(self.unread(format!("there is no line '{VERSION_LINE}'"))) };
        }
        self.judged().map(Some).map_err(|why| self.unread(why))
    }

    /// The line as it stands, without its end.
    pub fn raw(&self) -> &[u8] {
        let line = self.raw.strip_suffix(b"\n").unwrap_or(&self.raw);
        line.strip_suffix(b"\r").unwrap_or(line)
    }

    fn judged(&mut self) -> Result<Line, String> {
        let line = self.raw();
        if line.len() > LONGEST_LINE {
            return Err(format!("it has more than {LONGEST_LINE} bytes"));
        }
        let comment = line.iter().position(|&byte| byte == b'#').unwrap_or(line.len());
        let words = std::str::from_utf8(&line[..comment]).map_err(|_| "it is no text".to_string())?;
        let words = Words::of(words);
        match words.next() {
            None => Ok(Line::Empty),
            Some(VERSION_LINE) if self.begun => Err(format!("'{VERSION_LINE}' stands once, before every record")),
            Some(VERSION_LINE) => {
                alone(words)?;
                self.begun = true;
                Ok(Line::Version)
            }
            Some(_) if !self.begun => Err(format!("the line '{VERSION_LINE}' comes before every record")),
            Some(_) => record_of(words).map(Line::Record),
        }
    }

    fn unread(&self, why: String) -> Stopped {
        Stopped::Unread(Unread { line: self.line, why })
    }
}

/// That the version stands alone in its line.
fn alone(mut words: Words<'_>) -> Result<(), String> {
    words.take(VERSION_LINE)?;
    words.end()
}
