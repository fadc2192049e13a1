//! A trace's lines beside a player's: what the player says of each record stands before
//! the record.

use crate::opened;
use pmmu_trace::{Line, Lines, Reader, Stopped, VERSION_LINE};
use std::io::{stdin, stdout, BufRead, BufReader, BufWriter, StdinLock, StdoutLock, Write};

/// Where the trace's lines begin, behind the player's.
const COLUMN: usize = 20;

/// The status after a malformed trace: its refusal's number.
const MALFORMED: u8 = 7;

/// The player's lines, and both together on standard output.
struct Pairs {
    player: StdinLock<'static>,
    last: String,
    out: BufWriter<StdoutLock<'static>>,
}

/// A text beside the player's lines, with its comments.
pub fn text(file: &str) -> Result<u8, String> {
    paired(file, |input, pairs| {
        let mut lines = Lines::new(input);
        while let Some(line) = lines.next_line()? {
            let shown = String::from_utf8_lossy(lines.raw()).into_owned();
            match line {
                Line::Empty => pairs.show("", &shown)?,
                Line::Version | Line::Record(_) => pairs.pair(&shown)?,
            }
        }
        Ok(())
    })
}

/// A binary trace beside the player's lines; where it is malformed, why.
pub fn bytes(file: &str) -> Result<u8, String> {
    paired(file, |input, pairs| match records(input, pairs) {
        Err(Stopped::Damaged(damage)) => pairs.pair(&format!("# {damage}")),
        went => went,
    })
}

fn records(input: impl BufRead, pairs: &mut Pairs) -> Result<(), Stopped> {
    let mut records = Reader::new(input)?;
    pairs.pair(VERSION_LINE)?;
    while let Some(record) = records.next_record()? {
        pairs.pair(&record.to_string())?;
    }
    Ok(())
}

/// The status, as `./play` has it: 0 where the player came to the trace's end, 7 where the trace is malformed.
fn paired(file: &str, trace: impl FnOnce(&mut dyn BufRead, &mut Pairs) -> Result<(), Stopped>) -> Result<u8, String> {
    let told = |stopped: Stopped| format!("{file}: {stopped}");
    let mut input = BufReader::new(opened(file).map_err(|error| told(Stopped::Read(error)))?);
    let mut pairs = Pairs { player: stdin().lock(), last: String::new(), out: BufWriter::new(stdout().lock()) };
    trace(&mut input, &mut pairs).and_then(|()| pairs.finish()).map_err(told)?;
    match pairs.last.as_str() {
        "end" => Ok(0),
        "R 7" => Ok(MALFORMED),
        _ => Err(format!("{file}: the player broke off")),
    }
}

impl Pairs {
    /// The player's next line, and this beside it. After the player's last line there is nothing to show.
    fn pair(&mut self, record: &str) -> Result<(), Stopped> {
        match self.next()? {
            Some(line) => self.show(&line, record),
            None => Ok(()),
        }
    }

    /// What the player says behind the last record: `end`.
    fn finish(&mut self) -> Result<(), Stopped> {
        while let Some(line) = self.next()? {
            self.show(&line, "")?;
        }
        self.out.flush().map_err(Stopped::Write)
    }

    fn next(&mut self) -> Result<Option<String>, Stopped> {
        let mut line = String::new();
        if self.player.read_line(&mut line).map_err(Stopped::Read)? == 0 {
            return Ok(None);
        }
        self.last = line.trim_end().to_string();
        Ok(Some(self.last.clone()))
    }

    fn show(&mut self, line: &str, record: &str) -> Result<(), Stopped> {
        let both = format!("{line:COLUMN$} {record}");
        writeln!(self.out, "{}", both.trim_end()).map_err(Stopped::Write)
    }
}
