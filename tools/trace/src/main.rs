//! Converts a trace: `trace text [FILE]`, `trace bytes [FILE]`; and puts a trace's lines
//! beside a player's: `trace beside text|bytes FILE`. docs/TRACES.md says how a text is
//! written.

mod beside;

use pmmu_trace::{to_bytes, to_text, Stopped, VERSION};
use std::fs::File;
use std::io::{self, sink, stdin, stdout, BufRead, BufReader, BufWriter, Cursor, ErrorKind, Read, Seek, Write};
use std::process::ExitCode;

const USAGE: &str = "usage:
  trace text [FILE]                writes the text of a binary trace
  trace bytes [FILE]               writes the bytes of a text
  trace beside text|bytes FILE     writes each line of a trace behind the player's line for it, which comes on
                                   standard input
Without FILE the trace comes on standard input. Of a trace that can't be converted nothing is written.";

/// How a message calls standard input.
const STANDARD_INPUT: &str = "standard input";

/// The status for a command that there isn't.
const MISUSED: u8 = 2;

fn main() -> ExitCode {
    let arguments: Vec<String> = std::env::args().skip(1).collect();
    let words: Vec<&str> = arguments.iter().map(String::as_str).collect();
    let went = match *words {
        ["text"] => converted(STANDARD_INPUT, from_standard_input(), bytes_to_text),
        ["text", file] => converted(file, from_file(file), bytes_to_text),
        ["bytes"] => converted(STANDARD_INPUT, from_standard_input(), text_to_bytes),
        ["bytes", file] => converted(file, from_file(file), text_to_bytes),
        ["beside", "text", file] => beside::text(file),
        ["beside", "bytes", file] => beside::bytes(file),
        _ => {
            eprintln!("{USAGE}");
            return ExitCode::from(MISUSED);
        }
    };
    match went {
        Ok(status) => ExitCode::from(status),
        Err(message) => {
            eprintln!("{message}");
            ExitCode::FAILURE
        }
    }
}

/// Input that can be read twice.
trait Again: BufRead + Seek {}
impl<T: BufRead + Seek> Again for T {}

/// A file, which is read twice from its start; what has no start, as a pipe, is kept in memory.
fn from_file(name: &str) -> io::Result<Box<dyn Again>> {
    let mut file = opened(name)?;
    if file.metadata()?.is_file() {
        return Ok(Box::new(BufReader::new(file)));
    }
    kept(&mut file)
}

fn from_standard_input() -> io::Result<Box<dyn Again>> {
    kept(&mut stdin().lock())
}

fn kept(input: &mut dyn Read) -> io::Result<Box<dyn Again>> {
    let mut bytes = Vec::new();
    input.read_to_end(&mut bytes)?;
    Ok(Box::new(Cursor::new(bytes)))
}

/// A file, and no folder: that can be opened too, and not read.
fn opened(name: &str) -> io::Result<File> {
    let file = File::open(name)?;
    if file.metadata()?.is_dir() {
        return Err(io::Error::new(ErrorKind::IsADirectory, "it is a folder"));
    }
    Ok(file)
}

type Conversion = fn(&mut dyn Again, &mut dyn Write) -> Result<(), Stopped>;

fn bytes_to_text(from: &mut dyn Again, to: &mut dyn Write) -> Result<(), Stopped> {
    to_text(from, to)
}

/// What begins with the version byte is no text: better said so than as a line that can't be read.
fn text_to_bytes(from: &mut dyn Again, to: &mut dyn Write) -> Result<(), Stopped> {
    if from.fill_buf().map_err(Stopped::Read)?.first() == Some(&VERSION) {
        return Err(Stopped::Read(io::Error::new(ErrorKind::InvalidData, "it is a binary trace and no text")));
    }
    to_bytes(from, to)
}

/// Converts to standard output. The whole trace is judged before the first byte goes out.
fn converted(name: &str, input: io::Result<Box<dyn Again>>, conversion: Conversion) -> Result<u8, String> {
    let went = input.map_err(Stopped::Read).and_then(|mut input| {
        conversion(&mut input, &mut sink())?;
        input.rewind().map_err(Stopped::Read)?;
        conversion(&mut input, &mut BufWriter::new(stdout().lock()))
    });
    went.map(|()| 0).map_err(|stopped| format!("{name}: {stopped}"))
}
