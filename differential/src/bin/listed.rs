//! Lists what the tree of a dump maps, by plain Rust: `listed CODE [FROM] < TRACE`, as the
//! proved lister does. It needs nothing of the original. README.md says more.

use differential::{dump, listing};
use std::io::{self, BufWriter, Read, Write};
use std::process::ExitCode;

fn main() -> ExitCode {
    let arguments: Vec<String> = std::env::args().skip(1).collect();
    let words: Vec<&str> = arguments.iter().map(String::as_str).collect();
    let asked = match words[..] {
        [code] => code.parse().ok().zip(Some(0)),
        [code, from] => code.parse().ok().zip(u32::from_str_radix(from, 16).ok()),
        _ => None,
    };
    let Some((code, from)) = asked else {
        eprintln!("usage: listed CODE [FROM] < TRACE, CODE decimal and FROM hex");
        return ExitCode::from(2);
    };
    match listed(code, from) {
        Ok(()) => ExitCode::SUCCESS,
        Err(error) => {
            eprintln!("{error}");
            ExitCode::FAILURE
        }
    }
}

/// The trace on standard input, its list on standard output.
fn listed(code: u8, from: u32) -> io::Result<()> {
    let mut trace = Vec::new();
    io::stdin().read_to_end(&mut trace)?;
    let mut out = BufWriter::new(io::stdout().lock());
    let (mut ranges, mut bytes) = (0, 0);
    let ended = dump::kept(&trace).and_then(|(registers, memory)| {
        let fetch = |at| memory.read(at);
        listing::list(&registers, code, from, fetch, |range| {
            ranges += 1;
            bytes += range.bytes();
            if let Err(error) = writeln!(out, "{range}") {
                // The list may go on for long: nobody reads it.
                eprintln!("{error}");
                std::process::exit(1);
            }
        })
    });
    match ended {
        Ok(()) => writeln!(out, "{}", listing::sum(ranges, bytes))?,
        Err(number) => writeln!(out, "R {number}")?,
    }
    out.flush()
}
