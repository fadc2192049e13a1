//! Writes the benchmark traces into a folder: a million recorded accesses over 16 and over
//! 4,000 pages, for families 30 and 40, without a range and with 16. `traces FOLDER`. With
//! `traces dump FILE` the tables of 4,000 pages alone, for family 30.

#[path = "../pages.rs"]
mod pages;

use std::fs::{self, File};
use std::io::{self, BufWriter, Write};
use std::path::Path;
use std::process::ExitCode;

const ACCESSES: u32 = 1_000_000;

fn main() -> ExitCode {
    let words: Vec<String> = std::env::args().skip(1).collect();
    let (written, name) = match &words[..] {
        [folder] => (all(Path::new(folder)), folder),
        [word, file] if word == "dump" => (dump(Path::new(file)), file),
        _ => {
            eprintln!("usage: traces FOLDER, or traces dump FILE");
            return ExitCode::from(2);
        }
    };
    match written {
        Ok(()) => ExitCode::SUCCESS,
        Err(error) => {
            eprintln!("{name}: {error}");
            ExitCode::FAILURE
        }
    }
}

fn dump(file: &Path) -> io::Result<()> {
    let mut out = BufWriter::new(File::create(file)?);
    write_tables(&mut out, 30, 4000)?;
    out.flush()
}

fn all(folder: &Path) -> io::Result<()> {
    fs::create_dir_all(folder)?;
    for family in [30, 40] {
        for pages in [16, 4000] {
            for (ranges, name) in [(0, ""), (16, "_16_ranges")] {
                let file = File::create(folder.join(format!("family{family}_{pages}_pages{name}.trace")))?;
                let mut out = BufWriter::new(file);
                write_trace(&mut out, family, pages, ranges)?;
                out.flush()?;
            }
        }
    }
    Ok(())
}

fn write_trace(out: &mut impl Write, family: u8, pages: u32, ranges: u32) -> io::Result<()> {
    write_tables(out, family, pages)?;
    pages::ranges(ranges).try_for_each(|(first, last)| record(out, &[0x0A], &[first, last]))?;
    accesses(out, pages)
}

/// A trace that has registers and tables.
fn write_tables(out: &mut impl Write, family: u8, pages: u32) -> io::Result<()> {
    out.write_all(&[1])?;
    registers(out, family)?;
    tables(out, pages)
}

/// A record: its length, its kind and bytes, its longs.
fn record(out: &mut impl Write, head: &[u8], longs: &[u32]) -> io::Result<()> {
    let length = head.len() + 4 * longs.len();
    out.write_all(&(length as u16).to_be_bytes())?;
    out.write_all(head)?;
    longs.iter().try_for_each(|long| out.write_all(&long.to_be_bytes()))
}

/// The PMMU on, both roots the same, no transparent register.
fn registers(out: &mut impl Write, family: u8) -> io::Result<()> {
    let (tc, limit, root) = (pages::tc(family), pages::LIMIT, pages::ROOT);
    record(out, &[0x01, family, 3], &[tc, limit, root, limit, root, 0, 0, 0, 0, 0, 0])
}

fn tables(out: &mut impl Write, pages: u32) -> io::Result<()> {
    pages::longs(pages).try_for_each(|(address, value)| record(out, &[0x09], &[address, value]))
}

/// User data without an override; hits record a use.
fn accesses(out: &mut impl Write, pages: u32) -> io::Result<()> {
    pages::accesses(pages, ACCESSES)
        .try_for_each(|(address, write)| record(out, &[0x02, 0x10 | u8::from(write), 0xFF], &[address]))
}
