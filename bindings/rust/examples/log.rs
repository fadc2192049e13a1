//! An emulator that logs what it does: NAME.trace has its calls, NAME.expected beside it
//! the lines of its answers. `./play-all FOLDER` then says whether it was right.
//!
//!     cargo run --release --example log FOLDER

use pmmu::trace::{Line, Writer, DONE, END, VERSION_LINE};
use pmmu::{Access, Error, Family, Pmmu, Registers, Tables};
use std::fs::File;
use std::io::{self, BufWriter, Write};
use std::path::Path;

const ROOT: u32 = 0x1000;
const POINTERS: u32 = 0x1200;
const PAGE_TABLE: u32 = 0x1400;
const PAGES: u32 = 16;
/// The page whose descriptor is cleared.
const GUARD: u32 = 5;

/// What the emulator keeps for its MMU, and the two files of its log.
struct Emulator {
    pmmu: Pmmu,
    registers: Registers,
    longs: Vec<u32>,
    trace: Writer<BufWriter<File>>,
    expected: BufWriter<File>,
}

impl Emulator {
    fn new(folder: &Path, name: &str, registers: Registers) -> io::Result<Self> {
        let file = |suffix: &str| File::create(folder.join(name).with_extension(suffix)).map(BufWriter::new);
        let mut trace = Writer::new(file("trace")?)?;
        let mut expected = file("expected")?;
        trace.registers(&registers)?;
        write!(expected, "{VERSION_LINE}\n{DONE}\n")?;
        Ok(Emulator { pmmu: Pmmu::new(), registers, longs: vec![0; 8192], trace, expected })
    }

    /// Stores a table long.
    fn store(&mut self, address: u32, value: u32) -> io::Result<()> {
        self.longs[address as usize / 4] = value;
        self.trace.long(address, value)?;
        writeln!(self.expected, "{DONE}")
    }

    /// Makes an access: its address, or the fault.
    fn access(&mut self, access: &Access) -> io::Result<Result<u32, Error>> {
        let tables = Tables { longs: &self.longs, base: 0, ranges: &[] };
        let answer = self.pmmu.translate(&self.registers, access, tables);
        self.trace.access(access)?;
        writeln!(self.expected, "{}", answer.line())?;
        Ok(answer.map(|found| found.address))
    }

    /// Flushes a page for every function code.
    fn flush_page(&mut self, address: u32) -> io::Result<()> {
        let answer = self.pmmu.flush_page(0, 0, address);
        self.trace.flush_page(0, 0, address)?;
        writeln!(self.expected, "{}", answer.line())
    }

    fn finish(mut self) -> io::Result<()> {
        writeln!(self.expected, "{END}")?;
        self.expected.flush()?;
        self.trace.finish().map(drop)
    }
}

/// Three levels of 7, 7 and 6 bits: pages 0 to 15 stand at 00400000 and above.
fn map(emulator: &mut Emulator) -> io::Result<()> {
    emulator.store(ROOT, POINTERS | 2)?;
    emulator.store(POINTERS, PAGE_TABLE | 2)?;
    (0..PAGES).try_for_each(|page| emulator.store(PAGE_TABLE + 4 * page, 0x0040_0001 + (page << 12)))
}

/// Reads and writes every page: the pages that fault.
fn visit(emulator: &mut Emulator) -> io::Result<Vec<u32>> {
    let mut met = Vec::new();
    for page in 0..PAGES {
        let read = emulator.access(&Access::read(page << 12))?;
        let written = emulator.access(&Access::write((page << 12) + 4))?;
        if read.is_err() || written.is_err() {
            met.push(page);
        }
    }
    Ok(met)
}

fn main() -> io::Result<()> {
    let Some(folder) = std::env::args_os().nth(1) else {
        return Err(io::Error::new(io::ErrorKind::InvalidInput, "the folder to log into is missing"));
    };
    let registers = Registers {
        family: Family::M68030,
        present: true,
        enabled: true,
        tc: 0x80C0_7760,
        crp_limit: 0x8000_0002,
        crp_address: ROOT,
        ..Registers::default()
    };
    let mut emulator = Emulator::new(Path::new(&folder), "emulator", registers)?;
    map(&mut emulator)?;
    println!("before the guard: faults at {:?}", visit(&mut emulator)?);
    emulator.store(PAGE_TABLE + 4 * GUARD, 0)?;
    emulator.flush_page(GUARD << 12)?;
    println!("with a guard at page {GUARD}: faults at {:?}", visit(&mut emulator)?);
    emulator.finish()
}
