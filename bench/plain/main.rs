//! The replay as a plain Rust program: the original's `src/mmu` below, a trace on
//! standard input, lines on standard output, both through buffers.

// The original's modules `mmu` and `core`, and the stand-in for its CPU: see
// differential/build.rs.
include!(concat!(env!("OUT_DIR"), "/original.rs"));

mod input;
mod output;
mod tables;

use crate::core::cpu::CpuCore;
use crate::core::types::CpuType;
use input::Input;
use mmu::{MmuFault, ResidentMmu};
use output::Output;
use tables::Tables;

/// Why a record gives no line of its own: a refusal's number.
type Refusal = u8;

/// The refusal that stops the run.
const MALFORMED: Refusal = 7;

struct Replay {
    cpu: CpuCore,
    /// For the probe, and for accesses whose hits record no use.
    resident: ResidentMmu,
    tables: Tables,
    output: Output,
}

fn main() {
    let mut input = Input::new();
    let mut replay = Replay {
        cpu: CpuCore { cpu_type: CpuType::M68030, ..CpuCore::default() },
        resident: ResidentMmu::default(),
        tables: Tables::new(),
        output: Output::new(),
    };
    replay.run(&mut input);
    replay.output.flush();
}

impl Replay {
    fn run(&mut self, input: &mut Input) {
        if input.byte() != Some(1) {
            return self.output.refusal(MALFORMED);
        }
        self.output.line(b"v1");
        loop {
            let body = match input.record() {
                input::Next::End => return self.output.line(b"end"),
                input::Next::Short => return self.output.refusal(MALFORMED),
                input::Next::Body(body) => body,
            };
            match self.step(body) {
                Ok(()) => {}
                Err(refusal) => {
                    self.output.refusal(refusal);
                    if refusal == MALFORMED {
                        return;
                    }
                }
            }
        }
    }

    /// One record. Its length and flags come first, then the other refusals.
    fn step(&mut self, body: &[u8]) -> Result<(), Refusal> {
        match *body {
            [0x02, flags, override_code, a, b, c, d] => {
                refuse(MALFORMED, flags & !0b11111 != 0)?;
                self.access(flags, override_code, u32::from_be_bytes([a, b, c, d]))
            }
            [0x09, a, b, c, d, e, f, g, h] => {
                self.tables.store(u32::from_be_bytes([a, b, c, d]), u32::from_be_bytes([e, f, g, h]))?;
                self.done()
            }
            [0x01, family, flags, ref longs @ ..] if longs.len() == 44 => {
                refuse(MALFORMED, flags & !0b11 != 0)?;
                self.registers(family, flags, longs)
            }
            [0x03, code, write, a, b, c, d] => {
                refuse(MALFORMED, write > 1)?;
                self.load(code, write != 0, u32::from_be_bytes([a, b, c, d]))
            }
            [0x04, code, write, level, a, b, c, d] => {
                refuse(MALFORMED, write > 1)?;
                self.test(code, write != 0, level, u32::from_be_bytes([a, b, c, d]))
            }
            [0x05] => {
                self.cpu.atc.flush_all();
                self.cpu.atc_030.flush_all();
                self.done()
            }
            [0x06, code, mask] => {
                refuse(5, code > 7 || mask > 7)?;
                self.cpu.atc_030.flush_fc(code, mask);
                self.done()
            }
            [0x07, code, mask, a, b, c, d] => {
                refuse(5, code > 7 || mask > 7)?;
                self.cpu.atc_030.flush_fc_page(code, mask, u32::from_be_bytes([a, b, c, d]));
                self.done()
            }
            [0x08, a, b, c, d] => {
                let frame = u32::from_be_bytes([a, b, c, d]);
                refuse(5, frame >= 1 << 20)?;
                self.cpu.atc.flush_page(frame);
                self.done()
            }
            [0x0A, a, b, c, d, e, f, g, h] => {
                self.tables.add_range(u32::from_be_bytes([a, b, c, d]), u32::from_be_bytes([e, f, g, h]))?;
                self.done()
            }
            [0x0B, flags, a, b, c, d] => {
                refuse(MALFORMED, flags & !0b1101 != 0)?;
                self.probe(flags, u32::from_be_bytes([a, b, c, d]))
            }
            _ => Err(MALFORMED),
        }
    }

    fn done(&mut self) -> Result<(), Refusal> {
        self.output.line(b"K");
        Ok(())
    }

    fn registers(&mut self, family: u8, flags: u8, longs: &[u8]) -> Result<(), Refusal> {
        let long = |n: usize| u32::from_be_bytes([longs[4 * n], longs[4 * n + 1], longs[4 * n + 2], longs[4 * n + 3]]);
        let cpu = &mut self.cpu;
        cpu.cpu_type = match family {
            30 => CpuType::M68030,
            40 => CpuType::M68040,
            60 => CpuType::M68060,
            _ => return Err(1),
        };
        cpu.has_pmmu = flags & 1 != 0;
        cpu.pmmu_enabled = flags & 2 != 0;
        cpu.mmu_tc = long(0);
        cpu.mmu_crp_limit = long(1);
        cpu.mmu_crp_aptr = long(2);
        cpu.mmu_srp_limit = long(3);
        cpu.mmu_srp_aptr = long(4);
        cpu.mmu_tt0 = long(5);
        cpu.mmu_tt1 = long(6);
        cpu.itt0 = long(7);
        cpu.itt1 = long(8);
        cpu.dtt0 = long(9);
        cpu.dtt1 = long(10);
        self.resident = ResidentMmu::of(cpu);
        self.done()
    }

    fn access(&mut self, flags: u8, override_code: u8, address: u32) -> Result<(), Refusal> {
        self.cpu.mmu_fc_override = match override_code {
            0..=7 => Some(override_code),
            0xFF => None,
            _ => return Err(5),
        };
        self.cpu.supervisor = flags & 8 != 0;
        self.cpu.fm_mmu = if flags & 16 != 0 { ResidentMmu::default() } else { self.resident };
        self.tables.count = 0;
        let (write, supervisor, instruction) = (flags & 1 != 0, flags & 2 != 0, flags & 4 != 0);
        match mmu::translate(&mut self.cpu, &mut self.tables, address, write, supervisor, instruction) {
            Ok(physical) => self.output.address(physical, self.tables.count),
            Err(MmuFault { kind, address, cause }) => {
                self.output.fault(kind as u8, cause as u8, address, self.tables.count);
            }
        }
        Ok(())
    }

    /// PLOAD and PTEST are of the 68030 alone.
    fn only_030(&self) -> Result<(), Refusal> {
        refuse(6, self.cpu.cpu_type != CpuType::M68030)
    }

    fn load(&mut self, code: u8, write: bool, address: u32) -> Result<(), Refusal> {
        self.only_030()?;
        refuse(5, code > 7)?;
        self.tables.count = 0;
        mmu::pload_030(&mut self.cpu, &mut self.tables, address, code, write);
        self.output.loaded(self.tables.count);
        Ok(())
    }

    fn test(&mut self, code: u8, write: bool, level: u8, address: u32) -> Result<(), Refusal> {
        self.only_030()?;
        refuse(5, code > 7 || level > 7)?;
        self.tables.count = 0;
        let (mmusr, at) = mmu::ptest_030(&self.cpu, &mut self.tables, address, code.into(), write, level.into());
        self.output.tested(mmusr, at, self.tables.count);
        Ok(())
    }

    fn probe(&mut self, flags: u8, address: u32) -> Result<(), Refusal> {
        self.cpu.supervisor = flags & 8 != 0;
        self.cpu.mmu_fc_override = None;
        match mmu::probe_resident(&self.cpu, self.resident, address, flags & 1 != 0, flags & 4 != 0) {
            Some(physical) => self.output.address(physical, 0),
            None => self.output.line(b"N"),
        }
        Ok(())
    }
}

#[inline]
fn refuse(number: Refusal, when: bool) -> Result<(), Refusal> {
    if when { Err(number) } else { Ok(()) }
}
