//! The original's functions behind [`Machine`], and what stands between the two where
//! the manuals are followed and the original is not (docs/DIFFERENCES.md, 'Mended').

use crate::core::cpu::CpuCore;
use crate::core::memory::{AddressBus, BusFault, BusFaultKind};
use crate::core::types::CpuType;
use crate::memory::TableMemory;
use crate::mmu::{self, Atc, Atc030, MmuFault, MmuFaultCause, MmuFaultKind, ResidentMmu};
use crate::replay::{Access, Answer, Machine};
use crate::state::{ENTRIES, SLOTS, State};
use crate::trace::Registers;

#[derive(Default)]
pub struct Original {
    cpu: CpuCore,
    /// Whether it is asked as it is shipped, with nothing mended.
    as_shipped: bool,
}

/// A TT register of the MC68030 as the original reads one, for a call of this direction:
/// the code's base from 6:4 in 10:8 and its mask from 2:0 in 4:2, the region where it is.
/// It is disabled where RWM (8) is clear and R/W (9) forbids the direction.
fn moved(tt: u32, write: bool) -> u32 {
    let (base, mask, reads, both) = (tt >> 4 & 7, tt & 7, tt & 0x200 != 0, tt & 0x100 != 0);
    let enabled = tt & 0x8000 != 0 && (both || reads != write);
    tt & 0xFFFF_0000 | u32::from(enabled) << 15 | base << 8 | mask << 2
}

impl Original {
    pub fn as_shipped() -> Self {
        Original { as_shipped: true, ..Original::default() }
    }

    /// The CPU with these registers, in this state, without an override, for a call of
    /// this direction.
    fn with(&mut self, registers: &Registers, cpu_supervisor: bool, write: bool) -> &mut CpuCore {
        let tt = |register: u32| if self.as_shipped { register } else { moved(register, write) };
        let [tt0, tt1] = [registers.tt0, registers.tt1].map(tt);
        let cpu = &mut self.cpu;
        cpu.cpu_type = match registers.family {
            30 => CpuType::M68030,
            40 => CpuType::M68040,
            60 => CpuType::M68060,
            family => panic!("family {family} is refused before"),
        };
        cpu.has_pmmu = registers.has_pmmu;
        cpu.pmmu_enabled = registers.enabled;
        cpu.mmu_tc = registers.tc;
        cpu.mmu_crp_limit = registers.crp_limit;
        cpu.mmu_crp_aptr = registers.crp_address;
        cpu.mmu_srp_limit = registers.srp_limit;
        cpu.mmu_srp_aptr = registers.srp_address;
        cpu.mmu_tt0 = tt0;
        cpu.mmu_tt1 = tt1;
        cpu.itt0 = registers.itt0;
        cpu.itt1 = registers.itt1;
        cpu.dtt0 = registers.dtt0;
        cpu.dtt1 = registers.dtt1;
        cpu.supervisor = cpu_supervisor;
        cpu.mmu_fc_override = None;
        cpu.fm_mmu = ResidentMmu::default();
        cpu
    }
}

impl Machine for Original {
    fn translate(&mut self, registers: &Registers, access: &Access, memory: &mut TableMemory) -> Answer {
        let cpu = self.with(registers, access.cpu_supervisor, access.write);
        cpu.mmu_fc_override = access.override_code;
        if !access.record {
            // The fast-memory window's state: while it is enabled, no hit records a use.
            cpu.fm_mmu = ResidentMmu::of(cpu);
        }
        match mmu::translate(cpu, memory, access.address, access.write, access.supervisor, access.instruction) {
            Ok(physical) => Answer::Address(physical),
            Err(MmuFault { kind, address, cause }) => {
                Answer::Fault { kind: kind_number(kind), cause: cause_number(cause), address }
            }
        }
    }

    fn load(&mut self, registers: &Registers, code: u8, write: bool, address: u32, memory: &mut TableMemory) {
        mmu::pload_030(self.with(registers, false, write), memory, address, code, write);
    }

    fn test(
        &mut self,
        registers: &Registers,
        code: u8,
        write: bool,
        level: u8,
        address: u32,
        memory: &mut TableMemory,
    ) -> (u16, u32) {
        mmu::ptest_030(self.with(registers, false, write), memory, address, code.into(), write, level.into())
    }

    fn probe(
        &mut self,
        registers: &Registers,
        cpu_supervisor: bool,
        instruction: bool,
        write: bool,
        address: u32,
    ) -> Option<u32> {
        let cpu = self.with(registers, cpu_supervisor, write);
        mmu::probe_resident(cpu, ResidentMmu::of(cpu), address, write, instruction)
    }

    fn flush_all(&mut self) {
        self.cpu.atc.flush_all();
        self.cpu.atc_030.flush_all();
    }

    fn flush_code(&mut self, code: u8, mask: u8) {
        self.cpu.atc_030.flush_fc(code, mask);
    }

    fn flush_page(&mut self, code: u8, mask: u8, address: u32) {
        self.cpu.atc_030.flush_fc_page(code, mask, address);
    }

    fn flush_frame(&mut self, frame: u32) {
        self.cpu.atc.flush_page(frame);
    }

    fn state(&self) -> State {
        state_of(&self.cpu.atc, &self.cpu.atc_030)
    }
}

/// The place of the kind in `mod.rs`, from 0.
fn kind_number(kind: MmuFaultKind) -> u8 {
    match kind {
        MmuFaultKind::ConfigurationError => 0,
        MmuFaultKind::IllegalOperation => 1,
        MmuFaultKind::AccessLevelViolation => 2,
        MmuFaultKind::BusError => 3,
    }
}

/// The place of the cause in `mod.rs`, from 0.
fn cause_number(cause: MmuFaultCause) -> u8 {
    match cause {
        MmuFaultCause::PointerA => 0,
        MmuFaultCause::PointerB => 1,
        MmuFaultCause::Indirect => 2,
        MmuFaultCause::PageFault => 3,
        MmuFaultCause::WriteProtect => 4,
        MmuFaultCause::SupervisorProtect => 5,
        MmuFaultCause::TableWalkBusError => 6,
        MmuFaultCause::AccessBusError => 7,
    }
}

/// `src/mmu` reads descriptors by `try_read_long` and uses nothing else of a bus.
impl AddressBus for TableMemory {
    fn try_read_long(&mut self, address: u32) -> Result<u32, BusFault> {
        self.fetch(address).ok_or(BusFault { kind: BusFaultKind::BusError, address })
    }

    crate::core::cpu::longs_that_may_fail_alone!();
}

/// The original's caches. Their fields are private, so they are read from
/// their `Debug` text.
pub fn state_of(atc: &Atc, atc_030: &Atc030) -> State {
    let mut state = State::empty();
    read_030(&mut state, &format!("{atc_030:?}"));
    read_040(&mut state, &format!("{atc:?}"));
    state
}

fn read_030(state: &mut State, text: &str) {
    let mut next = 0;
    for (name, value) in fields(text) {
        let entry = &mut state.entries[next.min(ENTRIES - 1)];
        match name {
            "valid" => entry.valid = value != 0,
            "fc" => entry.code = value as u8,
            "page" => entry.page = value as u32,
            "phys_page" => entry.base = value as u32,
            "write_protected" => entry.wp = value != 0,
            "stamp" => {
                entry.stamp = value;
                next += 1;
            }
            "mru" => state.most_recent = value,
            "clock" => state.clock = value,
            "shift" => state.shift = value,
            _ => panic!("an unknown field of the 68030 cache: {name}"),
        }
    }
    assert_eq!(next, ENTRIES, "entries of the 68030 cache");
}

fn read_040(state: &mut State, text: &str) {
    let mut next = 0;
    for (name, value) in fields(text) {
        let slot = &mut state.slots[next.min(SLOTS - 1)];
        match name {
            "valid" => slot.valid = value != 0,
            "tag" => slot.tag = value as u32,
            "phys_page" => slot.base = value as u32,
            "write_protected" => slot.wp = value != 0,
            "supervisor_only" => {
                slot.sup = value != 0;
                next += 1;
            }
            _ => panic!("an unknown field of the 68040 cache: {name}"),
        }
    }
    assert_eq!(next, SLOTS, "slots of the 68040 cache");
}

/// The fields `name: value` of a `Debug` text whose values are numbers or flags.
/// (A field that holds a list gives nothing: so the hints are left out.)
fn fields(text: &str) -> impl Iterator<Item = (&str, u64)> {
    let mut name = "";
    text.split(' ').filter_map(move |word| {
        if let Some(new_name) = word.strip_suffix(':') {
            name = new_name;
            return None;
        }
        let named = std::mem::take(&mut name);
        let value = match word.trim_end_matches([',', '}', ']']) {
            "true" => 1,
            "false" => 0,
            number => number.parse().ok()?,
        };
        (!named.is_empty()).then_some((named, value))
    })
}
