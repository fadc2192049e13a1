//! The stand-in for the original's CPU core: the registers and caches that
//! `src/mmu` works on, and the few questions that it asks.

use super::types::CpuType;
use crate::mmu::{Atc, Atc030, ResidentMmu};

/// What `src/mmu` needs of a CPU, under the original's field names.
#[derive(Default)]
pub struct CpuCore {
    pub cpu_type: CpuType,
    pub has_pmmu: bool,
    pub pmmu_enabled: bool,
    pub mmu_tc: u32,
    pub mmu_crp_limit: u32,
    pub mmu_crp_aptr: u32,
    pub mmu_srp_limit: u32,
    pub mmu_srp_aptr: u32,
    pub mmu_tt0: u32,
    pub mmu_tt1: u32,
    pub itt0: u32,
    pub itt1: u32,
    pub dtt0: u32,
    pub dtt1: u32,
    /// The function code of a MOVES access.
    pub mmu_fc_override: Option<u8>,
    /// The CPU's own supervisor state.
    pub supervisor: bool,
    pub atc: Atc,
    pub atc_030: Atc030,
    /// While this is enabled, hits record no use.
    pub(crate) fm_mmu: ResidentMmu,
}

impl CpuCore {
    #[inline]
    pub fn is_supervisor(&self) -> bool {
        self.supervisor
    }

    #[inline]
    pub fn is_040(&self) -> bool {
        matches!(self.cpu_type, CpuType::M68EC040 | CpuType::M68LC040 | CpuType::M68040)
    }

    #[inline]
    pub fn is_060(&self) -> bool {
        self.cpu_type == CpuType::M68060
    }

    /// The mask of TC's page size. It only reaches `ResidentMmu::page_mask`,
    /// which no answer of `src/mmu` depends on.
    #[inline]
    pub fn mmu_page_mask(&self) -> u32 {
        u32::MAX
    }
}

/// The methods of a bus that `src/mmu` never calls: it reads longs that may fail, and nothing else.
#[allow(unused_macros)]
macro_rules! longs_that_may_fail_alone {
    () => {
        fn read_byte(&mut self, _: u32) -> u8 {
            unreachable!("tables are read in longs that may fail")
        }
        fn read_word(&mut self, _: u32) -> u16 {
            unreachable!("tables are read in longs that may fail")
        }
        fn read_long(&mut self, _: u32) -> u32 {
            unreachable!("tables are read in longs that may fail")
        }
        fn write_byte(&mut self, _: u32, _: u8) {
            unreachable!("tables are never written")
        }
        fn write_word(&mut self, _: u32, _: u16) {
            unreachable!("tables are never written")
        }
        fn write_long(&mut self, _: u32, _: u32) {
            unreachable!("tables are never written")
        }
    };
}
#[allow(unused_imports)]
pub(crate) use longs_that_may_fail_alone;
