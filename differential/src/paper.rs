//! A second reading: document 01 with document 02's requests as plain Rust, written from
//! their text and not from the original. It tries the test bed itself. Without a slip it must agree
//! with the original on every generated trace; with any of the slips below the
//! generated traces must tell the two apart.

use crate::memory::TableMemory;
use crate::replay::{Access, Answer, Machine};
use crate::slips::Slip;
use crate::state::{ENTRIES, Entry, SLOTS, Slot, State};
use crate::trace::Registers;

pub struct Paper {
    state: State,
    slip: Option<Slip>,
    flushes: u32,
    /// Whether the access's hits record no use.
    unrecorded: bool,
}

impl Default for Paper {
    fn default() -> Self {
        Self::with(None)
    }
}

// Numbers of fault kinds and causes.
const CONFIGURATION: u8 = 0;
const ACCESS_LEVEL: u8 = 2;
const BUS_ERROR: u8 = 3;
const POINTER_A: u8 = 0;
const POINTER_B: u8 = 1;
const INDIRECT: u8 = 2;
const PAGE_FAULT: u8 = 3;
const WRITE_PROTECT: u8 = 4;
const SUPERVISOR_PROTECT: u8 = 5;
const TABLE_WALK_BUS_ERROR: u8 = 6;

fn violation(cause: u8, address: u32) -> Answer {
    Answer::Fault { kind: ACCESS_LEVEL, cause, address }
}

/// User data 1, program 2, supervisor data 5, program 6.
fn code_of(supervisor: bool, instruction: bool) -> u8 {
    u8::from(supervisor) * 4 + if instruction { 2 } else { 1 }
}

/// The low `bits` bits of the address.
fn low(address: u32, bits: u32) -> u32 {
    (u64::from(address) % (1 << bits)) as u32
}

/// How a 68030 walk ended.
enum End {
    Page { field: u32, consumed: u32 },
    Invalid,
    BadTarget,
    LevelStop,
    BusError { at: u32 },
    Configuration,
}

struct Walk {
    end: End,
    wp: bool,
    sup: bool,
    levels: u32,
    /// The last descriptor asked for.
    asked: u32,
}

/// One 68030 descriptor.
struct Descriptor {
    kind: u32,
    wp: bool,
    sup: bool,
    field: u32,
}

impl Paper {
    pub fn with(slip: Option<Slip>) -> Self {
        Paper { state: State::empty(), slip, flushes: 0, unrecorded: false }
    }

    fn is(&self, slip: Slip) -> bool {
        self.slip == Some(slip)
    }

    fn on(&self, registers: &Registers) -> bool {
        let bit = if registers.family == 30 { 31 } else { 15 };
        (registers.has_pmmu || self.is(Slip::OnWithoutPresent))
            && (registers.enabled || self.is(Slip::OnWithoutEnabled))
            && (registers.tc >> bit & 1 == 1 || !self.is(Slip::EnableBitIsRead))
    }

    /// A long at `at` could not be read in a walk for `address`.
    fn bus_error(&self, at: u32, address: u32) -> Answer {
        let kind = if self.is(Slip::BusErrorIsAnAccessFault) { ACCESS_LEVEL } else { BUS_ERROR };
        let address = if self.is(Slip::BusErrorNamesTheAccess) { address } else { at };
        Answer::Fault { kind, cause: TABLE_WALK_BUS_ERROR, address }
    }

    /// A fault at an access, as the slip names its address.
    fn naming_the_page(&self, answer: Answer) -> Answer {
        match answer {
            Answer::Fault { kind: ACCESS_LEVEL, cause, address } if self.is(Slip::FaultNamesThePage) => {
                violation(cause, address & !0xFFF)
            }
            other => other,
        }
    }

    // Memory.

    fn fetch(&self, memory: &mut TableMemory, address: u32) -> Option<u32> {
        let fetched = memory.fetch(address);
        if fetched.is_none() && self.is(Slip::FailingFetchIsNotCounted) {
            memory.asked.pop();
        }
        let inside = (address / 4) < memory.longs.len() as u32;
        if fetched.is_none() && !inside && self.is(Slip::OutsideReadsZero) {
            return Some(0);
        }
        if fetched.is_none() && inside {
            let covered = |byte: u32| memory.ranges.iter().any(|&(first, last)| (first..=last).contains(&byte));
            let open = |byte: u32| memory.ranges.iter().any(|&(first, last)| (first..last).contains(&byte));
            let but_the_last = |byte: u32| {
                let ranges = &memory.ranges[..memory.ranges.len().min(15)];
                ranges.iter().any(|&(first, last)| (first..=last).contains(&byte))
            };
            let passes = self.is(Slip::OnlyTheFirstByteOfALong) && !covered(address)
                || self.is(Slip::LastRangeIsNotLookedAt) && !(address..address + 4).any(but_the_last)
                || self.is(Slip::OnlyTheLastByteOfALong) && !covered(address + 3)
                || self.is(Slip::RangesAreHalfOpen) && !(address..address + 4).any(open);
            if passes {
                return Some(memory.longs[(address / 4) as usize]);
            }
        }
        fetched
    }

    // Transparent registers.

    fn region_matches(&self, register: u32, address: u32) -> bool {
        let ignored = if self.is(Slip::NoAddressMask) { 0 } else { register >> 16 & 0xFF };
        register & 0x8000 != 0 && ((address >> 24) ^ (register >> 24)) & !ignored == 0
    }

    /// R/W, bit 9, applies where RWM, bit 8, is clear: set for reads only, clear for writes only.
    fn takes_direction(&self, register: u32, write: bool) -> bool {
        let masked = register & 0x100 != 0 && !self.is(Slip::RwmIgnored);
        let of_reads = (register & 0x200 != 0) != self.is(Slip::RwInverted);
        masked || of_reads != write || self.is(Slip::RwIgnored) || self.is(Slip::TtBitsOfDocument01)
    }

    fn tt_matches(&self, register: u32, address: u32, code: u8, write: bool) -> bool {
        let (base, mask) = match self.slip {
            Some(Slip::TtBitsOfDocument01) => (register >> 8, register >> 2),
            Some(Slip::CodeBaseFrom10To8) => (register >> 8, register),
            Some(Slip::CodeMaskOneUp) => (register >> 4, register >> 1),
            _ => (register >> 4, register),
        };
        let compared = if self.is(Slip::CodeMaskInverted) { mask } else { !mask };
        self.region_matches(register, address)
            && self.takes_direction(register, write)
            && (u32::from(code) ^ base) & compared & 7 == 0
    }

    fn either_tt(&self, registers: &Registers, address: u32, code: u8, write: bool) -> bool {
        let [tt0, tt1] = [registers.tt0, registers.tt1].map(|register| self.tt_matches(register, address, code, write));
        match self.slip {
            Some(Slip::OnlyTt0) => tt0,
            Some(Slip::OnlyTt1) => tt1,
            Some(Slip::BothTtsMustMatch) => tt0 && tt1,
            Some(Slip::Tt1OnlyWithoutTt0) if registers.tt0 & 0x8000 != 0 => tt0,
            _ => tt0 || tt1,
        }
    }

    fn ttr_matches(&self, register: u32, address: u32, supervisor: bool) -> bool {
        let privilege = match register >> 13 & 3 {
            0 => !supervisor,
            1 => supervisor,
            2 if self.is(Slip::SField2MatchesNothing) => false,
            3 if self.is(Slip::SField3IsSupervisor) => supervisor,
            _ => true,
        };
        privilege && self.region_matches(register, address)
    }

    fn transparent(&self, registers: &Registers, code: u8, instruction: bool, write: bool, address: u32) -> bool {
        let family = if self.is(Slip::Family60Matches) { registers.family.min(40) } else { registers.family };
        let pair = if instruction || self.is(Slip::ItrForData) {
            [registers.itt0, registers.itt1]
        } else {
            [registers.dtt0, registers.dtt1]
        };
        match family {
            30 => self.either_tt(registers, address, code, write),
            40 => {
                let [first, second] = pair.map(|register| self.ttr_matches(register, address, code & 4 != 0));
                match self.slip {
                    Some(Slip::OnlyTheFirstOfThePair) => first,
                    Some(Slip::OnlyTheSecondOfThePair) => second,
                    Some(Slip::BothOfThePairMustMatch) => first && second,
                    _ => first || second,
                }
            }
            _ => false,
        }
    }

    // The 68030 walk.

    /// TIA, TIB, TIC and TID, stopping at the first zero.
    fn widths(&self, tc: u32) -> Vec<u32> {
        let all = [tc >> 12 & 15, tc >> 8 & 15, tc >> 4 & 15, tc & 15];
        if self.is(Slip::WidthsGoOnAfterZero) {
            return all.into_iter().filter(|&width| width != 0).collect();
        }
        all.into_iter().take_while(|&width| width != 0).collect()
    }

    fn page_shift(&self, tc: u32) -> Option<u32> {
        if self.is(Slip::TcsPageSizeField) {
            return Some(tc >> 20 & 15).filter(|&shift| shift != 0);
        }
        let is = if self.is(Slip::IsIgnoredByTheShift) { 0 } else { tc >> 16 & 15 };
        let sum = is + self.widths(tc).iter().sum::<u32>();
        let most = match self.slip {
            Some(Slip::Sum32HasAShift) => 32,
            Some(Slip::Sum31HasNoShift) => 30,
            _ => 31,
        };
        (1..=most).contains(&sum).then(|| 32 - sum)
    }

    /// The descriptor at an address, or the address of the long that failed.
    fn descriptor(&self, memory: &mut TableMemory, at: u32, long: bool) -> Result<Descriptor, u32> {
        let first = self.fetch(memory, at).ok_or(at)?;
        let mut read = Descriptor { kind: first & 3, wp: first & 4 != 0, sup: false, field: first };
        if long {
            read.sup = first & 0x100 != 0;
            if read.kind == 0 && self.is(Slip::LongInvalidIsOneFetch) {
                return Ok(read);
            }
            let second = at.wrapping_add(4);
            let named = if self.is(Slip::FaultNamesTheDescriptor) { at } else { second };
            read.field = self.fetch(memory, second).ok_or(named)?;
            if self.is(Slip::LongIsOneFetch) {
                memory.asked.pop();
            }
        } else if self.is(Slip::SInShortDescriptors) {
            read.sup = first & 0x100 != 0;
        }
        Ok(read)
    }

    fn root_030(&self, registers: &Registers, code: u8) -> (u32, u32) {
        let sre = registers.tc >> 25 & 1 == 1 || self.is(Slip::SrpWithoutSre);
        if sre && (code & 4 != 0 || self.is(Slip::SreForUser)) {
            (registers.srp_limit, registers.srp_address)
        } else {
            (registers.crp_limit, registers.crp_address)
        }
    }

    fn walk_030(&self, registers: &Registers, address: u32, code: u8, most: u32, memory: &mut TableMemory) -> Walk {
        let (limit, root) = self.root_030(registers, code);
        let asked = if self.is(Slip::TestMasksTheRoot) { root & !15 } else { root };
        let mut walk = Walk { end: End::Configuration, wp: false, sup: false, levels: 0, asked };
        let mut long = match limit & 3 {
            1 if self.is(Slip::RootType1IsShort) => false,
            0 | 1 => return walk,
            kind => kind == 3,
        };
        let mut table = root & if self.is(Slip::RootMaskOfThe040) { !511 } else { !15 };
        let mut consumed = if self.is(Slip::IsIgnoredByTheWalk) { 0 } else { registers.tc >> 16 & 15 };
        let mut levels: Vec<Option<u32>> = self.widths(registers.tc).into_iter().map(Some).collect();
        if registers.tc >> 24 & 1 == 1 {
            levels.insert(0, None);
        }
        for (number, level) in levels.iter().enumerate() {
            if walk.levels >= most {
                walk.end = End::LevelStop;
                return walk;
            }
            let index = match *level {
                None => {
                    consumed += if self.is(Slip::CodeLevelConsumes) { 3 } else { 0 };
                    u32::from(code)
                }
                Some(width) => {
                    let index = self.index(address, consumed, width);
                    consumed += width;
                    index
                }
            };
            let size = if long && !self.is(Slip::LongIndexTimes4) { 8 } else { 4 };
            walk.asked = table.wrapping_add(index * size);
            let read = match self.descriptor(memory, walk.asked, long) {
                Ok(read) => read,
                Err(at) => {
                    walk.end = End::BusError { at };
                    walk.levels += u32::from(self.is(Slip::TestFailingFetchIsALevel));
                    return walk;
                }
            };
            walk.levels += u32::from(level.is_some() || !self.is(Slip::CodeLevelIsNoLevel));
            match read.kind {
                0 => {
                    walk.wp |= read.wp && self.is(Slip::InvalidAddsWp);
                    walk.end = End::Invalid;
                    return walk;
                }
                1 => {
                    walk.wp |= read.wp && !self.is(Slip::PageAddsNoWp);
                    walk.sup |= read.sup;
                    walk.end = End::Page { field: read.field, consumed };
                    return walk;
                }
                _ if number + 1 < levels.len() => {
                    walk.wp |= read.wp && !self.is(Slip::TableAddsNoWp);
                    walk.sup |= read.sup && !self.is(Slip::NoSInTables);
                    table = read.field & if self.is(Slip::TableKeepsLowBits) { !3 } else { !15 };
                    long = if self.is(Slip::FormatOfTheRootStays) { long } else { read.kind == 3 };
                }
                _ => {
                    self.target(&mut walk, &read, long, consumed, memory);
                    return walk;
                }
            }
        }
        walk
    }

    /// The address shifted left by (consumed mod 32), bits lost, then right by 32 - width.
    fn index(&self, address: u32, consumed: u32, width: u32) -> u32 {
        if consumed >= 32 && self.is(Slip::IndexOverflows) {
            return 0;
        }
        (address << (consumed % 32)) >> (32 - width)
    }

    /// The target of an indirect descriptor.
    fn target(&self, walk: &mut Walk, indirect: &Descriptor, long: bool, consumed: u32, memory: &mut TableMemory) {
        let at = indirect.field & if self.is(Slip::TargetMaskFff0) { !15 } else { !3 };
        let indirect_one = walk.asked;
        if !self.is(Slip::TestNamesTheIndirectOne) {
            walk.asked = at;
        }
        let long = if self.is(Slip::TargetKeepsItsFormat) { long } else { indirect.kind == 3 };
        walk.levels += u32::from(self.is(Slip::TargetCountsAsALevel));
        walk.wp |= indirect.wp && self.is(Slip::IndirectAddsItsWp);
        let read = match self.descriptor(memory, at, long) {
            Ok(read) => read,
            Err(at) => {
                walk.end = match self.slip {
                    Some(Slip::TargetBusErrorIsABadTarget) => End::BadTarget,
                    Some(Slip::TargetBusErrorNamesTheIndirectOne) => End::BusError { at: indirect_one },
                    _ => End::BusError { at },
                };
                return;
            }
        };
        let page = read.kind == 1 || self.is(Slip::TargetOfAnyType);
        if page || !self.is(Slip::BadTargetAddsNoWp) {
            walk.wp |= read.wp;
            walk.sup |= read.sup;
        }
        walk.end = if page { End::Page { field: read.field, consumed } } else { End::BadTarget };
    }

    fn physical_030(&self, field: u32, consumed: u32, address: u32) -> u32 {
        let base = field & if self.is(Slip::FieldMaskOf4K) { !0xFFF } else { !0xFF };
        let offset = match consumed {
            32.. if self.is(Slip::OffsetAtConsumed32) => address,
            32.. => 0,
            _ => low(address, 32 - consumed),
        };
        if self.is(Slip::FieldOrOffset) { base | offset } else { base.wrapping_add(offset) }
    }

    /// A page that the search found, into the cache.
    fn keep_030(&mut self, registers: &Registers, code: u8, address: u32, physical: u32, wp: bool) {
        if self.is(Slip::NeverStoresOnThe030) {
            return;
        }
        if let Some(shift) = self.page_shift(registers.tc) {
            let mut base = physical.wrapping_sub(low(address, shift));
            if self.is(Slip::BaseLosesLowBits) {
                base = physical & !low(u32::MAX, shift);
            }
            self.insert_030(code, address >> shift, shift, base, wp);
        }
    }

    fn translate_030(&mut self, registers: &Registers, access: &Access, code: u8, memory: &mut TableMemory) -> Answer {
        let address = access.address;
        if let Some(shift) = self.page_shift(registers.tc) {
            let record = access.record && !self.is(Slip::RecordsNoUse) || self.is(Slip::RecordsAlways);
            if let Some(base) = self.look_up_030(code, address >> shift, shift, access.write, record) {
                return Answer::Address(self.hit_030(base, address, shift));
            }
        }
        let walk = self.walk_030(registers, address, code, u32::MAX, memory);
        match walk.end {
            End::Page { field, consumed } => {
                let physical = self.physical_030(field, consumed, address);
                let supervisor_fault = walk.sup && code & 4 == 0;
                let write_fault = access.write && walk.wp;
                let skipped = supervisor_fault && !self.is(Slip::CachesBeforeTheSTest)
                    || write_fault && self.is(Slip::NoInsertOnAProtectedWrite);
                if !skipped {
                    self.keep_030(registers, code, address, physical, walk.wp);
                }
                if supervisor_fault {
                    violation(SUPERVISOR_PROTECT, address)
                } else if write_fault {
                    violation(WRITE_PROTECT, address)
                } else {
                    Answer::Address(physical)
                }
            }
            End::Invalid => violation(PAGE_FAULT, address),
            End::BadTarget if self.is(Slip::BadTargetIsAPageFault) => violation(PAGE_FAULT, address),
            End::BadTarget => violation(INDIRECT, address),
            End::BusError { at } => self.bus_error(at, address),
            _ if self.is(Slip::ConfigurationIsAnAccessFault) => violation(PAGE_FAULT, address),
            _ if self.is(Slip::ConfigurationNamesTheRoot) => {
                Answer::Fault { kind: CONFIGURATION, cause: PAGE_FAULT, address: walk.asked }
            }
            _ => Answer::Fault { kind: CONFIGURATION, cause: PAGE_FAULT, address },
        }
    }

    // The 68040 walk.

    fn translate_040(
        &mut self,
        registers: &Registers,
        access: &Access,
        supervisor: bool,
        memory: &mut TableMemory,
    ) -> Answer {
        let shift = page_bits(registers);
        if let Some(base) = self.look_up_040(self.frame(access.address, shift), supervisor, access.write) {
            return Answer::Address(self.hit_040(base, access.address, shift));
        }
        self.search_040(registers, access, supervisor, memory).unwrap_or_else(|fault| fault)
    }

    fn search_040(
        &mut self,
        registers: &Registers,
        access: &Access,
        supervisor: bool,
        memory: &mut TableMemory,
    ) -> Result<Answer, Answer> {
        let address = access.address;
        let shift = page_bits(registers);
        let ask = |paper: &Self, memory: &mut TableMemory, at: u32| {
            paper.fetch(memory, at).ok_or_else(|| paper.bus_error(at, address))
        };
        let of_supervisor =
            supervisor && !self.is(Slip::CrpForSupervisor) || !supervisor && self.is(Slip::SrpForUserOnThe040);
        let is_table = |entry: u32, type_1: Slip, no_type_3: Slip| {
            entry & 3 == 2 || entry & 3 == 3 && !self.is(no_type_3) || entry & 3 == 1 && self.is(type_1)
        };
        let root = if of_supervisor { registers.srp_address } else { registers.crp_address };
        let (pointer_a, pointer_b) =
            if self.is(Slip::PointersSwapped) { (POINTER_B, POINTER_A) } else { (POINTER_A, POINTER_B) };

        let root_mask = if self.is(Slip::RootKeepsLowBitsOnThe040) { !3 } else { !0x1FF };
        let pointer_mask = if self.is(Slip::PointerTableKeepsLowBits) { !3 } else { !0x1FF };
        let first = ask(self, memory, (root & root_mask) + (address >> 25) * 4)?;
        if !is_table(first, Slip::RootEntryOfType1, Slip::RootEntryOfType3IsInvalid) {
            return Err(violation(pointer_a, address));
        }
        let second = ask(self, memory, (first & pointer_mask) + (address >> 18 & 127) * 4)?;
        if !is_table(second, Slip::PointerOfType1, Slip::PointerOfType3IsInvalid) {
            return Err(violation(pointer_b, address));
        }
        let mask = if shift == 13 && !self.is(Slip::PageTableMaskStays) { !0x7F } else { !0xFF };
        let index = if shift == 13 && !self.is(Slip::PageIndexStays) { address >> 13 & 31 } else { address >> 12 & 63 };
        let at = (second & mask) + index * 4;
        let found = ask(self, memory, at)?;
        let mut page = found;
        let indirect = page & 3 == 2;
        if indirect {
            page = ask(self, memory, page & !3).map_err(|fault| match self.slip {
                Some(Slip::Target040BusErrorIsABadTarget) => violation(INDIRECT, address),
                Some(Slip::Target040BusErrorNamesTheIndirectOne) => self.bus_error(at, address),
                _ => fault,
            })?;
            if page & 3 == 2 && self.is(Slip::IndirectTwice) {
                page = ask(self, memory, page & !3)?;
            }
        }
        if page & 3 == 0
            || page & 3 == 3 && self.is(Slip::PageOfType3IsInvalid)
            || indirect && page & 3 == 2 && self.is(Slip::Target2IsInvalid)
        {
            return Err(violation(if indirect { INDIRECT } else { PAGE_FAULT }, address));
        }

        let mut w = (first | second | page) & 4 != 0;
        if self.is(Slip::IndirectOneAddsW) {
            w |= found & 4 != 0;
        }
        if self.is(Slip::WOfThePageAlone) {
            w = page & 4 != 0;
        }
        let s = page & 0x80 != 0 || self.is(Slip::SOfTables) && (first | second) & 0x80 != 0;
        let base = page & !low(u32::MAX, shift);
        let (write_fault, supervisor_fault) = (access.write && w, !supervisor && s);
        if !(write_fault || supervisor_fault) || self.is(Slip::CachesForbidden) {
            self.insert_040(self.frame(address, shift), supervisor, base, w, s);
        }
        if supervisor_fault && self.is(Slip::SBeforeW) {
            return Err(violation(SUPERVISOR_PROTECT, address));
        }
        if write_fault {
            return Err(violation(WRITE_PROTECT, address));
        }
        if supervisor_fault {
            return Err(violation(SUPERVISOR_PROTECT, address));
        }
        Ok(Answer::Address(base + low(address, shift)))
    }

    // The 68040 cache.

    fn frame(&self, address: u32, shift: u32) -> u32 {
        address >> if self.is(Slip::FrameOf4K) { 12 } else { shift }
    }

    fn slot_key(&self, frame: u32, supervisor: bool) -> u32 {
        frame * 2 + u32::from(supervisor && !self.is(Slip::KeyWithoutSupervisor))
    }

    fn look_up_040(&mut self, frame: u32, supervisor: bool, write: bool) -> Option<u32> {
        let place = frame as usize % SLOTS;
        let slot = self.state.slots[place];
        if !slot.valid || slot.tag != self.slot_key(frame, supervisor) {
            return None;
        }
        if write && slot.wp || !supervisor && slot.sup {
            self.state.slots[place].valid &= !self.is(Slip::ForbiddenHitDrops);
            return Some(slot.base).filter(|_| self.is(Slip::ForbiddenHitPasses));
        }
        Some(slot.base)
    }

    fn insert_040(&mut self, frame: u32, supervisor: bool, base: u32, wp: bool, sup: bool) {
        if self.is(Slip::NeverStoresOnThe040) {
            return;
        }
        let tag = self.slot_key(frame, supervisor);
        self.state.slots[frame as usize % SLOTS] = Slot { valid: true, tag, base, wp, sup };
    }

    fn hit_040(&self, base: u32, address: u32, shift: u32) -> u32 {
        let offset = low(address, shift);
        if self.is(Slip::HitAddsOnThe040) { base.wrapping_add(offset) } else { base | offset }
    }

    // The 68030 cache.

    fn has_key(&self, entry: &Entry, code: u8, page: u32) -> bool {
        entry.valid && entry.page == page && (entry.code == code || self.is(Slip::KeyWithoutCode))
    }

    fn look_up_030(&mut self, code: u8, page: u32, shift: u32, write: bool, record: bool) -> Option<u32> {
        if u64::from(shift) != self.state.shift && !self.is(Slip::ShiftIgnored) {
            if self.is(Slip::LookupSetsTheShift) {
                self.state.shift = shift.into();
            }
            return None;
        }
        let recent = self.state.most_recent as usize;
        let place = if self.has_key(&self.state.entries[recent], code, page) {
            recent
        } else {
            self.state.entries.iter().position(|entry| self.has_key(entry, code, page))?
        };
        let entry = self.state.entries[place];
        let protected = write && entry.wp;
        let stamps = (place != recent || self.is(Slip::RecordsOnTheMostRecent))
            && !(protected && self.is(Slip::ProtectedHitRecordsNothing));
        if record && stamps {
            self.stamp(place);
            if self.is(Slip::HitIsNotMostRecent) {
                self.state.most_recent = recent as u64;
            }
        }
        if !record && self.is(Slip::UnrecordedHitIsMostRecent) {
            self.state.most_recent = place as u64;
        }
        if protected && self.is(Slip::ProtectedHitDrops) {
            self.state.entries[place].valid = false;
        }
        (!protected).then_some(entry.base)
    }

    /// Raises the clock, stamps the entry with it and makes it most recent.
    fn stamp(&mut self, place: usize) {
        let before = self.state.clock;
        self.state.clock += 1;
        let stamp = if self.is(Slip::StampsBeforeTheClock) { before } else { self.state.clock };
        self.state.entries[place].stamp = stamp;
        self.state.most_recent = place as u64;
    }

    fn insert_030(&mut self, code: u8, page: u32, shift: u32, base: u32, wp: bool) {
        if u64::from(shift) != self.state.shift {
            if !self.is(Slip::NewShiftKeepsEntries) {
                self.empty_030();
            }
            if self.is(Slip::NewShiftClearsNumbers) {
                self.state.entries = [Entry::default(); ENTRIES];
            }
            self.state.shift = shift.into();
        }
        let place = self.place_030(code, page);
        let old = self.state.entries[place];
        let same_key = old.valid && old.code == code && old.page == page;
        if !(same_key && self.is(Slip::InsertKeepsTheOldNumbers)) {
            self.state.entries[place] = Entry { valid: true, code, page, base, wp, stamp: old.stamp };
        }
        if same_key && self.is(Slip::InsertKeepsTheStamp) {
            self.state.most_recent = place as u64;
            return;
        }
        let recent = self.state.most_recent;
        if self.unrecorded && self.is(Slip::UnrecordedInsertIsNotStamped) {
            return;
        }
        self.stamp(place);
        if self.is(Slip::InsertIsNotMostRecent) {
            self.state.most_recent = recent;
        }
    }

    /// The lowest index of the same key, else the first invalid, else the smallest stamp.
    fn place_030(&self, code: u8, page: u32) -> usize {
        let entries = &self.state.entries;
        let same = entries.iter().position(|entry| self.has_key(entry, code, page));
        let invalid = if self.is(Slip::LastFreePlace) {
            entries.iter().rposition(|entry| !entry.valid)
        } else {
            entries.iter().position(|entry| !entry.valid)
        };
        let smallest = entries.iter().map(|entry| entry.stamp).min();
        let largest = entries.iter().map(|entry| entry.stamp).max();
        let wanted = if self.is(Slip::VictimIsTheLargestStamp) { largest } else { smallest };
        let oldest = entries.iter().position(|entry| Some(entry.stamp) == wanted);
        let same = same.filter(|_| !self.is(Slip::InsertTwice));
        let invalid = invalid.filter(|_| !self.is(Slip::VictimBeforeInvalid));
        let first = if self.is(Slip::FreePlaceBeforeTheSameKey) { invalid.or(same) } else { same.or(invalid) };
        first.or(oldest).expect("some stamp is smallest")
    }

    fn hit_030(&self, base: u32, address: u32, shift: u32) -> u32 {
        let offset = low(address, shift);
        if self.is(Slip::HitOrsOnThe030) { base | offset } else { base.wrapping_add(offset) }
    }

    fn empty_030(&mut self) {
        self.drop_030([true; ENTRIES]);
    }

    /// Only marks the doomed entries invalid.
    fn drop_030(&mut self, doomed: [bool; ENTRIES]) {
        let clears = self.is(Slip::FlushClearsNumbers);
        let clears_stamps = self.is(Slip::FlushClearsStamps);
        for (entry, doomed) in self.state.entries.iter_mut().zip(doomed) {
            if doomed && clears {
                *entry = Entry::default();
            }
            if doomed && clears_stamps {
                entry.stamp = 0;
            }
            entry.valid &= !doomed;
        }
    }

    fn agrees(&self, entry: &Entry, code: u8, mask: u8) -> bool {
        let compared = match self.slip {
            Some(Slip::FlushByMaskInverted) => 7 - mask,
            Some(Slip::MaskIsIgnored) => 7,
            _ => mask,
        };
        (entry.code ^ code) & compared == 0
    }

    fn drop_page(&mut self, code: u8, mask: u8, address: u32, shift: u64) {
        if shift == 0 {
            return;
        }
        let page = address >> shift;
        let any_code = self.is(Slip::FlushPageIgnoresCode);
        let doomed =
            self.state.entries.map(|entry| entry.page == page && (any_code || self.agrees(&entry, code, mask)));
        self.drop_030(doomed);
    }
}

/// 13 with TC bit 14, else 12.
fn page_bits(registers: &Registers) -> u32 {
    12 + (registers.tc >> 14 & 1)
}

impl Machine for Paper {
    fn translate(&mut self, registers: &Registers, access: &Access, memory: &mut TableMemory) -> Answer {
        let address = access.address;
        if !self.on(registers) {
            return Answer::Address(address);
        }
        let (mut supervisor, mut instruction) = match access.override_code {
            Some(code) => (code & 4 != 0, code & 3 == 2),
            None => (access.supervisor, access.instruction),
        };
        if self.is(Slip::OverrideKeepsInstruction) {
            instruction = access.instruction;
        }
        if self.is(Slip::OverrideKeepsSupervisor) {
            supervisor = access.supervisor;
        }
        if let Some(code) = access.override_code
            && self.is(Slip::Override3IsProgram)
        {
            instruction = code & 2 != 0;
        }
        let own = if self.is(Slip::TransparentUsesTheAccess) { supervisor } else { access.cpu_supervisor };
        let override_code = access.override_code.filter(|_| !self.is(Slip::TransparentIgnoresTheOverride));
        let compared = override_code.unwrap_or(code_of(own, instruction));
        self.unrecorded = !access.record;
        let cached = self.is(Slip::CacheBeforeTransparent)
            && self.probe(registers, supervisor, instruction, access.write, address).is_some();
        if self.transparent(registers, compared, instruction, access.write, address) && !cached {
            return Answer::Address(address);
        }
        if registers.family != 30 {
            let answer = self.translate_040(registers, access, supervisor, memory);
            return self.naming_the_page(answer);
        }
        let mut code = code_of(supervisor, instruction);
        if self.is(Slip::RawOverrideInTheWalk) {
            code = access.override_code.unwrap_or(code);
        }
        let answer = self.translate_030(registers, access, code, memory);
        self.unrecorded = false;
        self.naming_the_page(answer)
    }

    fn load(&mut self, registers: &Registers, code: u8, write: bool, address: u32, memory: &mut TableMemory) {
        if !self.on(registers) && self.is(Slip::LoadDropsWhenOff) {
            self.drop_page(code, 7, address, self.state.shift);
        }
        if !self.on(registers) && !self.is(Slip::LoadWhenOff) || self.is(Slip::LoadDoesNothing) {
            return;
        }
        let code = if self.is(Slip::LoadWithTheWalksCode) { code_of(code & 4 != 0, code & 3 == 2) } else { code };
        let shift = self.page_shift(registers.tc);
        let kept = self.state.clone();
        if shift.is_some() || !self.is(Slip::LoadDropsNothingWithoutAShift) {
            let stored = self.state.shift;
            let at_tcs = shift.filter(|_| self.is(Slip::LoadDropsAtTcsShift)).map(u64::from);
            self.drop_page(code, 7, address, at_tcs.unwrap_or(stored));
        }
        let matched = self.either_tt(registers, address, code, write && !self.is(Slip::LoadMatchesAsARead));
        let transparent = matched && !self.is(Slip::LoadIgnoresTransparent);
        if shift.is_none() || transparent {
            return;
        }
        let walk = self.walk_030(registers, address, code, u32::MAX, memory);
        if let End::Page { field, consumed } = walk.end {
            let forbidden = walk.sup && code & 4 == 0 && !self.is(Slip::LoadCachesSForUser)
                || write && walk.wp && self.is(Slip::LoadForAWriteSkipsWp);
            if !forbidden {
                let physical = self.physical_030(field, consumed, address);
                let wp = walk.wp && !self.is(Slip::LoadForgetsWp);
                self.keep_030(registers, code, address, physical, wp);
            }
        } else if self.is(Slip::LoadDropsOnlyForAPage) {
            self.state = kept;
        }
    }

    fn test(
        &mut self,
        registers: &Registers,
        code: u8,
        write: bool,
        level: u8,
        address: u32,
        memory: &mut TableMemory,
    ) -> (u16, u32) {
        if self.is(Slip::TestNeedsThePmmu) && !self.on(registers) {
            return (0, 0);
        }
        let matched = self.either_tt(registers, address, code, write && !self.is(Slip::TestMatchesAsARead));
        if level == 0 && !self.is(Slip::TestLevel0Walks) {
            let otherwise = if self.is(Slip::TestLevel0WithoutATtIsInvalid) { 0x0400 } else { 0 };
            return (if matched { 0x40 } else { otherwise }, 0);
        }
        if self.is(Slip::TestOfATransparentAddress) && matched {
            return (0x40, 0);
        }
        let most = u32::from(level) + u32::from(self.is(Slip::TestGoesOneLevelOn));
        let walk = self.walk_030(registers, address, code, most, memory);
        let user = code & 4 == 0 || self.is(Slip::TestSForSupervisor);
        let mut mmusr = walk.levels as u16;
        match walk.end {
            End::Page { field, consumed } if self.is(Slip::TestCaches) => {
                let physical = self.physical_030(field, consumed, address);
                self.keep_030(registers, code, address, physical, walk.wp);
            }
            End::Page { .. } | End::LevelStop => {}
            End::Invalid | End::BadTarget => mmusr |= 0x0400,
            End::BusError { .. } | End::Configuration => mmusr |= 0x8000,
        }
        let dropped =
            mmusr & 0x8000 != 0 && self.is(Slip::TestBusErrorDropsW) || !write && self.is(Slip::TestWOnlyForAWrite);
        if walk.wp && !dropped {
            mmusr |= 0x0800;
        }
        if walk.sup && user {
            mmusr |= 0x2000;
        }
        (mmusr, walk.asked)
    }

    fn probe(
        &mut self,
        registers: &Registers,
        cpu_supervisor: bool,
        instruction: bool,
        write: bool,
        address: u32,
    ) -> Option<u32> {
        if !self.on(registers) && !self.is(Slip::ProbeLooksUpWhenOff) {
            return Some(address).filter(|_| self.is(Slip::ProbeWhenOffIsTheAddress));
        }
        let code = code_of(cpu_supervisor, instruction);
        let ignored = self.is(Slip::ProbeIgnoresTransparent) || self.is(Slip::CacheBeforeTransparent);
        let matches_as = write && !self.is(Slip::ProbeMatchesAsARead);
        if self.transparent(registers, code, instruction, matches_as, address) && !ignored {
            return Some(address);
        }
        let write = write && !self.is(Slip::ProbeIgnoresWp);
        if registers.family != 30 {
            let shift = page_bits(registers);
            let base = self.look_up_040(self.frame(address, shift), cpu_supervisor, write)?;
            return Some(self.hit_040(base, address, shift));
        }
        let shift = self.page_shift(registers.tc)?;
        let base = self.look_up_030(code, address >> shift, shift, write, self.is(Slip::ProbeRecords))?;
        Some(self.hit_030(base, address, shift))
    }

    fn flush_all(&mut self) {
        if self.is(Slip::FlushAllDoesNothing) {
            return;
        }
        self.empty_030();
        if !self.is(Slip::FlushAllSparesThe040) {
            self.state.slots.iter_mut().for_each(|slot| slot.valid = false);
        }
        match self.slip {
            Some(Slip::FlushAllForgetsTheMostRecent) => self.state.most_recent = 0,
            Some(Slip::FlushAllForgetsTheClock) => self.state.clock = 0,
            Some(Slip::FlushAllForgetsTheShift) => self.state.shift = 0,
            Some(Slip::FlushAllClearsSlots) => self.state.slots = [Slot::default(); SLOTS],
            _ => {}
        }
    }

    fn flush_code(&mut self, code: u8, mask: u8) {
        if !self.is(Slip::FlushCodeDoesNothing) {
            let doomed = self.state.entries.map(|entry| self.agrees(&entry, code, mask));
            self.drop_030(doomed);
        }
    }

    fn flush_page(&mut self, code: u8, mask: u8, address: u32) {
        self.flushes += 1;
        let spared = self.is(Slip::FlushPageDoesNothing) || self.is(Slip::FlushPageActsOnce) && self.flushes > 1;
        if !spared {
            self.drop_page(code, mask, address, self.state.shift);
        }
    }

    fn flush_frame(&mut self, frame: u32) {
        let slot = &mut self.state.slots[frame as usize % SLOTS];
        let named = match self.slip {
            Some(Slip::FlushFrameDoesNothing) => false,
            Some(Slip::FlushFrameOnePrivilege) => slot.tag == frame * 2,
            Some(Slip::FlushFrameWholeSlot) => true,
            _ => slot.tag / 2 == frame,
        };
        slot.valid &= !named;
        if named && self.slip == Some(Slip::FlushFrameClearsTheSlot) {
            *slot = Slot::default();
        }
    }

    fn state(&self) -> State {
        self.state.clone()
    }

    fn slip(&self) -> Option<Slip> {
        self.slip
    }
}
