//! The audit beside the original: over generated replays it is clean exactly if every page's
//! access in every code gets the answer that the original gives without caches, by brute
//! force; and the entries that it names are those whose hits are wrong.

use crate::Door;
use crate::generate;
use crate::memory::TableMemory;
use crate::original::Original;
use crate::registers_of;
use crate::replay::{Access, Answer, Machine, replay};
use crate::state::State;
use crate::trace::Registers;
use pmmu::{Cache, Stale};
use std::collections::BTreeSet;

/// Traces that are replayed, unless `AUDITS` says how many.
const TRACES: u64 = 120;

/// Of so many accesses one is audited before.
const EVERY: usize = 5;

/// What a hit is keyed by: a page and a code, of the 68040 the data code of a privilege.
type Key = (u32, u8);

/// The crate and the original side by side, audited before accesses.
#[derive(Default)]
struct Audited {
    original: Original,
    door: Door,
    addresses: BTreeSet<u32>,
    accesses: usize,
    clean: usize,
    stale: usize,
}

/// The PMMU on, and no transparent register: an audit reads neither.
fn bare(r: &Registers) -> Registers {
    let longs = [r.tc, r.crp_limit, r.crp_address, r.srp_limit, r.srp_address, 0, 0, 0, 0, 0, 0];
    Registers::from_longs(r.family, 3, longs)
}

impl Audited {
    /// How many low bits of an address lie in a page that is cached now.
    fn shift(&self, registers: &Registers) -> u32 {
        match registers.family {
            30 => self.door.pmmu.caches().page_shift() as u32,
            _ if registers.tc & 0x4000 != 0 => 13,
            _ => 12,
        }
    }

    /// Every address that was ever asked for, and the first of every page that the original's
    /// caches have a tag for: of no other page is there a hit. (A 68040 frame that was cached
    /// under the other page size is a page that nobody asked for.)
    fn asked(&self, shift: u32) -> BTreeSet<u32> {
        let state = self.original.state();
        let entries = state.entries.iter().map(|entry| entry.page);
        let frames = state.slots.iter().map(|slot| slot.tag >> 1);
        let firsts = entries.chain(frames).map(|page| page.wrapping_shl(shift));
        self.addresses.iter().copied().chain(firsts).collect()
    }

    /// The keys whose hits are wrong by the original, in every code.
    fn wrong(&mut self, registers: &Registers, memory: &mut TableMemory) -> BTreeSet<Key> {
        let (registers, shift) = (bare(registers), self.shift(registers));
        let mut wrong = BTreeSet::new();
        for address in self.asked(shift) {
            for (supervisor, instruction, code) in
                [(false, false, 1), (false, true, 2), (true, false, 5), (true, true, 6)]
            {
                for write in [false, true] {
                    let Some(hit) = self.original.probe(&registers, supervisor, instruction, write, address) else {
                        continue;
                    };
                    let cpu_supervisor = supervisor;
                    let access = Access {
                        address,
                        write,
                        supervisor,
                        instruction,
                        cpu_supervisor,
                        override_code: None,
                        record: false,
                    };
                    if Original::default().translate(&registers, &access, memory) != Answer::Address(hit) {
                        let code = if registers.family == 30 { code } else { code & 4 | 1 };
                        wrong.insert((address >> shift << shift, code));
                    }
                }
            }
        }
        memory.asked.clear();
        wrong
    }

    fn audit(&mut self, registers: &Registers, memory: &mut TableMemory) {
        let (wrong, shift) = (self.wrong(registers, memory), self.shift(registers));
        let (pmmu, tables) = self.door.lent(memory);
        let mut stale = pmmu.audit(&registers_of(registers), tables).expect("nothing to refuse");
        // The one report without need that a replay reaches: a frame of 4 KiB pages, looked at
        // under 8 KiB pages, that no address of 32 bits has.
        let slots = pmmu.caches().slots();
        stale.retain(|entry| entry.cache == Cache::M68030 || slots[entry.index].frame << shift >> 32 == 0);
        let named: BTreeSet<Key> = stale.iter().map(|&Stale { address, code, .. }| (address, code)).collect();
        assert_eq!(named, wrong, "what the audit names, and what the original answers wrongly");
        assert_eq!(named.len(), stale.len(), "each once");
        if stale.is_empty() { self.clean += 1 } else { self.stale += 1 }
    }
}

impl Machine for Audited {
    fn translate(&mut self, registers: &Registers, access: &Access, memory: &mut TableMemory) -> Answer {
        self.addresses.insert(access.address);
        self.accesses += 1;
        if self.accesses % EVERY == 0 {
            self.audit(registers, memory);
        }
        self.door.translate(registers, access, memory);
        memory.asked.clear();
        self.original.translate(registers, access, memory)
    }

    fn load(&mut self, registers: &Registers, code: u8, write: bool, address: u32, memory: &mut TableMemory) {
        self.addresses.insert(address);
        self.door.load(registers, code, write, address, memory);
        memory.asked.clear();
        self.original.load(registers, code, write, address, memory);
    }

    fn test(
        &mut self,
        registers: &Registers,
        code: u8,
        write: bool,
        level: u8,
        address: u32,
        memory: &mut TableMemory,
    ) -> (u16, u32) {
        self.original.test(registers, code, write, level, address, memory)
    }

    fn probe(
        &mut self,
        registers: &Registers,
        cpu_supervisor: bool,
        instruction: bool,
        write: bool,
        address: u32,
    ) -> Option<u32> {
        self.original.probe(registers, cpu_supervisor, instruction, write, address)
    }

    fn flush_all(&mut self) {
        self.door.flush_all();
        self.original.flush_all();
    }

    fn flush_code(&mut self, code: u8, mask: u8) {
        self.door.flush_code(code, mask);
        self.original.flush_code(code, mask);
    }

    fn flush_page(&mut self, code: u8, mask: u8, address: u32) {
        self.door.flush_page(code, mask, address);
        self.original.flush_page(code, mask, address);
    }

    fn flush_frame(&mut self, frame: u32) {
        self.door.flush_frame(frame);
        self.original.flush_frame(frame);
    }

    fn state(&self) -> State {
        self.original.state()
    }
}

/// Generated traces, audited as they are replayed.
#[test]
fn audits_name_what_the_original_answers_wrongly() {
    let traces = std::env::var("AUDITS").map_or(TRACES, |n| n.parse().expect("a number of traces"));
    let (mut clean, mut stale) = (0, 0);
    for seed in 1..=traces {
        let mut both = Audited::default();
        replay(&mut both, &generate::trace(seed), false);
        clean += both.clean;
        stale += both.stale;
    }
    assert!(clean > 0 && stale > 0, "{clean} clean, {stale} stale");
    println!(
        "{} audits of {traces} traces: {clean} clean, {stale} stale, each as the original by brute force",
        clean + stale
    );
}
