//! The replay of a trace: decoding, refusals and lines, as document 01 has them.
//! What a record asks of the MMU is put to a [`Machine`]: the original
//! (`original.rs`), or the second reading of document 01 (`paper.rs`).

use crate::memory::TableMemory;
use crate::slips::{Check, Slip};
use crate::state::State;
use crate::trace::{
    CPU_STATE, INSTRUCTION, NONE, Next, RECORD, Record, Registers, SUPERVISOR, WRITE, flags_of, length_of, next_body,
};
use std::fmt::{self, Display, Formatter};

/// One access of kind 02.
pub struct Access {
    pub address: u32,
    pub write: bool,
    pub supervisor: bool,
    pub instruction: bool,
    pub cpu_supervisor: bool,
    pub override_code: Option<u8>,
    /// Whether hits record a use.
    pub record: bool,
}

impl Access {
    /// What the record says, whose override has passed its refusal.
    pub fn of(flags: u8, override_code: u8, address: u32) -> Self {
        let set = |bit: u8| flags & bit != 0;
        Access {
            address,
            write: set(WRITE),
            supervisor: set(SUPERVISOR),
            instruction: set(INSTRUCTION),
            cpu_supervisor: set(CPU_STATE),
            override_code: (override_code != NONE).then_some(override_code),
            record: set(RECORD),
        }
    }
}

/// Kind and cause as numbers that count from 0 in `mod.rs` order.
#[derive(Clone, Copy, Debug, PartialEq, Eq)]
pub enum Answer {
    Address(u32),
    Fault { kind: u8, cause: u8, address: u32 },
}

/// An access's line without its count.
impl Display for Answer {
    fn fmt(&self, f: &mut Formatter) -> fmt::Result {
        match *self {
            Answer::Address(physical) => write!(f, "A {physical:08X}"),
            Answer::Fault { kind, cause, address } => write!(f, "F {kind} {cause} {address:08X}"),
        }
    }
}

/// A pair of caches and the calls on it. Arguments have passed their refusals.
pub trait Machine {
    fn translate(&mut self, registers: &Registers, access: &Access, memory: &mut TableMemory) -> Answer;
    fn load(&mut self, registers: &Registers, code: u8, write: bool, address: u32, memory: &mut TableMemory);
    /// MMUSR and address.
    fn test(
        &mut self,
        registers: &Registers,
        code: u8,
        write: bool,
        level: u8,
        address: u32,
        memory: &mut TableMemory,
    ) -> (u16, u32);
    fn probe(
        &mut self,
        registers: &Registers,
        cpu_supervisor: bool,
        instruction: bool,
        write: bool,
        address: u32,
    ) -> Option<u32>;
    fn flush_all(&mut self);
    fn flush_code(&mut self, code: u8, mask: u8);
    fn flush_page(&mut self, code: u8, mask: u8, address: u32);
    fn flush_frame(&mut self, frame: u32);
    fn state(&self) -> State;

    /// The slip that the replay around it makes, if it is one of the replay's.
    fn slip(&self) -> Option<Slip> {
        None
    }
}

/// The lines of a replay.
pub struct Output {
    pub lines: Vec<String>,
    /// Records that gave a line, a malformed one included.
    pub records: usize,
}

impl Output {
    /// The bytes that the program writes.
    pub fn text(&self) -> String {
        let mut text = String::new();
        for line in &self.lines {
            text += line;
            text.push('\n');
        }
        text
    }
}

/// Replays the trace; with `states`, a state line follows each record's line.
pub fn replay(machine: &mut impl Machine, bytes: &[u8], states: bool) -> Output {
    let mut output = Output { lines: Vec::new(), records: 0 };
    let mut replay = Replay::new(machine);
    if !replay.begins(bytes.first().copied()) {
        output.lines.push("R 7".into());
        return output;
    }
    output.lines.push("v1".into());
    let mut at = bytes.len().min(1);
    loop {
        let next = next_body(bytes, at);
        if replay.ends(&next, bytes.len() - at) {
            break;
        }
        output.records += 1;
        let line = match next {
            Next::Body(body, next) => {
                at = next;
                replay.line(body)
            }
            _ => None,
        };
        let Some(line) = line else {
            output.lines.push("R 7".into());
            if replay.is(Slip::GoesOnAfterMalformed) && matches!(next, Next::Body(..)) {
                continue;
            }
            return output;
        };
        output.lines.push(line);
        if states {
            output.lines.push(replay.machine.state().line());
        }
    }
    output.lines.push("end".into());
    output
}

struct Replay<'m, M: Machine> {
    machine: &'m mut M,
    slip: Option<Slip>,
    registers: Registers,
    memory: TableMemory,
}

/// The program's limits: ranges, the largest code and mask, the last frame, the last long.
const RANGES: usize = 16;
const CODE: u8 = 7;
const FRAME: u32 = (1 << 20) - 1;
const LAST_LONG: u32 = 8191;

impl<'m, M: Machine> Replay<'m, M> {
    fn new(machine: &'m mut M) -> Self {
        let slip = machine.slip();
        let mut registers = Registers::at_start();
        if slip == Some(Slip::StartsAsFamily40) {
            registers.family = 40;
        }
        if slip == Some(Slip::StartsOn) {
            (registers.has_pmmu, registers.enabled) = (true, true);
        }
        Replay { machine, slip, registers, memory: TableMemory::of_program() }
    }

    fn is(&self, slip: Slip) -> bool {
        self.slip == Some(slip)
    }

    /// Whether the file begins as it must: with version 1.
    fn begins(&self, version: Option<u8>) -> bool {
        match version {
            Some(version) => version == 1 || self.is(Slip::AnyVersionIsTaken),
            None => self.is(Slip::EmptyFileIsTaken),
        }
    }

    /// Whether the file is at its end, where so many bytes are left.
    fn ends(&self, next: &Next, left: usize) -> bool {
        match next {
            Next::End => true,
            Next::Short if left == 1 => self.is(Slip::HalfLengthIsTheEnd),
            Next::Short => self.is(Slip::CutBodyIsTheEnd),
            Next::Body(..) => false,
        }
    }

    /// The line of a record with this body; nothing where it is malformed.
    fn line(&mut self, body: &[u8]) -> Option<String> {
        let told = |refusal: u8| format!("R {refusal}");
        match Record::decode(&self.misread(body)) {
            Some(record) => Some(self.step(record).unwrap_or_else(told)),
            None => self.refused_before_malformed(body).map(told),
        }
    }

    /// The body, as a slip of the file reads it.
    fn misread(&self, body: &[u8]) -> Vec<u8> {
        let mut read = body.to_vec();
        let kind = body.first().copied();
        let right = kind.and_then(length_of);
        match self.slip {
            Some(Slip::ZeroLengthIsTaken) if kind.is_none() => read = vec![5],
            Some(Slip::FlagIsIgnored(of, bit)) if kind == Some(of) && right == Some(body.len()) => {
                let (place, _) = flags_of(of).expect("a kind with flags");
                read[place] &= !(1 << bit);
            }
            Some(Slip::LongIsTaken(of)) if kind == Some(of) && right == Some(body.len() - 1) => {
                read.truncate(body.len() - 1)
            }
            Some(Slip::ShortIsTaken(of)) if kind == Some(of) && right == Some(body.len() + 1) => read.push(0),
            Some(Slip::KindIsTaken(of)) if kind == Some(of) => read = vec![5],
            Some(Slip::KindBitIsIgnored(bit)) if kind.is_some() => read[0] &= !(1 << bit),
            _ => {}
        }
        read
    }

    /// The refusal of a record with wrong flags, where a slip looks for another than 7 first.
    fn refused_before_malformed(&mut self, body: &[u8]) -> Option<u8> {
        let &kind = body.first()?;
        let (place, allowed) = flags_of(kind)?;
        if !self.is(Slip::RefusedBeforeMalformed(kind)) || length_of(kind) != Some(body.len()) {
            return None;
        }
        let mut mended = body.to_vec();
        mended[place] &= allowed;
        self.step(Record::decode(&mended)?).err()
    }

    /// A check: refuses with the number where it is exceeded, but for the slip.
    fn check(&self, check: Check, number: u8, excess: i64) -> Result<(), u8> {
        let off = !(self.registers.has_pmmu && self.registers.enabled);
        let most = match self.slip {
            Some(Slip::Unchecked(slipped)) if slipped == check => i64::MAX,
            Some(Slip::UncheckedWhenOff(slipped)) if slipped == check && off => i64::MAX,
            Some(Slip::Looser(slipped)) if slipped == check => 1,
            Some(Slip::Stricter(slipped)) if slipped == check => -1,
            _ => 0,
        };
        if excess > most { Err(number) } else { Ok(()) }
    }

    /// The record's line, or the first refusal that applies in the order
    /// 1, 6, 5, 2, 3, 4, 8. (Number 4 can't be met here: the caches start empty.)
    fn step(&mut self, record: Record) -> Result<String, u8> {
        match record {
            Record::Registers(registers) => {
                let refused = self.check(Check::Family, 1, either(![30, 40, 60].contains(&registers.family)));
                if refused.is_ok() || self.is(Slip::RefusedRegistersAreTaken) {
                    self.registers = registers;
                }
                refused.map(|()| "K".into())
            }
            Record::Access { flags, override_code, address } => self.access(flags, override_code, address),
            Record::Load { code, write, address } => {
                let six = self.check(Check::LoadFamily, 6, either(self.registers.family != 30));
                let five = self.check(Check::LoadCode, 5, over(code, CODE));
                if self.is(Slip::LoadRefuses5Before6) { five.and(six) } else { six.and(five) }?;
                let Self { machine, registers, memory, .. } = self;
                let ((), count) = memory.counted(|memory| machine.load(registers, code, write != 0, address, memory));
                Ok(format!("L {count}"))
            }
            Record::Test { code, write, level, address } => {
                let six = self.check(Check::TestFamily, 6, either(self.registers.family != 30));
                let five = self.check(Check::TestCode, 5, over(code, CODE));
                let five = five.and(self.check(Check::TestLevel, 5, over(level, CODE)));
                if self.is(Slip::TestRefuses5Before6) { five.and(six) } else { six.and(five) }?;
                let Self { machine, registers, memory, .. } = self;
                let ((mmusr, at), count) =
                    memory.counted(|memory| machine.test(registers, code, write != 0, level, address, memory));
                Ok(format!("T {mmusr:04X} {at:08X} {count}"))
            }
            Record::FlushAll => {
                self.machine.flush_all();
                Ok("K".into())
            }
            Record::FlushCode { code, mask } => {
                self.check(Check::FlushCode, 5, over(code, CODE))?;
                self.check(Check::FlushCodeMask, 5, over(mask, CODE))?;
                self.machine.flush_code(code, mask);
                Ok("K".into())
            }
            Record::FlushPage { code, mask, address } => {
                self.check(Check::FlushPageCode, 5, over(code, CODE))?;
                self.check(Check::FlushPageMask, 5, over(mask, CODE))?;
                self.machine.flush_page(code, mask, address);
                Ok("K".into())
            }
            Record::FlushFrame { frame } => {
                self.check(Check::Frame, 5, over(frame, FRAME))?;
                self.machine.flush_frame(frame);
                Ok("K".into())
            }
            Record::Store { address, value } => {
                self.check(Check::StorePlace, 2, over(address / 4, LAST_LONG))?;
                self.check(Check::StoreAligned, 2, either(address % 4 != 0))?;
                if self.is(Slip::StoreIntoARangeIsRefused) && self.memory.in_range(address) {
                    return Err(2);
                }
                // A slip may have let a long pass that doesn't lie there.
                let _ = self.memory.store(address, value);
                Ok("K".into())
            }
            Record::Range { first, last } => {
                let three = self.check(Check::Crossed, 3, over(first, last));
                let eight = self.check(Check::Seventeenth, 8, over(self.memory.ranges.len() as u32 + 1, RANGES as u32));
                let refused = if self.is(Slip::Refuses8Before3) { eight.and(three) } else { three.and(eight) };
                if refused.is_ok() || refused == Err(3) && self.is(Slip::CrossedRangeIsKept) {
                    self.memory.ranges.push((first, last));
                }
                refused.map(|()| "K".into())
            }
            Record::Probe { flags, address } => {
                let set = |bit: u8| flags & bit != 0;
                let found = self.machine.probe(&self.registers, set(CPU_STATE), set(INSTRUCTION), set(WRITE), address);
                Ok(found.map_or("N".into(), |physical| format!("A {physical:08X} 0")))
            }
            Record::Damaged(_) => unreachable!("decoding gives no damaged record"),
        }
    }

    fn access(&mut self, flags: u8, override_code: u8, address: u32) -> Result<String, u8> {
        if override_code != NONE {
            self.check(Check::Override, 5, over(override_code, CODE))?;
        }
        let access = Access::of(flags, override_code, address);
        let Self { machine, registers, memory, .. } = self;
        let (answer, count) = memory.counted(|memory| machine.translate(registers, &access, memory));
        Ok(format!("{answer} {count}"))
    }
}

/// How far a number is above its limit.
fn over<N: Into<i64>>(number: N, limit: N) -> i64 {
    number.into() - limit.into()
}

/// The same of a check that has no limit: far above it or far below.
fn either(refused: bool) -> i64 {
    if refused { i64::MAX } else { i64::MIN }
}
