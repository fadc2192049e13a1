//! A trace as a dump: what is kept at its end.

use crate::memory::{LONGS, TableMemory};
use crate::trace::{Next, Record, Registers, next_body};

/// Ranges that a program keeps.
const RANGES: usize = 16;

/// Registers, longs and ranges at the end of a trace. Of its records only those that keep
/// something are looked at; one that is refused keeps nothing. Refusal 7 where it is malformed.
pub fn kept(bytes: &[u8]) -> Result<(Registers, TableMemory), u8> {
    let (mut registers, mut memory) = (Registers::at_start(), TableMemory::of_program());
    if bytes.first() != Some(&1) {
        return Err(7);
    }
    let mut at = 1;
    loop {
        let (body, next) = match next_body(bytes, at) {
            Next::Body(body, next) => (body, next),
            Next::Short => return Err(7),
            Next::End => return Ok((registers, memory)),
        };
        at = next;
        match Record::decode(body).ok_or(7)? {
            Record::Registers(new) if [30, 40, 60].contains(&new.family) => registers = new,
            Record::Store { address, value } if (address / 4) < LONGS as u32 => {
                // An address that is no multiple of 4 has no place.
                let _ = memory.store(address, value);
            }
            Record::Range { first, last } if first <= last && memory.ranges.len() < RANGES => {
                memory.ranges.push((first, last));
            }
            _ => {}
        }
    }
}
