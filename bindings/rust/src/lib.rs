//! Address translation of the 68030 and 68040 for an emulator, proved.
//!
//! A [`Pmmu`] owns the two translation caches. Each call borrows the [`Registers`], an
//! [`Access`] and the [`Tables`], and gives the physical address or the fault with the
//! number of table longs that were asked for. Every answer, every count and every state
//! of the caches is that of the definition in `crates/definition/specs/`, for every
//! input: the static library below is proved so. This crate turns numbers into types.
//!
//! ```
//! use pmmu::{Access, Family, Pmmu, Registers, Tables};
//!
//! // A root table at 1000: the page of 02000000 is early, in its second entry.
//! let mut longs = vec![0; 0x800];
//! longs[0x1004 / 4] = 0x0040_0001;
//!
//! let registers = Registers {
//!     family: Family::M68030,
//!     present: true,
//!     enabled: true,
//!     tc: 0x80C0_7760,
//!     crp_limit: 0x8000_0002,
//!     crp_address: 0x1000,
//!     ..Registers::default()
//! };
//! let tables = Tables { longs: &longs, base: 0, ranges: &[] };
//! let mut pmmu = Pmmu::new();
//!
//! let first = pmmu.translate(&registers, &Access::read(0x0200_1ABC), tables)?;
//! assert_eq!((first.address, first.count), (0x0040_1ABC, 1));
//! let again = pmmu.translate(&registers, &Access::read(0x0200_1ABC), tables)?;
//! assert_eq!((again.address, again.count), (0x0040_1ABC, 0));
//! # Ok::<(), pmmu::Error>(())
//! ```
//!
//! The words are those of the paper that decides what is right (document 01), and so are
//! the numbers of refusal. A refusal leaves the caches as they are.

#![deny(missing_docs)]

mod answers;
mod audits;
mod caches;
mod calls;
mod door;
mod given;
mod lists;
pub mod trace;

pub use answers::{Error, Fault, FaultCause, FaultKind, Refusal, Status, Translated};
pub use audits::{Cache, Finding, Stale};
pub use caches::{Caches, Entry, Slot, ENTRIES, NUMBERS_030, NUMBERS_040, SLOTS};
pub use calls::Pmmu;
pub use given::{Access, Family, Range, Registers, Tables};
pub use lists::{Mapping, Mappings, Page};
