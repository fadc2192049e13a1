//! The trace of a seed.

use crate::builder::Builder;
use crate::malformed::WAYS;
use crate::themes::{self, THEMES, mixed};
use crate::trace::encode;

/// More bytes than a player holds at once: its buffer has at most 128 KiB.
pub const LONG: usize = 400_000;

/// A trace of 60 to 360 records: five of ten mixed, four of one theme, one malformed.
pub fn trace(seed: u64) -> Vec<u8> {
    let mut b = Builder::new(seed, 0);
    b.limit = b.random.within(60, 360) as usize;
    let tenth = b.random.below(10);
    if tenth < 9 {
        return well_formed(b, tenth);
    }
    b.limit = b.random.within(5, 60) as usize;
    let way = b.random.below(WAYS.len() as u64) as usize;
    WAYS[way].1(&mut b)
}

/// A trace of 200 to 360 records over a working set of 20 to 40 pages.
pub fn working_set(seed: u64) -> Vec<u8> {
    let mut b = Builder::new(seed, 0);
    b.limit = b.random.within(200, 360) as usize;
    themes::working_set(&mut b);
    encode(&b.records)
}

/// Below 5 mixed, else of one theme.
fn well_formed(mut b: Builder, tenth: u64) -> Vec<u8> {
    if tenth < 5 {
        mixed(&mut b);
    } else {
        let theme = b.random.below(THEMES.len() as u64) as usize;
        THEMES[theme].1(&mut b);
    }
    encode(&b.records)
}

/// A trace that no player holds at once: the records of well-formed traces one after
/// the other, those of the seeds from `seed` on.
pub fn long(seed: u64) -> Vec<u8> {
    let mut bytes = encode(&[]);
    for seed in seed.. {
        let mut b = Builder::new(seed, 0);
        b.limit = b.random.within(60, 360) as usize;
        bytes.extend(&well_formed(b, seed % 9)[1..]);
        if bytes.len() >= LONG {
            break;
        }
    }
    bytes
}
