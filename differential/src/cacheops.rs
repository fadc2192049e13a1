//! Random operations on the original's two caches, one line each.

use crate::mmu::{Atc, Atc030};
use crate::original::state_of;
use crate::random::Random;
use std::io::Write;

/// One operation: its number, its arguments (0 where it has fewer than five), and
/// what it answers.
struct Done {
    number: u64,
    arguments: [u64; 5],
    hit: Option<u32>,
}

/// Writes `number a b c d e hit base sum` for each operation: see README.md.
pub fn cacheops(out: &mut impl Write, seed: u64, count: u64) -> std::io::Result<()> {
    let mut random = Random::new(seed);
    let (mut atc, mut atc_030) = (Atc::default(), Atc030::default());
    // One shift for a while, so that the cache fills.
    let mut shift = 12;
    for _ in 0..count {
        let on_030 = random.chance(65);
        if random.below(400) == 0 {
            shift = random.pick(&SHIFTS);
        }
        let done = if on_030 { on_atc_030(&mut random, &mut atc_030, shift) } else { on_atc(&mut random, &mut atc) };
        let state = state_of(&atc, &atc_030);
        let sum = if on_030 { state.sum_030() } else { state.sum_040() };
        let [a, b, c, d, e] = done.arguments;
        let (hit, base) = (u8::from(done.hit.is_some()), done.hit.unwrap_or(0));
        writeln!(out, "{} {a} {b} {c} {d} {e} {hit} {base} {sum}", done.number)?;
    }
    Ok(())
}

const SHIFTS: [u32; 4] = [12, 13, 1, 31];

fn on_atc_030(random: &mut Random, atc: &mut Atc030, usual_shift: u32) -> Done {
    let code = random.pick(&[1, 1, 1, 1, 2, 5, 5, 5, 6, 0]);
    let page = random.below(9) as u32;
    let operation = random.weighted(&[450, 150, 320, 4, 20, 56]);
    // Another shift is a miss for a lookup, and empties the cache for an insert.
    let other_shift = if operation == 2 { random.below(200) == 0 } else { random.chance(4) };
    let shift = if other_shift { random.pick(&SHIFTS) } else { usual_shift };
    let write = random.chance(30);
    let base = random.long();
    let mask = random.pick(&[7, 7, 7, 4, 3, 0, 1]);
    let key = [u64::from(code), page.into(), shift.into()];
    match operation {
        0 => Done {
            number: 1,
            arguments: [key[0], key[1], key[2], write.into(), 0],
            hit: atc.lookup(code, page, shift, write),
        },
        1 => Done {
            number: 2,
            arguments: [key[0], key[1], key[2], write.into(), 0],
            hit: atc.probe(code, page, shift, write),
        },
        2 => {
            atc.insert(code, page, shift, base, write);
            Done { number: 3, arguments: [key[0], key[1], key[2], base.into(), write.into()], hit: None }
        }
        3 => {
            atc.flush_all();
            Done { number: 4, arguments: [0; 5], hit: None }
        }
        4 => {
            atc.flush_fc(code, mask);
            Done { number: 5, arguments: [key[0], mask.into(), 0, 0, 0], hit: None }
        }
        _ => {
            let logical = (page << usual_shift) | base & ((1 << usual_shift) - 1);
            atc.flush_fc_page(code, mask, logical);
            Done { number: 6, arguments: [key[0], mask.into(), logical.into(), 0, 0], hit: None }
        }
    }
}

fn on_atc(random: &mut Random, atc: &mut Atc) -> Done {
    // Few slots, few frames for each.
    let frame = random.below(6) as u32 + 64 * random.below(2) as u32;
    let supervisor = random.chance(30);
    let (write, wp, sup) = (random.chance(30), random.chance(25), random.chance(25));
    let base = random.long() & !0xFFF;
    let wide = u64::from(frame);
    match random.weighted(&[500, 400, 8, 92]) {
        0 => Done {
            number: 11,
            arguments: [wide, supervisor.into(), write.into(), 0, 0],
            hit: atc.lookup(frame, supervisor, write),
        },
        1 => {
            atc.insert(frame, supervisor, base, wp, sup);
            Done { number: 12, arguments: [wide, supervisor.into(), base.into(), wp.into(), sup.into()], hit: None }
        }
        2 => {
            atc.flush_all();
            Done { number: 13, arguments: [0; 5], hit: None }
        }
        _ => {
            atc.flush_page(frame);
            Done { number: 14, arguments: [wide, 0, 0, 0, 0], hit: None }
        }
    }
}
