//! Table trees that walks find, planted path by path.

use crate::builder::{Builder, CODES, Target};
use crate::memory::LONGS;
use crate::trace::Registers;

/// What planted trees look like: chances in a hundred.
#[derive(Clone)]
pub struct Shape {
    /// A next table or a target in the long format.
    pub long: u64,
    /// A page above the last level.
    pub early: u64,
    /// An indirect descriptor on the last level.
    pub indirect: u64,
    /// A target that is no page.
    pub bad_target: u64,
    pub invalid: u64,
    pub wp: u64,
    pub sup: u64,
}

impl Shape {
    /// Pages at the full depth, nothing forbidden.
    pub const PLAIN: Shape = Shape { long: 0, early: 0, indirect: 0, bad_target: 0, invalid: 0, wp: 0, sup: 0 };
    /// Something of everything.
    pub const MIXED: Shape = Shape { long: 40, early: 12, indirect: 20, bad_target: 20, invalid: 4, wp: 12, sup: 10 };
}

impl Builder {
    /// Chooses roots and plants a tree with this many paths. The registers and
    /// the targets become the current set; the record is pushed as well.
    pub fn tree(&mut self, registers: &Registers, shape: &Shape, paths: usize, codes: &[u8]) {
        let home = self.home();
        let mut registers = registers.clone();
        registers.crp_address = self.root_for(&registers, registers.crp_limit, home, codes[0]);
        registers.srp_address = self.root_for(&registers, registers.srp_limit, home, codes[0]);
        let early_record = self.random.chance(50);
        if early_record {
            self.set(&registers);
        }
        let mut targets = Vec::new();
        for path in 0..paths {
            if path > 0 && self.half_full() {
                break;
            }
            let address = if path == 0 { home } else { self.near(&registers, home) };
            let code = if path < codes.len() { codes[path] } else { self.random.pick(codes) };
            targets.extend(self.path(&registers, address, code, shape));
        }
        if targets.is_empty() {
            targets.push(Target { address: home, code: codes[0], span: 12 });
        }
        if !early_record {
            self.set(&registers);
        }
        self.sets.push((registers, targets));
        self.current = self.sets.len() - 1;
    }

    /// Plants the paths of these addresses under registers that have their roots, and sets them.
    pub fn tree_for(&mut self, registers: &Registers, shape: &Shape, places: &[(u32, u8)]) {
        let targets = places.iter().filter_map(|&(address, code)| self.path(registers, address, code, shape)).collect();
        self.set(registers);
        self.sets.push((registers.clone(), targets));
        self.current = self.sets.len() - 1;
    }

    /// Gives the registers new roots.
    pub fn root(&mut self, registers: &mut Registers, user: bool, supervisor: bool, home: u32) {
        if user {
            registers.crp_address = self.root_for(registers, registers.crp_limit, home, CODES[0]);
        }
        if supervisor {
            registers.srp_address = self.root_for(registers, registers.srp_limit, home, CODES[0]);
        }
    }

    /// Mostly anywhere; the first pages share their number under every page size.
    fn home(&mut self) -> u32 {
        let any = self.random.long();
        match self.random.below(10) {
            0 | 1 => any & 0xFFF,
            2 => any | 0xFFFF_F000,
            3..=5 => any & 0x3FFF_FFFF,
            _ => any,
        }
    }

    /// Plants the path of one more address for the current set.
    pub fn extend(&mut self, address: u32, code: u8, shape: &Shape) {
        let registers = self.sets[self.current].0.clone();
        let target = self.path(&registers, address, code, shape);
        self.sets[self.current].1.extend(target);
    }

    fn path(&mut self, registers: &Registers, address: u32, code: u8, shape: &Shape) -> Option<Target> {
        if registers.family == 30 {
            self.path_030(registers, address, code, shape)
        } else {
            self.path_040(registers, address, code, shape)
        }
    }

    /// A root address whose first entry for `home` lies in memory.
    fn root_for(&mut self, registers: &Registers, limit: u32, home: u32, code: u8) -> u32 {
        if registers.family != 30 {
            return self.fresh_040(0x200, home >> 25) | self.random.long() & 0x1FF;
        }
        let size = if limit & 3 == 3 { 8 } else { 4 };
        let index = match levels_030(registers.tc).first() {
            Some(&level) => index_030(home, registers.tc >> 16 & 15, level, code),
            None => 0,
        };
        self.fresh_030(index, size) | self.random.long() & 15
    }

    /// A table address, a multiple of 16, whose entry `index` is unused memory. The
    /// table itself may start below address 0: it then wraps from the top.
    fn fresh_030(&mut self, index: u32, size: u32) -> u32 {
        let mut entry = 0;
        for _ in 0..20 {
            entry = 16 * self.random.within(8, LONGS as u64 / 4 - 9) as u32 + index * size % 16;
            if self.long_at(entry) == 0 && self.long_at(entry + 4) == 0 {
                break;
            }
        }
        entry.wrapping_sub(index * size)
    }

    /// The same for the 68040's alignments.
    fn fresh_040(&mut self, align: u32, index: u32) -> u32 {
        let mut table = 0;
        for _ in 0..20 {
            table = align * self.random.below(4 * LONGS as u64 / u64::from(align)) as u32;
            if self.long_at(table + index * 4) == 0 {
                break;
            }
        }
        table
    }

    /// A page's address field: mostly anything, sometimes at the top.
    fn physical(&mut self) -> u32 {
        let any = self.random.long();
        if self.random.chance(6) { any | 0xFFFF_F000 } else { any }
    }

    /// Stores one 68030 descriptor.
    fn descriptor(&mut self, at: u32, long: bool, kind: u32, field: u32, kept: u32, shape: &Shape) {
        let wp = u32::from(self.random.chance(shape.wp)) << 2;
        let sup = u32::from(self.random.chance(shape.sup)) << 8;
        let junk = self.random.long();
        if long {
            self.plant(at, junk & !0x107 | sup | wp | kind);
            self.plant(at + 4, field & kept | junk.rotate_left(9) & !kept);
        } else {
            // Below the kept bits of a short descriptor only the type and WP have a meaning.
            let wp = if kept & 4 == 0 { wp } else { 0 };
            self.plant(at, field & kept | junk & !kept & !7 | wp | kind);
        }
    }

    fn path_030(&mut self, registers: &Registers, address: u32, code: u8, shape: &Shape) -> Option<Target> {
        let (limit, root) = root_030(registers, code);
        let mut long = match limit & 3 {
            2 => false,
            3 => true,
            _ => return None,
        };
        let mut table = root & !15;
        let mut consumed = registers.tc >> 16 & 15;
        let levels = levels_030(registers.tc);
        for (number, &level) in levels.iter().enumerate() {
            let index = index_030(address, consumed, level, code);
            consumed += level.unwrap_or(0);
            let target = Target { address, code, span: 32u32.saturating_sub(consumed) };
            let at = table.wrapping_add(index * if long { 8 } else { 4 });
            if !self.inside(at) || !self.inside(at.wrapping_add(4)) {
                return None;
            }
            let last = number + 1 == levels.len();
            let first = self.long_at(at);
            if first & 3 >= 2 && !last {
                table = if long { self.long_at(at + 4) } else { first } & !15;
                long = first & 3 == 3;
                continue;
            }
            if first != 0 {
                return Some(target);
            }
            if self.random.chance(shape.invalid) {
                let field = self.random.long();
                self.descriptor(at, long, 0, field, !7, &Shape { wp: 50, ..*shape });
                return Some(target);
            }
            if last && self.random.chance(shape.indirect) {
                self.indirect_030(at, long, shape);
                return Some(target);
            }
            if last || self.random.chance(shape.early) {
                let field = self.physical();
                self.descriptor(at, long, 1, field, !0xFF, shape);
                return Some(target);
            }
            let next_long = self.random.chance(shape.long);
            let next_index = index_030(address, consumed, levels[number + 1], code);
            table = self.fresh_030(next_index, if next_long { 8 } else { 4 });
            self.descriptor(at, long, if next_long { 3 } else { 2 }, table, !15, shape);
            long = next_long;
        }
        None
    }

    /// An indirect descriptor and its target.
    fn indirect_030(&mut self, at: u32, long: bool, shape: &Shape) {
        let target_long = self.random.chance(shape.long);
        let target = self.fresh_030(0, 16) + 4 * self.random.below(4) as u32;
        self.descriptor(at, long, if target_long { 3 } else { 2 }, target, !3, shape);
        let field = self.physical();
        if self.random.chance(shape.bad_target) {
            let kind = self.random.pick(&[0, 2, 3]);
            self.descriptor(target, target_long, kind, field, !0xFF, &Shape { wp: 50, ..*shape });
        } else {
            self.descriptor(target, target_long, 1, field, !0xFF, shape);
        }
    }

    fn path_040(&mut self, registers: &Registers, address: u32, code: u8, shape: &Shape) -> Option<Target> {
        let supervisor = code & 4 != 0;
        let shift = 12 + (registers.tc >> 14 & 1);
        let target = Target { address, code, span: shift };
        let mut table = if supervisor { registers.srp_address } else { registers.crp_address } & !0x1FF;
        for (index, next_align) in [(address >> 25, 0x200), (address >> 18 & 127, 1 << (20 - shift))] {
            let at = table + index * 4;
            if !self.inside(at) {
                return None;
            }
            let found = self.long_at(at);
            if found & 3 >= 2 {
                table = found & !(next_align - 1);
                continue;
            }
            if found != 0 {
                return Some(target);
            }
            let junk = self.random.long();
            let w = u32::from(self.random.chance(shape.wp)) << 2;
            if self.random.chance(shape.invalid) {
                self.plant(at, junk & !6 | w);
                return Some(target);
            }
            let next_index = if next_align == 0x200 { address >> 18 & 127 } else { page_index(address, shift) };
            table = self.fresh_040(next_align, next_index);
            let kind = self.random.pick(&[2, 3]);
            self.plant(at, table | junk & (next_align - 1) & !7 | w | kind);
        }
        let at = table + page_index(address, shift) * 4;
        if self.inside(at) && self.long_at(at) == 0 {
            self.page_040(at, shape);
        }
        Some(target)
    }

    fn page_040(&mut self, at: u32, shape: &Shape) {
        if self.random.chance(shape.indirect) {
            let target = self.fresh_030(0, 16) + 4 * self.random.below(4) as u32;
            self.plant(at, target | 2);
            let kind = if self.random.chance(shape.bad_target) { self.random.pick(&[0, 2]) } else { 1 };
            return self.leaf_040(target, kind, shape);
        }
        let kind = if self.random.chance(shape.invalid) { 0 } else { self.random.pick(&[1, 3]) };
        self.leaf_040(at, kind, shape);
    }

    fn leaf_040(&mut self, at: u32, kind: u32, shape: &Shape) {
        // W and S often together: their order shows only then.
        let s = u32::from(self.random.chance(shape.sup)) << 7;
        let w = u32::from(self.random.chance(shape.wp + if s != 0 { 25 } else { 0 })) << 2;
        let field = self.physical();
        self.plant(at, field & !0x87 | s | w | kind);
    }

    /// An address that shares most indexes with `home`.
    pub fn near(&mut self, registers: &Registers, home: u32) -> u32 {
        let units = units(registers);
        if units.is_empty() {
            return self.random.long();
        }
        // Later levels more often: the tables there are shared.
        let weights: Vec<u64> = (1..=units.len() as u64).map(|n| n * n).collect();
        let unit = units[self.random.weighted(&weights)];
        let steps = self.random.within(1, 3) as u32;
        let delta = steps.wrapping_shl(unit);
        if self.random.chance(50) { home.wrapping_add(delta) } else { home.wrapping_sub(delta) }
    }
}

/// The levels of a 68030 walk: nothing for the function-code level, else a width.
fn levels_030(tc: u32) -> Vec<Option<u32>> {
    let widths = [tc >> 12 & 15, tc >> 8 & 15, tc >> 4 & 15, tc & 15];
    let by_code = (tc >> 24 & 1 == 1).then_some(None);
    by_code.into_iter().chain(widths.into_iter().take_while(|&width| width != 0).map(Some)).collect()
}

fn index_030(address: u32, consumed: u32, level: Option<u32>, code: u8) -> u32 {
    match level {
        None => code.into(),
        Some(width) => address.wrapping_shl(consumed) >> (32 - width),
    }
}

fn root_030(registers: &Registers, code: u8) -> (u32, u32) {
    if registers.tc >> 25 & 1 == 1 && code & 4 != 0 {
        (registers.srp_limit, registers.srp_address)
    } else {
        (registers.crp_limit, registers.crp_address)
    }
}

fn page_index(address: u32, shift: u32) -> u32 {
    (address >> shift) & ((1 << (18 - shift)) - 1)
}

/// The lowest bit of each level's index.
fn units(registers: &Registers) -> Vec<u32> {
    if registers.family != 30 {
        return vec![25, 18, 12 + (registers.tc >> 14 & 1)];
    }
    let mut consumed = registers.tc >> 16 & 15;
    let mut units = Vec::new();
    for width in levels_030(registers.tc).into_iter().flatten() {
        consumed += width;
        units.push((64 - consumed % 64) % 32);
    }
    units
}

/// The page shift, 12 where there is none.
pub fn page_bits(registers: &Registers) -> u32 {
    if registers.family != 30 {
        return 12 + (registers.tc >> 14 & 1);
    }
    let sum = (registers.tc >> 16 & 15) + levels_030(registers.tc).into_iter().flatten().sum::<u32>();
    if (1..=31).contains(&sum) { 32 - sum } else { 12 }
}
