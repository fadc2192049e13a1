//! Table memory: lent longs from a base address, and bus-error ranges.

/// The program's memory: 8,192 longs at 0.
pub const LONGS: usize = 8192;

pub struct TableMemory {
    pub base: u32,
    pub longs: Vec<u32>,
    /// First and last address of each range, both inside.
    pub ranges: Vec<(u32, u32)>,
    /// The longs that a call asked for, failing ones included.
    pub asked: Vec<u32>,
}

impl TableMemory {
    pub fn new(base: u32, longs: Vec<u32>, ranges: Vec<(u32, u32)>) -> Self {
        TableMemory { base, longs, ranges, asked: Vec::new() }
    }

    pub fn of_program() -> Self {
        Self::new(0, vec![0; LONGS], Vec::new())
    }

    /// The place of the long at this address, if it lies in the longs.
    fn place(&self, address: u32) -> Option<usize> {
        let offset = address.checked_sub(self.base)?;
        let place = (offset / 4) as usize;
        (offset % 4 == 0 && place < self.longs.len()).then_some(place)
    }

    /// Whether any of the long's four bytes lies in a range.
    pub fn in_range(&self, address: u32) -> bool {
        let (first_byte, last_byte) = (u64::from(address), u64::from(address) + 3);
        self.ranges.iter().any(|&(first, last)| u64::from(first) <= last_byte && first_byte <= u64::from(last))
    }

    /// The long at this address, unless it fails.
    pub fn read(&self, address: u32) -> Option<u32> {
        let place = self.place(address)?;
        (!self.in_range(address)).then(|| self.longs[place])
    }

    /// Asks for one long.
    pub fn fetch(&mut self, address: u32) -> Option<u32> {
        self.asked.push(address);
        self.read(address)
    }

    /// Stores one long, if it lies in the longs.
    pub fn store(&mut self, address: u32, value: u32) -> Option<()> {
        let place = self.place(address)?;
        self.longs[place] = value;
        Some(())
    }

    /// What `call` gives, with the number of longs that it asked for.
    pub fn counted<T>(&mut self, call: impl FnOnce(&mut Self) -> T) -> (T, u32) {
        self.asked.clear();
        let answer = call(self);
        (answer, self.asked.len() as u32)
    }
}
