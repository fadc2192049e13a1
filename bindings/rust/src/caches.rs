//! The two caches as the library keeps them, and what their numbers mean.

/// Entries of the 68030 cache.
pub const ENTRIES: usize = 22;
/// Slots of the 68040 cache.
pub const SLOTS: usize = 64;

/// The numbers of the 68030 cache.
pub const NUMBERS_030: usize = 3 * ENTRIES + 3;
/// The numbers of the 68040 cache.
pub const NUMBERS_040: usize = 2 * SLOTS;

/// Where the pages, the stamps and the three marks of the 68030 cache stand.
const PAGES: usize = ENTRIES;
const STAMPS: usize = 2 * ENTRIES;
const MARKS: usize = 3 * ENTRIES;
/// Where the bases of the 68040 cache stand.
const BASES: usize = SLOTS;

/// Both caches, one array of numbers each. They may hold any: a call says what it makes
/// of them, and refuses with [`Refusal::Cache`](crate::Refusal::Cache) what it can't use.
/// A host reads them to compare, to save and to restore a state.
#[repr(C)]
#[derive(Clone, Debug, PartialEq, Eq)]
pub struct Caches {
    /// The 68030 cache: of each entry page x 16 + code x 2 + valid; of each entry page
    /// base x 2 + write-protected; of each entry its stamp; then the most recent index,
    /// the clock and the page shift.
    pub c030: [u64; NUMBERS_030],
    /// The 68040 cache: of each slot frame x 4 + supervisor x 2 + valid; of each slot page
    /// base x 4 + write-protected x 2 + supervisor-only.
    pub c040: [u64; NUMBERS_040],
}

/// An entry of the 68030 cache.
#[derive(Clone, Copy, Debug, Default, PartialEq, Eq)]
pub struct Entry {
    /// Whether it is valid.
    pub valid: bool,
    /// Its function code.
    pub code: u8,
    /// Its page: the logical address shifted right by the page shift.
    pub page: u64,
    /// The page's physical base.
    pub base: u64,
    /// Whether the page is write-protected.
    pub write_protected: bool,
    /// When it was last used.
    pub stamp: u64,
}

/// A slot of the 68040 cache.
#[derive(Clone, Copy, Debug, Default, PartialEq, Eq)]
pub struct Slot {
    /// Whether it is valid.
    pub valid: bool,
    /// Its frame: the logical address shifted right by 12 or 13.
    pub frame: u64,
    /// Whether it is a supervisor's.
    pub supervisor: bool,
    /// The page's physical base.
    pub base: u64,
    /// Whether the page is write-protected.
    pub write_protected: bool,
    /// Whether the page is a supervisor's alone.
    pub supervisor_only: bool,
}

impl Caches {
    /// The most recent index of the 68030 cache.
    #[must_use]
    pub fn most_recent(&self) -> u64 {
        self.c030[MARKS]
    }

    /// The clock of the 68030 cache.
    #[must_use]
    pub fn clock(&self) -> u64 {
        self.c030[MARKS + 1]
    }

    /// The page shift of the 68030 cache; 0 before the first insert.
    #[must_use]
    pub fn page_shift(&self) -> u64 {
        self.c030[MARKS + 2]
    }

    /// The entries of the 68030 cache.
    #[must_use]
    pub fn entries(&self) -> [Entry; ENTRIES] {
        std::array::from_fn(|i| {
            let (tag, page) = (self.c030[i], self.c030[PAGES + i]);
            Entry {
                valid: tag & 1 != 0,
                code: (tag >> 1 & 7) as u8,
                page: tag >> 4,
                base: page >> 1,
                write_protected: page & 1 != 0,
                stamp: self.c030[STAMPS + i],
            }
        })
    }

    /// The slots of the 68040 cache.
    #[must_use]
    pub fn slots(&self) -> [Slot; SLOTS] {
        std::array::from_fn(|i| {
            let (key, base) = (self.c040[i], self.c040[BASES + i]);
            Slot {
                valid: key & 1 != 0,
                frame: key >> 2,
                supervisor: key & 2 != 0,
                base: base >> 2,
                write_protected: base & 2 != 0,
                supervisor_only: base & 1 != 0,
            }
        })
    }
}
