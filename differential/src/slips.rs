//! Slips: mistakes that a port of document 01 could make, one at a time. `paper.rs`
//! makes those of the calls, `replay.rs` those of the refusals and of the file.

use crate::trace::{KINDS, flags_of};

/// Declares the slips that have a name alone, and those with a part.
macro_rules! slips {
    (of_calls { $($call:ident),* $(,)? } of_the_replay { $($replay:ident),* $(,)? }) => {
        #[derive(Clone, Copy, Debug, PartialEq, Eq)]
        pub enum Slip {
            $($call,)*
            $($replay,)*
            /// A check that is left out.
            Unchecked(Check),
            /// A check that is left out where the PMMU is off.
            UncheckedWhenOff(Check),
            /// A check that lets the first number that is refused pass.
            Looser(Check),
            /// A check that refuses the last number that passes.
            Stricter(Check),
            /// A record of this kind whose flags have this bit, read without it.
            FlagIsIgnored(u8, u8),
            /// A record of this kind with a byte too many, read without it.
            LongIsTaken(u8),
            /// A record of this kind with a byte too few, read with a 0 there.
            ShortIsTaken(u8),
            /// An unknown kind, read as a flush of all.
            KindIsTaken(u8),
            /// A bit of every kind that is not read.
            KindBitIsIgnored(u8),
            /// A record of this kind with wrong flags that gets another refusal before 7.
            RefusedBeforeMalformed(u8),
        }

        impl Slip {
            /// Those of the calls.
            pub const OF_CALLS: &[Slip] = &[$(Slip::$call),*];
            const OF_THE_REPLAY: &[Slip] = &[$(Slip::$replay),*];
        }
    };
}

slips! {
    of_calls {
        // Document 01's easy slips, and what it shuts out.
        CachesBeforeTheSTest,
        NoInsertOnAProtectedWrite,
        SBeforeW,
        TargetCountsAsALevel,
        FlushAllDoesNothing,
        FlushAllSparesThe040,
        FlushCodeDoesNothing,
        FlushPageDoesNothing,
        FlushFrameDoesNothing,
        FlushPageActsOnce,
        LoadDoesNothing,
        NeverStoresOnThe030,
        NeverStoresOnThe040,
        FailingFetchIsNotCounted,
        // Transparent registers.
        NoAddressMask,
        CodeMaskInverted,
        TtBitsOfDocument01,
        CodeBaseFrom10To8,
        CodeMaskOneUp,
        RwInverted,
        RwIgnored,
        RwmIgnored,
        TransparentUsesTheAccess,
        TransparentIgnoresTheOverride,
        OverrideKeepsInstruction,
        SField3IsSupervisor,
        SField2MatchesNothing,
        ItrForData,
        Family60Matches,
        // The 68030 walk.
        SrpWithoutSre,
        SreForUser,
        RootType1IsShort,
        RootMaskOfThe040,
        CodeLevelConsumes,
        RawOverrideInTheWalk,
        WidthsGoOnAfterZero,
        IndexOverflows,
        InvalidAddsWp,
        PageAddsNoWp,
        TableAddsNoWp,
        SInShortDescriptors,
        NoSInTables,
        FormatOfTheRootStays,
        IndirectAddsItsWp,
        BadTargetAddsNoWp,
        TargetOfAnyType,
        TargetKeepsItsFormat,
        TargetMaskFff0,
        FieldMaskOf4K,
        FieldOrOffset,
        OffsetAtConsumed32,
        FaultNamesTheDescriptor,
        BadTargetIsAPageFault,
        LongInvalidIsOneFetch,
        ConfigurationIsAnAccessFault,
        // PLOAD, PTEST and the probe.
        LoadWithTheWalksCode,
        LoadDropsNothingWithoutAShift,
        LoadIgnoresTransparent,
        LoadMatchesAsARead,
        LoadCachesSForUser,
        LoadWhenOff,
        TestNeedsThePmmu,
        TestLevel0Walks,
        TestMatchesAsARead,
        TestSForSupervisor,
        TestNamesTheIndirectOne,
        TestMasksTheRoot,
        TestBusErrorDropsW,
        TestFailingFetchIsALevel,
        TestCaches,
        ProbeRecords,
        ProbeWhenOffIsTheAddress,
        ProbeIgnoresTransparent,
        ProbeMatchesAsARead,
        ProbeIgnoresWp,
        // The 68040 walk.
        CrpForSupervisor,
        PageTableMaskStays,
        PageIndexStays,
        Target2IsInvalid,
        IndirectTwice,
        IndirectOneAddsW,
        WOfThePageAlone,
        SOfTables,
        CachesForbidden,
        PointersSwapped,
        // The caches.
        KeyWithoutSupervisor,
        KeyWithoutCode,
        ForbiddenHitPasses,
        ForbiddenHitDrops,
        FlushFrameOnePrivilege,
        FlushFrameWholeSlot,
        HitAddsOnThe040,
        HitOrsOnThe030,
        BaseLosesLowBits,
        ShiftIgnored,
        NewShiftKeepsEntries,
        NewShiftClearsNumbers,
        LookupSetsTheShift,
        RecordsNoUse,
        RecordsAlways,
        RecordsOnTheMostRecent,
        ProtectedHitRecordsNothing,
        InsertKeepsTheStamp,
        InsertTwice,
        VictimIsTheLargestStamp,
        VictimBeforeInvalid,
        InsertIsNotMostRecent,
        FlushByMaskInverted,
        FlushPageIgnoresCode,
        LoadDropsAtTcsShift,
        FlushClearsNumbers,
        TcsPageSizeField,
        OnlyTheFirstByteOfALong,
        OnlyTheLastByteOfALong,
        RangesAreHalfOpen,
        // Whether there is a PMMU that is on.
        OnWithoutPresent,
        OnWithoutEnabled,
        LoadDropsWhenOff,
        ProbeLooksUpWhenOff,
        EnableBitIsRead,
        // More of the transparent registers and the override.
        OnlyTt0,
        OnlyTt1,
        BothTtsMustMatch,
        Tt1OnlyWithoutTt0,
        OnlyTheFirstOfThePair,
        OnlyTheSecondOfThePair,
        BothOfThePairMustMatch,
        OverrideKeepsSupervisor,
        Override3IsProgram,
        CacheBeforeTransparent,
        // More of the walks.
        IsIgnoredByTheShift,
        IsIgnoredByTheWalk,
        Sum32HasAShift,
        Sum31HasNoShift,
        BusErrorNamesTheAccess,
        BusErrorIsAnAccessFault,
        ConfigurationNamesTheRoot,
        TargetBusErrorIsABadTarget,
        TargetBusErrorNamesTheIndirectOne,
        Target040BusErrorIsABadTarget,
        Target040BusErrorNamesTheIndirectOne,
        SrpForUserOnThe040,
        RootEntryOfType1,
        PointerOfType1,
        RootEntryOfType3IsInvalid,
        PointerOfType3IsInvalid,
        PageOfType3IsInvalid,
        OutsideReadsZero,
        LongIsOneFetch,
        LongIndexTimes4,
        TableKeepsLowBits,
        CodeLevelIsNoLevel,
        FaultNamesThePage,
        RootKeepsLowBitsOnThe040,
        PointerTableKeepsLowBits,
        FrameOf4K,
        LastRangeIsNotLookedAt,
        // More of PLOAD and PTEST.
        LoadForgetsWp,
        LoadForAWriteSkipsWp,
        TestWOnlyForAWrite,
        TestLevel0WithoutATtIsInvalid,
        TestGoesOneLevelOn,
        TestOfATransparentAddress,
        LoadDropsOnlyForAPage,
        // More of the caches.
        StampsBeforeTheClock,
        UnrecordedInsertIsNotStamped,
        MaskIsIgnored,
        UnrecordedHitIsMostRecent,
        HitIsNotMostRecent,
        ProtectedHitDrops,
        InsertKeepsTheOldNumbers,
        FreePlaceBeforeTheSameKey,
        LastFreePlace,
        FlushClearsStamps,
        FlushAllForgetsTheMostRecent,
        FlushAllForgetsTheClock,
        FlushAllForgetsTheShift,
        FlushAllClearsSlots,
        FlushFrameClearsTheSlot,
    }
    of_the_replay {
        // Its state and its refusals.
        StartsAsFamily40,
        StartsOn,
        RefusedRegistersAreTaken,
        CrossedRangeIsKept,
        StoreIntoARangeIsRefused,
        LoadRefuses5Before6,
        TestRefuses5Before6,
        Refuses8Before3,
        // The file.
        EmptyFileIsTaken,
        AnyVersionIsTaken,
        HalfLengthIsTheEnd,
        CutBodyIsTheEnd,
        GoesOnAfterMalformed,
        ZeroLengthIsTaken,
    }
}

/// A check behind a refusal, of those that a trace can meet.
#[derive(Clone, Copy, Debug, PartialEq, Eq)]
pub enum Check {
    Family,
    Override,
    LoadFamily,
    LoadCode,
    TestFamily,
    TestCode,
    TestLevel,
    FlushCode,
    FlushCodeMask,
    FlushPageCode,
    FlushPageMask,
    Frame,
    StorePlace,
    StoreAligned,
    Crossed,
    Seventeenth,
}

impl Check {
    const ALL: &[Check] = &[
        Check::Family,
        Check::Override,
        Check::LoadFamily,
        Check::LoadCode,
        Check::TestFamily,
        Check::TestCode,
        Check::TestLevel,
        Check::FlushCode,
        Check::FlushCodeMask,
        Check::FlushPageCode,
        Check::FlushPageMask,
        Check::Frame,
        Check::StorePlace,
        Check::StoreAligned,
        Check::Crossed,
        Check::Seventeenth,
    ];

    /// Those of the calls that do nothing with the PMMU off, but for PTEST.
    const OF_CALLS: &[Check] =
        &[Check::Override, Check::LoadFamily, Check::LoadCode, Check::TestFamily, Check::TestCode, Check::TestLevel];

    /// Whether it compares with a limit.
    fn has_a_limit(self) -> bool {
        !matches!(self, Check::Family | Check::LoadFamily | Check::TestFamily | Check::StoreAligned)
    }
}

/// Kinds that there are not: beside the known ones, and each with one high bit.
pub const UNKNOWN: &[u8] = &[0, 0x0C, 0x0F, 0xFF];
pub const HIGH_BITS: std::ops::Range<u8> = 4..8;

impl Slip {
    pub fn all() -> Vec<Slip> {
        let limits = || Check::ALL.iter().copied().filter(|check| check.has_a_limit());
        let kinds = || KINDS.iter().map(|&(kind, _)| kind);
        let flagged = || kinds().filter(|&kind| flags_of(kind).is_some());
        let mut all = [Slip::OF_CALLS, Slip::OF_THE_REPLAY].concat();
        all.extend(Check::ALL.iter().map(|&check| Slip::Unchecked(check)));
        all.extend(Check::OF_CALLS.iter().map(|&check| Slip::UncheckedWhenOff(check)));
        all.extend(limits().map(Slip::Looser));
        all.extend(limits().map(Slip::Stricter));
        all.extend(flagged().flat_map(|kind| wrong_bits(kind).map(move |bit| Slip::FlagIsIgnored(kind, bit))));
        all.extend(kinds().map(Slip::LongIsTaken));
        // Kind 05 has no byte to lose but its kind: see ZeroLengthIsTaken.
        all.extend(kinds().filter(|&kind| kind != 5).map(Slip::ShortIsTaken));
        all.extend(UNKNOWN.iter().map(|&kind| Slip::KindIsTaken(kind)));
        all.extend(HIGH_BITS.map(Slip::KindBitIsIgnored));
        // A probe has no number that is refused.
        all.extend(flagged().filter(|&kind| kind != 0x0B).map(Slip::RefusedBeforeMalformed));
        all
    }

    /// The slip of this name, as `Debug` writes it.
    pub fn named(name: &str) -> Option<Slip> {
        Slip::all().into_iter().find(|slip| format!("{slip:?}") == name)
    }
}

/// The bits that a kind's flags must not have.
pub fn wrong_bits(kind: u8) -> impl Iterator<Item = u8> {
    let allowed = flags_of(kind).map_or(0xFF, |(_, allowed)| allowed);
    (0..8).filter(move |bit| allowed >> bit & 1 == 0)
}
