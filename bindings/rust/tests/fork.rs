//! 400 workers, each a process of its own forked from one warm snapshot. From a snapshot
//! that the audit finds clean each meets its own guard, and no other's. From one whose
//! guard was set without its flush none does: the audit names that guard before.

use pmmu::{Access, Error, Family, FaultCause, Pmmu, Registers, Tables, ENTRIES};

const WORKERS: u32 = 400;
const ROOT: u32 = 0x1000;
const POINTERS: u32 = 0x1200;
const PAGE_TABLES: u32 = 0x1400;

/// A process of its own. What it does must not end the test: its answer is its exit status.
mod process {
    extern "C" {
        fn fork() -> i32;
        fn waitpid(pid: i32, status: *mut i32, options: i32) -> i32;
        fn _exit(status: i32) -> !;
    }

    /// Forks a child that ends with what `work` gives.
    pub fn forked(work: impl FnOnce() -> bool) -> i32 {
        // SAFETY: the child runs `work` over its own copy of memory and leaves by `_exit`,
        // so nothing of the parent's is run or dropped twice.
        let pid = unsafe { fork() };
        assert!(pid >= 0, "fork failed");
        if pid == 0 {
            let met = std::panic::catch_unwind(std::panic::AssertUnwindSafe(work));
            // SAFETY: it ends this process alone.
            unsafe { _exit(met.map_or(2, i32::from)) }
        }
        pid
    }

    /// What that child gave.
    pub fn ended(pid: i32) -> bool {
        let mut status = 0;
        // SAFETY: `status` is a number to write to, lent for the call.
        let waited = unsafe { waitpid(pid, &mut status, 0) };
        assert_eq!(waited, pid);
        assert!(status == 0 || status == 1 << 8, "a worker ended with status {status:04X}");
        status != 0
    }
}

fn registers() -> Registers {
    Registers {
        family: Family::M68030,
        present: true,
        enabled: true,
        tc: 0x80C0_7760,
        crp_limit: 0x8000_0002,
        crp_address: ROOT,
        ..Registers::default()
    }
}

fn place(address: u32) -> usize {
    address as usize / 4
}

/// A page for each worker: 64 to a page table, at 00400000 and above.
struct Snapshot {
    pmmu: Pmmu,
    longs: Vec<u32>,
}

impl Snapshot {
    /// Every page mapped, and the last read of them cached.
    fn warm() -> Self {
        let mut longs = vec![0; place(PAGE_TABLES) + 512];
        longs[place(ROOT)] = POINTERS | 2;
        for table in 0..8 {
            longs[place(POINTERS) + table as usize] = PAGE_TABLES + (table << 8) | 2;
        }
        for page in 0..WORKERS {
            longs[place(PAGE_TABLES) + page as usize] = 0x0040_0001 + (page << 12);
        }
        let mut snapshot = Snapshot { pmmu: Pmmu::new(), longs };
        for page in 0..WORKERS {
            assert!(!snapshot.faults(page), "page {page} is mapped");
        }
        snapshot
    }

    fn tables(&self) -> Tables<'_> {
        Tables { longs: &self.longs, base: 0, ranges: &[] }
    }

    /// Whether a read of the page faults.
    fn faults(&mut self, page: u32) -> bool {
        let tables = Tables { longs: &self.longs, base: 0, ranges: &[] };
        match self.pmmu.translate(&registers(), &Access::read(page << 12), tables) {
            Ok(found) => {
                assert_eq!(found.address, 0x0040_0000 + (page << 12));
                false
            }
            Err(Error::Fault(fault)) => {
                assert_eq!((fault.cause, fault.address), (FaultCause::PageFault, page << 12));
                true
            }
            Err(Error::Refused(refusal)) => panic!("{refusal}"),
        }
    }

    /// The guard's descriptor alone: the cache is not told.
    fn guard(&mut self, page: u32) {
        self.longs[place(PAGE_TABLES) + page as usize] = 0;
    }

    fn flush(&mut self, page: u32) {
        self.pmmu.flush_page(0, 0, page << 12).expect("code and mask are at most 7");
    }

    /// How many of 400 workers, each a process with its own copy of this snapshot, say yes.
    fn workers(&mut self, work: impl Fn(&mut Snapshot, u32) -> bool) -> usize {
        let pids: Vec<i32> = (0..WORKERS).map(|worker| process::forked(|| work(self, worker))).collect();
        pids.into_iter().filter(|&pid| process::ended(pid)).count()
    }
}

/// One test: what it forks is this process, with no other thread at work.
#[test]
fn every_worker_meets_its_guard_from_a_clean_snapshot_and_none_from_a_stale_one() {
    let mut snapshot = Snapshot::warm();
    assert_eq!(snapshot.pmmu.audit(&registers(), snapshot.tables()), Ok(vec![]), "clean: fork");

    // Each worker's own guard: it warms its page, clears the descriptor in its own memory and flushes.
    let met = snapshot.workers(|own, worker| {
        assert!(!own.faults(worker), "its page is mapped");
        own.guard(worker);
        own.flush(worker);
        (0..WORKERS).filter(|&page| own.faults(page)).eq([worker])
    });
    assert_eq!(met, WORKERS as usize, "each its own guard and no other's");
    assert_eq!(snapshot.pmmu.audit(&registers(), snapshot.tables()), Ok(vec![]), "no worker changed the snapshot");

    // The snapshot's guard, on a page that its cache has, set without the flush.
    let guard = WORKERS - ENTRIES as u32 / 2;
    snapshot.guard(guard);
    let stale = snapshot.pmmu.audit(&registers(), snapshot.tables()).expect("no refusal");
    assert_eq!(stale.len(), 1, "{stale:?}");
    assert_eq!((stale[0].address, stale[0].code), (guard << 12, 1), "the audit names the guard");
    assert_eq!(stale[0].read.tables.expect_err("the guard").cause, FaultCause::PageFault);
    let met = snapshot.workers(|own, _| own.faults(guard));
    assert_eq!(met, 0, "every worker runs past it");

    // With the flush the audit is clean again, and every worker meets it.
    snapshot.flush(guard);
    assert_eq!(snapshot.pmmu.audit(&registers(), snapshot.tables()), Ok(vec![]));
    let met = snapshot.workers(|own, _| own.faults(guard));
    assert_eq!(met, WORKERS as usize);
}
