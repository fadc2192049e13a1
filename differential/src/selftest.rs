//! The bed's own tests: lines written by hand, and the second reading of document
//! 01 with and without slips.

use crate::examples::{Example, FILES, Mended, corners, differences, mended, refusals, twelve, with_states};
use crate::generate;
use crate::original::Original;
use crate::paper::Paper;
use crate::replay::{Machine, replay};
use crate::slips::Slip;
use crate::trace::encode;

/// Traces that the second reading is tried on, if nothing else is said.
pub const TRACES: u64 = 400;

pub fn oracle_lines(bytes: &[u8], states: bool) -> Vec<String> {
    replay(&mut Original::default(), bytes, states).lines
}

/// Whether all is well; what is not goes to standard output.
pub fn selftest(traces: u64) -> bool {
    [examples_hold(), mended_hold(), files_hold(), second_reading_agrees(traces), slips_show()].iter().all(|&well| well)
}

fn examples_hold() -> bool {
    let mut all = twelve();
    all.extend(refusals());
    all.extend(differences());
    let failed = all.iter().filter(|example| !example_holds(example)).count();
    println!("selftest: {} hand-written examples, {failed} failed", all.len());
    failed == 0
}

fn example_holds(example: &Example) -> bool {
    gives(&mut Original::default(), example) && gives(&mut Paper::default(), example)
}

/// Whether each mended row has its lines here, and the original as it is shipped the others.
fn mended_hold() -> bool {
    let all = mended();
    let holds = |row: &Mended| example_holds(&row.here) && gives(&mut Original::as_shipped(), &row.shipped);
    let failed = all.iter().filter(|row| !holds(row)).count();
    println!("selftest: {} mended rows on both sides, {failed} failed", all.len());
    failed == 0
}

/// Whether the machine gives the example's lines.
fn gives(machine: &mut impl Machine, example: &Example) -> bool {
    let lines = lines_of(machine, &encode(&example.records), false);
    let told: Vec<&str> = lines.iter().map(String::as_str).filter(|line| *line != "K").collect();
    let mut wanted = vec!["v1"];
    wanted.extend(example.lines.iter().map(String::as_str));
    wanted.push("end");
    if told != wanted {
        println!("{}: wanted {wanted:?}, got {told:?}", example.name);
    }
    told == wanted
}

fn files_hold() -> bool {
    let mut failed = 0;
    for (bytes, wanted) in FILES {
        let lines = oracle_lines(bytes, false);
        if lines != *wanted {
            println!("file {bytes:02X?}: wanted {wanted:?}, got {lines:?}");
            failed += 1;
        }
    }
    let (records, wanted) = with_states();
    let lines = oracle_lines(&encode(&records), true);
    if lines != wanted {
        println!("states: wanted {wanted:?}, got {lines:?}");
        failed += 1;
    }
    println!("selftest: {} hand-written files, {failed} failed", FILES.len() + 1);
    failed == 0
}

fn lines_of(machine: &mut impl Machine, bytes: &[u8], states: bool) -> Vec<String> {
    replay(machine, bytes, states).lines
}

/// Whether document 01, read a second time, gives the original's lines and states.
fn second_reading_agrees(traces: u64) -> bool {
    let differs = |&seed: &u64| {
        let bytes = generate::trace(seed);
        lines_of(&mut Paper::default(), &bytes, true) != oracle_lines(&bytes, true)
    };
    let wrong: Vec<u64> = (0..traces).filter(differs).collect();
    println!("selftest: the second reading differs on {} of {traces} traces {wrong:?}", wrong.len());
    wrong.is_empty()
}

/// Whether each slip shows: those of the calls on some generated trace, and those of the
/// replay and of the file on some corner or generated trace.
fn slips_show() -> bool {
    let generated: Vec<Traced> = (0..TRACES).map(generate::trace).map(Traced::new).collect();
    let corners: Vec<Traced> = corners().into_iter().map(|(_, bytes)| Traced::new(bytes)).collect();
    let shows = |traces: &[Traced], slip: Slip| traces.iter().any(|trace| trace.shows(slip, true));
    let seen = |slip: Slip| !Slip::OF_CALLS.contains(&slip) && shows(&corners, slip) || shows(&generated, slip);
    let slips = Slip::all();
    let missed: Vec<Slip> = slips.iter().copied().filter(|&slip| !seen(slip)).collect();
    println!("selftest: {} slips tried, {} not seen {missed:?}", slips.len(), missed.len());
    missed.is_empty()
}

/// A trace with the second reading's lines, without and with states.
struct Traced {
    bytes: Vec<u8>,
    lines: Vec<String>,
    lines_and_states: Vec<String>,
}

impl Traced {
    fn new(bytes: Vec<u8>) -> Self {
        let [lines, lines_and_states] = [false, true].map(|states| lines_of(&mut Paper::default(), &bytes, states));
        Traced { bytes, lines, lines_and_states }
    }

    fn shows(&self, slip: Slip, states: bool) -> bool {
        let wanted = if states { &self.lines_and_states } else { &self.lines };
        lines_of(&mut Paper::with(Some(slip)), &self.bytes, states) != *wanted
    }
}

/// For each slip how many of so many traces show it, by lines alone and by states.
pub fn slips(count: u64) {
    let traces: Vec<Traced> = (0..count).map(generate::trace).map(Traced::new).collect();
    println!("{:>7} {:>7} of {count} traces", "lines", "states");
    for slip in Slip::all() {
        let [lines, states] =
            [false, true].map(|states| traces.iter().filter(|trace| trace.shows(slip, states)).count());
        println!("{lines:7} {states:7} {slip:?}");
    }
}
