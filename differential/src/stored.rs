//! The stored cases without the original: the second reading gives their lines and
//! states, and with each slip it does not. Beside them stand the lines of those that a
//! request changed, as they were.

use crate::paper::Paper;
use crate::replay::replay;
use crate::slips::Slip;
use std::collections::{BTreeMap, BTreeSet};
use std::path::Path;
use std::{fs, io};

/// A trace, with its lines and states as the original gave them.
pub struct Case {
    pub name: String,
    pub trace: Vec<u8>,
    pub lines: Vec<String>,
}

/// Lines that a mended rule changed, as document 01 alone has them: a folder beside data/
/// for each rule, whose name says why, and the slip that gives them.
const UNMENDED: &[(&str, Slip)] = &[("tt_bits_of_document_01", Slip::TtBitsOfDocument01)];

impl Case {
    /// Whether the slip shows: by a line, or by a state.
    pub fn shows(&self, slip: Slip) -> bool {
        !self.holds_for(&mut Paper::with(Some(slip)))
    }

    fn holds_for(&self, paper: &mut Paper) -> bool {
        replay(paper, &self.trace, true).lines == self.lines
    }

    /// The trace of data/, with the lines that this folder has for it.
    fn read(data: &Path, lines: &Path, name: &str) -> io::Result<Self> {
        let trace = fs::read(data.join(format!("{name}.trace")))?;
        let text = fs::read_to_string(lines.join(format!("{name}.states")))?;
        Ok(Case { name: name.into(), trace, lines: text.lines().map(String::from).collect() })
    }
}

/// The cases whose lines a folder has, with the traces of data/.
fn cases_of(folder: &Path, lines: &str) -> io::Result<Vec<Case>> {
    let [data, lines] = ["data", lines].map(|part| folder.join(part));
    let read =
        |name: &String| Case::read(&data, &lines, name).map_err(|error| io::Error::other(format!("{name}: {error}")));
    names(&lines)?.iter().map(read).collect()
}

/// The stored traces, by their names.
pub fn stored_traces(folder: &Path) -> io::Result<BTreeMap<String, Vec<u8>>> {
    Ok(cases_of(folder, "data")?.into_iter().map(|case| (case.name, case.trace)).collect())
}

/// Whether the second reading with each rule's slip gives the lines that were kept for it,
/// and without it others.
fn unmended_hold(folder: &Path) -> io::Result<bool> {
    let mut well = true;
    for (rule, slip) in UNMENDED {
        let cases = cases_of(folder, rule)?;
        let held = |case: &&Case| case.shows(*slip) || case.holds_for(&mut Paper::default());
        let failed: Vec<&str> = cases.iter().filter(held).map(|case| case.name.as_str()).collect();
        println!("stored: {} cases with the lines of {rule}, {} failed {failed:?}", cases.len(), failed.len());
        well &= failed.is_empty() && !cases.is_empty();
    }
    Ok(well)
}

/// Whether the cases of the folder hold for the second reading, and show every slip.
pub fn stored(folder: &Path) -> io::Result<bool> {
    let cases = cases_of(folder, "data")?;
    let arguments = fs::read_to_string(folder.join("args"))?;
    let listed = arguments.lines().eq(cases.iter().map(|case| case.name.as_str()));
    if !listed {
        println!("stored: args doesn't list the cases of data/ in their order");
    }
    let differing = cases.iter().filter(|case| !case.holds_for(&mut Paper::default()));
    let differing: Vec<&str> = differing.map(|case| case.name.as_str()).collect();
    let slips = Slip::all();
    let unseen: Vec<Slip> = slips.iter().copied().filter(|&slip| !cases.iter().any(|case| case.shows(slip))).collect();
    println!("stored: the second reading differs on {} of {} cases {differing:?}", differing.len(), cases.len());
    println!("stored: {} slips tried, {} not seen {unseen:?}", slips.len(), unseen.len());
    Ok(listed && differing.is_empty() && unseen.is_empty() && unmended_hold(folder)?)
}

/// The names of the files of a folder, without what stands behind their dots.
fn names(data: &Path) -> io::Result<BTreeSet<String>> {
    let files = fs::read_dir(data)?.map(|entry| Ok(entry?.path()));
    let stems =
        files.map(|path: io::Result<_>| Ok(path?.file_stem().unwrap_or_default().to_string_lossy().into_owned()));
    stems.collect()
}
