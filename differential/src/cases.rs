//! Stored cases: small traces, by theme and by hand, with the original's lines and
//! states.

use crate::builder::Builder;
use crate::examples::{Example, corners, differences, mended, twelve};
use crate::malformed::WAYS;
use crate::random::Random;
use crate::selftest::oracle_lines;
use crate::slips::Slip;
use crate::stored::{Case, stored_traces};
use crate::themes::THEMES;
use crate::trace::{encode, stretches};
use std::collections::BTreeSet;
use std::path::Path;
use std::{fs, io};

/// Records of a case, at most.
const LIMIT: usize = 60;

/// What every set of cases must hold: each kind of record, each refusal that a trace
/// can meet (all but 4), each fault that the Rust can give, each kind of line.
const COVERED: &[&str] = &[
    "kind 1", "kind 2", "kind 3", "kind 4", "kind 5", "kind 6", "kind 7", "kind 8", "kind 9", "kind 10", "kind 11",
    "R 1", "R 2", "R 3", "R 5", "R 6", "R 7", "R 8", "F 0 3", "F 2 0", "F 2 1", "F 2 2", "F 2 3", "F 2 4", "F 2 5",
    "F 3 6", "A", "L", "N", "T", "K", "v1", "end",
];

/// Of so many candidates for each theme the best is kept.
const CANDIDATES: u64 = 40;

/// The cases so far, and what they show.
struct Cases {
    cases: Vec<Case>,
    covered: BTreeSet<String>,
    /// Slips that no case has shown.
    unseen: Vec<Slip>,
}

impl Cases {
    fn new() -> Self {
        Cases { cases: Vec::new(), covered: BTreeSet::new(), unseen: Slip::all() }
    }

    /// How much a case would add.
    fn gain(&self, case: &Case) -> usize {
        let slips = self.unseen.iter().filter(|&&slip| case.shows(slip)).count();
        let is_in = what_is_in(case);
        slips + COVERED.iter().filter(|what| is_in.contains(**what) && !self.covered.contains(**what)).count()
    }

    fn add(&mut self, case: Case) {
        self.covered.extend(what_is_in(&case));
        self.unseen.retain(|&slip| !case.shows(slip));
        self.cases.push(case);
    }

    /// Says what the cases cover; whether that is all of it.
    fn tell(&self) -> bool {
        let missing: Vec<&&str> = COVERED.iter().filter(|what| !self.covered.contains(**what)).collect();
        println!("{} cases written; not covered: {missing:?}", self.cases.len());
        println!("{} slips, of which these are not shown: {:?}", Slip::all().len(), self.unseen);
        missing.is_empty() && self.unseen.is_empty()
    }

    /// Writes data/, args with the names, and what crates/cases must write.
    fn write(&mut self, folder: &Path) -> io::Result<()> {
        let data = folder.join("data");
        fs::create_dir_all(&data)?;
        self.cases.sort_by(|a, b| a.name.cmp(&b.name));
        let (mut arguments, mut report) = (String::new(), String::new());
        let mut all = [0, 0];
        for Case { name, trace, lines } in &self.cases {
            fs::write(data.join(format!("{name}.trace")), trace)?;
            fs::write(data.join(format!("{name}.states")), lines.join("\n") + "\n")?;
            let states = lines.iter().filter(|line| line.starts_with("S ")).count();
            let counts = [lines.len() - states, states];
            arguments += &format!("{name}\n");
            report += &format!("{name}: {}\n", told(counts));
            all = [all[0] + counts[0], all[1] + counts[1]];
        }
        report += &format!("{} cases, {}\n", self.cases.len(), told(all));
        fs::write(folder.join("args"), arguments)?;
        fs::write(folder.join("stdout"), report)
    }
}

fn told([lines, states]: [usize; 2]) -> String {
    format!("{lines} lines, {states} states, 0 differ")
}

fn case(name: String, trace: Vec<u8>) -> Case {
    let lines = oracle_lines(&trace, true);
    Case { name, trace, lines }
}

/// Writes so many cases, and says what they cover. The twelve examples and the ways
/// of refusal 7 come first, then the themes, again and again with other numbers; last those
/// by hand, whatever the count.
pub fn cases(folder: &Path, count: usize, seed: u64) -> io::Result<bool> {
    let mut cases = Cases::new();
    let mut seeds = Random::new(seed);
    let fixed = named(twelve()).chain(malformed(&mut seeds)).take(count).collect::<Vec<_>>();
    let left = count - fixed.len();
    for (name, trace) in fixed {
        cases.add(case(name, trace));
    }
    for n in 0..left {
        let (name, theme) = THEMES[n % THEMES.len()];
        let name = match n / THEMES.len() {
            0 => name.to_string(),
            round => format!("{name}_{}", round + 1),
        };
        let candidates = (0..CANDIDATES).map(|_| case(name.clone(), by_theme(theme, seeds.next())));
        let best = candidates.max_by_key(|candidate| cases.gain(candidate)).expect("a candidate");
        cases.add(best);
    }
    let before = cases.unseen.len();
    for (name, trace) in by_hand() {
        cases.add(case(name, trace));
    }
    cases.write(folder)?;
    println!("{before} slips not shown without those by hand");
    Ok(cases.tell())
}

/// Makes the lines of the stored traces anew, which stay as they are, and adds those by
/// hand that are not stored yet.
pub fn renew(folder: &Path) -> io::Result<bool> {
    let mut cases = Cases::new();
    let mut traces = stored_traces(folder)?;
    for (name, trace) in by_hand() {
        let kept = traces.entry(name.clone()).or_insert_with(|| trace.clone());
        if *kept != trace {
            println!("{name} is stored with other bytes: what is changed needs a name of its own");
            return Ok(false);
        }
    }
    for (name, trace) in traces {
        cases.add(case(name, trace));
    }
    cases.write(folder)?;
    Ok(cases.tell())
}

/// The traces by hand beside the twelve: the inputs of docs/DIFFERENCES.md, and the corners.
fn by_hand() -> impl Iterator<Item = (String, Vec<u8>)> {
    let mended = mended().into_iter().map(|row| row.here).collect();
    let called = |kind: &'static str| move |(name, trace): (String, Vec<u8>)| (format!("{kind}_{name}"), trace);
    named(differences()).map(called("difference")).chain(named(mended).map(called("mended"))).chain(corners())
}

fn named(examples: Vec<Example>) -> impl Iterator<Item = (String, Vec<u8>)> {
    examples.into_iter().map(|example| (example.name.to_string(), encode(&example.records)))
}

fn malformed(seeds: &mut Random) -> impl Iterator<Item = (String, Vec<u8>)> {
    WAYS.iter().map(|(name, way)| (name.to_string(), way(&mut Builder::new(seeds.next(), 12))))
}

fn by_theme(theme: fn(&mut Builder), seed: u64) -> Vec<u8> {
    let mut builder = Builder::new(seed, LIMIT);
    theme(&mut builder);
    builder.records.truncate(LIMIT);
    encode(&builder.records)
}

/// The kinds of records and lines in a case.
fn what_is_in(case: &Case) -> BTreeSet<String> {
    let kinds =
        stretches(&case.trace).into_iter().filter_map(|record| record.get(2)).map(|kind| format!("kind {kind}"));
    let shown = case.lines.iter().map(|line| {
        let words: Vec<&str> = line.split(' ').collect();
        let shown = match words[0] {
            "R" => 2,
            "F" => 3,
            _ => 1,
        };
        words[..shown].join(" ")
    });
    kinds.chain(shown).collect()
}
