//! Runs a player on generated traces and compares every line with the oracle's.

use crate::generate;
use crate::original::Original;
use crate::replay::{Output, replay};
use crate::trace::stretches;
use std::fs::{self, File};
use std::io::{Read, Write};
use std::path::{Path, PathBuf};
use std::process::{Child, Command, Stdio};
use std::thread;
use std::time::{Duration, Instant};

/// How long one trace may take.
const PATIENCE: Duration = Duration::from_secs(20);
const NOT_ENDED: &str = "(the player did not end)";
/// More output than any trace gives.
const MOST_OUTPUT: u64 = 16 << 20;
/// The largest of a trace's pieces.
const PIECE: usize = 250;
/// Failing traces that are shrunk and told in full.
const TOLD: usize = 3;

pub struct Comparer {
    player: PathBuf,
    /// Whether the player writes state lines too.
    states: bool,
    /// Where traces are put for the player, and failing ones kept.
    folder: PathBuf,
}

#[derive(Default)]
pub struct Tally {
    pub passed: usize,
    pub failed: usize,
    pub records: usize,
}

/// How a trace reaches the player: as a file, or through a pipe in pieces of 1 to
/// `PIECE` bytes.
#[derive(Clone, Copy)]
enum Way {
    File,
    Pieces,
}

impl Way {
    fn words(self) -> &'static str {
        match self {
            Way::File => "as a file",
            Way::Pieces => "in pieces",
        }
    }
}

/// The first line that differs; a side that has ended has none.
struct Difference {
    line: usize,
    wanted: Option<String>,
    got: Option<String>,
    /// Whether the player had to be stopped.
    not_ended: bool,
}

impl Comparer {
    pub fn new(player: &Path, states: bool, folder: &Path) -> std::io::Result<Self> {
        fs::create_dir_all(folder)?;
        Ok(Comparer { player: player.into(), states, folder: folder.into() })
    }

    fn mode(&self) -> &'static str {
        if self.states { "states" } else { "lines" }
    }

    /// Compares the traces of the seeds from `seed` until so many records were compared. By
    /// lines also a long trace, as a file and in small pieces.
    pub fn run(&self, trace: fn(u64) -> Vec<u8>, seed: u64, records: usize) -> Tally {
        let mut tally = Tally::default();
        for seed in seed.. {
            if tally.records >= records {
                break;
            }
            if !self.compared(seed, &trace(seed), Way::File, &mut tally) {
                return tally;
            }
        }
        if !self.states {
            let bytes = generate::long(seed);
            for way in [Way::File, Way::Pieces] {
                self.compared(seed, &bytes, way, &mut tally);
            }
        }
        tally
    }

    /// Compares one trace. Whether the player ended by itself: if not, each further run
    /// could take as long, and enough is seen.
    fn compared(&self, seed: u64, bytes: &[u8], way: Way, tally: &mut Tally) -> bool {
        let wanted = self.oracle(bytes);
        tally.records += wanted.records;
        let Some(difference) = self.difference_from(&wanted, bytes, way) else {
            tally.passed += 1;
            return true;
        };
        tally.failed += 1;
        println!("difference ({}): seed {seed}, {} bytes {}", self.mode(), bytes.len(), way.words());
        if difference.not_ended {
            self.tell_place(bytes, &difference);
            println!("  the player did not end: no more traces are tried");
        } else if tally.failed <= TOLD {
            self.tell(seed, bytes, &difference);
        }
        !difference.not_ended
    }

    fn oracle(&self, bytes: &[u8]) -> Output {
        replay(&mut Original::default(), bytes, self.states)
    }

    /// Where the player's output is not the oracle's, for a trace as a file.
    fn difference(&self, bytes: &[u8]) -> Option<Difference> {
        self.difference_from(&self.oracle(bytes), bytes, Way::File)
    }

    fn difference_from(&self, wanted: &Output, bytes: &[u8], way: Way) -> Option<Difference> {
        let wanted = &wanted.lines;
        let text = match way {
            Way::File => self.play(bytes),
            Way::Pieces => self.play_pieces(bytes),
        };
        let not_ended = text.ends_with(NOT_ENDED);
        let mut text: Vec<String> = text.split('\n').map(String::from).collect();
        // The last line ends with a line feed too: without one it differs.
        match text.last() {
            Some(rest) if rest.is_empty() => {
                text.pop();
            }
            Some(_) => text.last_mut().expect("a line").push_str(" (without a line feed)"),
            None => {}
        }
        let lines = wanted.len().max(text.len());
        let line = (0..lines).find(|&line| wanted.get(line) != text.get(line))?;
        let [wanted, got] = [wanted, &text].map(|lines| lines.get(line).cloned());
        Some(Difference { line, wanted, got, not_ended })
    }

    /// What the player writes; a note follows it where the player did not end by itself.
    fn play(&self, bytes: &[u8]) -> String {
        written(&self.player, &[], bytes, &self.folder.join(format!("{}.trace", self.mode())))
    }

    /// The same, with the trace in small pieces.
    fn play_pieces(&self, bytes: &[u8]) -> String {
        let spawned = Command::new(&self.player).stdin(Stdio::piped()).stdout(Stdio::piped()).spawn();
        let mut child = match spawned {
            Ok(child) => child,
            Err(error) => return format!("(the player could not be run: {error})"),
        };
        let mut input = child.stdin.take().expect("a pipe was asked for");
        let bytes = bytes.to_vec();
        let writer = thread::spawn(move || {
            let mut rest = &bytes[..];
            for size in (1..=PIECE).cycle() {
                let (piece, left) = rest.split_at(size.min(rest.len()));
                // A player that ends early closes the pipe: its lines tell.
                if piece.is_empty() || input.write_all(piece).is_err() {
                    return;
                }
                rest = left;
            }
        });
        let text = finished(child);
        let _ = writer.join();
        text
    }

    /// Says where, shrinks the trace and keeps the short one. A long trace is kept as it
    /// is: it may fail by where a buffer ends, which dropping records moves.
    fn tell(&self, seed: u64, bytes: &[u8], difference: &Difference) {
        self.tell_place(bytes, difference);
        let short = if bytes.len() < generate::LONG { self.shrunk(bytes, difference) } else { bytes.to_vec() };
        let file = self.folder.join(format!("failing_{}_{seed}.trace", self.mode()));
        match fs::write(&file, &short) {
            Ok(()) => println!("  kept with {} records: {}", stretches(&short).len(), file.display()),
            Err(error) => println!("  could not write {}: {error}", file.display()),
        }
        if short.len() < bytes.len() {
            if let Some(difference) = self.difference(&short) {
                self.tell_place(&short, &difference);
            }
        }
    }

    fn tell_place(&self, bytes: &[u8], difference: &Difference) {
        let records = stretches(bytes);
        match self.record_of(difference).and_then(|index| Some((index, records.get(index)?))) {
            Some((index, record)) => println!("  record {index}: {}", hex(record)),
            None => println!("  line {}, at no record", difference.line),
        }
        let shown = |line: &Option<String>| line.clone().unwrap_or("(no line)".into());
        println!("  wanted {}", shown(&difference.wanted));
        println!("  got    {}", shown(&difference.got));
    }

    /// The index of the record whose line it is, from 0.
    fn record_of(&self, difference: &Difference) -> Option<usize> {
        let after_v1 = difference.line.checked_sub(1)?;
        Some(if self.states { after_v1 / 2 } else { after_v1 })
    }

    /// The shortest failing trace that dropping records finds, from the prefix up to
    /// the first difference on.
    fn shrunk(&self, bytes: &[u8], difference: &Difference) -> Vec<u8> {
        let mut records = stretches(bytes);
        let prefix = self.record_of(difference).map_or(0, |index| index + 1).min(records.len());
        if self.difference(&joined(bytes, &records[..prefix])).is_some() {
            records.truncate(prefix);
        }
        let mut chunk = records.len().div_ceil(2).max(1);
        loop {
            let before = records.len();
            let mut at = 0;
            while at < records.len() {
                let mut fewer = records.clone();
                fewer.drain(at..(at + chunk).min(records.len()));
                if self.difference(&joined(bytes, &fewer)).is_some() {
                    records = fewer;
                } else {
                    at += chunk;
                }
            }
            if chunk > 1 {
                chunk = chunk.div_ceil(2);
            } else if records.len() == before {
                return joined(bytes, &records);
            }
        }
    }
}

/// A trace with the version byte of `bytes` and these records.
fn joined(bytes: &[u8], records: &[&[u8]]) -> Vec<u8> {
    let mut trace = bytes[..bytes.len().min(1)].to_vec();
    records.iter().for_each(|record| trace.extend(*record));
    trace
}

/// What a program writes for a trace, which is put into `file` for it; a note follows where the
/// program did not end by itself.
pub fn written(program: &Path, arguments: &[String], bytes: &[u8], file: &Path) -> String {
    let spawned = fs::write(file, bytes)
        .and_then(|()| File::open(file))
        .and_then(|input| Command::new(program).args(arguments).stdin(input).stdout(Stdio::piped()).spawn());
    match spawned {
        Ok(child) => finished(child),
        Err(error) => format!("(it could not be run: {error})"),
    }
}

/// What the child writes, until it ends or patience does.
fn finished(mut child: Child) -> String {
    let output = child.stdout.take().expect("a pipe was asked for");
    let reader = thread::spawn(move || {
        let mut bytes = Vec::new();
        output.take(MOST_OUTPUT).read_to_end(&mut bytes).map(|_| bytes).unwrap_or_default()
    });
    let started = Instant::now();
    let mut pause = Duration::from_micros(100);
    let note = loop {
        match child.try_wait() {
            Ok(Some(status)) if status.code().is_some() => break String::new(),
            Ok(Some(status)) => break format!("(the player was stopped: {status})"),
            Ok(None) if started.elapsed() < PATIENCE => {
                thread::sleep(pause);
                pause = (pause * 2).min(Duration::from_millis(5));
            }
            Ok(None) | Err(_) => {
                let _ = child.kill();
                let _ = child.wait();
                break NOT_ENDED.into();
            }
        }
    };
    let bytes = reader.join().unwrap_or_default();
    String::from_utf8_lossy(&bytes).into_owned() + &note
}

pub fn hex(bytes: &[u8]) -> String {
    bytes.iter().map(|byte| format!("{byte:02X}")).collect::<Vec<_>>().join(" ")
}
