//! The differential test bed: the original's `src/mmu`, unchanged, against a player
//! of traces. README.md says how to run it.

// The original's modules `mmu` and `core`, and the stand-in for its CPU: see build.rs.
include!(concat!(env!("OUT_DIR"), "/original.rs"));

mod builder;
mod cacheops;
mod cases;
mod compare;
mod examples;
mod generate;
mod lists;
mod malformed;
mod original;
mod pairs;
mod random;
mod selftest;
mod switches;
mod themes;
mod trees;
mod walks;

use differential::{dump, listing, memory, paper, replay, slips, state, stored, trace};
use std::io::{self, BufWriter, Read, Write};
use std::path::Path;
use std::process::ExitCode;

const USAGE: &str = "usage:
  differential selftest [TRACES]               try the bed itself
  differential oracle [--states]               the original's lines for the trace on standard input
  differential shipped [--states]              the same with nothing mended
  differential paper [--states] [SLIP]         the same by the second reading, with a slip
  differential generate SEED [working_set]     the trace of a seed, to standard output
  differential compare lines|states|working_set PLAYER SEED RECORDS FOLDER
                                               compare until so many records were compared
  differential cases FOLDER COUNT SEED         write stored cases: data/, args and stdout of FOLDER
  differential renew FOLDER                    make the lines of the stored traces anew
  differential pairs FOLDER COUNT SEED         write pairs of replays with the same watched accesses
  differential cacheops SEED COUNT             operations on the original's caches
  differential walks SEED COUNT                walks of the original
  differential list CODE [FROM]                what the dump on standard input maps, by the original's walks
  differential lists LISTER|- SEED TREES FOLDER
                                               compare the lists of random trees
  differential slips COUNT                     how many of so many traces show each slip";

fn main() -> ExitCode {
    let arguments: Vec<String> = std::env::args().skip(1).collect();
    let words: Vec<&str> = arguments.iter().map(String::as_str).collect();
    match run(&words) {
        Ok(true) => ExitCode::SUCCESS,
        Ok(false) => ExitCode::FAILURE,
        Err(message) => {
            eprintln!("{message}");
            ExitCode::from(2)
        }
    }
}

/// Whether what was asked for went well.
fn run(words: &[&str]) -> Result<bool, String> {
    let told = |error: io::Error| error.to_string();
    match *words {
        ["selftest"] => return Ok(selftest::selftest(selftest::TRACES)),
        ["selftest", traces] => return Ok(selftest::selftest(number(traces)?)),
        ["oracle", ref options @ ..] => {
            let output = replay::replay(&mut original::Original::default(), &input()?, states(options)?);
            print(output.text().as_bytes())?;
        }
        ["shipped", ref options @ ..] => {
            let output = replay::replay(&mut original::Original::as_shipped(), &input()?, states(options)?);
            print(output.text().as_bytes())?;
        }
        ["paper", ref options @ ..] => {
            let (flags, names): (Vec<&str>, Vec<&str>) = options.iter().partition(|word| word.starts_with("--"));
            let slip = names.first().map(|name| slip(name)).transpose()?;
            let output = replay::replay(&mut paper::Paper::with(slip), &input()?, states(&flags)?);
            print(output.text().as_bytes())?;
        }
        ["generate", seed] => print(&generate::trace(number(seed)?))?,
        ["generate", seed, "working_set"] => print(&generate::working_set(number(seed)?))?,
        ["compare", mode, player, seed, records, folder] => {
            let (states, trace): (bool, fn(u64) -> Vec<u8>) = match mode {
                "lines" => (false, generate::trace),
                "states" => (true, generate::trace),
                "working_set" => (true, generate::working_set),
                _ => return Err(USAGE.into()),
            };
            let comparer = compare::Comparer::new(Path::new(player), states, Path::new(folder)).map_err(told)?;
            let tally = comparer.run(trace, number(seed)?, number(records)? as usize);
            println!("{mode}: {} records compared in {} traces", tally.records, tally.passed + tally.failed);
            println!("{} passed, {} failed", tally.passed, tally.failed);
            return Ok(tally.failed == 0);
        }
        ["cases", folder, count, seed] => {
            return cases::cases(Path::new(folder), number(count)? as usize, number(seed)?).map_err(told);
        }
        ["renew", folder] => return cases::renew(Path::new(folder)).map_err(told),
        ["pairs", folder, count, seed] => {
            return pairs::pairs(Path::new(folder), number(count)? as usize, number(seed)?).map_err(told);
        }
        ["cacheops", seed, count] => {
            let mut out = BufWriter::new(io::stdout().lock());
            cacheops::cacheops(&mut out, number(seed)?, number(count)?).and_then(|()| out.flush()).map_err(told)?;
        }
        ["walks", seed, count] => {
            let mut out = BufWriter::new(io::stdout().lock());
            walks::walks(&mut out, number(seed)?, number(count)?).and_then(|()| out.flush()).map_err(told)?;
        }
        ["list", code] => print_list(code, "0")?,
        ["list", code, from] => print_list(code, from)?,
        ["lists", lister, seed, trees, folder] => {
            let lister = (lister != "-").then_some(Path::new(lister));
            let tally =
                lists::lists(lister, number(seed)?, number(trees)? as usize, Path::new(folder)).map_err(told)?;
            println!("lists: {} ranges compared in {} trees", tally.records, tally.passed + tally.failed);
            println!("{} passed, {} failed", tally.passed, tally.failed);
            return Ok(tally.failed == 0);
        }
        ["slips", count] => selftest::slips(number(count)?),
        _ => return Err(USAGE.into()),
    }
    Ok(true)
}

fn number(word: &str) -> Result<u64, String> {
    word.parse().map_err(|_| format!("not a number: {word}"))
}

/// The list of the dump on standard input.
fn print_list(code: &str, from: &str) -> Result<(), String> {
    let code = code.parse().map_err(|_| format!("no code: {code}"))?;
    let from = u32::from_str_radix(from, 16).map_err(|_| format!("no address: {from}"))?;
    print((lists::list(&input()?, code, from)?.join("\n") + "\n").as_bytes())
}

fn states(options: &[&str]) -> Result<bool, String> {
    match options {
        [] => Ok(false),
        ["--states"] => Ok(true),
        _ => Err(USAGE.into()),
    }
}

fn slip(name: &str) -> Result<slips::Slip, String> {
    slips::Slip::named(name).ok_or(format!("no such slip: {name}"))
}

fn input() -> Result<Vec<u8>, String> {
    let mut bytes = Vec::new();
    io::stdin().read_to_end(&mut bytes).map_err(|error| error.to_string())?;
    Ok(bytes)
}

fn print(bytes: &[u8]) -> Result<(), String> {
    io::stdout().write_all(bytes).map_err(|error| error.to_string())
}
