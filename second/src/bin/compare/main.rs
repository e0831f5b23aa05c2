//! Compares the archive with the reference on random calls, byte for byte.
//!
//! `compare [CASES [SEED]]` runs that many cases; the same seed gives the same cases.
//! `compare replay HEX` runs one case again, as a failing run prints it.
//! `Verdict` has the exit statuses.

#[cfg(archive)]
mod crash;
#[cfg(archive)]
mod levels;
#[cfg(archive)]
mod quotas;
#[cfg(archive)]
mod run;
#[cfg(archive)]
mod tally;
#[cfg(archive)]
mod turned;
#[cfg(archive)]
mod what;
#[cfg(archive)]
mod written;

use std::process::ExitCode;

/// Enough for every count that a run must reach, and quick enough for every gate.
const USUAL_CASES: u64 = 520_000;
const USUAL_SEED: u64 = 1;

/// How a run ends; the number is the program's exit status. A run that the archive's code stops ends with 3.
#[cfg_attr(not(archive), allow(dead_code))]
enum Verdict {
    /// All cases agree, and every quota was met.
    Agree = 0,
    /// A case differs.
    Differ = 1,
    /// The command line asks for nothing that can be run, or there was no archive when the program was built.
    Unusable = 2,
    /// All cases agree, and some quota was not met: no fault of the archive.
    TooFew = 4,
}

/// What the command line asks for.
enum Task {
    Cases { count: u64, seed: u64 },
    Replay { frame: Vec<u8> },
}

fn task(arguments: &[String]) -> Option<Task> {
    let cases = |count, seed| Some(Task::Cases { count, seed });
    match arguments {
        [] => cases(USUAL_CASES, USUAL_SEED),
        [word, hex] if word == "replay" => bytes_of(hex).map(|frame| Task::Replay { frame }),
        [count] => cases(count.parse().ok()?, USUAL_SEED),
        [count, seed] => cases(count.parse().ok()?, seed.parse().ok()?),
        _ => None,
    }
}

/// The bytes that a string of hexadecimal digits stands for.
fn bytes_of(hex: &str) -> Option<Vec<u8>> {
    let digits = hex.as_bytes().chunks(2);
    let byte = |pair| u8::from_str_radix(std::str::from_utf8(pair).ok()?, 16).ok();
    digits.map(byte).collect()
}

fn main() -> ExitCode {
    let arguments: Vec<String> = std::env::args().skip(1).collect();
    let verdict = task(&arguments).map_or_else(usage, carry_out);
    ExitCode::from(verdict as u8)
}

fn usage() -> Verdict {
    eprintln!("usage: compare [CASES [SEED]] | compare replay HEX");
    Verdict::Unusable
}

#[cfg(archive)]
fn carry_out(task: Task) -> Verdict {
    crash::report_crashes();
    match task {
        Task::Cases { count, seed } => run::compare(count, seed),
        Task::Replay { frame } => run::replay(&frame),
    }
}

#[cfg(not(archive))]
fn carry_out(task: Task) -> Verdict {
    match task {
        Task::Cases { count, seed } => eprintln!("compare: {count} cases of seed {seed} not run"),
        Task::Replay { frame } => eprintln!("compare: a case of {} bytes not run", frame.len()),
    }
    eprintln!("compare: target/staticlib/libplq.a was not there when this program was built");
    Verdict::Unusable
}
