//! Writes a file of framed cases and the file of their expected answers, made by the reference alone.
//!
//! `cases DIRECTORY [SEED]` writes `cases.bin` and `expected.txt` there. The same seed gives the same files; with the usual
//! one they are `stdin` and `stdout` of `crates/cases`, which runs them through the proved calls.
//! The cases worked by hand come first, then random ones. `frame` says how a case is framed; the answer to each is one
//! line: number and detail, for the slip reader also edition, m, r, count and k, then the final bytes of each buffer in
//! hexadecimal, `-` for an empty one, with single spaces between.

use second::call::{Call, Kind};
use second::{frame, generate, reference, worked};
use std::fs;
use std::path::Path;
use std::process::ExitCode;

const USUAL_SEED: u64 = 7;
const RANDOM_CASES: usize = 2_600;
/// No file of cases is longer.
const MOST_BYTES: usize = 450_000;
/// No slice is longer: the program that runs the cases has room for so many bytes.
const LONGEST_SLICE: usize = 600;

/// The two files, and which numbers were met in which call.
#[derive(Default)]
struct Files {
    frames: Vec<u8>,
    answers: String,
    count: usize,
    met: Vec<(Kind, u8)>,
}

impl Files {
    fn add(&mut self, call: &Call) {
        frame::write(call, &mut self.frames);
        let outcome = reference::run(call);
        self.answers.push_str(&outcome.text(call.kind));
        self.answers.push('\n');
        self.count += 1;
        let met = (call.kind, outcome.answer.number);
        if !self.met.contains(&met) {
            self.met.push(met);
        }
    }

    /// Whether every call gives every number that it can give.
    fn has_every_number(&self) -> bool {
        let met = |kind: Kind, number: u8| self.met.contains(&(kind, number));
        let mut kinds = Kind::ALL.into_iter();
        kinds.all(|kind| kind.answers().iter().all(|number| met(kind, *number)))
    }
}

fn make(seed: u64) -> Files {
    let mut files = Files::default();
    for worked in worked::all() {
        files.add(&worked.call);
    }
    let random = (0..).map(|index| generate::case(seed, index).call);
    for call in random.filter(is_short).take(RANDOM_CASES) {
        files.add(&call);
    }
    assert!(
        files.frames.len() <= MOST_BYTES,
        "the file of cases is too long"
    );
    assert!(files.has_every_number(), "a number of a call is not met");
    files
}

fn is_short(call: &Call) -> bool {
    let mut slices = call.inputs.iter().chain(&call.buffers);
    slices.all(|slice| slice.len() <= LONGEST_SLICE)
}

fn write(directory: &Path, files: &Files) -> std::io::Result<()> {
    fs::create_dir_all(directory)?;
    fs::write(directory.join("cases.bin"), &files.frames)?;
    fs::write(directory.join("expected.txt"), &files.answers)
}

fn main() -> ExitCode {
    let arguments: Vec<String> = std::env::args().skip(1).collect();
    let (directory, seed) = match &arguments[..] {
        [directory] => (directory, Some(USUAL_SEED)),
        [directory, seed] => (directory, seed.parse().ok()),
        _ => (&String::new(), None),
    };
    let Some(seed) = seed else {
        eprintln!("usage: cases DIRECTORY [SEED]");
        return ExitCode::from(2);
    };
    let files = make(seed);
    if let Err(error) = write(Path::new(directory), &files) {
        eprintln!("cases: {error}");
        return ExitCode::FAILURE;
    }
    println!("cases: {} cases, {} bytes", files.count, files.frames.len());
    ExitCode::SUCCESS
}
