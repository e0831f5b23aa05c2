//! Measures decode and encode of the archive against the plain ones, and against libfec where it is installed.
//!
//! `figures [FILE]` writes its tables to FILE, `docs/FIGURES.md` if none is given.

#[cfg(archive)]
mod fec;
#[cfg(archive)]
mod inputs;
#[cfg(archive)]
mod machine;
#[cfg(archive)]
mod measure;
#[cfg(archive)]
mod report;
#[cfg(archive)]
mod rolls;
#[cfg(archive)]
mod sides;
#[cfg(archive)]
mod stack;

use std::process::ExitCode;

const USUAL_FILE: &str = "docs/FIGURES.md";

fn main() -> ExitCode {
    let arguments: Vec<String> = std::env::args().skip(1).collect();
    let file = match &arguments[..] {
        [] => USUAL_FILE,
        [file] => file,
        _ => {
            eprintln!("usage: figures [FILE]");
            return ExitCode::from(2);
        }
    };
    match write(file) {
        Ok(()) => ExitCode::SUCCESS,
        Err(complaint) => {
            eprintln!("figures: {complaint}");
            ExitCode::FAILURE
        }
    }
}

#[cfg(archive)]
fn write(file: &str) -> Result<(), String> {
    let text = report::report();
    std::fs::write(file, text).map_err(|error| format!("{file}: {error}"))
}

#[cfg(not(archive))]
fn write(file: &str) -> Result<(), String> {
    Err(format!(
        "{file} is not written: target/staticlib/libplq.a was not there when this program was built"
    ))
}
