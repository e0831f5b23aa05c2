//! Draws the table of slips anew: `slips DIRECTORY` writes `stdin` and `stdout` there, as `crates/slips_table` has them.

use second::table::{self, Table};
use std::fs;
use std::path::Path;
use std::process::ExitCode;

fn write(directory: &Path, table: &Table) -> std::io::Result<()> {
    fs::create_dir_all(directory)?;
    fs::write(directory.join("stdin"), &table.slips)?;
    fs::write(directory.join("stdout"), &table.lines)
}

fn main() -> ExitCode {
    let arguments: Vec<String> = std::env::args().skip(1).collect();
    let [directory] = &arguments[..] else {
        eprintln!("usage: slips DIRECTORY");
        return ExitCode::from(2);
    };
    let table = table::draw();
    if let Err(error) = write(Path::new(directory), &table) {
        eprintln!("slips: {error}");
        return ExitCode::FAILURE;
    }
    println!("slips: {} slips, {} bytes", table.count, table.slips.len());
    ExitCode::SUCCESS
}
