//! `assemble [--calls] [TEXT] > OCTETS`: records written as text, as a stream for `pushrun` or as calls for `replay`. A line that
//! means nothing is named, with its file and number and what was expected there, and then no octet is written.

use reference::{input, notation};
use std::io::{self, Write};
use std::process::ExitCode;

fn main() -> ExitCode {
    let (options, files) = input::words();
    let calls = options.iter().any(|option| option == "--calls");
    if options.iter().any(|option| option != "--calls") || files.len() > 1 {
        eprintln!("usage: assemble [--calls] [TEXT] > OCTETS");
        return ExitCode::from(2);
    }
    let Err(fault) = run(files.first().map(String::as_str), calls) else {
        return ExitCode::SUCCESS;
    };
    eprintln!("assemble: {fault}");
    ExitCode::FAILURE
}

fn run(file: Option<&str>, calls: bool) -> Result<(), String> {
    let (name, text) = input::octets(file)?;
    let records = notation::records(&text).map_err(|fault| format!("{name}:{fault}"))?;
    write(&records, calls).map_err(|fault| format!("standard output: {fault}"))
}

fn write(records: &[Vec<u8>], calls: bool) -> io::Result<()> {
    let mut out = io::stdout().lock();
    for record in records {
        if calls {
            out.write_all(&(record.len() as u32).to_le_bytes())?;
        }
        out.write_all(record)?;
    }
    out.flush()
}
