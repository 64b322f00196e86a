//! `disassemble [STREAM] > TEXT`: a stream's records as text, one a line, in the notation that `assemble` reads. Whatever is no
//! lawful record comes out as `HEX`, so any octets have a text, and `assemble` makes the same octets of it.

use reference::{input, notation};
use std::io::{self, Write};
use std::process::ExitCode;

fn main() -> ExitCode {
    let (options, files) = input::words();
    if !options.is_empty() || files.len() > 1 {
        eprintln!("usage: disassemble [STREAM] > TEXT");
        return ExitCode::from(2);
    }
    let Err(fault) = run(files.first().map(String::as_str)) else {
        return ExitCode::SUCCESS;
    };
    eprintln!("disassemble: {fault}");
    ExitCode::FAILURE
}

fn run(file: Option<&str>) -> Result<(), String> {
    let (_, octets) = input::octets(file)?;
    let written = io::stdout().write_all(notation::text(&octets).as_bytes());
    written.map_err(|fault| format!("standard output: {fault}"))
}
