//! What a program is given: options, and one file or standard input.

use std::io::{self, Read};

/// The words of the command line, options apart.
pub fn words() -> (Vec<String>, Vec<String>) {
    let words = std::env::args().skip(1);
    words.partition(|word| word.starts_with("--"))
}

/// The file's octets and what messages call it, or what is wrong with it; standard input where no file is named.
pub fn octets(file: Option<&str>) -> Result<(&str, Vec<u8>), String> {
    let name = file.unwrap_or("standard input");
    let octets = match file {
        Some(file) => std::fs::read(file),
        None => standard_input(),
    };
    let octets = octets.map_err(|fault| format!("{name}: {fault}"))?;
    Ok((name, octets))
}

fn standard_input() -> io::Result<Vec<u8>> {
    let mut octets = Vec::new();
    io::stdin().lock().read_to_end(&mut octets)?;
    Ok(octets)
}
