//! Cases for the program `run_cases`.
//!
//! `cases stored FOLDER`: those of FOLDER/vectors and FOLDER/cases, in octets; with `--lines`, what `vectors` must print of them.
//! `cases judge FOLDER`: the first call of each case that the independent program answers otherwise.
//! `cases random SEED COUNT`: so many random calls, with what the independent program makes of each.
//! `cases spoiled SEED COUNT`: the same, and one expectation of the last case is wrong.

use reference::cases::{random, stored, text, total, Call, Case};
use std::io::{self, BufWriter, Write};
use std::path::Path;

fn main() -> io::Result<()> {
    let arguments: Vec<String> = std::env::args().skip(1).collect();
    let words: Vec<&str> = arguments.iter().map(String::as_str).collect();
    let mut out = BufWriter::new(io::stdout().lock());
    match words[..] {
        ["stored", folder] => {
            for case in all(folder) {
                case.write(&mut out)?;
            }
        }
        ["stored", "--lines", folder] => {
            let cases = all(folder);
            for case in &cases {
                out.write_all(case.passed().as_bytes())?;
            }
            out.write_all(total(&cases).as_bytes())?;
        }
        ["judge", folder] => {
            for case in all(folder) {
                if let Err((place, got)) = case.judge() {
                    let wanted = &case.calls[place - 1];
                    writeln!(out, "{}: call {place}", case.name)?;
                    writeln!(out, "  wanted {}", shown(wanted))?;
                    writeln!(out, "  got    {}", shown(&got))?;
                }
            }
        }
        [kind @ ("random" | "spoiled"), seed, count] => {
            let (Ok(seed), Ok(count)) = (seed.parse(), count.parse()) else {
                usage()
            };
            let mut last = None;
            random::cases(seed, count, |case| {
                last = (kind == "spoiled").then(|| case.clone());
                case.write(&mut out)
            })?;
            if let Some(mut case) = last {
                spoil(&mut case);
                case.write(&mut out)?;
            }
        }
        _ => usage(),
    }
    out.flush()
}

/// The stored cases, in the order of their files.
fn all(folder: &str) -> Vec<Case> {
    let folder = Path::new(folder);
    let written = || -> Result<Vec<Case>, String> {
        let mut cases = stored::vectors(&folder.join("vectors"))?;
        cases.extend(text::folder(&folder.join("cases"))?);
        Ok(cases)
    };
    written().unwrap_or_else(|fault| {
        eprintln!("cases: {fault}");
        std::process::exit(1)
    })
}

/// An answer and the end of the queue, for people.
fn shown(call: &Call) -> String {
    let from = call.held.len().saturating_sub(200);
    let end = String::from_utf8_lossy(&call.held[from..]).replace("\r\n", "|");
    format!(
        "{} {:?} {}: {end}",
        call.refusal,
        call.count,
        call.held.len()
    )
}

/// Makes the last expectation of a case wrong by one.
fn spoil(case: &mut Case) {
    if let Some(call) = case.calls.last_mut() {
        match call.held.last_mut() {
            Some(octet) => *octet ^= 1,
            None => call.refusal ^= 1,
        }
    }
}

fn usage() -> ! {
    eprintln!("cases stored [--lines] FOLDER");
    eprintln!("cases judge FOLDER");
    eprintln!("cases random SEED COUNT");
    eprintln!("cases spoiled SEED COUNT");
    std::process::exit(2)
}
