//! Seeded input for other programs, each piece after its length in four octets, little-endian, but for `stream`.
//!
//! `generate SEED COUNT [Q [MAILBOXES [MESSAGES]]]`: calls, as `replay` reads them.
//! `generate lines SEED COUNT`: command lines alone, one in twenty of 1,000 to 1,024 octets.
//! `generate pair SEED COUNT 1|2`: one side of a pair; `generate pair SEED COUNT` prints its
//! sizes, and for each side the places (from 0) of the records in common.
//! `generate stream SEED COUNT`: a stream for `why` or `pushrun`, its records one behind the other; what it is full of goes by
//! the seed.

use reference::generate::pairs::{pair, Step};
use reference::generate::{commands, long, reasons, stream};
use reference::memory::{MAILBOXES, MESSAGES};
use reference::random::Random;
use std::io::{self, BufWriter, Write};

fn main() -> io::Result<()> {
    let arguments: Vec<String> = std::env::args().skip(1).collect();
    let mode = arguments.first().map(String::as_str);
    let named = matches!(mode, Some("lines" | "pair" | "stream"));
    let numbers: Result<Vec<u64>, _> = arguments
        .iter()
        .skip(usize::from(named))
        .map(|argument| argument.parse())
        .collect();
    let Ok(numbers) = numbers else { usage() };
    let (Some(&seed), Some(&count)) = (numbers.first(), numbers.get(1)) else {
        usage()
    };
    let count = count as usize;
    let size = |place: usize, other| numbers.get(place).map_or(other, |&size| size as usize);
    let mut out = BufWriter::new(io::stdout().lock());
    match mode {
        Some("lines") => {
            let mut random = Random::new(seed);
            for place in 1..=count {
                let one = if place % 20 == 0 {
                    long::line
                } else {
                    commands::line
                };
                piece(&mut out, &one(&mut random))?;
            }
        }
        Some("pair") => {
            let pair = pair(seed, count);
            match numbers.get(2) {
                None => {
                    writeln!(out, "{} {} {}", pair.queue, pair.mailboxes, pair.messages)?;
                    common(&mut out, &pair.first)?;
                    common(&mut out, &pair.second)?;
                }
                Some(side) => {
                    let steps = if *side == 1 { pair.first } else { pair.second };
                    for step in steps {
                        piece(&mut out, &step.octets)?;
                    }
                }
            }
        }
        Some("stream") => out.write_all(&reasons::stream(seed, count))?,
        _ => {
            let (mailboxes, messages) = (size(3, MAILBOXES), size(4, MESSAGES));
            for octets in stream(seed, count, size(2, 8192), mailboxes, messages) {
                piece(&mut out, &octets)?;
            }
        }
    }
    out.flush()
}

fn piece(out: &mut impl Write, octets: &[u8]) -> io::Result<()> {
    out.write_all(&(octets.len() as u32).to_le_bytes())?;
    out.write_all(octets)
}

fn common(out: &mut impl Write, steps: &[Step]) -> io::Result<()> {
    let places: Vec<String> = (0..steps.len())
        .filter(|&place| steps[place].common)
        .map(|place| place.to_string())
        .collect();
    writeln!(out, "{}", places.join(" "))
}

fn usage() -> ! {
    eprintln!("generate SEED COUNT [Q [MAILBOXES [MESSAGES]]]");
    eprintln!("generate lines SEED COUNT");
    eprintln!("generate pair SEED COUNT [1|2]");
    eprintln!("generate stream SEED COUNT");
    std::process::exit(2)
}
