//! `replay [--check] Q [MAILBOXES [MESSAGES]]`: standard input is a sequence of calls, each a
//! length in four octets, little-endian, and that many octets. For each call one line: refusal,
//! count or `-`, what the queue holds in hexadecimal or `-`. With `--check` the memory is judged
//! in full before each call.

use reference::memory::{MAILBOXES, MESSAGES};
use reference::{call, call_trusting, Memory};
use std::io::{self, BufWriter, Read, Write};

fn main() -> io::Result<()> {
    let mut sizes = Vec::new();
    let mut checked = false;
    for argument in std::env::args().skip(1) {
        if argument == "--check" {
            checked = true;
        } else {
            match argument.parse::<usize>() {
                Ok(size) => sizes.push(size),
                Err(_) => return usage(),
            }
        }
    }
    let Some(&queue) = sizes.first() else {
        return usage();
    };
    let mailboxes = sizes.get(1).copied().unwrap_or(MAILBOXES);
    let messages = sizes.get(2).copied().unwrap_or(MESSAGES);
    let mut memory = Memory::new(queue, mailboxes, messages);

    let mut input = Vec::new();
    io::stdin().lock().read_to_end(&mut input)?;
    let mut out = BufWriter::new(io::stdout().lock());
    let mut rest = &input[..];
    while let Some((len, after)) = rest.split_first_chunk::<4>() {
        let len = (u32::from_le_bytes(*len) as usize).min(after.len());
        let (octets, after) = after.split_at(len);
        rest = after;
        let answer = if checked {
            call(&mut memory, octets)
        } else {
            call_trusting(&mut memory, octets)
        };
        write!(out, "{} ", answer.refusal)?;
        match answer.count {
            Some(count) => write!(out, "{count} ")?,
            None => write!(out, "- ")?,
        }
        out.write_all(&shown(memory.held()))?;
        out.write_all(b"\n")?;
    }
    out.flush()
}

fn shown(octets: &[u8]) -> Vec<u8> {
    if octets.is_empty() {
        return b"-".to_vec();
    }
    let digit = |value: u8| b"0123456789abcdef"[value as usize];
    octets
        .iter()
        .flat_map(|octet| [digit(octet >> 4), digit(octet & 15)])
        .collect()
}

fn usage() -> io::Result<()> {
    eprintln!("replay [--check] Q [MAILBOXES [MESSAGES]] < CALLS");
    std::process::exit(2)
}
