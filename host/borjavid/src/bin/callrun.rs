//! `callrun Q [MAILBOXES [MESSAGES]]`: standard input is a sequence of calls, each a length in four octets, little-endian, and
//! that many octets. For each call one line: the refusal or 0, the count or `-`, what the queue holds in hexadecimal or `-`.
//! Every call goes to the exported step, on memory that starts empty; only `DR` drains.

use borjavid::memory::{Memory, MAILBOXES, MESSAGES};
use borjavid::Answer;
use std::io::{self, BufReader, BufWriter, Read, Write};

/// Longer tables and queues than this are no test of a step that refuses them from 65, 1,025 and 65,537 on.
const MOST: usize = 1 << 20;

fn main() -> io::Result<()> {
    let words: Vec<String> = std::env::args().skip(1).collect();
    let sizes: Result<Vec<usize>, _> = words.iter().map(|word| word.parse()).collect();
    let (queue, mailboxes, messages) = match sizes.as_deref() {
        Ok(&[queue]) => (queue, MAILBOXES, MESSAGES),
        Ok(&[queue, mailboxes]) => (queue, mailboxes, MESSAGES),
        Ok(&[queue, mailboxes, messages]) => (queue, mailboxes, messages),
        _ => usage(),
    };
    if queue.max(mailboxes).max(messages) > MOST {
        usage()
    }
    let mut memory = Memory::with_tables(queue, mailboxes, messages);
    let mut input = BufReader::new(io::stdin().lock());
    let mut out = BufWriter::new(io::stdout().lock());
    let mut octets = Vec::new();
    while let Some(length) = length(&mut input)? {
        octets.clear();
        // a torn end is a shorter call
        (&mut input).take(length.into()).read_to_end(&mut octets)?;
        let answer = memory.step(&octets);
        print(&mut out, answer, memory.queue())?;
        // whoever waits for an answer before the next call gets it
        if input.buffer().is_empty() {
            out.flush()?;
        }
    }
    out.flush()
}

/// The next call's length, if four octets are there.
fn length(input: &mut impl Read) -> io::Result<Option<u32>> {
    let mut octets = [0; 4];
    match input.read_exact(&mut octets) {
        Ok(()) => Ok(Some(u32::from_le_bytes(octets))),
        Err(fault) if fault.kind() == io::ErrorKind::UnexpectedEof => Ok(None),
        Err(fault) => Err(fault),
    }
}

fn print(out: &mut impl Write, answer: Answer, queue: &[u8]) -> io::Result<()> {
    write!(out, "{} ", answer.number())?;
    match answer.count() {
        Some(count) => write!(out, "{count} ")?,
        None => write!(out, "- ")?,
    }
    let digit = |value: u8| b"0123456789abcdef"[value as usize];
    let mut shown: Vec<u8> = queue
        .iter()
        .flat_map(|octet| [digit(octet >> 4), digit(octet & 15)])
        .collect();
    if shown.is_empty() {
        shown.push(b'-');
    }
    shown.push(b'\n');
    out.write_all(&shown)
}

fn usage() -> ! {
    eprintln!("callrun Q [MAILBOXES [MESSAGES]] < CALLS");
    std::process::exit(2)
}
