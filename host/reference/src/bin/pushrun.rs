//! `pushrun`: a stream on standard input, in which the length fields say where each record ends.
//! It prints `! n` where one was refused, then what the queue holds, which is drained; no counts.

use reference::memory::{MAILBOXES, MESSAGES};
use reference::{call_trusting, records, Memory};
use std::io::{self, BufWriter, Read, Write};

fn main() -> io::Result<()> {
    let mut stream = Vec::new();
    io::stdin().lock().read_to_end(&mut stream)?;
    let mut out = BufWriter::new(io::stdout().lock());
    let mut memory = Memory::new(8192, MAILBOXES, MESSAGES);
    for record in records::cut(&stream) {
        let answer = call_trusting(&mut memory, record);
        if answer.refusal != 0 {
            write!(out, "! {}\r\n", answer.refusal)?;
        }
        out.write_all(memory.held())?;
        let mut drained = *b"DR\x04\x00\x00\x00\x00\x00";
        drained[4..].copy_from_slice(&(memory.filled as u32).to_le_bytes());
        call_trusting(&mut memory, &drained);
    }
    out.flush()
}
