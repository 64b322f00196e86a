//! `reasons STREAM`: what `why` prints for every place of the stream from 0 to one above the last, one after the other.

use reference::why;
use std::fs::File;
use std::io::{self, BufReader, BufWriter, Write};
use std::process::ExitCode;

fn main() -> ExitCode {
    let words: Vec<String> = std::env::args().skip(1).collect();
    let [stream] = &words[..] else {
        eprintln!("usage: reasons STREAM");
        return ExitCode::from(2);
    };
    let Err(fault) = run(stream) else {
        return ExitCode::SUCCESS;
    };
    eprintln!("reasons: {stream}: {fault}");
    ExitCode::FAILURE
}

fn run(stream: &str) -> io::Result<()> {
    let reasons = why::all(&mut BufReader::new(File::open(stream)?))?;
    let inside = reasons.into_iter().map(Some);
    let mut out = BufWriter::new(io::stdout().lock());
    for reason in [None].into_iter().chain(inside).chain([None]) {
        out.write_all(why::line(reason).as_bytes())?;
    }
    out.flush()
}
