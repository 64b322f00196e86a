//! `why STREAM PLACE`: one line that says why the client heard nothing of the record at that place of the stream, counted from 1,
//! or by which group of the command it heard; `no record` where there is none. Another number of arguments, or a file that
//! cannot be opened and read as far as the place, gives `! 2`. The status is 0 whatever is printed.

use reference::why::{self, Reason};
use std::ffi::{OsStr, OsString};
use std::fs::File;
use std::io::{self, BufReader, Write};

fn main() -> io::Result<()> {
    let words: Vec<OsString> = std::env::args_os().skip(1).collect();
    let line = match &words[..] {
        [stream, place] => looked_up(stream, place).map_or_else(|_| refused(), why::line),
        _ => refused(),
    };
    io::stdout().write_all(line.as_bytes())
}

fn refused() -> String {
    "! 2\r\n".to_string()
}

fn looked_up(stream: &OsStr, place: &OsStr) -> io::Result<Option<Reason>> {
    let mut stream = BufReader::new(File::open(stream)?);
    why::at(&mut stream, why::place(place.as_encoded_bytes()))
}
