//! Streams of records, cut, counted, and run by the independent pushrun.

use std::io::Write;
use std::process::{Command, Stdio};

/// Deletes a mailbox that nobody has: it is refused with 3, and marks what pushrun prints behind each record.
const MARK: &[u8] = b"DL\x03\x00\xff\xff\x01";
const MARKED: &str = "! 3\r\n";

/// The records of a stream, and what is left of a torn one.
pub fn cut(mut stream: &[u8]) -> (Vec<&[u8]>, &[u8]) {
    let mut records = Vec::new();
    while stream.len() >= 4 {
        let len = 4 + usize::from(u16::from_le_bytes([stream[2], stream[3]]));
        if len > stream.len() {
            break;
        }
        let (record, rest) = stream.split_at(len);
        records.push(record);
        stream = rest;
    }
    (records, stream)
}

pub fn whole(stream: &[u8]) -> Vec<&[u8]> {
    let (records, rest) = cut(stream);
    assert!(rest.is_empty(), "torn: {rest:?}");
    records
}

/// What the independent pushrun prints of a stream.
fn pushrun(stream: &[u8]) -> String {
    let package = concat!(env!("CARGO_MANIFEST_DIR"), "/../reference/Cargo.toml");
    let words = "run --quiet --release --offline --bin pushrun --manifest-path";
    let mut process = Command::new(env!("CARGO"))
        .args(words.split(' '))
        .arg(package)
        .stdin(Stdio::piped())
        .stdout(Stdio::piped())
        .spawn()
        .expect("pushrun");
    let mut stdin = process.stdin.take().expect("its input");
    stdin.write_all(stream).expect("all of it");
    drop(stdin);
    let ended = process.wait_with_output().expect("its end");
    assert!(ended.status.success());
    String::from_utf8(ended.stdout).expect("lines")
}

/// What it prints of each record. The stream's own `DR` are left out, for pushrun drains by itself.
pub fn printed(records: &[&[u8]]) -> Vec<String> {
    let mut stream = Vec::new();
    for record in records {
        if !record.starts_with(b"DR") {
            stream.extend(*record);
        }
        stream.extend(MARK);
    }
    let text = pushrun(&stream);
    let pieces: Vec<String> = text.split(MARKED).map(String::from).collect();
    assert_eq!(pieces.len(), records.len() + 1, "a piece a record");
    pieces[..records.len()].to_vec()
}

/// The lines that are refusals, of what was printed.
pub fn refusals(printed: &[String]) -> Vec<&String> {
    let refused = |piece: &&String| piece.starts_with("! ");
    printed.iter().filter(refused).collect()
}

/// The lines that are none.
pub fn lines(printed: &[String]) -> String {
    let all = printed
        .iter()
        .flat_map(|piece| piece.split_inclusive("\r\n"));
    all.filter(|line| !line.starts_with("! ")).collect()
}

/// The count of a `DR`.
pub fn drained(record: &[u8]) -> Option<usize> {
    let count = record.strip_prefix(b"DR\x04\x00")?;
    let count = u32::from_le_bytes(count.try_into().expect("four octets"));
    Some(count as usize)
}

pub fn count(records: &[&[u8]], mark: &str) -> usize {
    records
        .iter()
        .filter(|record| record.starts_with(mark.as_bytes()))
        .count()
}
