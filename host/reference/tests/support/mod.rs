//! Records from text, in the notation of the vectors, and small conveniences for tests.
#![allow(dead_code)]

pub mod crowded;
pub mod parents;
pub mod wrong;

use reference::records::{read, Record};
use reference::{call, call_trusting, Answer, Memory};
use std::path::PathBuf;

/// One record from one line of text.
pub fn assemble(line: &str) -> Vec<u8> {
    reference::notation::assemble(line).expect("a record in text")
}

/// All records of a text; empty lines and lines that begin with `#` are passed over.
pub fn records(text: &str) -> Vec<Vec<u8>> {
    reference::notation::records(text.as_bytes()).expect("records in text")
}

/// One record from a line that leaves its counter out: `MB` gets 1, each other one more than its mailbox has.
pub fn counted(memory: &Memory, line: &str) -> Vec<u8> {
    let words: Vec<&str> = line.splitn(6, ' ').collect();
    assemble(&match words[..] {
        ["MB", id, attributes, quiet, validity, name] => {
            format!("MB {id} {attributes} {quiet} {validity} 1 {name}")
        }
        ["ME" | "XP" | "FL", id, ..] => {
            let id = id.parse().expect("an id");
            let own = memory.mailbox(id).map_or(0, |row| row.counter);
            format!("{line} {}", own + 1)
        }
        _ => line.to_string(),
    })
}

/// Calls from lines without counters, none of which is refused.
pub fn prepare(memory: &mut Memory, text: &str) {
    for line in text.lines().filter(|line| !line.is_empty()) {
        let octets = counted(memory, line);
        assert_eq!(call(memory, &octets).refusal, 0, "{line}");
    }
}

pub fn hex(octets: &[u8]) -> String {
    if octets.is_empty() {
        return "-".to_string();
    }
    octets.iter().map(|octet| format!("{octet:02x}")).collect()
}

/// Octets in `replay`'s form of input.
pub fn calls(records: &[Vec<u8>]) -> Vec<u8> {
    let length = |record: &Vec<u8>| (record.len() as u32).to_le_bytes();
    records
        .iter()
        .flat_map(|record| [&length(record)[..], record].concat())
        .collect()
}

pub fn vector_path(name: &str) -> PathBuf {
    PathBuf::from(env!("CARGO_MANIFEST_DIR"))
        .join("../vectors")
        .join(name)
}

pub fn vector(name: &str) -> String {
    let path = vector_path(name);
    std::fs::read_to_string(&path).unwrap_or_else(|fault| panic!("{}: {fault}", path.display()))
}

/// One row of the INDEX.
pub struct Listed {
    pub number: String,
    pub queue: usize,
    pub mailboxes: usize,
    pub messages: usize,
    pub title: String,
}

pub fn index() -> Vec<Listed> {
    let size = |word: &str| word.parse().expect("a size in INDEX");
    vector("INDEX")
        .lines()
        .map(|line| {
            let words: Vec<&str> = line.splitn(6, ' ').collect();
            Listed {
                number: words[0].to_string(),
                queue: size(words[1]),
                mailboxes: size(words[2]),
                messages: size(words[3]),
                title: words[5].to_string(),
            }
        })
        .collect()
}

/// Runs a text without counters on fresh memory, checked, drained after each record: what `pushrun` prints, with
/// `= n` for a count.
pub fn transcript(queue: usize, text: &str) -> String {
    let mut memory = Memory::new(queue, 64, 1024);
    let mut out = String::new();
    for line in text.lines().filter(|line| !line.is_empty()) {
        let octets = counted(&memory, line);
        let answer = call(&mut memory, &octets);
        if answer.refusal != 0 {
            out += &format!("! {}\r\n", answer.refusal);
        }
        if let Some(count) = answer.count {
            out += &format!("= {count}\r\n");
        }
        out += std::str::from_utf8(memory.held()).expect("lines are ASCII");
        let drained = format!("DR {}", memory.filled);
        call(&mut memory, &assemble(&drained));
    }
    out
}

/// Does the text give exactly these lines?
#[track_caller]
pub fn gives(text: &str, lines: &[&str]) {
    let wanted: String = lines.iter().map(|line| format!("{line}\r\n")).collect();
    assert_eq!(transcript(8192, text), wanted, "{text}");
}

/// One call, and what it put in the queue behind what was left there.
pub fn observe(memory: &mut Memory, octets: &[u8]) -> (Answer, Vec<u8>) {
    let before = memory.held().to_vec();
    let answer = call_trusting(memory, octets);
    (answer, written(&before, octets, answer, memory.held()))
}

/// The same from two states of the queue.
pub fn written(before: &[u8], octets: &[u8], answer: Answer, after: &[u8]) -> Vec<u8> {
    let drained = match read(octets) {
        Some(Record::Drained { count }) if answer.refusal == 0 => count as usize,
        _ => 0,
    };
    let kept = &before[drained..];
    assert!(after.starts_with(kept), "the queue's front stays");
    after[kept.len()..].to_vec()
}

pub fn contains(octets: &[u8], part: &str) -> bool {
    octets
        .windows(part.len())
        .any(|window| window == part.as_bytes())
}
