//! The lines that go deepest into the stack, called from a thread that has 1 MB of it: the readers of commands call themselves
//! while the octets left fall, and the prover says nothing of depth. Measured with gcc's and rustc's hosts: 0.72 MB at most, by a
//! line of open parentheses. A thread with less than this test's would be ended by any client that sends such a line.

use borjavid::records::{self, Notice};
use borjavid::{Answer, Memory};
use std::thread;

const STACK: usize = 1 << 20;

/// A line of the greatest length: a beginning, something over and over, an end.
fn line(beginning: &str, unit: &str, end: &str) -> Vec<u8> {
    let times = (1024 - beginning.len() - end.len()) / unit.len();
    format!("{beginning}{}{end}", unit.repeat(times)).into_bytes()
}

fn lines() -> Vec<Vec<u8>> {
    [
        ("t ESEARCH ", "(", ""),
        ("t ESEARCH IN (personal) ", "NOT (", ""),
        ("t ESEARCH IN (personal) ", "OR ", "ALL"),
        ("t ESEARCH IN (personal) ", "NOT ", "ALL"),
        ("t ESEARCH IN (personal) ", "ALL ", "ALL"),
        ("t ESEARCH IN (personal) ", "1,", "1"),
        ("t ESEARCH IN (", "personal ", "personal) ALL"),
        ("t ESEARCH IN (mailboxes (", "a ", "a)) ALL"),
        ("t ESEARCH RETURN (", "MIN ", "MIN) ALL"),
        ("t NOTIFY SET ", "(personal NONE) ", "(personal NONE)"),
        ("t NOTIFY SET (personal (", "x ", "x))"),
        (
            "t NOTIFY SET (mailboxes (",
            "a ",
            "a) (MessageNew MessageExpunge))",
        ),
        (
            "t NOTIFY SET (selected (MessageNew (",
            "UID ",
            "UID) MessageExpunge))",
        ),
        (
            "t NOTIFY SET (selected (MessageNew (BODY[",
            "1.",
            "1]) MessageExpunge))",
        ),
        (
            "t NOTIFY SET (selected (MessageNew (BODY[HEADER.FIELDS (",
            "a ",
            "a)]) MessageExpunge))",
        ),
    ]
    .map(|(beginning, unit, end)| line(beginning, unit, end))
    .into()
}

fn run() {
    let mut memory = Memory::new(65536);
    for id in 1..=64 {
        let name = format!("a{id}");
        let record = records::create(id, 0x37, Notice::Quiet, 7, 1, name.as_bytes());
        assert_eq!(memory.step(&record), Answer::Done);
    }
    for place in 0..1024 {
        let uid = u32::from(place / 64) + 1;
        let record = records::message(place % 64 + 1, uid, 0, 1, u64::from(uid) + 1);
        assert_eq!(memory.step(&record), Answer::Done);
    }
    assert_eq!(memory.step(&records::select(1)), Answer::Done);
    for line in lines() {
        assert!(line.len() <= 1024);
        let text = String::from_utf8_lossy(&line[..40]).into_owned();
        assert_eq!(
            memory.step(&records::command(&line)),
            Answer::Done,
            "{text}"
        );
        assert!(!memory.queue().is_empty(), "{text}");
        assert_eq!(memory.drain(memory.queue().len()), Answer::Done);
    }
}

#[test]
fn the_deepest_lines_need_less_than_a_megabyte() {
    let thread = thread::Builder::new().stack_size(STACK).spawn(run);
    thread.expect("a thread").join().expect("its end");
}
