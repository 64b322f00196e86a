//! The printed session, through the program `pushrun`, and the program's own rules.

mod support;

use std::io::Write;
use std::process::{Command, Stdio};
use support::*;

fn pushrun(stream: &[u8]) -> Vec<u8> {
    let mut child = Command::new(env!("CARGO_BIN_EXE_pushrun"))
        .stdin(Stdio::piped())
        .stdout(Stdio::piped())
        .spawn()
        .expect("pushrun starts");
    child
        .stdin
        .take()
        .expect("a pipe")
        .write_all(stream)
        .expect("pushrun reads");
    child.wait_with_output().expect("pushrun ends").stdout
}

#[test]
fn session_is_printed() {
    let stream = records(&vector("session.txt")).concat();
    let printed = String::from_utf8(pushrun(&stream)).expect("lines are ASCII");
    assert_eq!(printed, vector("session.printed"));
}

#[test]
fn torn_end_is_one_more_record() {
    let mut stream = records("MB 1 0x33 1 1 1 b\nCE 1").concat();
    assert_eq!(pushrun(&stream), b"");
    for torn in [
        &b"C"[..],
        b"CE",
        b"CE\x01",
        b"CE\x01\x00",
        b"CM\x05\x00a NO",
    ] {
        let whole = stream.len();
        stream.extend_from_slice(torn);
        assert_eq!(pushrun(&stream), b"! 2\r\n");
        stream.truncate(whole);
    }
    assert_eq!(pushrun(b""), b"");
}

#[test]
fn refusals_are_printed_and_counts_are_not() {
    let stream =
        records("SE 3\nMB 1 0x33 1 1 1 b\nME 1 1 0 0 2\nSE 1\nXP 1 1 3\nCE 0\nCE 1\nDR 1").concat();
    assert_eq!(pushrun(&stream), b"! 3\r\n* 1 EXPUNGE\r\n! 6\r\n");
}
