//! Every stream of the vectors, at its own Q and table lengths: by the library and by `replay`.

mod support;

use reference::{call, Memory};
use std::io::Write;
use std::process::{Command, Stdio};
use support::*;

#[test]
fn library_answers_every_vector() {
    let index = index();
    assert_eq!(index.len(), 169);
    for listed in &index {
        let mut memory = Memory::new(listed.queue, listed.mailboxes, listed.messages);
        let mut got = String::new();
        for octets in records(&vector(&format!("{}.txt", listed.number))) {
            let answer = call(&mut memory, &octets);
            let count = answer
                .count
                .map_or("-".to_string(), |count| count.to_string());
            got += &format!("{} {count} {}\n", answer.refusal, hex(memory.held()));
        }
        let wanted = vector(&format!("{}.out", listed.number));
        assert_eq!(got, wanted, "{} {}", listed.number, listed.title);
    }
}

#[test]
fn replay_answers_every_vector() {
    for listed in index() {
        let sizes = [listed.queue, listed.mailboxes, listed.messages];
        let mut child = Command::new(env!("CARGO_BIN_EXE_replay"))
            .args(sizes.map(|size| size.to_string()))
            .stdin(Stdio::piped())
            .stdout(Stdio::piped())
            .spawn()
            .expect("replay starts");
        let input = calls(&records(&vector(&format!("{}.txt", listed.number))));
        // what it prints is small enough for the pipe, and the handle is closed here
        child
            .stdin
            .take()
            .expect("a pipe")
            .write_all(&input)
            .expect("replay reads");
        let output = child.wait_with_output().expect("replay ends");
        let wanted = vector(&format!("{}.out", listed.number));
        let got = String::from_utf8(output.stdout).expect("replay prints ASCII");
        assert_eq!(got, wanted, "{} {}", listed.number, listed.title);
    }
}
