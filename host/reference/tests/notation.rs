//! Streams as text: `assemble` and `disassemble`, each the other's inverse, and what they say of lines and files that are wrong.

mod support;

use reference::generate::{stream, Generator};
use reference::notation::{disassemble, text};
use reference::random::Random;
use reference::records::read;
use reference::Memory;
use std::io::Write;
use std::process::{Command, Output, Stdio};
use support::*;

/// A text that stands for the octets, and only for them.
fn round(octets: &[u8]) -> String {
    let text = text(octets);
    assert_eq!(records(&text).concat(), octets, "{text}");
    text
}

#[test]
fn every_vector_comes_back() {
    let numbers: Vec<String> = index().into_iter().map(|listed| listed.number).collect();
    assert_eq!(numbers.len(), 169);
    let (mut lawful, mut other) = (0, 0);
    for number in numbers.iter().map(String::as_str).chain(["session"]) {
        let records = records(&vector(&format!("{number}.txt")));
        round(&records.concat());
        for record in records {
            let line = disassemble(&record);
            assert_eq!(assemble(&line), record, "{number}: {line}");
            let hex = line.starts_with("HEX");
            // a lawful record is HEX where a line can't hold its command
            let plain = |octet: &u8| (0x20..=0x7E).contains(octet);
            let unreadable = record.starts_with(b"CM") && !record[4..].iter().all(plain);
            let readable = read(&record).is_some() && !unreadable || line.starts_with("OLD ");
            assert_eq!(readable, !hex, "{number}: {line}");
            *if hex { &mut other } else { &mut lawful } += 1;
        }
    }
    println!("{lawful} by their layout, {other} as HEX");
    assert!(lawful > 500 && other > 10);
}

#[test]
fn the_session_comes_back_as_it_was_written() {
    let written = vector("session.txt");
    let (comment, lines) = written.split_once('\n').expect("lines");
    assert!(comment.starts_with('#'));
    assert_eq!(text(&records(lines).concat()), lines);
}

#[test]
fn random_streams_come_back() {
    let mut kinds = std::collections::BTreeSet::new();
    for seed in 0..200 {
        let calls = stream(seed, 300, 8192, 64, 1024);
        for call in &calls {
            let line = disassemble(call);
            assert_eq!(assemble(&line), *call, "{line}");
            kinds.insert(line.split(' ').next().unwrap_or_default().to_string());
        }
        // torn anywhere
        let octets = calls.concat();
        let end = Random::new(seed).below(octets.len() + 1);
        round(&octets[..end]);
        round(&octets);
    }
    // the twelve kinds, OLD and HEX
    assert_eq!(kinds.len(), 14, "{kinds:?}");
}

#[test]
fn any_octets_come_back() {
    let mut random = Random::new(5465);
    for _ in 0..20_000 {
        let length = random.below(40);
        let octets: Vec<u8> = (0..length).map(|_| random.octet()).collect();
        round(&octets);
    }
    // records of a memory, with one octet spoilt
    let mut generator = Generator::new(6237);
    let memory = Memory::new(8192, 64, 1024);
    for _ in 0..20_000 {
        let mut octets = generator.propose(&memory);
        if let Some(octet) = octets
            .len()
            .checked_sub(1)
            .map(|last| random.below(last + 1))
        {
            octets[octet] ^= 1 << random.below(8);
        }
        round(&octets);
        assert_eq!(assemble(&disassemble(&octets)), octets);
    }
}

/// Runs a program of this package on standard input.
fn run(program: &str, words: &[&str], input: &[u8]) -> Output {
    let mut child = Command::new(program)
        .args(words)
        .stdin(Stdio::piped())
        .stdout(Stdio::piped())
        .stderr(Stdio::piped())
        .spawn()
        .expect("it starts");
    // a program that has ended takes nothing
    let _ = child.stdin.take().expect("a pipe").write_all(input);
    child.wait_with_output().expect("it ends")
}

const ASSEMBLE: &str = env!("CARGO_BIN_EXE_assemble");
const DISASSEMBLE: &str = env!("CARGO_BIN_EXE_disassemble");

#[test]
fn the_programs_are_inverse() {
    let path = vector_path("session.txt");
    let file = path.to_str().expect("a path");
    let octets = run(ASSEMBLE, &[file], b"").stdout;
    assert_eq!(octets, records(&vector("session.txt")).concat());
    assert_eq!(
        run(ASSEMBLE, &[], vector("session.txt").as_bytes()).stdout,
        octets
    );
    assert_eq!(
        run(ASSEMBLE, &["--calls"], b"SE 1\n").stdout,
        b"\x06\0\0\0SE\x02\0\x01\0"
    );
    let torn = &octets[..octets.len() - 3];
    let text = run(DISASSEMBLE, &[], torn).stdout;
    assert_eq!(run(ASSEMBLE, &[], &text).stdout, torn);
}

#[test]
fn faults_have_a_place_and_a_status() {
    let wrong = |program: &str, words: &[&str], input: &[u8], status: i32, wanted: &str| {
        let output = run(program, words, input);
        let said = String::from_utf8_lossy(&output.stderr).into_owned();
        assert!(
            said.contains(wanted) && !said.contains("panicked"),
            "{words:?}: {said}"
        );
        assert_eq!(output.status.code(), Some(status), "{words:?}: {said}");
        assert!(output.stdout.is_empty(), "{words:?}");
    };
    let text = b"SE 1\n\nMB 65537 0x37 1 7 1 INBOX\n";
    wrong(
        ASSEMBLE,
        &[],
        text,
        1,
        "assemble: standard input:3: expected id, a number from 0 to 65535",
    );
    wrong(
        ASSEMBLE,
        &[],
        b"HEX zz\n",
        1,
        "standard input:1: expected octets",
    );
    wrong(
        ASSEMBLE,
        &[],
        b"SE 1 2\n",
        1,
        "standard input:1: expected nothing behind id, not `2`",
    );
    wrong(
        ASSEMBLE,
        &["no such file"],
        b"",
        1,
        "assemble: no such file: No such file",
    );
    wrong(
        ASSEMBLE,
        &[env!("CARGO_MANIFEST_DIR")],
        b"",
        1,
        "Is a directory",
    );
    wrong(ASSEMBLE, &["--call"], b"", 2, "usage: assemble");
    wrong(ASSEMBLE, &["one", "two"], b"", 2, "usage: assemble");
    wrong(
        DISASSEMBLE,
        &["no such file"],
        b"",
        1,
        "disassemble: no such file: No such file",
    );
    wrong(DISASSEMBLE, &["--calls"], b"", 2, "usage: disassemble");
    // a file is named as it was given
    let path = std::env::temp_dir().join(format!("notation-{}.txt", std::process::id()));
    std::fs::write(&path, "# a comment\nSE one\n").expect("a file");
    let file = path.to_str().expect("a path");
    wrong(
        ASSEMBLE,
        &[file],
        b"",
        1,
        &format!("assemble: {file}:2: expected id"),
    );
    std::fs::remove_file(&path).expect("a file");
}
