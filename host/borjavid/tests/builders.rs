//! The header's builders against `borjavid::records`, octet for octet, on random fields: `tests/c/builders.c` builds what it
//! reads, as C and as C++, and tries buffers that are too small. The header's table of layouts has the same lengths.

use borjavid::records::{self, Class, Notice};
use reference::random::Random;
use std::fs::File;
use std::path::{Path, PathBuf};
use std::process::{Command, Stdio};

const RECORDS: usize = 20_000;
/// What a length field can say.
const BODY_MOST: usize = 65_535;

/// The fields of a record for `builders.c`, and the record.
struct Built {
    fields: Vec<u8>,
    record: Vec<u8>,
}

fn built(mark: &str, numbers: &[u64], tail: Option<&[u8]>, record: Vec<u8>) -> Built {
    let numbers = numbers.iter().copied();
    let numbers: Vec<u64> = numbers.chain(tail.map(|tail| tail.len() as u64)).collect();
    let words: Vec<String> = numbers.iter().map(u64::to_string).collect();
    let line = format!("{mark} {}\n", words.join(" "));
    Built {
        fields: [line.as_bytes(), tail.unwrap_or_default()].concat(),
        record,
    }
}

/// Any number, or one from the ends of a field of so many bits.
fn number(random: &mut Random, bits: u32) -> u64 {
    let most = u64::MAX >> (64 - bits);
    match random.below(6) {
        0 => 0,
        1 => 1,
        2 => most,
        3 => most / 2,
        _ => random.number() & most,
    }
}

/// Any octets: most often as many as a name has, at times as many as a record can or can't hold.
fn tail(random: &mut Random, fields: usize) -> Vec<u8> {
    let longest = BODY_MOST - fields;
    let length = match random.below(200) {
        0 => random.between(longest - 2, longest + 3),
        1 => random.between(65_530, 65_545),
        2..=9 => random.pick(&[0, 64, 65, 239, 240, 255, 256, 1024, 1025]),
        _ => random.between(0, 70),
    };
    (0..length).map(|_| random.octet()).collect()
}

fn notice(random: &mut Random) -> Notice {
    random.pick(&[Notice::Owed, Notice::Quiet])
}

/// One record of a kind, by its place in the table of layouts.
fn any(random: &mut Random, kind: usize) -> Built {
    let id = number(random, 16) as u16;
    let octet = number(random, 8) as u8;
    let (uid, size) = (number(random, 32) as u32, number(random, 32) as u32);
    let counter = number(random, 64);
    let quiet = notice(random);
    if kind < 5 {
        of_mailbox(random, kind, (id, octet, quiet, uid, counter))
    } else if kind < 8 {
        of_message(kind, (id, uid, octet, size, counter))
    } else {
        of_session(random, kind, id, counter)
    }
}

fn of_mailbox(random: &mut Random, kind: usize, fields: (u16, u8, Notice, u32, u64)) -> Built {
    let (id, octet, quiet, validity, counter) = fields;
    let (n, q) = (u64::from(id), quiet as u64);
    let bits = u64::from(octet);
    match kind {
        0 => {
            let name = tail(random, 16);
            let numbers = [n, bits, q, u64::from(validity), counter];
            let record = records::create(id, octet, quiet, validity, counter, &name);
            built("MB", &numbers, Some(&name), record)
        }
        1 => built("DL", &[n, q], None, records::delete(id, quiet)),
        2 => {
            let name = tail(random, 3);
            let record = records::rename(id, quiet, &name);
            built("RN", &[n, q], Some(&name), record)
        }
        3 => {
            let subscribed = random.chance(50);
            let record = records::subscribe(id, subscribed, quiet);
            built("SB", &[n, u64::from(subscribed), q], None, record)
        }
        _ => built("RT", &[n, bits], None, records::rights(id, octet)),
    }
}

fn of_message(kind: usize, (id, uid, flags, size, counter): (u16, u32, u8, u32, u64)) -> Built {
    let (n, u, bits) = (u64::from(id), u64::from(uid), u64::from(flags));
    match kind {
        5 => {
            let record = records::message(id, uid, flags, size, counter);
            built("ME", &[n, u, bits, u64::from(size), counter], None, record)
        }
        6 => {
            let record = records::expunge(id, uid, counter);
            built("XP", &[n, u, counter], None, record)
        }
        _ => {
            let record = records::flags(id, uid, flags, counter);
            built("FL", &[n, u, bits, counter], None, record)
        }
    }
}

fn of_session(random: &mut Random, kind: usize, id: u16, count: u64) -> Built {
    match kind {
        8 => built("SE", &[u64::from(id)], None, records::select(id)),
        9 => {
            let class = random.pick(&[Class::Fetch, Class::Rest]);
            built("CE", &[class as u64], None, records::command_ended(class))
        }
        10 => {
            let line = tail(random, 0);
            built("CM", &[], Some(&line), records::command(&line))
        }
        _ => {
            let record = records::drained(count as usize).to_vec();
            built("DR", &[count], None, record)
        }
    }
}

fn folder() -> PathBuf {
    PathBuf::from(env!("CARGO_TARGET_TMPDIR"))
}

fn compiled(language: &[&str], name: &str) -> PathBuf {
    let package = Path::new(env!("CARGO_MANIFEST_DIR"));
    let program = folder().join(name);
    let mut command = Command::new(package.join("compile-c"));
    command
        .args(language)
        .arg(package.join("tests/c/builders.c"))
        .arg(&program);
    assert!(command.status().expect("compile-c").success(), "{name}");
    program
}

/// What the program gives for the fields, a record for each; none where it gave 0 octets.
fn from_c(program: &Path, fields: &Path) -> Vec<Vec<u8>> {
    let input = File::open(fields).expect("the fields");
    let mut command = Command::new(program);
    let output = command
        .stdin(input)
        .stderr(Stdio::inherit())
        .output()
        .expect("a program");
    assert!(output.status.success(), "{}", program.display());
    let mut octets = &output.stdout[..];
    let mut given = Vec::new();
    while let Some((head, rest)) = octets.split_first_chunk::<4>() {
        let (record, rest) = rest.split_at(u32::from_le_bytes(*head) as usize);
        given.push(record.to_vec());
        octets = rest;
    }
    given
}

#[test]
fn builders_in_c_give_the_same_octets() {
    let mut random = Random::new(20261117);
    let all: Vec<Built> = (0..RECORDS)
        .map(|place| any(&mut random, place % 12))
        .collect();
    let fields = folder().join("builders.fields");
    let octets: Vec<u8> = all
        .iter()
        .flat_map(|one| one.fields.iter().copied())
        .collect();
    std::fs::write(&fields, octets).expect("a file");
    let longest = all
        .iter()
        .filter(|one| one.record.len() == 4 + BODY_MOST)
        .count();
    let unsaid = all
        .iter()
        .filter(|one| one.record.len() > 4 + BODY_MOST)
        .count();
    assert!(
        longest > 0 && unsaid > 10,
        "{longest} of the longest, {unsaid} beyond"
    );
    for (language, name) in [(&[][..], "builders-c"), (&["--c++"][..], "builders-c++")] {
        let given = from_c(&compiled(language, name), &fields);
        assert_eq!(given.len(), all.len(), "{name}");
        for (given, wanted) in given.iter().zip(&all) {
            // a body that no length field can say: Rust gives it a false one, C no record
            let fits = wanted.record.len() <= 4 + BODY_MOST;
            let record = if fits { &wanted.record[..] } else { &[] };
            assert!(
                given == record,
                "{name}: {:?} gives {given:?}",
                wanted.record
            );
        }
    }
}

/// A row of the header's table: the mark, the builder, the sum of the fields' octets, and what the last column says of it.
fn row(line: &str) -> (&str, &str, usize, usize) {
    let columns: Vec<&str> = line
        .split("  ")
        .map(str::trim)
        .filter(|word| !word.is_empty())
        .collect();
    let [mark, builder, body, octets] = columns[..] else {
        panic!("no row of four: {line}");
    };
    let width = |field: &str| {
        field
            .split(' ')
            .nth(1)
            .map_or(0, |octets| octets.parse().unwrap())
    };
    let said = octets.split(' ').next().unwrap().parse().unwrap_or(0);
    (mark, builder, body.split(", ").map(width).sum(), said)
}

fn table() -> Vec<(&'static str, &'static str, usize, usize)> {
    let header = include_str!("../include/borjavid_records.h");
    let lines = header.lines().filter_map(|line| line.strip_prefix(" *   "));
    let rows = lines.skip_while(|line| !line.starts_with("Mark")).skip(1);
    rows.take(12).map(row).collect()
}

#[test]
fn the_table_has_the_records_lengths() {
    let none = b"";
    let records = [
        ("create", records::create(1, 0, Notice::Owed, 1, 1, none)),
        ("delete", records::delete(1, Notice::Owed)),
        ("rename", records::rename(1, Notice::Owed, none)),
        ("subscribe", records::subscribe(1, true, Notice::Owed)),
        ("rights", records::rights(1, 0)),
        ("message", records::message(1, 1, 0, 0, 1)),
        ("expunge", records::expunge(1, 1, 1)),
        ("flags", records::flags(1, 1, 0, 1)),
        ("select", records::select(0)),
        ("command_ended", records::command_ended(Class::Rest)),
        ("command", records::command(none)),
        ("drained", records::drained(0).to_vec()),
    ];
    let rows = table();
    assert_eq!(rows.len(), records.len());
    for (row, (builder, record)) in rows.into_iter().zip(records) {
        let mark = std::str::from_utf8(&record[..2]).unwrap();
        let body = record.len() - 4;
        assert_eq!(row, (mark, builder, body, body));
    }
}
