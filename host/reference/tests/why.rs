//! The tool `why`: the vectors of request 3 by the library and by the programs, and whatever else may be asked of them.

mod support;

use reference::generate::reasons;
use reference::random::Random;
use reference::records::{cut, next};
use reference::why::{self, Reason};
use std::ffi::OsStr;
use std::io::{self, Read};
use std::path::{Path, PathBuf};
use std::process::Command;
use support::*;

const WHY: &str = env!("CARGO_BIN_EXE_why");
const REASONS: &str = env!("CARGO_BIN_EXE_reasons");

/// The numbers of `cr03/INDEX`.
fn numbers() -> Vec<String> {
    let index = vector("cr03/INDEX");
    let number = |line: &str| line.split(' ').next().map(String::from);
    index.lines().filter_map(number).collect()
}

/// What a program prints, which ends well.
#[track_caller]
fn printed<S: AsRef<OsStr>>(program: &str, words: &[S]) -> String {
    let output = Command::new(program)
        .args(words)
        .output()
        .expect("it starts");
    assert!(output.status.success() && output.stderr.is_empty());
    String::from_utf8(output.stdout).expect("ASCII")
}

/// A file that goes when it is no longer needed.
struct Stored(PathBuf);

impl Stored {
    fn new(name: &str, octets: &[u8]) -> Stored {
        let path = std::env::temp_dir().join(format!("why-{}-{name}", std::process::id()));
        std::fs::write(&path, octets).expect("a file");
        Stored(path)
    }

    fn why(&self, place: &str) -> String {
        printed(WHY, &[self.0.as_os_str(), OsStr::new(place)])
    }
}

impl Drop for Stored {
    fn drop(&mut self) {
        let _ = std::fs::remove_file(&self.0);
    }
}

/// What `why` prints for each place from 0 to one above the last.
fn all_lines(mut stream: &[u8]) -> String {
    let reasons = why::all(&mut stream).expect("octets in memory can be read");
    let inside = reasons.into_iter().map(Some);
    let places = [None].into_iter().chain(inside).chain([None]);
    places.map(why::line).collect()
}

#[test]
fn every_vector_is_answered() {
    let numbers = numbers();
    assert_eq!(numbers.len(), 24);
    for number in numbers {
        let octets = records(&vector(&format!("cr03/{number}.txt"))).concat();
        let wanted = vector(&format!("cr03/{number}.out"));
        assert_eq!(all_lines(&octets), wanted, "{number}");
        let stored = Stored::new(&number, &octets);
        assert_eq!(printed(REASONS, &[&stored.0]), wanted, "{number}");
        let places = 0..wanted.lines().count();
        let each: String = places.map(|place| stored.why(&place.to_string())).collect();
        assert_eq!(each, wanted, "{number}");
    }
}

/// All vectors are listed.
#[test]
fn no_vector_is_passed_over() {
    let folder = std::fs::read_dir(vector_path("cr03")).expect("a folder");
    let mut files: Vec<String> = folder
        .map(|entry| entry.expect("a file").file_name())
        .map(|name| name.into_string().expect("ASCII"))
        .collect();
    files.sort();
    let listed = numbers();
    let both = listed
        .iter()
        .flat_map(|number| ["out", "txt"].map(|kind| format!("{number}.{kind}")));
    assert_eq!(files, both.chain(["INDEX".to_string()]).collect::<Vec<_>>());
}

/// The stream that people are shown, and every answer but `overflow`, which takes too many records to be read.
#[test]
fn the_readable_stream_is_answered() {
    let octets = records(&vector("why.txt")).concat();
    let wanted = vector("why.printed");
    assert_eq!(
        all_lines(&octets),
        format!("no record\r\n{wanted}no record\r\n")
    );
    let words = [
        "refused",
        "quiet",
        "no event",
        "right missing",
        "no group matches",
        "group matches but event not asked",
        "unannounced message",
        "waiting 0",
        "waiting 1",
        "written",
    ];
    for word in words {
        assert!(wanted.lines().any(|line| line.starts_with(word)), "{word}");
    }
}

#[test]
fn places_are_digits() {
    let stream = Stored::new("places", &records("SE 0\nSE 1\nDR 1").concat());
    for (place, wanted) in [
        ("1", "no event"),
        ("2", "refused 3"),
        ("3", "refused 6"),
        ("0", "no record"),
        ("4", "no record"),
        ("00", "no record"),
        ("007", "no record"),
        ("002", "refused 3"),
        (&format!("{}3", "0".repeat(100)), "refused 6"),
        // one above what 64 bits hold, and what they hold of these if the rest is lost
        ("18446744073709551615", "no record"),
        ("18446744073709551616", "no record"),
        ("18446744073709551617", "no record"),
        ("1000000000000000000000000000000000000001", "no record"),
        ("", "no record"),
        ("-1", "no record"),
        ("+1", "no record"),
        ("x", "no record"),
        ("1 ", "no record"),
        (" 1", "no record"),
        ("1x", "no record"),
        ("0x1", "no record"),
        ("1.0", "no record"),
        ("\u{661}", "no record"),
        ("--help", "no record"),
    ] {
        assert_eq!(stream.why(place), format!("{wanted}\r\n"), "{place}");
    }
}

#[test]
fn a_torn_end_is_one_record() {
    let whole = records("SE 0").concat();
    for torn in [&b"S"[..], b"SE", b"SE\x02", b"SE\x02\0", b"SE\x02\0\0"] {
        for before in [&b""[..], &whole] {
            let octets = [before, torn].concat();
            let wanted = if before.is_empty() {
                ""
            } else {
                "no event\r\n"
            };
            let wanted = format!("no record\r\n{wanted}refused 2\r\nno record\r\n");
            assert_eq!(all_lines(&octets), wanted, "{torn:?}");
        }
    }
    let empty = Stored::new("empty", b"");
    for place in ["0", "1", "2", "x"] {
        assert_eq!(empty.why(place), "no record\r\n");
    }
}

/// Arguments and file come before the place.
#[test]
fn what_cannot_be_read_is_refused() {
    let stream = Stored::new("read", &records("SE 0").concat());
    let stream = stream.0.to_str().expect("a path");
    let long = "a".repeat(5000);
    for words in [
        &[][..],
        &[stream],
        &["1"],
        &[stream, "1", "1"],
        &[stream, stream, "1", ""],
        &["", "1"],
    ] {
        assert_eq!(printed(WHY, words), "! 2\r\n", "{words:?}");
    }
    for file in ["no such file", env!("CARGO_MANIFEST_DIR"), &long, ""] {
        for place in ["0", "1", "2", "x", ""] {
            assert_eq!(printed(WHY, &[file, place]), "! 2\r\n", "{file} {place}");
        }
    }
    // it may be opened, and no octet of it may be read
    if Path::new("/proc/self/mem").exists() {
        assert_eq!(printed(WHY, &["/proc/self/mem", "0"]), "! 2\r\n");
    }
}

/// Octets, then a fault.
struct Failing<'a>(&'a [u8]);

impl Read for Failing<'_> {
    fn read(&mut self, out: &mut [u8]) -> io::Result<usize> {
        match self.0.read(out)? {
            0 => Err(io::Error::other("the disk fails")),
            count => Ok(count),
        }
    }
}

#[test]
fn only_a_fault_before_the_place_counts() {
    let octets = records("SE 0\nSE 1\nSE 2").concat();
    for broken in 0..octets.len() {
        // records of six octets each
        let whole = broken as u64 / 6;
        for place in 0..5 {
            let got = why::at(&mut Failing(&octets[..broken]), place);
            let read = place.max(1) <= whole;
            assert_eq!(got.is_ok(), read, "place {place}, {broken} octets");
        }
    }
}

/// What stands behind the place is not read, so a stream need have no end.
#[test]
fn a_stream_without_end() {
    let refused = why::at(&mut io::repeat(0), 100_000).expect("octets");
    assert_eq!(refused, Some(Reason::Refused(2)));
    assert_eq!(why::at(&mut io::repeat(0), 0).expect("octets"), None);
}

/// One record after the other as all at once, wherever a stream is torn.
#[test]
fn records_one_by_one() {
    let mut random = Random::new(3);
    for seed in 0..300 {
        let octets = reasons::stream(seed, 40);
        let end = random.below(octets.len() + 1);
        let mut rest = &octets[..end];
        let (mut record, mut pieces) = (Vec::new(), Vec::new());
        while next(&mut rest, &mut record).expect("octets") {
            pieces.push(record.clone());
        }
        assert_eq!(pieces, cut(&octets[..end]));
    }
}
