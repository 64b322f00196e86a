//! The records that a connection's library gets, as a stream, where that is asked for.

use std::fs::File;
use std::io::Write;
use std::path::{Path, PathBuf};

/// Mark and length field, and the longest body that the field can say.
const HEAD: usize = 4;
const BODY: usize = u16::MAX as usize;

pub struct Recording {
    path: PathBuf,
    /// None behind a write that failed: a stream with a gap would tell of another session.
    file: Option<File>,
}

impl Recording {
    /// The stream of the connection of this number, which starts empty as its library does.
    pub fn new(folder: Option<&Path>, number: u64) -> Option<Recording> {
        let path = folder?.join(format!("{number}.records"));
        let mut recording = Recording { path, file: None };
        match File::create(&recording.path) {
            Ok(file) => recording.file = Some(file),
            Err(fault) => recording.complain(&fault),
        }
        Some(recording)
    }

    /// A record that the step is about to get. It is written at once and not held back, so that the file is all that came
    /// about whenever it is looked at, also behind a call that did not end.
    pub fn note(&mut self, record: &[u8]) {
        let Some(file) = &mut self.file else { return };
        if let Err(fault) = file.write_all(&framed(record)) {
            self.file = None;
            self.complain(&fault);
        }
    }

    fn complain(&self, fault: &std::io::Error) {
        eprintln!("imap: {} ends here: {fault}", self.path.display());
    }
}

/// The record as a stream can hold it. One that is longer than its length field can say would have its rest read as further
/// records, and a client could choose those: it is cut to the longest body, which the step refuses for the same reason.
fn framed(record: &[u8]) -> Vec<u8> {
    let len = BODY.min(record.len() - HEAD);
    let mut octets = record[..HEAD + len].to_vec();
    octets[2..HEAD].copy_from_slice(&(len as u16).to_le_bytes());
    octets
}
