//! A stream as the tools run it: from the empty start, at fixed sizes, drained by its own `DR` alone. Never more than a record of
//! it is held.

use super::{reason, Reason};
use crate::call::call_trusting;
use crate::memory::{Memory, MAILBOXES, MESSAGES};
use crate::records;
use std::io::{self, Read};

const QUEUE: usize = 8192;

fn start() -> Memory {
    Memory::new(QUEUE, MAILBOXES, MESSAGES)
}

/// The reason at a place, counted from 1; none where the stream has no such record. What stands behind the place is not read,
/// but something is for every place, so that a directory is noticed.
pub fn at(stream: &mut impl Read, place: u64) -> io::Result<Option<Reason>> {
    let (mut memory, mut record, mut number) = (start(), Vec::new(), 0);
    while records::next(stream, &mut record)? {
        number += 1;
        if number >= place {
            return Ok((number == place).then(|| reason(&memory, &record)));
        }
        call_trusting(&mut memory, &record);
    }
    Ok(None)
}

/// The reasons at all places.
pub fn all(stream: &mut impl Read) -> io::Result<Vec<Reason>> {
    let (mut memory, mut record, mut reasons) = (start(), Vec::new(), Vec::new());
    while records::next(stream, &mut record)? {
        reasons.push(reason(&memory, &record));
        call_trusting(&mut memory, &record);
    }
    Ok(reasons)
}

/// A place from its digits, however many; any other word is 0, where no record stands.
pub fn place(word: &[u8]) -> u64 {
    if !word.iter().all(u8::is_ascii_digit) {
        return 0;
    }
    let digits = word.iter().map(|digit| u64::from(digit - b'0'));
    digits.fold(0, |place: u64, digit| {
        place.saturating_mul(10).saturating_add(digit)
    })
}
