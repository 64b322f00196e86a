//! Lines as they stand in the queue, and what they tell a client.

use crate::lines::{self, Out};

/// What a line says of the selected mailbox or of the session.
#[derive(Clone, Copy, PartialEq, Eq, Debug)]
pub enum Says {
    Exists(usize),
    Expunge(usize),
    Fetch { place: usize, flags: bool },
    Overflow,
    Other,
}

/// Whole lines, each with its CR LF; what is torn off at the end comes last.
pub fn whole_lines(octets: &[u8]) -> Vec<&[u8]> {
    octets.split_inclusive(|&octet| octet == b'\n').collect()
}

/// A line that this writes.
pub fn line(write: impl FnOnce(&mut Out)) -> Vec<u8> {
    let mut out = Out::new();
    write(&mut out);
    out
}

pub fn overflow() -> Vec<u8> {
    line(lines::overflow)
}

pub fn says(line: &[u8]) -> Says {
    if line == overflow() {
        return Says::Overflow;
    }
    numbered(line).unwrap_or(Says::Other)
}

/// A star, a number, a word: only lines about the selected mailbox begin so.
fn numbered(line: &[u8]) -> Option<Says> {
    let text = std::str::from_utf8(line).ok()?.strip_suffix("\r\n")?;
    let mut words = text.splitn(4, ' ');
    let star = words.next()?;
    let place = words.next()?.parse().ok()?;
    match (star, words.next()?, words.next()) {
        ("*", "EXISTS", None) => Some(Says::Exists(place)),
        ("*", "EXPUNGE", None) => Some(Says::Expunge(place)),
        ("*", "FETCH", Some(items)) => Some(Says::Fetch {
            place,
            flags: items.contains("FLAGS ("),
        }),
        _ => None,
    }
}

/// Belongs to the answer of a command: its result lines, and what NOTIFY SET lists.
pub fn is_answer(line: &[u8]) -> bool {
    let status =
        line.starts_with(b"* STATUS \"") && line.windows(11).any(|part| part == b"\" (MESSAGES");
    status || line.starts_with(b"* ESEARCH (") || line.starts_with(b"* LIST (\\NoAccess) ")
}
