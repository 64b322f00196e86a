//! RFC 3501's fetch-att, read in full though only three of them are served.

use super::reader::Reader;
use crate::memory::{WITH_FLAGS, WITH_SIZE, WITH_UID};

/// The bit of a served attribute, 0 for one that is grammatical but not served.
pub fn attribute(reader: &mut Reader) -> Option<u8> {
    let word = reader.run(|octet| octet.is_ascii_alphanumeric() || octet == b'.');
    let is = |text: &str| word.eq_ignore_ascii_case(text.as_bytes());
    if is("UID") {
        return Some(WITH_UID);
    }
    if is("FLAGS") {
        return Some(WITH_FLAGS);
    }
    if is("RFC822.SIZE") {
        return Some(WITH_SIZE);
    }
    let plain = [
        "ENVELOPE",
        "INTERNALDATE",
        "RFC822",
        "RFC822.HEADER",
        "RFC822.TEXT",
        "BODYSTRUCTURE",
    ];
    if plain.into_iter().any(is) {
        return Some(0);
    }
    let open = reader.peek() == Some(b'[');
    if is("BODY") && !open {
        return Some(0);
    }
    if is("BODY") || is("BODY.PEEK") {
        section(reader)?;
        partial(reader)?;
        return Some(0);
    }
    None
}

/// `[` a part's numbers, a text's name, both or neither `]`.
fn section(reader: &mut Reader) -> Option<()> {
    reader.take(b'[')?;
    let mut part = false;
    let mut text = reader.peek() != Some(b']');
    while reader.peek().is_some_and(|octet| octet.is_ascii_digit()) {
        reader.nz_number()?;
        part = true;
        text = reader.skip(b'.');
        if !text {
            break;
        }
    }
    if text {
        section_text(reader, part)?;
    }
    reader.take(b']')
}

/// MIME needs a part's number before it.
fn section_text(reader: &mut Reader, part: bool) -> Option<()> {
    let word = reader.run(|octet| octet.is_ascii_alphabetic() || octet == b'.');
    let is = |text: &str| word.eq_ignore_ascii_case(text.as_bytes());
    if is("HEADER") || is("TEXT") || part && is("MIME") {
        return Some(());
    }
    if is("HEADER.FIELDS") || is("HEADER.FIELDS.NOT") {
        reader.space()?;
        return reader.listed(|reader| reader.astring().map(|_| ()));
    }
    None
}

/// `<` first octet `.` how many `>`, or nothing.
fn partial(reader: &mut Reader) -> Option<()> {
    if reader.skip(b'<') {
        reader.number()?;
        reader.take(b'.')?;
        reader.nz_number()?;
        reader.take(b'>')?;
    }
    Some(())
}
