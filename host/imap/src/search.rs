//! SEARCH over the selected mailbox. ESEARCH, over several, is the library's.

use crate::condstore;
use crate::date;
use crate::flags::{DELETED, SEEN};
use crate::mime;
use crate::parse::{bad, is_within, Read, Reader, Set, Stop};
use crate::push::records::{ANSWERED, DRAFT, FLAGGED};
use crate::store::Message;
use std::cmp::Ordering;

/// How deep keys lie in keys.
const DEPTH: u32 = 50;

pub enum Key {
    All,
    Never,
    Flag(u8, bool),
    Larger(u64),
    Smaller(u64),
    Uid(Set),
    Number(Set),
    /// Changed at this counter or later.
    Modseq(u64),
    Header(String, String),
    Body(String),
    Text(String),
    /// When it came, or was sent: before, on, or from that day on.
    Date {
        sent: bool,
        than: Ordering,
        day: i64,
    },
    Not(Box<Key>),
    Or(Box<Key>, Box<Key>),
    List(Vec<Key>),
}

/// Where a message stands in the view, and what `*` means there.
pub struct Place {
    pub number: u32,
    pub last: u32,
    pub last_uid: u32,
}

pub fn keys(reader: &mut Reader) -> Read<Vec<Key>> {
    let mut all = vec![key(reader, 0)?];
    while reader.eat(b' ') {
        all.push(key(reader, 0)?);
    }
    Ok(all)
}

fn key(reader: &mut Reader, depth: u32) -> Read<Key> {
    if depth > DEPTH {
        return bad("keys too deep in each other");
    }
    match reader.peek() {
        b'(' => Ok(Key::List(reader.list(|reader| key(reader, depth + 1))?)),
        b'0'..=b'9' | b'*' => Ok(Key::Number(reader.set()?)),
        _ => {
            let word = reader.word()?;
            named(&word, reader, depth)
        }
    }
}

fn named(word: &str, reader: &mut Reader, depth: u32) -> Read<Key> {
    if let Some(flag) = flag(word) {
        return Ok(flag);
    }
    Ok(match word {
        "ALL" | "OLD" => Key::All,
        "NEW" | "RECENT" => Key::Never,
        "KEYWORD" => text(reader).map(|_| Key::Never)?,
        "UNKEYWORD" => text(reader).map(|_| Key::All)?,
        "MODSEQ" => Key::Modseq(condstore::search_key(reader)?),
        "LARGER" => Key::Larger(number(reader)?),
        "SMALLER" => Key::Smaller(number(reader)?),
        "UID" => {
            reader.space()?;
            Key::Uid(reader.set()?)
        }
        "FROM" | "TO" | "CC" | "BCC" | "SUBJECT" => Key::Header(word.into(), text(reader)?),
        "HEADER" => Key::Header(text(reader)?, text(reader)?),
        "BODY" => Key::Body(text(reader)?),
        "TEXT" => Key::Text(text(reader)?),
        "BEFORE" => dated(false, Ordering::Less, reader)?,
        "ON" => dated(false, Ordering::Equal, reader)?,
        "SINCE" => dated(false, Ordering::Greater, reader)?,
        "SENTBEFORE" => dated(true, Ordering::Less, reader)?,
        "SENTON" => dated(true, Ordering::Equal, reader)?,
        "SENTSINCE" => dated(true, Ordering::Greater, reader)?,
        "NOT" => Key::Not(inner(reader, depth)?),
        "OR" => Key::Or(inner(reader, depth)?, inner(reader, depth)?),
        _ => return bad("no such search key"),
    })
}

fn flag(word: &str) -> Option<Key> {
    let (name, on) = match word.strip_prefix("UN") {
        Some(name) => (name, false),
        None => (word, true),
    };
    let bit = match name {
        "ANSWERED" => ANSWERED,
        "FLAGGED" => FLAGGED,
        "DELETED" => DELETED,
        "SEEN" => SEEN,
        "DRAFT" => DRAFT,
        _ => return None,
    };
    Some(Key::Flag(bit, on))
}

fn inner(reader: &mut Reader, depth: u32) -> Read<Box<Key>> {
    reader.space()?;
    Ok(Box::new(key(reader, depth + 1)?))
}

fn text(reader: &mut Reader) -> Read<String> {
    reader.space()?;
    Ok(reader.astring()?.to_lowercase())
}

fn number(reader: &mut Reader) -> Read<u64> {
    reader.space()?;
    reader.number()
}

fn dated(sent: bool, than: Ordering, reader: &mut Reader) -> Read<Key> {
    let day = date::day(&text(reader)?).ok_or(Stop::Bad("no such date"))?;
    Ok(Key::Date { sent, than, day })
}

/// Whether a key asks for counters: the answer then ends with the highest of what was found.
pub fn has_modseq(key: &Key) -> bool {
    match key {
        Key::Modseq(_) => true,
        Key::Not(key) => has_modseq(key),
        Key::Or(a, b) => has_modseq(a) || has_modseq(b),
        Key::List(all) => all.iter().any(has_modseq),
        _ => false,
    }
}

pub fn matches(key: &Key, message: &Message, place: &Place) -> bool {
    let octets = &message.octets[..];
    let size = octets.len() as u64;
    match key {
        Key::All => true,
        Key::Never => false,
        Key::Flag(bit, on) => (message.flags & bit != 0) == *on,
        Key::Larger(than) => size > *than,
        Key::Smaller(than) => size < *than,
        Key::Uid(set) => is_within(set, message.uid, place.last_uid),
        Key::Number(set) => is_within(set, place.number, place.last),
        Key::Modseq(since) => message.counter >= *since,
        Key::Header(name, text) => mime::value(mime::split(octets).0, name)
            .is_some_and(|value| holds(value.as_bytes(), text)),
        Key::Body(text) => holds(mime::split(octets).1, text),
        Key::Text(text) => holds(octets, text),
        Key::Date { sent, than, day } => date_of(message, *sent).is_some_and(|date| match than {
            Ordering::Greater => date >= *day,
            _ => date.cmp(day) == *than,
        }),
        Key::Not(key) => !matches(key, message, place),
        Key::Or(a, b) => matches(a, message, place) || matches(b, message, place),
        Key::List(all) => all.iter().all(|key| matches(key, message, place)),
    }
}

fn holds(octets: &[u8], text: &str) -> bool {
    String::from_utf8_lossy(octets)
        .to_lowercase()
        .contains(text)
}

fn date_of(message: &Message, sent: bool) -> Option<i64> {
    if !sent {
        return date::day(&message.date);
    }
    let value = mime::value(mime::split(&message.octets).0, "Date")?;
    let behind_the_weekday = value.split_once(", ").map_or(&value[..], |(_, rest)| rest);
    date::day(behind_the_weekday)
}
