//! Search keys, as a flat row: each key knows where it ends, what it holds follows it.

use super::reader::Reader;

pub const KEYS: usize = 32;
pub const DEPTH: usize = 8;
pub const PARTS: usize = 16;

#[derive(Clone, Copy, PartialEq, Eq, Debug)]
pub enum Key {
    All,
    /// These flag bits are set, or not.
    Flag(u8, bool),
    Larger(u32),
    Smaller(u32),
    /// Parts from the first place up to the second.
    Uids(usize, usize),
    Numbers(usize, usize),
    Not,
    Or,
    List,
    /// Grammatical, not served.
    Foreign,
}

#[derive(Clone, Copy, PartialEq, Eq, Debug)]
pub struct Node {
    pub key: Key,
    pub end: usize,
}

/// One part of a set; 0 stands for `*`.
pub type Part = (u32, u32);

#[derive(Clone, Default, PartialEq, Eq, Debug)]
pub struct Keys {
    pub nodes: Vec<Node>,
    pub parts: Vec<Part>,
    pub foreign: bool,
    deepest: usize,
    longest_set: usize,
}

impl Keys {
    /// One key or more to the line's end.
    pub fn read(reader: &mut Reader) -> Option<Keys> {
        let mut keys = Keys::default();
        keys.key(reader, 0)?;
        while reader.skip(b' ') {
            keys.key(reader, 0)?;
        }
        Some(keys)
    }

    pub fn too_many(&self) -> bool {
        self.nodes.len() > KEYS || self.deepest > DEPTH || self.longest_set > PARTS
    }

    /// One key; `depth` lists are open around it.
    fn key(&mut self, reader: &mut Reader, depth: usize) -> Option<()> {
        let place = self.nodes.len();
        self.nodes.push(Node {
            key: Key::All,
            end: 0,
        });
        let key = match reader.peek()? {
            b'(' => {
                self.deepest = self.deepest.max(depth + 1);
                reader.listed(|reader| self.key(reader, depth + 1))?;
                Key::List
            }
            b'*' | b'0'..=b'9' => {
                let (first, end) = self.set(reader)?;
                Key::Numbers(first, end)
            }
            _ => self.word(reader, depth)?,
        };
        self.foreign |= key == Key::Foreign;
        let end = self.nodes.len();
        self.nodes[place] = Node { key, end };
        Some(())
    }

    fn word(&mut self, reader: &mut Reader, depth: usize) -> Option<Key> {
        let word = reader.atom()?;
        let is = |text: &str| word.eq_ignore_ascii_case(text.as_bytes());
        let any = |words: &[&str]| words.iter().any(|text| is(text));
        if is("ALL") {
            return Some(Key::All);
        }
        if let Some(key) = flag_key(word) {
            return Some(key);
        }
        if any(&["NEW", "OLD", "RECENT"]) {
            return Some(Key::Foreign);
        }
        // every other key has an argument
        reader.space()?;
        if is("LARGER") {
            return Some(Key::Larger(reader.number()?));
        }
        if is("SMALLER") {
            return Some(Key::Smaller(reader.number()?));
        }
        if is("UID") {
            let (first, end) = self.set(reader)?;
            return Some(Key::Uids(first, end));
        }
        if is("NOT") {
            self.key(reader, depth)?;
            return Some(Key::Not);
        }
        if is("OR") {
            self.key(reader, depth)?;
            reader.space()?;
            self.key(reader, depth)?;
            return Some(Key::Or);
        }
        if any(&["BCC", "BODY", "CC", "FROM", "SUBJECT", "TEXT", "TO"]) {
            reader.astring()?;
        } else if any(&["KEYWORD", "UNKEYWORD"]) {
            reader.atom()?;
        } else if any(&["BEFORE", "ON", "SINCE", "SENTBEFORE", "SENTON", "SENTSINCE"]) {
            date(reader)?;
        } else if is("HEADER") {
            reader.astring()?;
            reader.space()?;
            reader.astring()?;
        } else {
            return None;
        }
        Some(Key::Foreign)
    }

    /// Parts with commas between; where they begin and end among all parts.
    fn set(&mut self, reader: &mut Reader) -> Option<(usize, usize)> {
        let first = self.parts.len();
        loop {
            let from = place(reader)?;
            let to = if reader.skip(b':') {
                place(reader)?
            } else {
                from
            };
            self.parts.push((from, to));
            if !reader.skip(b',') {
                break;
            }
        }
        let end = self.parts.len();
        self.longest_set = self.longest_set.max(end - first);
        Some((first, end))
    }
}

/// A number of a set, or `*`.
fn place(reader: &mut Reader) -> Option<u32> {
    if reader.skip(b'*') {
        Some(0)
    } else {
        reader.nz_number()
    }
}

/// Keys about one flag, plain or with UN.
fn flag_key(word: &[u8]) -> Option<Key> {
    let flags = ["ANSWERED", "FLAGGED", "DELETED", "SEEN", "DRAFT"];
    let bit = |word: &[u8]| {
        let found = |flag: &&str| word.eq_ignore_ascii_case(flag.as_bytes());
        Some(1 << flags.iter().position(found)?)
    };
    if let Some(bit) = bit(word) {
        return Some(Key::Flag(bit, true));
    }
    let (prefix, rest) = word.split_at_checked(2)?;
    if prefix.eq_ignore_ascii_case(b"UN") {
        return Some(Key::Flag(bit(rest)?, false));
    }
    None
}

/// A day of one or two digits, a month, four digits; quoted or not, the calendar not asked.
fn date(reader: &mut Reader) -> Option<()> {
    let quoted = reader.skip(b'"');
    let digits = |reader: &mut Reader| reader.run(|octet| octet.is_ascii_digit()).len();
    if !(1..=2).contains(&digits(reader)) {
        return None;
    }
    reader.take(b'-')?;
    let month = reader.run(|octet| octet.is_ascii_alphabetic());
    let months = "JanFebMarAprMayJunJulAugSepOctNovDec".as_bytes();
    if !months
        .chunks(3)
        .any(|name| name.eq_ignore_ascii_case(month))
    {
        return None;
    }
    reader.take(b'-')?;
    if digits(reader) != 4 {
        return None;
    }
    if quoted {
        reader.take(b'"')?;
    }
    Some(())
}
