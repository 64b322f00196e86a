//! FETCH attributes: reading and writing them.

use crate::flags;
use crate::mime::{self, Part};
use crate::parse::{bad, is_atom, quoted, Read, Reader};
use crate::store::Message;
use crate::structure;

#[derive(Clone, PartialEq)]
pub enum Item {
    Uid,
    Flags,
    Size,
    Date,
    Modseq,
    Envelope,
    Structure { extended: bool },
    Section(Section),
}

/// Octets of a message.
#[derive(Clone, PartialEq)]
pub struct Section {
    /// As the answer calls it.
    name: String,
    path: Vec<usize>,
    what: What,
    /// From where, and how many octets.
    cut: Option<(usize, usize)>,
    /// Leaves \Seen alone.
    peek: bool,
}

#[derive(Clone, PartialEq)]
enum What {
    All,
    Header,
    /// The header of a part.
    Mime,
    Text,
    /// Of the header these fields, or all but these.
    Fields(Vec<String>, bool),
}

/// What a change of flags is told with, as the library tells it.
pub const CHANGED: [Item; 3] = [Item::Uid, Item::Flags, Item::Modseq];

impl Item {
    pub fn sets_seen(&self) -> bool {
        matches!(self, Item::Section(section) if !section.peek)
    }
}

/// One attribute or one macro.
pub fn item(reader: &mut Reader) -> Read<Vec<Item>> {
    let letters = reader.run(|octet| octet.is_ascii_alphanumeric() || octet == b'.')?;
    let word = String::from_utf8_lossy(letters).to_ascii_uppercase();
    let fast = [Item::Flags, Item::Date, Item::Size];
    let body = Item::Structure { extended: false };
    Ok(match word.as_str() {
        "UID" => vec![Item::Uid],
        "FLAGS" => vec![Item::Flags],
        "RFC822.SIZE" => vec![Item::Size],
        "INTERNALDATE" => vec![Item::Date],
        "MODSEQ" => vec![Item::Modseq],
        "ENVELOPE" => vec![Item::Envelope],
        "BODYSTRUCTURE" => vec![Item::Structure { extended: true }],
        "FAST" => fast.into(),
        "ALL" => [&fast[..], &[Item::Envelope]].concat(),
        "FULL" => [&fast[..], &[Item::Envelope, body]].concat(),
        "RFC822" => vec![whole(&word, What::All, false)],
        "RFC822.HEADER" => vec![whole(&word, What::Header, true)],
        "RFC822.TEXT" => vec![whole(&word, What::Text, false)],
        "BODY" if reader.peek() == b'[' => vec![section(reader, false)?],
        "BODY.PEEK" => vec![section(reader, true)?],
        "BODY" => vec![body],
        _ => return bad("no such fetch attribute"),
    })
}

/// One item, or a list of them.
pub fn items(reader: &mut Reader) -> Read<Vec<Item>> {
    match reader.peek() {
        b'(' => Ok(reader.list(item)?.concat()),
        _ => item(reader),
    }
}

fn whole(name: &str, what: What, peek: bool) -> Item {
    Item::Section(Section {
        name: name.into(),
        path: Vec::new(),
        what,
        cut: None,
        peek,
    })
}

fn section(reader: &mut Reader, peek: bool) -> Read<Item> {
    reader.need(b'[')?;
    let mut name = String::from("BODY[");
    let mut path = Vec::new();
    while reader.peek().is_ascii_digit() {
        let number = reader.size()?;
        path.push(number);
        name += &number.to_string();
        if !reader.eat(b'.') {
            break;
        }
        name.push('.');
    }
    let word = reader.word().unwrap_or_default();
    name += &word;
    let what = match word.as_str() {
        "" => What::All,
        "HEADER" => What::Header,
        "MIME" if !path.is_empty() => What::Mime,
        "TEXT" => What::Text,
        "HEADER.FIELDS" | "HEADER.FIELDS.NOT" => {
            reader.space()?;
            let fields = reader.list(|reader| reader.astring())?;
            name += &format!(" ({})", field_names(&fields)?);
            What::Fields(fields, word.ends_with("NOT"))
        }
        _ => return bad("no such section"),
    };
    reader.need(b']')?;
    name.push(']');
    let cut = cut(reader)?;
    if let Some((from, _)) = cut {
        name += &format!("<{from}>");
    }
    Ok(Item::Section(Section {
        name,
        path,
        what,
        cut,
        peek,
    }))
}

/// The names, as the answer repeats them.
fn field_names(fields: &[String]) -> Read<String> {
    let name = |field: &String| match field.as_bytes() {
        octets if !octets.is_empty() && octets.iter().all(|&o| is_atom(o)) => Ok(field.clone()),
        octets if octets.iter().all(|o| (0x20..0x7f).contains(o)) => Ok(quoted(field)),
        _ => bad("no such field name"),
    };
    let names: Read<Vec<String>> = fields.iter().map(name).collect();
    Ok(names?.join(" "))
}

fn cut(reader: &mut Reader) -> Read<Option<(usize, usize)>> {
    if !reader.eat(b'<') {
        return Ok(None);
    }
    let from = reader.size()?;
    reader.need(b'.')?;
    let count = reader.size()?;
    reader.need(b'>')?;
    Ok(Some((from, count)))
}

/// The line that tells a mailbox's counter.
pub fn highest(counter: u64) -> String {
    format!("* OK [HIGHESTMODSEQ {counter}] ok\r\n")
}

/// The line of a message.
pub fn line(number: usize, items: &[Item], message: &Message) -> Vec<u8> {
    let mut line = format!("* {number} FETCH (").into_bytes();
    for (place, item) in items.iter().enumerate() {
        if place > 0 {
            line.push(b' ');
        }
        write(&mut line, item, message);
    }
    line.extend(b")\r\n");
    line
}

pub fn write(out: &mut Vec<u8>, item: &Item, message: &Message) {
    let text = match item {
        Item::Uid => format!("UID {}", message.uid),
        Item::Flags => format!("FLAGS {}", flags::list(message.flags)),
        Item::Size => format!("RFC822.SIZE {}", message.octets.len()),
        Item::Date => format!("INTERNALDATE \"{}\"", message.date),
        Item::Modseq => format!("MODSEQ ({})", message.counter),
        Item::Envelope => {
            let (header, _) = mime::split(&message.octets);
            format!("ENVELOPE {}", structure::envelope(header))
        }
        Item::Structure { extended } => {
            let name = if *extended { "BODYSTRUCTURE" } else { "BODY" };
            let part = mime::parse(&message.octets);
            format!("{name} {}", structure::structure(&part, *extended))
        }
        Item::Section(section) => return write_section(out, section, &message.octets),
    };
    out.extend(text.bytes());
}

fn write_section(out: &mut Vec<u8>, section: &Section, octets: &[u8]) {
    out.extend(section.name.bytes());
    let Some(mut found) = section.octets(octets) else {
        return out.extend(b" NIL");
    };
    if let Some((from, count)) = section.cut {
        found = found.into_iter().skip(from).take(count).collect();
    }
    out.extend(format!(" {{{}}}\r\n", found.len()).bytes());
    out.extend(found);
}

impl Section {
    fn octets(&self, message: &[u8]) -> Option<Vec<u8>> {
        let whole = mime::parse(message);
        if self.path.is_empty() {
            return match self.what {
                What::All => Some(message.to_vec()),
                _ => self.of_message(&whole),
            };
        }
        let part = mime::find(&whole, &self.path)?;
        match self.what {
            What::All => Some(part.body.to_vec()),
            What::Mime => Some(part.header.to_vec()),
            // of all parts only a message has a header and a text
            _ if part.kind == "MESSAGE" => self.of_message(part.parts.first()?),
            _ => None,
        }
    }

    fn of_message(&self, message: &Part) -> Option<Vec<u8>> {
        match &self.what {
            What::Header => Some(message.header.to_vec()),
            What::Text => Some(message.body.to_vec()),
            What::Fields(names, not) => Some(some_fields(message.header, names, *not)),
            What::All | What::Mime => None,
        }
    }
}

fn some_fields(header: &[u8], names: &[String], not: bool) -> Vec<u8> {
    let named = |name: &[u8]| {
        names
            .iter()
            .any(|n| name.eq_ignore_ascii_case(n.as_bytes()))
    };
    let fields = mime::fields(header).into_iter();
    let mut all: Vec<u8> = fields
        .filter(|(name, _)| named(name) != not)
        .flat_map(|(_, lines)| lines.to_vec())
        .collect();
    all.extend(b"\r\n");
    all
}
