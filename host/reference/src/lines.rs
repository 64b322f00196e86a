//! The lines a client reads. Each function puts one whole line, CR LF included, unless it says
//! otherwise.

use crate::memory::{Message, SELECTABLE, WITH_FLAGS, WITH_SIZE, WITH_UID};
use crate::names::Name;

pub type Out = Vec<u8>;

const FLAG_WORDS: [&[u8]; 5] = [
    b"\\Answered",
    b"\\Flagged",
    b"\\Deleted",
    b"\\Seen",
    b"\\Draft",
];

fn end(out: &mut Out) {
    out.extend_from_slice(b"\r\n");
}

/// A decimal number, no line.
pub fn number(out: &mut Out, value: impl Into<u64>) {
    let mut value = value.into();
    let mut digits = [0u8; 20];
    let mut first = digits.len();
    loop {
        first -= 1;
        digits[first] = b'0' + (value % 10) as u8;
        value /= 10;
        if value == 0 {
            break;
        }
    }
    out.extend_from_slice(&digits[first..]);
}

/// Octets between quotes, no line.
pub fn quoted(out: &mut Out, octets: &[u8]) {
    out.push(b'"');
    for &octet in octets {
        if matches!(octet, b'"' | b'\\') {
            out.push(b'\\');
        }
        out.push(octet);
    }
    out.push(b'"');
}

/// The tag and the fixed text of an answer.
pub fn tagged(out: &mut Out, tag: &[u8], text: &str) {
    out.extend_from_slice(tag);
    out.push(b' ');
    out.extend_from_slice(text.as_bytes());
    end(out);
}

pub fn overflow(out: &mut Out) {
    out.extend_from_slice(b"* OK [NOTIFICATIONOVERFLOW] stopped\r\n");
}

fn list_open(out: &mut Out, attribute: &str, name: &Name) {
    out.extend_from_slice(b"* LIST (");
    out.extend_from_slice(attribute.as_bytes());
    out.extend_from_slice(b") \"/\" ");
    quoted(out, name.as_octets());
}

pub fn list(out: &mut Out, attribute: &str, name: &Name) {
    list_open(out, attribute, name);
    end(out);
}

/// The attribute of a mailbox that exists.
pub fn kind(attributes: u8) -> &'static str {
    if attributes & SELECTABLE != 0 {
        ""
    } else {
        "\\Noselect"
    }
}

pub fn renamed(out: &mut Out, attribute: &str, new: &Name, old: &Name) {
    list_open(out, attribute, new);
    out.extend_from_slice(b" (\"OLDNAME\" (");
    quoted(out, old.as_octets());
    out.extend_from_slice(b"))");
    end(out);
}

fn status_open(out: &mut Out, name: &Name) {
    out.extend_from_slice(b"* STATUS ");
    quoted(out, name.as_octets());
}

/// The last item of every STATUS list.
fn status_end(out: &mut Out, highest: u64) {
    out.extend_from_slice(b" HIGHESTMODSEQ ");
    number(out, highest);
    out.push(b')');
    end(out);
}

/// The status that NOTIFY SET gives.
pub fn status_first(
    out: &mut Out,
    name: &Name,
    messages: u32,
    next: u32,
    validity: u32,
    highest: u64,
) {
    status_open(out, name);
    out.extend_from_slice(b" (MESSAGES ");
    number(out, messages);
    out.extend_from_slice(b" UIDNEXT ");
    number(out, next);
    out.extend_from_slice(b" UIDVALIDITY ");
    number(out, validity);
    status_end(out, highest);
}

/// The status that a message's coming or going gives.
pub fn status_later(out: &mut Out, name: &Name, next: u32, messages: u32, highest: u64) {
    status_open(out, name);
    out.extend_from_slice(b" (UIDNEXT ");
    number(out, next);
    out.extend_from_slice(b" MESSAGES ");
    number(out, messages);
    status_end(out, highest);
}

/// The status that a change of flags gives.
pub fn status_flags(out: &mut Out, name: &Name, validity: u32, highest: u64) {
    status_open(out, name);
    out.extend_from_slice(b" (UIDVALIDITY ");
    number(out, validity);
    status_end(out, highest);
}

fn numbered(out: &mut Out, place: u32) {
    out.extend_from_slice(b"* ");
    number(out, place);
}

pub fn exists(out: &mut Out, count: u32) {
    numbered(out, count);
    out.extend_from_slice(b" EXISTS\r\n");
}

pub fn expunge(out: &mut Out, place: u32) {
    numbered(out, place);
    out.extend_from_slice(b" EXPUNGE\r\n");
}

/// A FETCH with those of the three items that are asked, one at least, and the message's counter.
pub fn fetch(out: &mut Out, place: u32, attributes: u8, message: &Message) {
    numbered(out, place);
    out.extend_from_slice(b" FETCH (");
    if attributes & WITH_UID != 0 {
        out.extend_from_slice(b"UID ");
        number(out, message.uid);
        out.push(b' ');
    }
    if attributes & WITH_FLAGS != 0 {
        out.extend_from_slice(b"FLAGS (");
        flags(out, message.flags);
        out.extend_from_slice(b") ");
    }
    if attributes & WITH_SIZE != 0 {
        out.extend_from_slice(b"RFC822.SIZE ");
        number(out, message.size);
        out.push(b' ');
    }
    out.extend_from_slice(b"MODSEQ (");
    number(out, message.counter);
    out.extend_from_slice(b"))");
    end(out);
}

fn flags(out: &mut Out, flags: u8) {
    let mut between: &[u8] = b"";
    for (bit, word) in FLAG_WORDS.iter().enumerate() {
        if flags & (1 << bit) != 0 {
            out.extend_from_slice(between);
            out.extend_from_slice(word);
            between = b" ";
        }
    }
}

/// What of a search's matches is wanted, in the order of writing.
pub const MIN: u8 = 1;
pub const MAX: u8 = 2;
pub const ALL: u8 = 4;
pub const COUNT: u8 = 8;

/// The result of one mailbox; `uids` rise and there is at least one.
pub fn search(out: &mut Out, tag: &[u8], name: &Name, validity: u32, wanted: u8, uids: &[u32]) {
    let (Some(&least), Some(&most)) = (uids.first(), uids.last()) else {
        return;
    };
    out.extend_from_slice(b"* ESEARCH (TAG \"");
    out.extend_from_slice(tag);
    out.extend_from_slice(b"\" MAILBOX ");
    quoted(out, name.as_octets());
    out.extend_from_slice(b" UIDVALIDITY ");
    number(out, validity);
    out.extend_from_slice(b") UID");
    if wanted & MIN != 0 {
        out.extend_from_slice(b" MIN ");
        number(out, least);
    }
    if wanted & MAX != 0 {
        out.extend_from_slice(b" MAX ");
        number(out, most);
    }
    if wanted & ALL != 0 {
        out.extend_from_slice(b" ALL ");
        ranges(out, uids);
    }
    if wanted & COUNT != 0 {
        out.extend_from_slice(b" COUNT ");
        number(out, uids.len() as u32);
    }
    end(out);
}

/// UIDs that follow one another by number are joined.
fn ranges(out: &mut Out, uids: &[u32]) {
    for (place, run) in uids.chunk_by(|a, b| a + 1 == *b).enumerate() {
        if place > 0 {
            out.push(b',');
        }
        number(out, run[0]);
        if run.len() > 1 {
            out.push(b':');
            number(out, run[run.len() - 1]);
        }
    }
}
