//! One octet string to one record, or to none (refusal 2).

use crate::memory::{COUNTER_MOST, FLAG_BITS, RIGHTS, UID_MOST};
use crate::names::Name;
use std::io::{self, Read};

pub const LINE_OCTETS: usize = 1024;

#[derive(Clone, Copy, PartialEq, Eq, Debug)]
pub enum Record<'a> {
    Create {
        id: u16,
        attributes: u8,
        quiet: bool,
        uid_validity: u32,
        counter: u64,
        name: Name,
    },
    Delete {
        id: u16,
        quiet: bool,
    },
    Rename {
        id: u16,
        quiet: bool,
        name: Name,
    },
    Subscribe {
        id: u16,
        subscribed: bool,
        quiet: bool,
    },
    Rights {
        id: u16,
        rights: u8,
    },
    Message {
        id: u16,
        uid: u32,
        flags: u8,
        size: u32,
        counter: u64,
    },
    Expunge {
        id: u16,
        uid: u32,
        counter: u64,
    },
    Flags {
        id: u16,
        uid: u32,
        flags: u8,
        counter: u64,
    },
    Select {
        id: u16,
    },
    End {
        class: u8,
    },
    Command {
        line: &'a [u8],
    },
    Drained {
        count: u32,
    },
}

/// Takes fields off the front of a body.
struct Body<'a>(&'a [u8]);

impl<'a> Body<'a> {
    fn octet(&mut self) -> Option<u8> {
        let (&first, rest) = self.0.split_first()?;
        self.0 = rest;
        Some(first)
    }

    fn two(&mut self) -> Option<u16> {
        let (first, rest) = self.0.split_first_chunk::<2>()?;
        self.0 = rest;
        Some(u16::from_le_bytes(*first))
    }

    fn four(&mut self) -> Option<u32> {
        let (first, rest) = self.0.split_first_chunk::<4>()?;
        self.0 = rest;
        Some(u32::from_le_bytes(*first))
    }

    fn eight(&mut self) -> Option<u64> {
        let (first, rest) = self.0.split_first_chunk::<8>()?;
        self.0 = rest;
        Some(u64::from_le_bytes(*first))
    }

    fn id(&mut self) -> Option<u16> {
        self.two().filter(|&id| id != 0)
    }

    fn bit(&mut self) -> Option<bool> {
        match self.octet()? {
            0 => Some(false),
            1 => Some(true),
            _ => None,
        }
    }

    fn uid(&mut self) -> Option<u32> {
        self.four().filter(|uid| (1..=UID_MOST).contains(uid))
    }

    fn counter(&mut self) -> Option<u64> {
        self.eight()
            .filter(|counter| (1..=COUNTER_MOST).contains(counter))
    }

    /// An octet with no bits beside these.
    fn bits(&mut self, allowed: u8) -> Option<u8> {
        self.octet().filter(|octet| octet & !allowed == 0)
    }

    /// The rest, as a name.
    fn name(&mut self) -> Option<Name> {
        Name::read(self.all())
    }

    fn all(&mut self) -> &'a [u8] {
        std::mem::take(&mut self.0)
    }
}

/// The record that an octet string is, if mark, length and fields are all lawful.
pub fn read(octets: &[u8]) -> Option<Record<'_>> {
    let (header, body) = octets.split_first_chunk::<4>()?;
    if body.len() != usize::from(u16::from_le_bytes([header[2], header[3]])) {
        return None;
    }
    let mut body = Body(body);
    let record = match &header[..2] {
        b"MB" => Record::Create {
            id: body.id()?,
            attributes: body.bits(0x3F)?,
            quiet: body.bit()?,
            uid_validity: body.four().filter(|&validity| validity != 0)?,
            counter: body.counter()?,
            name: body.name()?,
        },
        b"DL" => Record::Delete {
            id: body.id()?,
            quiet: body.bit()?,
        },
        b"RN" => Record::Rename {
            id: body.id()?,
            quiet: body.bit()?,
            name: body.name()?,
        },
        b"SB" => Record::Subscribe {
            id: body.id()?,
            subscribed: body.bit()?,
            quiet: body.bit()?,
        },
        b"RT" => Record::Rights {
            id: body.id()?,
            rights: body.bits(RIGHTS)?,
        },
        b"ME" => Record::Message {
            id: body.id()?,
            uid: body.uid()?,
            flags: body.bits(FLAG_BITS)?,
            size: body.four()?,
            counter: body.counter()?,
        },
        b"XP" => Record::Expunge {
            id: body.id()?,
            uid: body.uid()?,
            counter: body.counter()?,
        },
        b"FL" => Record::Flags {
            id: body.id()?,
            uid: body.uid()?,
            flags: body.bits(FLAG_BITS)?,
            counter: body.counter()?,
        },
        b"SE" => Record::Select { id: body.two()? },
        b"CE" => Record::End {
            class: body.bits(1)?,
        },
        b"CM" => Record::Command {
            line: Some(body.all()).filter(|line| line.len() <= LINE_OCTETS)?,
        },
        b"DR" => Record::Drained {
            count: body.four()?,
        },
        _ => return None,
    };
    body.0.is_empty().then_some(record)
}

/// Which id an octet string speaks of, for the nine marks that open with one: octets five and six,
/// however wrong the rest is.
pub fn about(octets: &[u8]) -> Option<u16> {
    let layouts: [&[u8]; 9] = [
        b"MB", b"DL", b"RN", b"SB", b"RT", b"ME", b"XP", b"FL", b"SE",
    ];
    let id = octets.get(4..6)?;
    layouts
        .contains(&&octets[..2])
        .then(|| u16::from_le_bytes([id[0], id[1]]))
}

/// Cuts a stream by its length fields; a torn end is one more piece.
pub fn cut(mut stream: &[u8]) -> Vec<&[u8]> {
    let mut pieces = Vec::new();
    while !stream.is_empty() {
        let whole = stream
            .get(2..4)
            .map(|len| 4 + usize::from(u16::from_le_bytes([len[0], len[1]])))
            .unwrap_or(stream.len());
        let (piece, rest) = stream.split_at(whole.min(stream.len()));
        pieces.push(piece);
        stream = rest;
    }
    pieces
}

/// The next record of a stream, whole or torn, in place of what `record` held; false at the stream's end.
pub fn next(stream: &mut impl Read, record: &mut Vec<u8>) -> io::Result<bool> {
    record.clear();
    stream.by_ref().take(4).read_to_end(record)?;
    if let [_, _, low, high] = record[..] {
        let body = u16::from_le_bytes([low, high]);
        stream.take(u64::from(body)).read_to_end(record)?;
    }
    Ok(!record.is_empty())
}
