//! Command lines: the grammar, and which of the six answers a line gets.

pub mod fetch;
pub mod filters;
pub mod keys;
pub mod notify;
pub mod reader;
pub mod search;

use crate::octets;
use notify::Notify;
use reader::Reader;
use search::Search;

pub const TAG_OCTETS: usize = 32;

/// The six answers, in the order they are tried.
#[derive(Clone, Copy, PartialEq, Eq, PartialOrd, Ord, Debug)]
pub enum Verdict {
    Bad,
    BadEvent,
    Unsupported,
    BadCharset,
    TooLarge,
    Ok,
}

/// A line that fits the grammar.
#[derive(Clone, PartialEq, Eq, Debug)]
pub enum Command {
    NotifyNone,
    NotifySet(Box<Notify>),
    Search(Box<Search>),
}

impl Command {
    /// The answer as far as line and selection decide it; the size of what would be written is
    /// another matter.
    pub fn verdict(&self, selected: bool) -> Verdict {
        match self {
            Command::NotifyNone => Verdict::Ok,
            Command::NotifySet(notify) => notify.verdict(),
            Command::Search(search) => search.verdict(selected),
        }
    }
}

/// The tag and what follows its space, if a valid tag and a space begin the line.
pub fn split(line: &[u8]) -> Option<(&[u8], &[u8])> {
    let mut reader = Reader::new(line);
    let tag = reader.run(octets::tag);
    reader.space()?;
    (1..=TAG_OCTETS)
        .contains(&tag.len())
        .then(|| (tag, reader.rest()))
}

/// The command after the tag, read to the line's end.
pub fn read(rest: &[u8]) -> Option<Command> {
    let mut reader = Reader::new(rest);
    let command = if reader.skip_word("NOTIFY") {
        reader.space()?;
        if reader.skip_word("NONE") {
            Command::NotifyNone
        } else {
            reader.word("SET")?;
            Command::NotifySet(Box::new(Notify::read(&mut reader)?))
        }
    } else {
        reader.word("ESEARCH")?;
        Command::Search(Box::new(Search::read(&mut reader)?))
    };
    reader.ended().then_some(command)
}

/// Does the whole line, tag and all, fit the grammar alone?
pub fn is_grammatical(line: &[u8]) -> bool {
    split(line).is_some_and(|(_, rest)| read(rest).is_some())
}

/// The answer to a line, whether a mailbox is selected being known. An answer that is too large
/// only by what it writes counts as `Ok` here.
pub fn answer_of(line: &[u8], selected: bool) -> Verdict {
    split(line)
        .and_then(|(_, rest)| read(rest))
        .map_or(Verdict::Bad, |command| command.verdict(selected))
}
