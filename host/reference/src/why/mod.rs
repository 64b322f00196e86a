//! Why did the client hear nothing of a record, or what did it hear? Request 3 of document 02: one reason for each record, the
//! first of ten that holds.

mod event;
mod stream;

pub use stream::{all, at, place};

use crate::call::call_trusting;
use crate::lines::{self, Out};
use crate::memory::{Group, Memory};
use crate::records::{self, Record};
use std::fmt;

/// In the order in which they are tried.
#[derive(Clone, Copy, PartialEq, Eq, PartialOrd, Ord, Debug)]
pub enum Reason {
    Refused(u8),
    Quiet,
    NoEvent,
    RightMissing,
    NoGroup,
    NotAsked,
    Unannounced,
    /// The lowest class of command at whose end it can be told.
    Waiting(u8),
    Overflow,
    /// The first group of the command that asks, counted from 1.
    Written(usize),
}

impl fmt::Display for Reason {
    fn fmt(&self, out: &mut fmt::Formatter) -> fmt::Result {
        match self {
            Reason::Refused(number) => write!(out, "refused {number}"),
            Reason::Quiet => out.write_str("quiet"),
            Reason::NoEvent => out.write_str("no event"),
            Reason::RightMissing => out.write_str("right missing"),
            Reason::NoGroup => out.write_str("no group matches"),
            Reason::NotAsked => out.write_str("group matches but event not asked"),
            Reason::Unannounced => out.write_str("unannounced message"),
            Reason::Waiting(class) => write!(out, "waiting {class}"),
            Reason::Overflow => out.write_str("overflow"),
            Reason::Written(group) => write!(out, "written {group}"),
        }
    }
}

/// What is printed for a place; one outside the stream has no reason.
pub fn line(reason: Option<Reason>) -> String {
    match reason {
        Some(reason) => format!("{reason}\r\n"),
        None => "no record\r\n".to_string(),
    }
}

/// The reason for a record on this memory, which stays as it is.
pub fn reason(memory: &Memory, octets: &[u8]) -> Reason {
    let mut after = memory.clone();
    let refusal = call_trusting(&mut after, octets).refusal;
    let Some(record) = records::read(octets).filter(|_| refusal == 0) else {
        return Reason::Refused(refusal);
    };
    if is_quiet(&record) {
        return Reason::Quiet;
    }
    let Some(event) = event::of(memory, &record) else {
        return Reason::NoEvent;
    };
    if !event.permitted {
        return Reason::RightMissing;
    }
    // tried here, since what waits is neither unmatched nor unasked; what is unannounced doesn't wait
    if let Some(class) = event.waits {
        return Reason::Waiting(class);
    }
    let groups = &memory.session.groups;
    let meeting: Vec<(usize, &Group)> = (1..)
        .zip(groups.used())
        .filter(|(_, group)| event.met_by(groups, group))
        .collect();
    let asks = |(_, group): &&(usize, &Group)| group.events & event.kind != 0;
    match meeting.iter().find(asks) {
        None if meeting.is_empty() => Reason::NoGroup,
        None => Reason::NotAsked,
        Some(_) if event.unannounced => Reason::Unannounced,
        Some(_) if after.held()[memory.filled..] == overflow() => Reason::Overflow,
        Some(&(number, _)) => Reason::Written(number),
    }
}

fn overflow() -> Out {
    let mut out = Out::new();
    lines::overflow(&mut out);
    out
}

fn is_quiet(record: &Record) -> bool {
    match *record {
        Record::Create { quiet, .. }
        | Record::Delete { quiet, .. }
        | Record::Rename { quiet, .. }
        | Record::Subscribe { quiet, .. } => quiet,
        _ => false,
    }
}
