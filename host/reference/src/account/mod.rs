//! The account of demand 2: what became of every call, kept from outside.
//!
//! Of a call its octets, its answer and what it put in the queue are seen. From these alone follow
//! what exists, who may see it, what was asked and what the client was told; an entry's state and
//! the number that stands for the view are never looked at. Shared with the program is what the
//! papers give to both: how records and commands are read, the form of a line, whom a group meets.

mod audit;
mod due;
mod settle;
mod store;
mod view;
mod written;

use crate::call::Answer;
use crate::memory::{Groups, RESERVE};
use crate::records;
use due::Due;
use std::collections::BTreeMap;
use store::Mailbox;

pub use audit::Fault;
pub use written::whole_lines;

/// One call as the host sees it.
#[derive(Clone, Copy, Debug)]
pub struct Call<'a> {
    pub octets: &'a [u8],
    pub answer: Answer,
    /// What it put at the queue's end.
    pub written: &'a [u8],
}

/// Why nothing is owed for a call: the first that holds.
#[derive(Clone, Copy, PartialEq, Eq, PartialOrd, Ord, Debug)]
pub enum Rule {
    /// The host wants no notice.
    Quiet,
    /// Nothing came about that could be told.
    NoEvent,
    RightMissing,
    /// No group meets the mailbox.
    NoGroup,
    /// A group meets it and asks for other events.
    NotAsked,
    /// The message that went or changed had never been announced, and the selected mailbox's group asks for such events.
    Unannounced,
}

/// What the client has yet to hear, by its UID in the selected mailbox.
#[derive(Clone, Copy, PartialEq, Eq, PartialOrd, Ord, Debug)]
pub enum Wait {
    Arrival(u32),
    Removal(u32),
    Mark(u32),
}

/// Why it was not told at once.
#[derive(Clone, Copy, PartialEq, Eq, PartialOrd, Ord, Debug)]
pub enum Cause {
    BeforeNotify,
    RightMissing,
    /// No group is about the selected mailbox.
    NoGroup,
    NotAsked,
    /// The group leaves removals to command ends.
    Delayed,
    Overflow,
}

/// What became of a call.
#[derive(Clone, Copy, PartialEq, Eq, Debug)]
pub enum Fate {
    Refused,
    Unowed(Rule),
    /// A line of that call tells it.
    Told {
        by: usize,
    },
    Waiting(Wait, Cause),
    /// That call, an `SE` or the expunge of its message, made it pointless.
    Dropped {
        by: usize,
    },
    /// Its own overflow stands in its place.
    Lost,
    /// Owed at once, and neither told nor overflowed: no program may do this.
    Silent,
}

/// The account of one stream, from the empty start.
#[derive(Clone, Debug)]
pub struct Account {
    queue: usize,
    filled: usize,
    mailboxes: BTreeMap<u16, Mailbox>,
    selected: u16,
    /// None before the first NOTIFY; no group in it after NONE or an overflow.
    groups: Option<Groups>,
    /// UIDs that the client was told of, in the order of their numbers.
    view: Vec<u32>,
    fates: Vec<Fate>,
    /// The first group that asked for what the last call owed at once.
    asked_by: Option<usize>,
}

impl Account {
    pub fn new(queue: usize) -> Account {
        Account {
            queue,
            filled: 0,
            mailboxes: BTreeMap::new(),
            selected: 0,
            groups: None,
            view: Vec::new(),
            fates: Vec::new(),
            asked_by: None,
        }
    }

    /// One fate for each call so far.
    pub fn fates(&self) -> &[Fate] {
        &self.fates
    }

    /// The number of the first group that asks for what the last call owes at once, from 1 on.
    pub fn asked_by(&self) -> Option<usize> {
        self.asked_by
    }

    /// The calls that wait, oldest first.
    pub fn waiting(&self) -> Vec<(usize, Wait)> {
        let waits = |(number, fate): (usize, &Fate)| match *fate {
            Fate::Waiting(wait, _) => Some((number, wait)),
            _ => None,
        };
        self.fates.iter().enumerate().filter_map(waits).collect()
    }

    /// Takes a call in, and says all that is wrong with it.
    pub fn enter(&mut self, call: &Call) -> Vec<Fault> {
        let before = self.waiting();
        let lines = whole_lines(call.written);
        let taken = records::read(call.octets).filter(|_| call.answer.refusal == 0);
        let due = match &taken {
            Some(record) => self.take(record, &lines),
            None => Due::Nothing(Rule::NoEvent),
        };
        self.asked_by = match &due {
            Due::Now(asked) => Some(asked.group),
            _ => None,
        };
        let must = self.must_write(&due);
        let mut faults = audit::compare(taken.as_ref(), &must, &lines);
        self.filled += call.written.len();
        faults.extend(self.settle(&lines));
        self.fates.push(match taken {
            Some(_) => self.fate(&due, &lines),
            None => Fate::Refused,
        });
        faults.extend(self.audit(taken.as_ref(), call.answer, &before, &lines));
        faults
    }

    /// Octets that lines may still take.
    fn room(&self) -> usize {
        self.queue.saturating_sub(RESERVE + self.filled)
    }

    /// The lines that the call has to write, what answers a command aside.
    fn must_write(&self, due: &Due) -> Vec<Vec<u8>> {
        match due {
            Due::Nothing(_) | Due::Later(..) => Vec::new(),
            Due::Now(asked) => {
                let octets: usize = asked.lines.iter().map(Vec::len).sum();
                if octets > self.room() {
                    return vec![written::overflow()];
                }
                asked.lines.clone()
            }
            Due::Older(lines) => lines.clone(),
        }
    }

    /// The fate of the call that is being taken in, by what it wrote.
    fn fate(&self, due: &Due, lines: &[&[u8]]) -> Fate {
        let has = |line: &Vec<u8>| lines.contains(&&line[..]);
        match due {
            Due::Nothing(rule) => Fate::Unowed(*rule),
            Due::Older(_) => Fate::Unowed(Rule::NoEvent),
            Due::Later(wait, cause) => Fate::Waiting(*wait, *cause),
            Due::Now(asked) if has(&written::overflow()) => match asked.missed {
                Some(wait) => Fate::Waiting(wait, Cause::Overflow),
                None => Fate::Lost,
            },
            // the first line tells it; those behind show what was asked besides
            Due::Now(asked) if asked.lines.first().is_some_and(has) => Fate::Told {
                by: self.fates.len(),
            },
            Due::Now(_) => Fate::Silent,
        }
    }
}
