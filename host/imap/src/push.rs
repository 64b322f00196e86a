//! The library, as the host sees it: a call for each record, a queue to write out, a view to number by. No other file knows
//! which library stands behind this.

use crate::recording::Recording;
use borjavid::memory::{MAILBOXES, MESSAGES};
use borjavid::Memory;
use std::io;

pub use borjavid::records::{self, Class, Notice};
pub use borjavid::{Answer, Refusal};

/// Words of a message's entry: mailbox, UID, flags, size, states, counter.
const ENTRY: usize = 6;
/// Among the states: a change of flags waits to be told.
const MARKED: u64 = 2;

/// A library that lays memory out in another way is found out at the start, and not by a connection.
pub fn check_library() -> io::Result<()> {
    borjavid::check_layout().map_err(io::Error::other)
}

/// The memory that one connection lends.
pub struct Push {
    memory: Memory,
    drained: u64,
    recording: Option<Recording>,
}

impl Push {
    pub fn new(queue: usize, recording: Option<Recording>) -> Push {
        Push {
            memory: Memory::new(queue),
            drained: 0,
            recording,
        }
    }

    /// One record. No other call reaches the step, so what is recorded is all that it got.
    pub fn call(&mut self, record: &[u8]) -> Answer {
        if let Some(recording) = &mut self.recording {
            recording.note(record);
        }
        self.memory.step(record)
    }

    /// What the client was not sent yet, in whole lines.
    pub fn queue(&self) -> &[u8] {
        self.memory.queue()
    }

    /// So many octets of the queue went out to the client.
    pub fn drained(&mut self, count: usize) -> Answer {
        self.drained += count as u64;
        self.call(&records::drained(count))
    }

    /// How much ever came to the queue. Its length alone doesn't show that a record wrote something, since the writer may
    /// have drained it meanwhile.
    pub fn told(&self) -> u64 {
        self.drained + self.queue().len() as u64
    }

    /// UIDs of the client's view: message n is at n - 1.
    pub fn view(&self) -> Vec<u32> {
        self.memory.view()
    }

    /// The view with what the client knows of it: each message's counter, or 0 where it is still to hear of a change. And the UID
    /// below which messages were announced.
    pub fn known(&mut self) -> (Vec<(u32, u64)>, u32) {
        let (selected, told) = (self.selected(), self.memory.session().told);
        let lent = self.memory.lend();
        let used = lent.words.chunks_exact(ENTRY);
        let own = used
            .take(lent.counts.messages as usize)
            .filter(|entry| entry[0] == u64::from(selected) && entry[1] < u64::from(told));
        let known = |entry: &[u64]| match entry[4] & MARKED {
            0 => (entry[1] as u32, entry[5]),
            _ => (entry[1] as u32, 0),
        };
        let mut all: Vec<(u32, u64)> = own.map(known).collect();
        all.sort_unstable();
        (all, told)
    }

    /// The selected mailbox, 0 for none.
    pub fn selected(&self) -> u16 {
        self.memory.session().selected
    }

    /// Whether a NOTIFY SET stands.
    pub fn watches(&self) -> bool {
        self.memory.session().groupcount > 0
    }

    /// Whether a NOTIFY was ever accepted: flag changes that it doesn't ask for are then dropped, and wait before.
    pub fn notified(&self) -> bool {
        self.memory.session().notified != 0
    }

    /// Whether there is room for another mailbox with so many messages.
    pub fn has_room(&self, messages: usize) -> bool {
        let (rows, entries) = self.memory.room();
        rows > 0 && messages <= entries
    }
}

/// Whether an account of this size can be handed over.
pub fn fits(mailboxes: usize, messages: usize) -> bool {
    mailboxes <= MAILBOXES && messages <= MESSAGES
}

#[cfg(test)]
impl Push {
    /// UIDNEXT and counter of a mailbox, and its messages' UIDs and counters.
    pub fn counters(&mut self, id: u16) -> (u32, u64, Vec<(u32, u64)>) {
        let lent = self.memory.lend();
        let row = lent.rows[lent.find_id(id).expect("a mailbox")];
        let entries = lent.words.chunks_exact(ENTRY);
        let used = entries.take(lent.counts.messages as usize);
        let own = used.filter(|entry| entry[0] == u64::from(id));
        let own = own.map(|entry| (entry[1] as u32, entry[5]));
        (row.uidnext, row.counter(), own.collect())
    }
}
