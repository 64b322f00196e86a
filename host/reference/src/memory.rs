//! What the host lends: two tables with their counts, a session, a queue. All fields are plain
//! numbers in the open, so that a test can damage any of them.

use crate::names::Name;

pub const MAILBOXES: usize = 64;
pub const MESSAGES: usize = 1024;
pub const QUEUE_LEAST: usize = 1024;
pub const QUEUE_MOST: usize = 65536;
/// Octets of the queue that ordinary lines leave free, so that an overflow can always be told.
pub const RESERVE: usize = 64;
pub const GROUPS: usize = 8;
pub const NAMES: usize = 16;
pub const UID_MOST: u32 = u32::MAX - 1;
pub const COUNTER_MOST: u64 = i64::MAX as u64;

pub const SELECTABLE: u8 = 1;
pub const PERSONAL: u8 = 2;
pub const DELIVERY: u8 = 4;
pub const SUBSCRIBED: u8 = 8;
pub const LOOKUP: u8 = 16;
pub const READ: u8 = 32;
pub const RIGHTS: u8 = LOOKUP | READ;

pub const FLAG_BITS: u8 = 0x1F;

/// States of an entry.
pub const EXPUNGED: u8 = 1;
pub const MARKED: u8 = 2;

/// Modes of a session: before the first NOTIFY, after NONE or an overflow, groups stand.
pub const FRESH: u8 = 0;
pub const NONE: u8 = 1;
pub const SET: u8 = 2;

/// Selectors; the last is for sources of a search alone.
pub const IS_SELECTED: u8 = 1;
pub const IS_DELAYED: u8 = 2;
pub const IS_PERSONAL: u8 = 3;
pub const IS_INBOXES: u8 = 4;
pub const IS_SUBSCRIBED: u8 = 5;
pub const IS_SUBTREE: u8 = 6;
pub const IS_MAILBOXES: u8 = 7;
pub const IS_LEVEL: u8 = 8;

/// Events.
pub const NEW: u8 = 1;
pub const EXPUNGE: u8 = 2;
pub const FLAGS: u8 = 4;
pub const MAILBOX_NAME: u8 = 8;
pub const SUBSCRIPTION: u8 = 16;
pub const MESSAGE_EVENTS: u8 = NEW | EXPUNGE | FLAGS;
pub const MAILBOX_EVENTS: u8 = MAILBOX_NAME | SUBSCRIPTION;

/// Fetch attributes.
pub const WITH_UID: u8 = 1;
pub const WITH_FLAGS: u8 = 2;
pub const WITH_SIZE: u8 = 4;

#[derive(Clone, Copy, Default, PartialEq, Eq, Debug)]
pub struct Mailbox {
    pub id: u16,
    pub attributes: u8,
    pub uid_validity: u32,
    pub uid_next: u32,
    /// That of the last change: a later one has a higher.
    pub counter: u64,
    pub name: Name,
}

impl Mailbox {
    /// Does it have all these attribute bits?
    pub fn has(&self, bits: u8) -> bool {
        self.attributes & bits == bits
    }
}

#[derive(Clone, Copy, Default, PartialEq, Eq, Debug)]
pub struct Message {
    pub mailbox: u16,
    pub uid: u32,
    pub flags: u8,
    pub size: u32,
    pub state: u8,
    /// That of its arrival or of its last flag change.
    pub counter: u64,
}

impl Message {
    pub fn is_expunged(&self) -> bool {
        self.state & EXPUNGED != 0
    }

    pub fn is_marked(&self) -> bool {
        self.state & MARKED != 0
    }
}

/// One group: who, what, with which attributes, and which of the names (none: 0 and 0).
#[derive(Clone, Copy, Default, PartialEq, Eq, Debug)]
pub struct Group {
    pub selector: u8,
    pub events: u8,
    pub attributes: u8,
    pub first_name: u8,
    pub name_count: u8,
}

/// The groups of a session, or the sources of a search.
#[derive(Clone, Copy, Default, PartialEq, Eq, Debug)]
pub struct Groups {
    pub count: u8,
    pub group: [Group; GROUPS],
    pub name_count: u8,
    pub name: [Name; NAMES],
}

impl Groups {
    pub fn used(&self) -> &[Group] {
        &self.group[..self.count as usize]
    }

    pub fn names_of(&self, group: &Group) -> &[Name] {
        let first = group.first_name as usize;
        &self.name[first..first + group.name_count as usize]
    }
}

#[derive(Clone, Copy, Default, PartialEq, Eq, Debug)]
pub struct Session {
    pub mode: u8,
    pub groups: Groups,
    pub selected: u16,
    /// The client's view: entries of the selected mailbox with a UID below this.
    pub told: u32,
}

impl Session {
    /// As NOTIFY NONE leaves it; the selection and the view stay.
    pub fn silence(&mut self) {
        self.mode = NONE;
        self.groups = Groups::default();
    }
}

#[derive(Clone, PartialEq, Eq, Debug)]
pub struct Memory {
    pub mailboxes: Vec<Mailbox>,
    pub mailbox_count: usize,
    pub messages: Vec<Message>,
    pub message_count: usize,
    pub session: Session,
    pub queue: Vec<u8>,
    pub filled: usize,
}

impl Memory {
    /// The empty start.
    pub fn new(queue: usize, mailboxes: usize, messages: usize) -> Memory {
        Memory {
            mailboxes: vec![Mailbox::default(); mailboxes],
            mailbox_count: 0,
            messages: vec![Message::default(); messages],
            message_count: 0,
            session: Session::default(),
            queue: vec![0; queue],
            filled: 0,
        }
    }

    pub fn rows(&self) -> &[Mailbox] {
        &self.mailboxes[..self.mailbox_count]
    }

    pub fn entries(&self) -> &[Message] {
        &self.messages[..self.message_count]
    }

    pub fn entries_mut(&mut self) -> &mut [Message] {
        &mut self.messages[..self.message_count]
    }

    /// What the queue holds.
    pub fn held(&self) -> &[u8] {
        &self.queue[..self.filled]
    }

    pub fn place_of(&self, id: u16) -> Option<usize> {
        self.rows().iter().position(|row| row.id == id)
    }

    pub fn mailbox(&self, id: u16) -> Option<&Mailbox> {
        self.rows().iter().find(|row| row.id == id)
    }

    pub fn holder_of(&self, name: &Name) -> Option<&Mailbox> {
        self.rows().iter().find(|row| row.name == *name)
    }

    pub fn message_at(&self, mailbox: u16, uid: u32) -> Option<usize> {
        self.entries()
            .iter()
            .position(|entry| entry.uid == uid && entry.mailbox == mailbox)
    }

    /// The selected mailbox, if there is one.
    pub fn selected(&self) -> Option<&Mailbox> {
        match self.session.selected {
            0 => None,
            id => self.mailbox(id),
        }
    }

    /// Entries of a mailbox, those expunged and waiting included.
    pub fn count_in(&self, mailbox: u16) -> u32 {
        self.entries()
            .iter()
            .filter(|entry| entry.mailbox == mailbox)
            .count() as u32
    }

    /// Octets that lines may still take.
    pub fn room(&self) -> usize {
        self.queue.len().saturating_sub(RESERVE + self.filled)
    }

    /// Puts octets at the queue's end; the caller has seen that they fit.
    pub fn append(&mut self, octets: &[u8]) {
        let end = self.filled + octets.len();
        self.queue[self.filled..end].copy_from_slice(octets);
        self.filled = end;
    }

    /// Frees a row: the later ones move up and the last is zeroed.
    pub fn free_row(&mut self, place: usize) {
        self.mailboxes
            .copy_within(place + 1..self.mailbox_count, place);
        self.mailbox_count -= 1;
        self.mailboxes[self.mailbox_count] = Mailbox::default();
    }

    /// Frees the entries that are not to be kept: the others close up, in order, and the rest is
    /// zeroed.
    pub fn keep_entries(&mut self, keep: impl Fn(&Message) -> bool) {
        let used = self.message_count;
        let Some(first) = self.entries().iter().position(|entry| !keep(entry)) else {
            return;
        };
        let mut next = first;
        for place in first..used {
            if keep(&self.messages[place]) {
                self.messages[next] = self.messages[place];
                next += 1;
            }
        }
        self.messages[next..used].fill(Message::default());
        self.message_count = next;
    }

    /// Frees one entry.
    pub fn free_entry(&mut self, place: usize) {
        self.messages
            .copy_within(place + 1..self.message_count, place);
        self.message_count -= 1;
        self.messages[self.message_count] = Message::default();
    }
}
