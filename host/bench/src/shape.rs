//! Lawful memory in many shapes. Rows and entries may stand in any order, and memory need not be what calls alone would make.

use crate::idents::{Ids, Names, COUNT};
use reference::memory::*;
use reference::names::Name;
use reference::random::Random;

pub const QUEUE: usize = QUEUE_MOST;

#[derive(Clone, Copy, PartialEq, Eq, Debug)]
pub enum Order {
    Rising,
    Falling,
    Shuffled,
    /// Rising, but the first stands last: what is quick about rising order fails at the end.
    FirstLast,
}

/// Which mailboxes the messages are in.
#[derive(Clone, Copy, PartialEq, Eq, Debug)]
pub enum Spread {
    Even,
    /// Half of them in the selected mailbox.
    Half,
    Selected,
    /// All in the first row.
    First,
}

/// Entries of the view.
#[derive(Clone, Copy, PartialEq, Eq, Debug)]
pub enum States {
    Still,
    Expunged,
    Marked,
    /// Expunged and marked by turns.
    Both,
}

/// How much of the selected mailbox the client knows.
#[derive(Clone, Copy, PartialEq, Eq, Debug)]
pub enum Told {
    All,
    Half,
    Nothing,
}

#[derive(Clone, Copy, PartialEq, Eq, Debug)]
pub enum Rights {
    Both,
    /// r is missing on every other mailbox.
    SomeRead,
    Neither,
}

/// UIDs, flags, sizes and counters.
#[derive(Clone, Copy, PartialEq, Eq, Debug)]
pub enum Numbers {
    Small,
    /// Ten digits, UIDs two apart, all flags; counters of nineteen.
    Large,
}

/// What the session waits for: before the first NOTIFY, after NONE, or so many groups with so many names.
#[derive(Clone, Copy, PartialEq, Eq, Debug)]
pub enum Asked {
    Fresh,
    Nothing,
    /// The first is `selected`, the last `personal`, those between have names that no mailbox has.
    Groups(usize, usize),
    /// The same with `selected-delayed`.
    Delayed(usize, usize),
}

#[derive(Clone, Copy, PartialEq, Eq, Debug)]
pub struct Shape {
    pub mailboxes: usize,
    pub messages: usize,
    /// Octets in the queue.
    pub held: usize,
    pub ids: Ids,
    pub names: Names,
    pub rows: Order,
    pub entries: Order,
    pub spread: Spread,
    pub states: States,
    pub told: Told,
    pub rights: Rights,
    pub numbers: Numbers,
    pub asked: Asked,
}

impl Shape {
    /// Full tables as calls leave them, a NOTIFY of four groups, an empty queue.
    pub const PLAIN: Shape = Shape {
        mailboxes: MAILBOXES,
        messages: MESSAGES,
        held: 0,
        ids: Ids::Drawn,
        names: Names::Short,
        rows: Order::Rising,
        entries: Order::Rising,
        spread: Spread::Even,
        states: States::Still,
        told: Told::All,
        rights: Rights::Both,
        numbers: Numbers::Small,
        asked: Asked::Groups(4, 4),
    };

    pub fn memory(&self) -> Memory {
        let mut memory = Memory::new(QUEUE, MAILBOXES, MESSAGES);
        self.put_rows(&mut memory);
        self.put_entries(&mut memory);
        self.put_view(&mut memory);
        self.ask(&mut memory.session);
        memory.queue[..self.held].fill(b'.');
        memory.filled = self.held;
        memory
    }

    fn put_rows(&self, memory: &mut Memory) {
        let ids = self.ids.make();
        let mut rows: Vec<Mailbox> = (0..self.mailboxes)
            .map(|number| self.row(number, ids[number]))
            .collect();
        rows.sort_unstable_by_key(|row| row.name.octets);
        arrange(&mut rows, self.rows);
        memory.mailbox_count = rows.len();
        memory.mailboxes[..rows.len()].copy_from_slice(&rows);
    }

    fn row(&self, number: usize, id: u16) -> Mailbox {
        let rights = match self.rights {
            Rights::SomeRead if number % 2 == 1 => LOOKUP,
            Rights::Neither => 0,
            _ => RIGHTS,
        };
        Mailbox {
            id,
            attributes: SELECTABLE | PERSONAL | DELIVERY | SUBSCRIBED | rights,
            uid_validity: u32::MAX - number as u32,
            uid_next: match self.numbers {
                Numbers::Small => 1,
                Numbers::Large => 4_000_000_000,
            },
            // a message's arrival raises it by one, and a record may raise it still
            counter: match self.numbers {
                Numbers::Small => 1,
                Numbers::Large => COUNTER_MOST - 1 - MESSAGES as u64,
            },
            name: self.names.make(number),
        }
    }

    /// A mailbox's UIDs rise in the order in which the entries are made.
    fn put_entries(&self, memory: &mut Memory) {
        let last = self.mailboxes - 1;
        let mut entries = Vec::with_capacity(self.messages);
        for number in 0..self.messages {
            let place = match self.spread {
                Spread::Half if number % 2 == 0 => last,
                Spread::Half => number / 2 % self.mailboxes,
                Spread::Even => number % self.mailboxes,
                Spread::Selected => last,
                Spread::First => 0,
            };
            let row = &mut memory.mailboxes[place];
            entries.push(self.entry(number, row));
        }
        arrange(&mut entries, self.entries);
        memory.message_count = entries.len();
        memory.messages[..entries.len()].copy_from_slice(&entries);
    }

    fn entry(&self, number: usize, row: &mut Mailbox) -> Message {
        let uid = row.uid_next;
        let (step, flags, size) = match self.numbers {
            Numbers::Small => (1, (number * 7) as u8 & FLAG_BITS, 100 * number as u32),
            Numbers::Large => (2, FLAG_BITS, u32::MAX - number as u32),
        };
        row.uid_next += step;
        row.counter += 1;
        Message {
            mailbox: row.id,
            uid,
            flags,
            size,
            state: 0,
            counter: row.counter,
        }
    }

    /// The last row is the selected mailbox: the farthest to look for.
    fn put_view(&self, memory: &mut Memory) {
        let row = memory.mailboxes[self.mailboxes - 1];
        let mut uids: Vec<u32> = memory.entries().iter().map(|entry| entry.uid).collect();
        uids.sort_unstable();
        let told = match self.told {
            Told::All => row.uid_next,
            Told::Half => uids.get(uids.len() / 2).map_or(0, |&uid| uid),
            Told::Nothing => 0,
        };
        memory.session.selected = row.id;
        memory.session.told = told.min(row.uid_next);
        let states = match self.states {
            States::Still => [0, 0],
            States::Expunged => [EXPUNGED, EXPUNGED],
            States::Marked => [MARKED, MARKED],
            States::Both => [EXPUNGED, MARKED],
        };
        let told = memory.session.told;
        let in_view = |entry: &&mut Message| entry.mailbox == row.id && entry.uid < told;
        let view = memory.entries_mut().iter_mut().filter(in_view);
        for (number, entry) in view.enumerate() {
            entry.state = states[number % 2];
        }
    }

    fn ask(&self, session: &mut Session) {
        let (first, groups, names) = match self.asked {
            Asked::Fresh => return,
            Asked::Nothing => return session.silence(),
            Asked::Groups(groups, names) => (IS_SELECTED, groups, names),
            Asked::Delayed(groups, names) => (IS_DELAYED, groups, names),
        };
        session.mode = SET;
        session.groups.count = groups as u8;
        session.groups.name_count = names as u8;
        for (place, name) in session.groups.name[..names].iter_mut().enumerate() {
            *name = self.absent(place);
        }
        let between = groups - 2;
        let mut next = 0;
        for (place, group) in session.groups.group[..groups].iter_mut().enumerate() {
            *group = match place {
                0 => about_selected(first),
                last if last == groups - 1 => about(IS_PERSONAL, 0, 0),
                place => {
                    let count = names / between + usize::from(place <= names % between);
                    next += count;
                    about(IS_SUBTREE, next - count, count)
                }
            };
        }
    }

    /// A name that no mailbox has, though all but its last octet is one's.
    fn absent(&self, number: usize) -> Name {
        let mut name = self.names.make(number);
        let last = usize::from(name.len) - 1;
        name.octets[last] = b'~';
        name
    }

    /// The name and the id that the table has no more room for.
    pub fn spare(&self) -> (u16, Name) {
        (self.ids.make()[COUNT - 1], self.names.make(COUNT - 1))
    }
}

fn about_selected(selector: u8) -> Group {
    Group {
        selector,
        events: MESSAGE_EVENTS,
        attributes: WITH_UID | WITH_FLAGS | WITH_SIZE,
        first_name: 0,
        name_count: 0,
    }
}

fn about(selector: u8, first: usize, count: usize) -> Group {
    Group {
        selector,
        events: MESSAGE_EVENTS | MAILBOX_EVENTS,
        attributes: 0,
        first_name: first as u8,
        name_count: count as u8,
    }
}

fn arrange<T>(things: &mut [T], order: Order) {
    match order {
        Order::Rising => {}
        Order::Falling => things.reverse(),
        Order::FirstLast => things.rotate_left(1),
        Order::Shuffled => {
            let mut random = Random::new(7);
            for place in (1..things.len()).rev() {
                things.swap(place, random.below(place + 1));
            }
        }
    }
}
